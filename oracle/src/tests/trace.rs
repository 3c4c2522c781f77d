//! The listing of a trace, and what the traces are.

mod reached;

use crate::program::Program;
use crate::record::take_record;
use crate::run::run;
use crate::scripts::trace::{drafts, sample, stored};
use crate::scripts::{named, Script};
use crate::trace::records::{Settings, BLOCK, LENGTHS, RESET, SETTINGS};
use crate::trace::stream::list;

const HEADER: &str = "block channel plain compensated uncapped\n";

/// The numbers in the printer's order; 22 and 23 never meet.
const ORDER: [u32; 9] = [10, 11, 22, 23, 12, 13, 1, 2, 6];

fn listing(trace: &[u8]) -> String {
    let (lines, _) = run(Program::TracePrinter, trace);
    String::from_utf8(lines.as_bytes().to_vec()).unwrap()
}

/// The listing of a trace that is read piece by piece.
fn streamed(trace: &[u8]) -> String {
    let mut output = Vec::new();
    list(trace, &mut output).unwrap();
    String::from_utf8(output).unwrap()
}

/// The number and the record of the refusal that ends a listing, if one does.
fn refusal(listing: &str) -> Option<(u32, usize)> {
    let last = listing.lines().last()?.strip_prefix("refused ")?;
    let (number, record) = last.split_once(" at ").unwrap();
    Some((number.parse().unwrap(), record.parse().unwrap()))
}

fn records(script: &Script) -> usize {
    let mut rest = &script.bytes[..];
    let mut records = 0;
    while take_record(&mut rest).is_ok() {
        records += 1;
    }
    records
}

fn traces(name: &str) -> impl Iterator<Item = Script> {
    let makers = named(name).unwrap().scripts();
    makers.into_iter().map(|make| make())
}

#[test]
fn the_example_of_document_01() {
    let wanted = "\
block channel plain compensated uncapped
1 0 3F800000 3F800000 3F800000
2 0 3F800000 3F800000 3F800000
3 0 3F800000 3F800000 3F800000
4 0 3F800000 3F800000 3F800000
5 0 3F800000 3F800000 3F800000
6 0 3F8CCCCD 3F8CCCCD 3F8CCCCD
";
    assert_eq!(listing(&sample().bytes), wanted);
    assert_eq!(streamed(&sample().bytes), wanted);
}

#[test]
fn the_header_comes_first() {
    assert_eq!(streamed(&[]), HEADER);
    assert_eq!(streamed(&[21]), format!("{HEADER}refused 10 at 1\n"));
}

/// A cut at the end of a record is clean; another is 10, behind the lines of all
/// records before it.
#[test]
fn cuts_of_the_example() {
    let whole = listing(&sample().bytes);
    let (settings, block) = (25, 787);
    for (trace, end) in traces("trace_cuts").zip(1..) {
        let blocks = usize::saturating_sub(end, settings) / block;
        let mut wanted: String = whole.split_inclusive('\n').take(1 + blocks).collect();
        if end < settings {
            wanted += "refused 10 at 1\n";
        } else if (end - settings) % block != 0 {
            wanted += &format!("refused 10 at {}\n", blocks + 2);
        }
        assert_eq!(listing(&trace.bytes), wanted, "{end}");
    }
}

/// Of several faults the first in the printer's order counts, and nothing behind
/// the bad record is listed; behind a good one a block is.
#[test]
fn faults_are_judged_in_order() {
    let mut several = 0;
    for draft in drafts() {
        let first = ORDER.into_iter().find(|n| draft.numbers.contains(n));
        let wanted = first.map(|number| (number, records(&draft.before) + 1));
        let listed = listing(&draft.trace().bytes);
        assert_eq!(refusal(&listed), wanted, "{:?}", draft.numbers);
        match wanted {
            Some(_) => assert_eq!(listed.lines().count(), 2),
            None => assert!(listed.lines().count() > 1),
        }
        several += (draft.numbers.len() > 1) as usize;
    }
    assert!(several > 1_000);
}

/// Each two numbers of one kind of record meet, whichever comes first.
#[test]
fn each_two_faults_meet() {
    let pairs: Vec<Vec<u32>> = drafts().into_iter().map(|draft| draft.numbers).collect();
    for numbers in [
        &[10, 11, 23, 12, 13, 1, 2][..],
        &[10, 11, 22, 12, 13, 6],
        &[10, 11, 22, 12, 13],
    ] {
        for (at, first) in numbers.iter().enumerate() {
            assert!(pairs.contains(&vec![*first]));
            for second in &numbers[at + 1..] {
                assert!(pairs.contains(&vec![*second, *first]));
            }
        }
    }
}

/// Records that lie across two pieces, cut or not, and a length out of range where
/// there is much behind it.
#[test]
fn pieces_are_put_together() {
    let mut trace = Vec::new();
    crate::scripts::trace::big::write(3, 2, &mut trace).unwrap();
    assert_eq!(streamed(&trace), listing(&trace));
    for end in (1_000_000..1_100_000).step_by(9_973) {
        assert_eq!(streamed(&trace[..end]), listing(&trace[..end]));
    }
    for name in ["trace_damaged", "trace_random"] {
        for script in traces(name).step_by(7) {
            assert_eq!(streamed(&script.bytes), listing(&script.bytes));
        }
    }
    let mut large = sample().bytes;
    large.extend((LENGTHS.end() + 1).to_le_bytes());
    large.resize(2_000_000, 0);
    assert!(streamed(&large).ends_with("refused 10 at 8\n"));
}

#[test]
fn the_stored_traces_are_small() {
    let (input, lines) = stored::packed();
    assert!(input.len() + lines.len() < 800_000);
    let traces = stored::traces();
    assert!(traces.iter().all(|trace| trace.bytes.len() <= 65_536));
    let refused = traces.iter().filter_map(|t| refusal(&listing(&t.bytes)));
    let numbers: Vec<u32> = refused.map(|(number, _)| number).collect();
    assert!(ORDER.iter().all(|number| numbers.contains(number)));
}
