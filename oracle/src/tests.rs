//! Values that document 01 and readings of the source give, asked of the
//! published Rust itself.

mod counts;
mod echo_calls;
mod erl;
mod erle;
mod fullband;
mod signal;
mod subband;
mod trace;

use crate::audio_processing::aec3::signal_dependent_erle_estimator::{
    peek_section_boundaries, peek_section_sizes, peek_subband_map, peek_subband_maxima,
};
use crate::judge;
use crate::kinds::call::Call;
use crate::kinds::part::Part;
use crate::kinds::standing::Estimator;
use crate::lines::number;
use crate::program::Program;
use crate::record::{take_record, Record};
use crate::run::run;
use crate::scripts::{named, stored_sample, Script};

/// The lines of `replay` for a script that one closure fills.
fn lines(fill: impl Fn(&mut Script)) -> String {
    lines_of(Program::Replay, fill)
}

/// The lines of a program for a script that one closure fills.
fn lines_of(program: Program, fill: impl Fn(&mut Script)) -> String {
    let mut script = Script::default();
    fill(&mut script);
    let (lines, _) = run(program, &script.bytes);
    String::from_utf8(lines.as_bytes().to_vec()).unwrap()
}

/// What stands after a script's last call.
struct Standing {
    text: String,
}

impl Standing {
    /// After a start of a part and these calls, each so many times.
    fn after<P: Part>(start: &P::Start, calls: &[(u32, Call)]) -> Self {
        let text = lines_of(Program::ReplayParts, |script| {
            script.start::<P>(start);
            for (times, call) in calls {
                script.repeat::<P>(*times, call);
            }
        });
        Self { text }
    }

    /// After a start of an estimator of `replay` and these calls, each so many
    /// times.
    fn after_updates<E: Estimator>(start: &E::Start, calls: &[(usize, E::Call)]) -> Self {
        let text = lines(|script| {
            script.start::<E>(start);
            for (times, call) in calls {
                (0..*times).for_each(|_| script.update::<E>(call));
            }
        });
        Self { text }
    }

    /// The last answer of an estimator of this name.
    fn answer_of(&self, name: &str) -> String {
        self.fields(&format!("{name} ")).join(" ")
    }

    /// The fields of the last line that begins so.
    fn fields(&self, head: &str) -> Vec<&str> {
        let last = self.text.lines().rev().find_map(|l| l.strip_prefix(head));
        last.unwrap().split(' ').collect()
    }

    /// The fields of a channel's last line of a name.
    fn line(&self, name: &str, channel: usize) -> Vec<&str> {
        self.fields(&format!("{name} {channel} "))
    }

    /// The bits of a figure in a band of the first channel.
    fn band(&self, name: &str, band: usize) -> u32 {
        let fields = self.line(name, 0);
        assert_eq!(fields.len(), judge::BANDS);
        number(fields[band]).to_bits()
    }
}

/// How many records of a kind the scripts of a name hold.
fn records_of_kind(name: &str, kind: u16) -> usize {
    let mut records = 0;
    each_record(name, |_, record| records += (record.kind == kind) as usize);
    records
}

/// Hands over all records of a name's scripts, and whether it is a script's first;
/// each is whole and no script is large.
fn each_record(name: &str, mut see: impl FnMut(bool, &Record<'_>)) {
    for make in named(name).unwrap().scripts() {
        let script = make();
        assert!(script.bytes.len() < 50_000_000);
        let mut rest = &script.bytes[..];
        while let Ok(record) = take_record(&mut rest) {
            let size = record.body.len() + 6;
            see(rest.len() + size == script.bytes.len(), &record);
        }
        assert!(rest.is_empty());
    }
}

#[test]
fn log2_values() {
    for (pattern, answer) in [
        (0x3F80_0000, "3D6AB800"),
        (0x4080_0000, "4003AAE0"),
        (0x7F80_0000, "43000EAC"),
        (0x0000_0001, "C2FDE2A9"),
        (0x0000_0000, "refused 7"),
        (0x8000_0000, "refused 7"),
        (0x7FC0_0000, "refused 7"),
        (0xFFC0_0000, "refused 7"),
    ] {
        assert_eq!(lines(|s| s.log2(pattern)), format!("log2 {answer}\n"));
    }
}

#[test]
fn patterns_round_as_whole_numbers() {
    let log2 = |pattern: u32| lines(|s| s.log2(pattern));
    assert_eq!(log2(16_777_217), log2(16_777_216));
    assert_eq!(16_777_217_u32 as f32, 16_777_216.0);
    assert_eq!(16_777_219_u32 as f32, 16_777_220.0);
}

#[test]
fn ring_of_five() {
    for (place, offset, answer) in [
        (3, -5, "next 4 offset 3"),
        (0, -1, "next 1 offset 4"),
        (4, 5, "next 0 offset 4"),
        (3, 6, "next 4 offset refused 8"),
        (0, i32::MIN, "next 1 offset refused 8"),
        (5, 6, "next refused 9 offset refused 9"),
    ] {
        assert_eq!(
            lines(|s| s.ring(5, place, offset)),
            format!("ring {answer}\n")
        );
    }
}

#[test]
fn section_boundaries() {
    for (sections, length, headroom, answer) in [
        (3, 13, 0, "0 2 6 13"),
        (3, 2, 0, "refused 3"),
        (3, 5, 0, "0 1 2 5"),
        (4, 16, 0, "0 2 6 11 16"),
        (3, 13, 128, "2 4 8 13"),
        (1, 13, 128, "0 13"),
        (1, 1, 1_024, "0 1"),
    ] {
        let line = lines(|s| s.sections(sections, length, headroom));
        assert_eq!(line, format!("sections {answer}\n"));
    }
}

#[test]
fn boundaries_are_running_sums_of_the_sizes() {
    for (sections, length, blocks) in accepted_sections() {
        let mut sums = vec![blocks];
        for size in peek_section_sizes(blocks, length, sections) {
            sums.push(sums[sums.len() - 1] + size);
        }
        assert_eq!(peek_section_boundaries(blocks, length, sections), sums);
    }
}

/// Every accepted choice of two or more sections, filter length and headroom
/// blocks.
fn accepted_sections() -> Vec<(usize, usize, usize)> {
    let mut accepted = Vec::new();
    for sections in 2..=*judge::SECTIONS.end() {
        for length in judge::FILTER_LENGTH_BLOCKS {
            for blocks in 0..=judge::HEADROOM_SAMPLES.end() / judge::BLOCK_SAMPLES {
                if judge::sections(sections, length, blocks * judge::BLOCK_SAMPLES).is_ok() {
                    accepted.push((sections as usize, length as usize, blocks as usize));
                }
            }
        }
    }
    accepted
}

#[test]
fn bands_of_the_subbands() {
    let map = peek_subband_map();
    for (subband, bands) in [0..=7, 8..=15, 16..=23, 24..=31, 32..=47, 48..=64]
        .into_iter()
        .enumerate()
    {
        bands.for_each(|band| assert_eq!(map[band], subband));
    }
    assert_eq!(
        peek_subband_maxima(4.0, 1.5),
        [4.0, 4.0, 4.0, 4.0, 1.5, 1.5]
    );
}

#[test]
fn malformed_records_end_the_run() {
    assert_eq!(lines(|_| {}), "");
    assert_eq!(lines(|s| s.bytes.push(6)), "bad\n");
    let cut = lines(|s| {
        s.ring(5, 3, -5);
        s.log2(0x3F80_0000);
        s.bytes.pop();
    });
    assert_eq!(cut, "ring next 4 offset 3\nbad\n");
}

#[test]
fn the_samples_are_small() {
    for (program, script_bytes, line_bytes) in [
        (Program::Replay, 700_000, 750_000),
        (Program::ReplayParts, 350_000, 1_500_000),
        (Program::TracePrinter, 300_000, 20_000),
    ] {
        let script = stored_sample(program);
        assert!(script.bytes.len() <= script_bytes);
        let (lines, _) = run(program, &script.bytes);
        assert!(lines.as_bytes().len() <= line_bytes);
    }
}
