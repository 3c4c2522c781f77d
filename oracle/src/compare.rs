//! Compares the lines of the programs with those of the published Rust.

use crate::lines::fields;
use crate::program::Program;
use crate::run::Run;
use crate::scripts::random::Random;
use crate::scripts::{Name, NAMES};
use std::io::{self, Write};
use std::process::{Command, Output, Stdio};
use std::thread;

/// How many bytes of a record a difference shows.
const BYTES_SHOWN: usize = 1_024;

/// Compares every named script with its program, whose file is said, and prints
/// a line for each name, then the counts. Tells whether all were the same.
pub fn compare<'a>(file: impl Fn(Program) -> &'a str) -> bool {
    let mut failed = 0;
    for name in &NAMES {
        match compare_all(name, file(name.program)) {
            Ok(found) => println!("same {}: {found}", name.name),
            Err(difference) => {
                println!("failed {}: {difference}", name.name);
                failed += 1;
            }
        }
    }
    println!("{} passed, {failed} failed", NAMES.len() - failed);
    failed == 0
}

/// Compares the scripts of one name up to the first difference.
fn compare_all(name: &Name, file: &str) -> Result<String, String> {
    let scripts = name.scripts();
    let count = scripts.len();
    let mut records = 0;
    for (at, make) in scripts.into_iter().enumerate() {
        let compared = compare_one(name, &make().bytes, file);
        records += compared.map_err(|difference| {
            if count == 1 {
                difference
            } else {
                format!("{}\n{difference}", name.input(at + 1))
            }
        })?;
    }
    Ok(match count {
        1 => format!("{records} records"),
        many => format!("{many} {}s, {records} records", name.program.input()),
    })
}

/// Gives the number of records, or the first difference. A program that ends
/// with another status than 0 is not the same, whatever it printed.
fn compare_one(name: &Name, script: &[u8], file: &str) -> Result<usize, String> {
    let run = || Run::showing(name.program, name.state, script);
    let (lines, records) = run().finish();
    let words: &[&str] = if name.state { &["state"] } else { &[] };
    let done = run_program(file, words, script, name.pieces)
        .map_err(|error| format!("{file} does not run: {error}"))?;
    let record = |line| record_of_line(run(), line);
    if let Some(difference) = first_difference(lines.as_bytes(), &done.stdout, record) {
        Err(difference)
    } else if !done.status.success() {
        Err(format!("same lines, but {file}: {}", done.status))
    } else {
        Ok(records)
    }
}

/// Runs a program, with some words, on a script, which it gets at once or in pieces. Its input is written from a thread
/// of its own, as it may print before it has read everything, or end without
/// reading the rest; a failed write therefore counts for nothing.
fn run_program(file: &str, words: &[&str], script: &[u8], pieces: bool) -> io::Result<Output> {
    let mut child = Command::new(file)
        .args(words)
        .stdin(Stdio::piped())
        .stdout(Stdio::piped())
        .spawn()?;
    let mut input = child.stdin.take().expect("standard input is piped");
    thread::scope(|scope| {
        scope.spawn(move || {
            if pieces {
                write_pieces(&mut input, script).ok()
            } else {
                input.write_all(script).ok()
            }
        });
        child.wait_with_output()
    })
}

/// The sizes of pieces: of one script all have one size, or each has one of these, or any.
const PIECES: [usize; 5] = [1, 3, 7, 4_096, 65_536];

/// The greatest size of a piece whose size is left to chance.
const GREATEST_PIECE: u32 = 5_000;

/// Writes a script in pieces, each by a call of its own. The script's length chooses how their sizes go.
fn write_pieces(input: &mut impl Write, script: &[u8]) -> io::Result<()> {
    let mut random = Random::new(script.len() as u64);
    let way = random.below(PIECES.len() as u32 + 2) as usize;
    let mut rest = script;
    while !rest.is_empty() {
        let size = match PIECES.get(way) {
            Some(&size) => size,
            None if way == PIECES.len() => random.one_of(&PIECES),
            None => 1 + random.below(GREATEST_PIECE) as usize,
        };
        let (piece, behind) = rest.split_at(size.min(rest.len()));
        input.write_all(piece)?;
        rest = behind;
    }
    Ok(())
}

/// Words for the first line that differs, with the record of its number.
fn first_difference(
    expected: &[u8],
    printed: &[u8],
    record: impl Fn(usize) -> String,
) -> Option<String> {
    if expected == printed {
        return None;
    }
    let mut ours = expected.split_inclusive(|&byte| byte == b'\n');
    let mut theirs = printed.split_inclusive(|&byte| byte == b'\n');
    let mut number = 0;
    loop {
        number += 1;
        match (ours.next(), theirs.next()) {
            (None, None) => return None,
            (Some(wanted), Some(given)) if same_line(wanted, given) => (),
            (wanted, given) => {
                return Some(format!(
                    "line {number}\n  Rust:    {}\n  program: {}\n  {}",
                    shown_line(wanted),
                    shown_line(given),
                    record(number)
                ))
            }
        }
    }
}

/// The fields of a `full` line before the qualities: its name and two figures.
const BEFORE_THE_QUALITIES: usize = 3;

/// Whether two lines count as the same. The published clamp of a quality may
/// answer either zero where both signs meet, so in the qualities that it gives
/// zeros of two signs are equal, and nowhere else.
fn same_line(wanted: &[u8], given: &[u8]) -> bool {
    wanted == given || without_signs_of_zeros(wanted) == without_signs_of_zeros(given)
}

/// A line with plus zero for minus zero in the qualities, if it has some.
fn without_signs_of_zeros(line: &[u8]) -> String {
    let text = String::from_utf8_lossy(line);
    if !text.starts_with("full ") {
        return text.into_owned();
    }
    let plus = |(place, field): (usize, &str)| match place < BEFORE_THE_QUALITIES {
        true => field.to_string(),
        false => field.replace("80000000", "00000000"),
    };
    fields(text.split(' ').enumerate().map(plus))
}

fn shown_line(line: Option<&[u8]>) -> String {
    line.map_or("(none)".to_string(), |bytes| {
        format!("{:?}", String::from_utf8_lossy(bytes))
    })
}

/// The record that gives a line, found by running the script again.
fn record_of_line(mut run: Run<'_>, line: usize) -> String {
    let mut lines = run.header();
    let mut records = 0;
    while let Some(bytes) = run.step(&mut lines) {
        records += 1;
        if lines.count() >= line {
            return format!("record {records}: {}", shown_bytes(bytes));
        }
    }
    format!("after the last record, {records}")
}

fn shown_bytes(bytes: &[u8]) -> String {
    let shown = &bytes[..bytes.len().min(BYTES_SHOWN)];
    let mut text: String = shown.iter().map(|byte| format!("{byte:02X}")).collect();
    if shown.len() < bytes.len() {
        text += &format!(" and {} bytes more", bytes.len() - shown.len());
    }
    text
}

#[cfg(test)]
mod tests {
    use super::same_line;

    #[test]
    fn zeros_of_two_signs_are_equal_in_qualities_alone() {
        let lines: [&[u8]; 2] = [
            b"full 3D6ED000 3E331C00 00000000 absent 80000000\n",
            b"full 3D6ED000 3E331C00 80000000 absent 00000000\n",
        ];
        assert!(same_line(lines[0], lines[1]));
        for (one, other) in [
            ("full 00000000 0 0\n", "full 80000000 0 0\n"),
            ("full 0 00000000 0\n", "full 0 80000000 0\n"),
            ("full 0 0 00000000\n", "full 0 0 00000001\n"),
            ("full 0 0 00000000\n", "full 0 0 absent\n"),
            ("full 0 0 00000000\n", "full 0 0 80000000"),
            ("full 0 0 00000000\n", "full 0 0 80000000 0\n"),
            ("fullstate 0 0 0 00000000\n", "fullstate 0 0 0 80000000\n"),
            ("erl 0 0 00000000\n", "erl 0 0 80000000\n"),
        ] {
            assert!(!same_line(one.as_bytes(), other.as_bytes()));
        }
    }
}
