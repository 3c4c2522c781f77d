//! The lines that a run prints.

use crate::judge::Refusal;
use std::fmt;
use std::io::Write;

/// A binary32 number as eight capital hexadecimal digits.
pub struct Hex(pub f32);

impl fmt::Display for Hex {
    fn fmt(&self, f: &mut fmt::Formatter<'_>) -> fmt::Result {
        let digits = hex_digits(self.0);
        f.write_str(std::str::from_utf8(&digits).expect("digits are text"))
    }
}

/// The binary32 number of such digits.
pub fn number(hex: &str) -> f32 {
    f32::from_bits(u32::from_str_radix(hex, 16).expect("eight digits"))
}

/// A binary32 number, or `absent`.
pub struct Optional(pub Option<f32>);

impl fmt::Display for Optional {
    fn fmt(&self, f: &mut fmt::Formatter<'_>) -> fmt::Result {
        match self.0 {
            Some(number) => Hex(number).fmt(f),
            None => f.write_str("absent"),
        }
    }
}

/// An accepted call's figure, or `refused N` in its place.
pub struct Answer<T>(pub Result<T, Refusal>);

impl<T: fmt::Display> fmt::Display for Answer<T> {
    fn fmt(&self, f: &mut fmt::Formatter<'_>) -> fmt::Result {
        match &self.0 {
            Ok(figure) => figure.fmt(f),
            Err(refusal) => refusal.fmt(f),
        }
    }
}

/// Fields parted by one space.
pub fn fields<T: ToString>(values: impl IntoIterator<Item = T>) -> String {
    let texts: Vec<String> = values.into_iter().map(|v| v.to_string()).collect();
    texts.join(" ")
}

/// The lines printed so far, each ended by a line feed.
#[derive(Default)]
pub struct Lines {
    text: Vec<u8>,
    count: usize,
}

impl Lines {
    pub fn push(&mut self, line: fmt::Arguments<'_>) {
        self.head(line);
        self.end();
    }

    /// A line of a head and binary32 numbers. Most of what is printed are such
    /// numbers, so they do not go through the formatter.
    pub fn push_hex(&mut self, head: fmt::Arguments<'_>, values: &[f32]) {
        self.head(head);
        for &value in values {
            self.text.push(b' ');
            self.text.extend(hex_digits(value));
        }
        self.end();
    }

    /// A line of a head and one field of digits, 1 for a flag that is set.
    pub fn push_flags(&mut self, head: fmt::Arguments<'_>, flags: &[bool]) {
        self.head(head);
        self.text.push(b' ');
        self.text
            .extend(flags.iter().map(|&flag| b'0' + flag as u8));
        self.end();
    }

    /// Forgets the lines, which have been written.
    pub fn clear(&mut self) {
        self.text.clear();
    }

    pub fn count(&self) -> usize {
        self.count
    }

    pub fn as_bytes(&self) -> &[u8] {
        &self.text
    }

    fn head(&mut self, head: fmt::Arguments<'_>) {
        let written = self.text.write_fmt(head);
        written.expect("text in memory takes every line");
    }

    fn end(&mut self) {
        self.text.push(b'\n');
        self.count += 1;
    }
}

fn hex_digits(value: f32) -> [u8; 8] {
    let bits = value.to_bits();
    std::array::from_fn(|place| {
        let digit = (bits >> (28 - 4 * place) & 15) as u8;
        digit + if digit < 10 { b'0' } else { b'A' - 10 }
    })
}
