//! Lists a trace while it is read, in large pieces.

use super::listing::{header, Listing};
use super::records::LENGTHS;
use crate::lines::Lines;
use std::io::{self, Read, Write};

/// The bytes of the longest record, with those of its length.
const LONGEST: usize = 4 + *LENGTHS.end() as usize;

/// How many bytes are read at a time.
const PIECE: usize = 8 * LONGEST;

/// Reads a trace and writes its listing.
pub fn list(mut input: impl Read, mut output: impl Write) -> io::Result<()> {
    let mut listing = Listing::default();
    let mut lines = header();
    let mut held = Vec::with_capacity(PIECE + LONGEST);
    let mut more = true;
    while more {
        let read = input.by_ref().take(PIECE as u64).read_to_end(&mut held)?;
        let mut rest = &held[..];
        more = list_piece(&mut listing, &mut rest, read < PIECE, &mut lines);
        output.write_all(lines.as_bytes())?;
        lines.clear();
        held.drain(..held.len() - rest.len());
    }
    output.flush()
}

/// Lists records off the front as long as the next one is there, whatever its
/// length; at the input's end all that is left. Tells whether there may be more.
fn list_piece(listing: &mut Listing, rest: &mut &[u8], at_end: bool, lines: &mut Lines) -> bool {
    while rest.len() >= LONGEST || (at_end && !rest.is_empty()) {
        if listing.step(rest, lines).is_err() {
            return false;
        }
    }
    !at_end
}
