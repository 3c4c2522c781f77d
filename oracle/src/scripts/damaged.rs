//! Small scripts of bad input for the program of leaves and ERL.

use super::damage::Records;
use super::{erl, Script};
use crate::kinds::erl::{RESET, START};
use crate::kinds::leaves::{LOG2, RING, SECTIONS};

pub fn scripts() -> Vec<Script> {
    let records = Records {
        good: good(),
        bodies: vec![
            (LOG2, vec![1; 4]),
            (RING, vec![1; 12]),
            (SECTIONS, vec![1; 12]),
            (START, vec![1; 4]),
            (RESET, vec![]),
        ],
        unknown_kinds: &[
            0x0000, 0x0001, 0x0002, 0x0003, 0x0100, 0x0104, 0x010F, 0x0113, 0x0201, 0x0301, 0x1101,
            0x8101, 0xFFFF,
        ],
        next: |script| script.log2(0x3F80_0000),
    };
    let mut all = records.damaged();
    all.extend(erl::damaged::scripts());
    all
}

/// A few good records of each kind.
fn good() -> Script {
    let mut script = Script::default();
    script.log2(0x3F80_0000);
    script.ring(5, 3, -5);
    script.sections(3, 13, 0);
    script.log2(0xFFC0_0000);
    script.ring(5, 3, 6);
    script.sections(3, 2, 0);
    script.log2(0x4080_0000);
    script.ring(32, 31, 32);
    script.sections(1, 13, 128);
    script
}
