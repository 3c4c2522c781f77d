//! Scripts with a damaged ERL update.

use super::refused::good_call;
use crate::kinds::erl::UPDATE;
use crate::record::Body;
use crate::scripts::damage::Lending;
use crate::scripts::random::Random;
use crate::scripts::Script;

pub fn scripts() -> Vec<Script> {
    let mut start = Script::default();
    start.erl_start(0);
    let update = Lending {
        start,
        kind: UPDATE,
        body: good_call(&mut Random::new(13), 1, 1, 1).body(),
        channels: 0,
        first_number: 2,
        numbers: &[1, 65, 65],
        fields_behind: 0,
        wrapping: &[
            &[u32::MAX - 2, 66, 65],
            &[u32::MAX - 258, 65, 130],
            &[1, 65 + (1 << 29), 65 + (1 << 29)],
            &[1, 65 + (1 << 30), 65 + (3 << 30)],
            &[1 + (1 << 31), 65 + (1 << 29), 65],
            &[1, 66 + (1 << 30), 64],
        ],
        other_numbers: &[
            &[5, 64, 65],
            &[129, 33, 65],
            &[521, 0, 0],
            &[1, 130, 0],
            &[1, 0, 130],
        ],
        next: Script::erl_reset,
    };
    update.damaged()
}
