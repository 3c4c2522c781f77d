//! What the updates with an echo have in common, asked of either estimator.

use super::lines;
use crate::kinds::echo_call::Call;
use crate::kinds::standing::Estimator;
use crate::record::field_bytes;

/// Adds faults to a good call of two channels and two slots, one of each number,
/// from the last judged to the first; the first is a value that a closure spoils.
pub fn refused_in_order<const AVERAGES: usize>(
    mut call: Call<AVERAGES>,
    spoil: impl Fn(&mut Call<AVERAGES>),
    answer: impl Fn(&Call<AVERAGES>) -> String,
) {
    assert_eq!(answer(&call), "ok");
    spoil(&mut call);
    assert_eq!(answer(&call), "refused 6");
    call.response_blocks = vec![5, u32::MAX];
    assert_eq!(answer(&call), "refused 5");
    call.place = 2;
    assert_eq!(answer(&call), "refused 9");
    call.slots = 1;
    assert_eq!(answer(&call), "refused 4");
    call.renders = 0;
    assert_eq!(answer(&call), "refused 2");
    call.channels = 3;
    assert_eq!(answer(&call), "refused 21");
}

/// Says updates of empty lists, with so many fields before the response block
/// counts, for channel counts about the most for which counts are said.
pub fn at_most_sixteen_counts<E: Estimator>(start: &E::Start, fields: usize) {
    let last_line = |channels: u32, counts: usize| {
        let text = lines(|script| {
            let mut body = field_bytes(&[channels]);
            body.resize(4 * (fields + counts), 0);
            script.start::<E>(start);
            script.whole(E::UPDATE, &body);
        });
        let is_answer = |line: &&str| line.starts_with(E::NAME) || *line == "bad";
        let last = text.lines().rev().find(is_answer);
        last.unwrap().to_string()
    };
    for (channels, counts) in [(2, 2), (16, 16), (17, 16), (u32::MAX, 16)] {
        let refused = format!("{} refused 21", E::NAME);
        assert_eq!(last_line(channels, counts), refused);
        assert_eq!(last_line(channels, counts - 1), "bad");
    }
}
