//! The calls that document 01 turns away, by its numbers and in its order. The
//! published Rust asserts or answers anything there, so it is not asked.

use crate::kinds::call::Call;
use crate::kinds::part::Settings;
use crate::kinds::{echo_call, erl, signal};
use std::fmt;
use std::ops::RangeInclusive;

pub const CAPTURE_CHANNELS: RangeInclusive<u32> = 1..=4;
pub const RENDER_CHANNELS: RangeInclusive<u32> = 1..=2;
pub const RING_SLOTS: RangeInclusive<u32> = 1..=32;
pub const SECTIONS: RangeInclusive<u32> = 1..=8;
pub const FILTER_LENGTH_BLOCKS: RangeInclusive<u32> = 1..=16;
pub const HEADROOM_SAMPLES: RangeInclusive<u32> = 0..=1_024;

/// The samples of one block.
pub const BLOCK_SAMPLES: u32 = 64;

/// The bands of a spectrum.
pub const BANDS: usize = 65;

/// The greatest value of a spectrum, 2^100.
pub const GREATEST_VALUE: f32 = f32::from_bits(0x7180_0000);

/// The greatest maximum of an ERLE figure; the least minimum is 1.
pub const GREATEST_ERLE: f32 = 100_000.0;

/// The number under which a call is turned away.
#[derive(Debug, Clone, Copy, PartialEq, Eq)]
pub struct Refusal(pub u32);

impl fmt::Display for Refusal {
    fn fmt(&self, f: &mut fmt::Formatter<'_>) -> fmt::Result {
        write!(f, "refused {}", self.0)
    }
}

pub type Judged = Result<(), Refusal>;

pub fn refuse_if(fault: bool, number: u32) -> Judged {
    if fault {
        Err(Refusal(number))
    } else {
        Ok(())
    }
}

/// 7: log2 of NaN, zero or less.
pub fn log2(x: f32) -> Judged {
    refuse_if(x.is_nan() || x <= 0.0, 7)
}

/// 4: ring slots out of range. 9: a ring place not below the slots.
pub fn ring_place(slots: u32, place: u32) -> Judged {
    refuse_if(!RING_SLOTS.contains(&slots), 4)?;
    refuse_if(place >= slots, 9)
}

/// As for a place, and then 8: an offset larger in size than the ring.
pub fn ring_offset(slots: u32, place: u32, offset: i32) -> Judged {
    ring_place(slots, place)?;
    refuse_if(offset.unsigned_abs() > slots, 8)
}

/// 3: sections, filter length or headroom outside its range; or two or more
/// sections, and more than the filter length less headroom blocks.
pub fn sections(sections: u32, length_blocks: u32, headroom_samples: u32) -> Judged {
    let in_range = SECTIONS.contains(&sections)
        && FILTER_LENGTH_BLOCKS.contains(&length_blocks)
        && HEADROOM_SAMPLES.contains(&headroom_samples);
    refuse_if(!in_range, 3)?;
    let headroom_blocks = headroom_samples / BLOCK_SAMPLES;
    refuse_if(
        sections >= 2 && sections + headroom_blocks > length_blocks,
        3,
    )
}

/// 2: a channel count out of range. 5: flags, renders or captures not as many
/// as the counts ask. 6: a value out of range, in a converged channel or not.
pub fn erl_update(call: &erl::Call) -> Judged {
    let in_range =
        CAPTURE_CHANNELS.contains(&call.captures) && RENDER_CHANNELS.contains(&call.renders);
    refuse_if(!in_range, 2)?;
    let (captures, renders) = (call.captures as usize, call.renders as usize);
    let asked = call.flags.len() == captures
        && call.render.len() == BANDS * renders
        && call.capture.len() == BANDS * captures;
    refuse_if(!asked, 5)?;
    refuse_if(
        !in_value_range(&call.render) || !in_value_range(&call.capture),
        6,
    )
}

/// 1: not 1 <= min <= max_l, max_h <= 100,000. 2: a channel count out of range.
pub fn erle_start([min, max_l, max_h]: [f32; 3], channels: u32) -> Judged {
    let in_order = min >= 1.0
        && [max_l, max_h]
            .iter()
            .all(|max| (min..=GREATEST_ERLE).contains(max));
    refuse_if(!in_order, 1)?;
    refuse_if(!CAPTURE_CHANNELS.contains(&channels), 2)
}

/// 21: a channel count that is not the state's. 5: flags, renders, captures or
/// residuals not as many as the count asks. 6: a value out of range, in a
/// converged channel or not.
pub fn erle_update(call: &Call, channels: usize) -> Judged {
    refuse_if(call.channels as usize != channels, 21)?;
    let asked = call.flags.len() == channels
        && call.render.len() == BANDS
        && call.capture.len() == BANDS * channels
        && call.residual.len() == BANDS * channels;
    refuse_if(!asked, 5)?;
    let lists = [&call.render, &call.capture, &call.residual];
    refuse_if(!lists.iter().all(|list| in_value_range(list)), 6)
}

/// As for every start of an ERLE estimator, and then 3.
pub fn signal_start(start: &signal::Start) -> Judged {
    let settings = &start.settings;
    erle_start(settings.limits(), settings.channels)?;
    sections(start.sections, start.length_blocks, start.headroom_samples)
}

/// 21: a channel count that is not the state's. 2: render channels out of range.
/// 4: ring slots out of range, or headroom blocks above the slots. 9: a read
/// place not below the slots. 5: a list of another length than the counts ask, or
/// response blocks above the filter length. 6: a value out of range, read or not.
pub fn signal_update<const N: usize>(call: &echo_call::Call<N>, start: &signal::Start) -> Judged {
    refuse_if(call.channels != start.settings.channels, 21)?;
    refuse_if(!RENDER_CHANNELS.contains(&call.renders), 2)?;
    refuse_if(start.headroom_samples / BLOCK_SAMPLES > call.slots, 4)?;
    ring_place(call.slots, call.place)?;
    refuse_if(!signal_lists_asked(call, start.length_blocks), 5)?;
    refuse_if(!call.lists().into_iter().all(in_value_range), 6)
}

/// Whether the lists have the lengths that the counts ask, which are in range
/// but for those of response blocks.
fn signal_lists_asked<const N: usize>(call: &echo_call::Call<N>, length_blocks: u32) -> bool {
    let channels = call.channels as usize;
    let counts = &call.response_blocks;
    counts.iter().all(|&count| count <= length_blocks)
        && call.flags.len() == channels
        && call.render.len() == BANDS
        && call
            .lists_of_channels()
            .iter()
            .all(|list| list.len() == BANDS * channels)
        && call.ring.len() == BANDS * call.slots as usize * call.renders as usize
        && call.responses.len() == BANDS * counts.iter().sum::<u32>() as usize
}

/// Each value is a number from 0, of either sign, to 2^100. All are looked at, as
/// nearly all calls are good and this is the faster way then.
fn in_value_range(values: &[f32]) -> bool {
    let in_range = |v: &f32| (0.0..=GREATEST_VALUE).contains(v);
    values.iter().fold(true, |all, v| all & in_range(v))
}
