//! Long traces, in which holds run out, the compensated figure falls to the
//! minimum, and resets of both kinds come in startup phases and behind them.

use super::random::Manner;
use super::{settled, Script, Settings};
use crate::kinds::erle::DelayChanged;
use crate::scripts::flags::Flags;
use crate::scripts::part::SETTINGS as LIMITS;
use crate::scripts::random::Random;
use crate::scripts::spectra::Power;
use crate::scripts::subband::stretches::Ratio;

/// The settings of a trace. The bands lie on both sides of the limit between
/// max_l and max_h, and at the ends.
pub fn settings(channels: u8, onset: bool, startup: u32) -> Settings {
    let choice = 8 * channels as usize + 4 * onset as usize + startup as usize;
    Settings {
        limits: [LIMITS[0], LIMITS[1], LIMITS[7]][choice % 3],
        channels,
        onset,
        startup,
        band: [0, 1, 20, 31, 32, 63, 64][choice % 7],
    }
}

pub fn trace(settings: &Settings) -> Script {
    let mut random = Random::new(70 + settings.band as u64);
    let mut script = settled(settings);
    for (blocks, flags) in [
        (3, Flags::All),
        (40, Flags::Any),
        (12, Flags::All),
        (120, Flags::None),
    ] {
        add_with_reset(&mut random, &mut script, settings, (blocks, flags), false);
    }
    for (blocks, flags) in [
        (1, Flags::All),
        (30, Flags::Some),
        (18, Flags::All),
        (280, Flags::None),
        (13, Flags::All),
    ] {
        add_with_reset(&mut random, &mut script, settings, (blocks, flags), true);
    }
    script
}

/// So many blocks, twice, with a reset between them.
fn add_with_reset(
    random: &mut Random,
    script: &mut Script,
    settings: &Settings,
    (blocks, flags): (u32, Flags),
    delay_changed: bool,
) {
    let manner = Manner {
        render: Power::Loud,
        ratio: Ratio::Middle,
        flags,
    };
    manner.add(random, script, settings.channels.into(), blocks);
    script.delay(DelayChanged(delay_changed));
    manner.add(random, script, settings.channels.into(), blocks);
}

/// The longer of the two traces that are stored to be printed: two channels learn,
/// rest until their compensated figure is down at the minimum, and learn again
/// after the delay changed.
pub fn shown() -> Script {
    let mut random = Random::new(81);
    let settings = settings(2, true, 2);
    let mut script = settled(&settings);
    let mut add = |script: &mut Script, blocks, flags| {
        let manner = Manner {
            render: Power::Loud,
            ratio: Ratio::Middle,
            flags,
        };
        manner.add(&mut random, script, settings.channels.into(), blocks);
    };
    add(&mut script, 30, Flags::All);
    add(&mut script, 170, Flags::None);
    script.delay(DelayChanged(true));
    add(&mut script, 24, Flags::Some);
    script
}

/// A trace whose block numbers come to have five digits.
pub fn many_blocks() -> Script {
    let mut random = Random::new(80);
    let settings = settings(1, true, 0);
    let mut script = settled(&settings);
    let manner = Manner {
        render: Power::Near,
        ratio: Ratio::Middle,
        flags: Flags::Any,
    };
    manner.add(&mut random, &mut script, 1, 10_050);
    script
}
