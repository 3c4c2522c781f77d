//! Random calls, in stretches of one manner each.

use super::calls::flat;
use super::echoes::{Echo, RESPONSES, RINGS};
use super::powers::{Average, Ratio, Render, AVERAGES, RATIOS};
use super::refused::FAULTS;
use super::targets::aimed_at_the_target;
use super::{draw_filter, draw_limits, start, Walk};
use crate::kinds::signal::{Call, Signal, Start};
use crate::scripts::faults::spoil;
use crate::scripts::flags::Flags;
use crate::scripts::random::Random;
use crate::scripts::spectra::{Power, Spectrum, POWERS};
use crate::scripts::Script;

const UPDATES: u32 = 1_500;

/// The longest stretch.
const LONGEST: u32 = 40;

pub fn script(seed: u64) -> Script {
    let mut random = Random::new(3_000 + seed);
    let mut start = draw_start(&mut random);
    let mut walk = Walk::started(&start);
    let mut updates = 0;
    while updates < UPDATES {
        let manner = Manner::draw(&mut random, &start);
        let calls = 1 + random.below(LONGEST);
        stretch(&mut random, &mut walk, &manner, calls);
        updates += calls;
        match random.below(24) {
            0..=2 => {
                start = draw_start(&mut random);
                walk.start(&start);
            }
            3 => refused_start(&mut random, &mut walk, &start),
            4 => walk.reset(),
            _ => (),
        }
    }
    walk.script
}

pub fn draw_start(random: &mut Random) -> Start {
    let channels = 1 + random.below(4) as usize;
    let limits = draw_limits(random);
    let onset = random.below(3) != 0;
    start(limits, onset, channels, draw_filter(random))
}

/// So many calls of a manner. The echo stays the same for a while; now and then a
/// call is spoilt, or a reset comes after it.
fn stretch(random: &mut Random, walk: &mut Walk, manner: &Manner, calls: u32) {
    let mut echo = None;
    for _ in 0..calls {
        let signal = walk.estimator.as_ref().expect("an accepted start");
        if random.below(6) == 0 {
            echo = None;
        }
        let standing = echo.get_or_insert_with(|| manner.echo(random, &signal.start));
        let mut call = manner.on_echo(random, signal, standing.clone());
        if random.below(48) == 0 {
            spoil(random, &mut call, &FAULTS);
        }
        walk.update(&call);
        if random.below(400) == 0 {
            walk.reset();
        }
    }
}

/// A start that is turned away, a call with none standing, and the start again.
fn refused_start(random: &mut Random, walk: &mut Walk, start: &Start) {
    let mut refused = *start;
    match random.below(5) {
        0 => refused.settings.channels = random.one_of(&[0, 5, u32::MAX]),
        1 => refused.settings.max_l = random.one_of(&[f32::NAN, 0.5]),
        2 => refused.sections = random.one_of(&[0, 9, u32::MAX]),
        3 => refused.length_blocks = random.one_of(&[0, 17, u32::MAX]),
        _ => refused.headroom_samples = random.one_of(&[1_025, 1 << 16, u32::MAX]),
    }
    walk.start(&refused);
    walk.update(&start.lesson(0, 2.0));
    walk.start(start);
}

/// How a stretch's calls are made.
#[derive(Clone, Copy)]
pub struct Manner {
    pub slots: usize,
    pub renders: usize,
    pub flags: Flags,
    pub ring: Echo,
    /// None: sums that lie about 0.9 of the total.
    pub responses: Option<Echo>,
    /// Whether channels may have fewer blocks than the filter.
    pub fewer: bool,
    pub render: Render,
    pub ratio: Ratio,
    pub average: Average,
}

/// Converged calls that learn.
pub const LOUD_MANNER: Manner = Manner {
    slots: 1,
    renders: 1,
    flags: Flags::All,
    ring: Echo::Near,
    responses: Some(Echo::OneBlock),
    fewer: true,
    render: Render::Powers(Power::Loud),
    ratio: Ratio::Middle,
    average: Average::Middle,
};

impl Manner {
    /// Small rings are drawn more often than large ones, which take much room.
    pub fn draw(random: &mut Random, start: &Start) -> Self {
        let least = start.least_ring();
        let most = random.one_of(&[least, 4, 8, 32]).max(least);
        Self {
            slots: least + random.below((most - least + 1) as u32) as usize,
            renders: 1 + random.below(2) as usize,
            flags: match random.below(8) {
                0 => Flags::None,
                1 => Flags::Any,
                2 => Flags::Some,
                _ => Flags::All,
            },
            ring: random.one_of(&RINGS),
            responses: match random.below(6) {
                0 if start.sections >= 2 => None,
                _ => Some(random.one_of(&RESPONSES)),
            },
            fewer: random.below(2) == 0,
            render: match random.below(6) {
                0 => Render::Powers(random.one_of(&POWERS)),
                1 => Render::Subbands,
                _ => Render::Powers(Power::Loud),
            },
            ratio: random.one_of(&RATIOS),
            average: random.one_of(&AVERAGES),
        }
    }

    /// A call of this manner for an estimator that has just started.
    pub fn call(&self, random: &mut Random, start: &Start) -> Call {
        let echo = self.echo(random, start);
        self.powers(random, start.channels(), None, echo)
    }

    /// Ring and responses, in a call of which nothing else counts.
    pub fn echo(&self, random: &mut Random, start: &Start) -> Call {
        let channels = start.channels();
        let call = flat(&vec![true; channels], [0.0; 3], 0.0);
        let Some(responses) = self.responses else {
            return aimed_at_the_target(random, start, call);
        };
        let blocks = |random: &mut Random| {
            let length = start.length_blocks;
            let count = match self.fewer {
                true => random.below(length + 1),
                false => length,
            };
            responses.draw(random, count as usize)
        };
        let answers: Vec<Vec<Spectrum>> = (0..channels).map(|_| blocks(random)).collect();
        let ring = self.ring.draw(random, self.slots * self.renders);
        call.on_ring(self.renders, 0, &ring).answering(&answers)
    }

    /// A call with this echo. Where the sums are aimed, the place is part of it.
    fn on_echo(&self, random: &mut Random, signal: &Signal, mut echo: Call) -> Call {
        if self.responses.is_some() {
            echo.place = random.below(echo.slots);
        }
        self.powers(random, echo.flags.len(), Some(signal), echo)
    }

    /// Flags and powers on this echo; some aim at what stands, if that is said.
    pub fn powers(
        &self,
        random: &mut Random,
        channels: usize,
        signal: Option<&Signal>,
        echo: Call,
    ) -> Call {
        let mut call = Call {
            flags: self.flags.draw(random, channels),
            render: self.render.draw(random).to_vec(),
            capture: Vec::new(),
            residual: Vec::new(),
            averages: Default::default(),
            ..echo
        };
        for channel in 0..channels {
            let (capture, residual) = self.ratio.draw(random, signal, channel);
            call.capture.extend(capture);
            call.residual.extend(residual);
            for averages in &mut call.averages {
                averages.extend(self.average.draw(random, signal, channel));
            }
        }
        call
    }
}
