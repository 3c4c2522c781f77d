//! Ways to damage a script. All but the cut scripts go on with a good record, so
//! that a reader that does not stop is noticed.

use super::random::Random;
use super::Script;
use crate::kinds::standing::Estimator;
use crate::record::{field_bytes, Body, MAX_LENGTH};
use std::ops::Range;

/// The bytes before a body: the length and the kind.
const FRAME: usize = 6;

/// Adds a good record.
pub type Next = fn(&mut Script);

/// Good records of a program, whose framing is damaged.
pub struct Records {
    /// A few good records, short ones.
    pub good: Script,
    /// Each kind whose bodies have one length, with a body that is whole.
    pub bodies: Vec<(u16, Vec<u8>)>,
    pub unknown_kinds: &'static [u16],
    pub next: Next,
}

impl Records {
    pub fn damaged(&self) -> Vec<Script> {
        let mut all = vec![Script::default()];
        all.extend((1..=self.good.bytes.len()).map(|end| self.good.cut(end)));
        all.extend(self.changed());
        all.extend(self.unknown_kinds());
        all.extend(self.short_and_long());
        all.extend(self.huge_lengths());
        all.extend(self.shifted());
        all
    }

    /// The good records with one byte changed, each in its turn.
    fn changed(&self) -> Vec<Script> {
        let mut random = Random::new(2);
        let places = 0..self.good.bytes.len();
        places
            .map(|at| self.good.changed(at, &mut random))
            .collect()
    }

    fn unknown_kinds(&self) -> Vec<Script> {
        let mut scripts = Vec::new();
        for &kind in self.unknown_kinds {
            for length in [0, 4, 12] {
                scripts.push(self.between(2 + length, kind, &vec![0; length as usize]));
            }
        }
        scripts
    }

    /// Every length up to a few bytes above its kind's but the right one, with
    /// as many bytes behind it.
    fn short_and_long(&self) -> Vec<Script> {
        let mut scripts = Vec::new();
        for (kind, body) in &self.bodies {
            let right = 2 + body.len();
            for length in (0..right + 8).filter(|&length| length != right) {
                let mut content = [&kind.to_le_bytes()[..], body].concat();
                content.resize(length, 1);
                let mut script = self.good.clone();
                script.bytes.extend((length as u32).to_le_bytes());
                script.bytes.extend(content);
                (self.next)(&mut script);
                scripts.push(script);
            }
        }
        scripts
    }

    /// Lengths about the greatest that is read, of as many bytes; and lengths
    /// far above what follows, about those where 32-bit sums wrap round.
    fn huge_lengths(&self) -> Vec<Script> {
        let mut scripts = Vec::new();
        for (kind, body) in &self.bodies {
            for length in [65_532, 65_533, MAX_LENGTH - 1, MAX_LENGTH, MAX_LENGTH + 1] {
                let mut long = body.clone();
                long.resize(length as usize - 2, 1);
                scripts.push(self.between(length, *kind, &long));
                scripts.push(self.between(length, *kind, body));
            }
            for length in [1 << 31, (1 << 31) + 6, u32::MAX - 5, u32::MAX - 3, u32::MAX] {
                scripts.push(self.between(length, *kind, body));
            }
            let low_bytes_right = (1 << 24) + 2 + body.len() as u32;
            scripts.push(self.between(low_bytes_right, *kind, body));
        }
        scripts
    }

    /// The right length before a body one byte shorter or longer, so that the
    /// next record is read from the wrong place.
    fn shifted(&self) -> Vec<Script> {
        let mut scripts = Vec::new();
        for (kind, body) in &self.bodies {
            let right = body.len();
            for size in (right.saturating_sub(1)..=right + 1).filter(|&size| size != right) {
                let mut other = body.clone();
                other.resize(size, 1);
                scripts.push(self.between(2 + right as u32, *kind, &other));
            }
        }
        scripts
    }

    /// Switches above 1 in starts of these fields, at these places among them.
    pub fn other_switches(
        &self,
        kind: u16,
        places: Range<usize>,
        starts: &[Vec<u32>],
    ) -> Vec<Script> {
        let mut scripts = Vec::new();
        for place in places {
            for switch in [2, 3, 256, 1 << 16, 1 << 24, 1 << 31, u32::MAX] {
                for start in starts {
                    let mut fields = start.clone();
                    fields[place] = switch;
                    let mut script = self.good.clone();
                    script.record(kind, &fields);
                    (self.next)(&mut script);
                    scripts.push(script);
                }
            }
        }
        scripts
    }

    /// A record with the length as said, between good ones.
    fn between(&self, length: u32, kind: u16, body: &[u8]) -> Script {
        let mut script = self.good.clone();
        script.framed(length, kind, body);
        (self.next)(&mut script);
        script
    }
}

/// Updates of as many flags as the greatest length has room for, one less and
/// one more.
pub fn longest_records<E: Estimator>(
    start: &E::Start,
    with_flags: impl Fn(usize) -> E::Call,
) -> Vec<Script> {
    let room = MAX_LENGTH as usize - 2 - with_flags(0).body().len();
    let script = |flags: usize| {
        let mut script = Script::default();
        script.start::<E>(start);
        script.update::<E>(&with_flags(flags));
        script.reset::<E>();
        script
    };
    [room - 1, room, room + 1].map(script).into()
}

/// A record that lends lists, which is damaged.
pub struct Lending {
    /// The record before it, which starts an estimator.
    pub start: Script,
    pub kind: u16,
    /// A good body: fields, some of which say how many entries the lists have,
    /// then one flag and the other lists.
    pub body: Vec<u8>,
    /// The place, among the fields, of a channel count.
    pub channels: usize,
    /// The place of the first number of entries, and the numbers.
    pub first_number: usize,
    pub numbers: &'static [u32],
    /// How many fields stand between these and the flag.
    pub fields_behind: usize,
    /// Numbers of entries that are right only as a sum that wraps round.
    pub wrapping: &'static [&'static [u32]],
    /// Other numbers of entries of the same size together.
    pub other_numbers: &'static [&'static [u32]],
    pub next: Next,
}

impl Lending {
    pub fn damaged(&self) -> Vec<Script> {
        let mut all = self.cut();
        all.extend(self.changed());
        all.extend(self.wrong_numbers());
        all.extend(self.wrapping_numbers());
        all.extend(self.other_flag_bytes());
        all.extend(self.wrong_lengths());
        all.extend(self.lists_of_other_lengths());
        all
    }

    /// The place of the first flag in the body.
    fn first_flag(&self) -> usize {
        4 * (self.first_number + self.numbers.len() + self.fields_behind)
    }

    /// The start and the record with this body and a length as said, and then
    /// the next.
    fn framed(&self, length: usize, body: &[u8]) -> Script {
        let mut script = self.start.clone();
        script.framed(length as u32, self.kind, body);
        (self.next)(&mut script);
        script
    }

    pub fn with_body(&self, body: &[u8]) -> Script {
        self.framed(2 + body.len(), body)
    }

    /// The good body with other fields from a place on.
    pub fn with_fields(&self, place: usize, fields: &[u32]) -> Vec<u8> {
        let mut body = self.body.clone();
        for (at, field) in fields.iter().enumerate() {
            body[4 * (place + at)..][..4].copy_from_slice(&field.to_le_bytes());
        }
        body
    }

    /// Cut before each byte of the start, of the record's head and of its first
    /// float, and then before every 37th byte.
    fn cut(&self) -> Vec<Script> {
        let script = self.with_body(&self.body);
        let size = script.bytes.len();
        let head = self.start.bytes.len() + FRAME + self.first_flag() + 6;
        let ends = (1..head).chain((head..size).step_by(37));
        let ends = ends.chain(size - 8..=size);
        ends.map(|end| script.cut(end)).collect()
    }

    /// One byte changed, of the frame, the fields, the flag or the first float.
    fn changed(&self) -> Vec<Script> {
        let good = self.with_body(&self.body);
        let mut random = Random::new(14);
        let from = self.start.bytes.len();
        (from..from + FRAME + self.first_flag() + 5)
            .map(|at| good.changed(at, &mut random))
            .collect()
    }

    /// Each number of entries changed; some wrap round to the right size where
    /// sizes are counted in 32 bits.
    fn wrong_numbers(&self) -> Vec<Script> {
        let mut scripts = Vec::new();
        for (at, &right) in self.numbers.iter().enumerate() {
            for wrong in [
                right - 1,
                right + 1,
                right + (1 << 30),
                right + (1 << 31),
                right + (3 << 30),
                1 << 30,
                1 << 31,
                u32::MAX - 1,
                u32::MAX,
            ] {
                let body = self.with_fields(self.first_number + at, &[wrong]);
                scripts.push(self.with_body(&body));
            }
        }
        scripts
    }

    fn wrapping_numbers(&self) -> Vec<Script> {
        let bodies = self.wrapping.iter();
        let bodies = bodies.map(|numbers| self.with_fields(self.first_number, numbers));
        bodies.map(|body| self.with_body(&body)).collect()
    }

    /// A flag byte above 1, also in calls that would be turned away, and with no
    /// estimator.
    fn other_flag_bytes(&self) -> Vec<Script> {
        let mut scripts = Vec::new();
        for byte in [2, 3, 127, 128, 255] {
            let mut body = self.body.clone();
            body[self.first_flag()] = byte;
            scripts.push(self.with_body(&body));
            let mut refused = self.with_fields(self.channels, &[9]);
            refused[self.first_flag()] = byte;
            scripts.push(self.with_body(&refused));
            let mut script = Script::default();
            script.framed(2 + refused.len() as u32, self.kind, &refused);
            (self.next)(&mut script);
            scripts.push(script);
        }
        scripts
    }

    /// The length off by one, with the body as it was and with a body as long as
    /// the length says; and bodies that end within the fields.
    fn wrong_lengths(&self) -> Vec<Script> {
        let right = self.body.len();
        let mut scripts = Vec::new();
        for size in [right - 1, right + 1] {
            let mut fitted = self.body.clone();
            fitted.resize(size, 0);
            scripts.push(self.with_body(&fitted));
            scripts.push(self.framed(2 + size, &self.body));
            scripts.push(self.framed(2 + right, &fitted));
        }
        for size in 0..self.first_flag() {
            scripts.push(self.with_body(&vec![0; size]));
        }
        scripts
    }

    /// Bodies that are too short or too long, where none stands.
    pub fn wrong_lengths_with_none_standing(&self) -> Vec<Script> {
        let right = self.body.len();
        let script = |size: usize| {
            let mut body = self.body.clone();
            body.resize(size, 0);
            let mut script = Script::default();
            script.whole(self.kind, &body);
            (self.next)(&mut script);
            script
        };
        let sizes = [0, 19, 20, 24, right - 4, right - 1, right, right + 1];
        sizes.into_iter().map(script).collect()
    }

    /// Bodies that are whole, but with lists of other lengths: calls, not
    /// damage. The last has fields of zeros alone.
    fn lists_of_other_lengths(&self) -> Vec<Script> {
        let mut scripts = Vec::new();
        for numbers in self.other_numbers {
            let mut body = self.with_fields(self.first_number, numbers);
            body[self.first_flag()..].fill(0);
            scripts.push(self.with_body(&body));
        }
        scripts.push(self.with_body(&vec![0; self.first_flag()]));
        scripts
    }

    /// Channel counts about the most for which response block counts are said, with
    /// just so many bytes behind the fields before them, and four less and more.
    pub fn numbers_of_counts(&self) -> Vec<Script> {
        let fields = self.first_number + self.numbers.len();
        let mut scripts = Vec::new();
        for channels in [0, 1, 2, 15, 16, 17, 18, 256, 1 << 31, u32::MAX] {
            let counts = channels.min(16) as usize;
            for count in counts.saturating_sub(1)..=counts + 1 {
                let mut body = field_bytes(&[channels, 1, 1, 0]);
                body.resize(4 * (fields + count), 0);
                scripts.push(self.with_body(&body));
            }
        }
        scripts
    }

    /// A last list, as long as the record leaves, that ends within a number, is one
    /// number shorter or longer, or lacks one or two spectra of so many bands.
    pub fn ends(&self, bands: usize) -> Vec<Script> {
        let right = self.body.len();
        let sizes = (right - 5..right + 6).chain([right - 4 * bands, right - 8 * bands]);
        let body = |size: usize| {
            let mut body = self.body.clone();
            body.resize(size, 0);
            body
        };
        sizes.map(|size| self.with_body(&body(size))).collect()
    }
}
