//! Faults for which a call is turned away.

use super::random::Random;
use super::spectra::SPECIALS;
use crate::judge::BANDS;

/// What makes a call faulty in one way.
pub type Fault<C> = fn(&mut C);

/// A call that lends lists of values.
pub trait Lends: Clone {
    fn lists(&mut self) -> Vec<&mut Vec<f32>>;
}

/// Patterns of values out of range: NaNs of both signs, infinities, numbers
/// above 2^100 and below 0.
pub const BAD: [u32; 13] = [
    0x7FC0_0000,
    0xFFC0_0000,
    0x7F80_0001,
    0xFF80_0001,
    0x7FFF_FFFF,
    0x7F80_0000,
    0xFF80_0000,
    0x7180_0001,
    0x7F7F_FFFF,
    0x8000_0001,
    0x8080_0000,
    0xBF80_0000,
    0xFF7F_FFFF,
];

pub fn shorten<T>(list: &mut Vec<T>, by: usize) {
    list.truncate(list.len().saturating_sub(by));
}

/// Puts a value at a place, or at the last one of a shorter list.
pub fn put(list: &mut [f32], place: usize, value: f32) {
    let last = list.len().saturating_sub(1);
    if let Some(there) = list.get_mut(place.min(last)) {
        *there = value;
    }
}

/// Gives a call a fault or two: of one of the groups, or a bad value anywhere.
pub fn spoil<C: Lends>(random: &mut Random, call: &mut C, groups: &[&[Fault<C>]]) {
    for _ in 0..1 + random.below(2) {
        match groups.get(random.below(groups.len() as u32 + 1) as usize) {
            Some(group) => random.one_of(group)(call),
            None => {
                let mut lists = call.lists();
                let list = random.below(lists.len() as u32) as usize;
                let place = random.below(4 * BANDS as u32) as usize;
                put(lists[list], place, f32::from_bits(random.one_of(&BAD)));
            }
        }
    }
}

/// Every choice of no fault or one of each group, but the one of no fault.
pub fn faulty<C: Clone>(good: &C, groups: &[&[Fault<C>]]) -> Vec<C> {
    let mut calls = vec![good.clone()];
    for group in groups {
        calls = calls
            .iter()
            .flat_map(|call| with_each(call, group))
            .collect();
    }
    calls.split_off(1)
}

/// Every fault alone.
pub fn singles<C: Clone>(good: &C, groups: &[&[Fault<C>]]) -> Vec<C> {
    let alone = |group: &&[Fault<C>]| with_each(good, group).split_off(1);
    groups.iter().flat_map(alone).collect()
}

/// Every fault alone, and every two of different groups.
pub fn singles_and_pairs<C: Clone>(good: &C, groups: &[&[Fault<C>]]) -> Vec<C> {
    let mut calls = Vec::new();
    for (at, group) in groups.iter().enumerate() {
        for single in singles(good, &[group]) {
            calls.extend(singles(&single, &groups[at + 1..]));
            calls.push(single);
        }
    }
    calls
}

/// A call, and the same with each fault of a group.
fn with_each<C: Clone>(call: &C, group: &[Fault<C>]) -> Vec<C> {
    let mut calls = vec![call.clone(); 1 + group.len()];
    for (call, fault) in calls[1..].iter_mut().zip(group) {
        fault(call);
    }
    calls
}

/// A bad value at each place of a good call, and a special one that passes.
pub fn at_each_place<C: Lends>(good: &C) -> Vec<C> {
    let sizes: Vec<usize> = good.clone().lists().iter().map(|list| list.len()).collect();
    let places = sizes.iter().enumerate();
    let places = places.flat_map(|(list, &size)| (0..size).map(move |place| (list, place)));
    let mut calls = Vec::new();
    for (count, (list, place)) in places.enumerate() {
        let bad = f32::from_bits(BAD[count % BAD.len()]);
        for value in [bad, SPECIALS[count % SPECIALS.len()]] {
            let mut call = good.clone();
            call.lists()[list][place] = value;
            calls.push(call);
        }
    }
    calls
}

/// The calls, with the good one after every fiftieth: what the ones before it
/// left shows in its figures.
pub fn with_good_between<C: Clone>(good: &C, calls: &[C]) -> Vec<C> {
    let fifties = calls.chunks(50);
    fifties
        .flat_map(|fifty| fifty.iter().chain([good]).cloned())
        .collect()
}
