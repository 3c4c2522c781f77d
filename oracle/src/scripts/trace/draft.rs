//! A record of a trace that is to be damaged.

use super::{Script, EXAMPLE};
use crate::kinds::call::Call;
use crate::kinds::erle::DelayChanged;
use crate::scripts::part::quiet;
use crate::trace::records::{block_body, Settings, BLOCK, RESET, SETTINGS};

/// The bytes of a length.
const LENGTH: usize = 4;

/// The record, and what stands before it. What damages it notes its number.
#[derive(Clone)]
pub struct Draft {
    pub before: Script,
    /// The capture channels that are set.
    pub channels: usize,
    kind: u16,
    body: Vec<u8>,
    /// A length that is not the body's, if one is said.
    length: Option<u32>,
    /// How many bytes of the record there are, if nothing is behind it.
    kept: Option<usize>,
    pub numbers: Vec<u32>,
}

impl Draft {
    fn new(before: Script, channels: usize, kind: u16, body: Vec<u8>) -> Self {
        Self {
            before,
            channels,
            kind,
            body,
            length: None,
            kept: None,
            numbers: Vec::new(),
        }
    }

    /// Settings that are the first record.
    pub fn settings(settings: &Settings) -> Self {
        let channels = settings.channels as usize;
        Self::new(Script::default(), channels, SETTINGS, settings.body())
    }

    pub fn block(before: Script, call: &Call) -> Self {
        Self::new(before, call.flags.len(), BLOCK, block_body(call))
    }

    pub fn reset(before: Script, channels: usize, DelayChanged(changed): DelayChanged) -> Self {
        Self::new(before, channels, RESET, vec![changed.into()])
    }

    /// The trace. Behind a good record comes a block, that shows what was set. Behind
    /// a bad one come records of which one is refused, whether settings stand or
    /// not, so that a reader that does not stop is noticed.
    pub fn trace(&self) -> Script {
        let mut script = self.before.clone();
        let length = self.length.unwrap_or(self.right_length());
        script.framed(length, self.kind, &self.body);
        if let Some(kept) = self.kept {
            return script.cut(self.before.bytes.len() + kept);
        }
        script.delay(DelayChanged(false));
        if self.numbers.is_empty() {
            script.block(&quiet(self.channels));
        } else {
            script.settings(&EXAMPLE);
        }
        script
    }

    /// 10: cut short, so many bytes are left of the record.
    pub fn keep(&mut self, bytes: usize) {
        self.kept = Some(bytes);
        self.numbers.push(10);
    }

    /// 10: cut short, the last byte is missing.
    pub fn keep_all_but_one(&mut self) {
        self.keep(LENGTH + 2 + self.body.len() - 1);
    }

    /// 10: the length says more than there is; the last byte is missing too.
    pub fn lack(&mut self, length: u32) {
        self.length = Some(length);
        self.keep_all_but_one();
    }

    /// 10: a length out of range, which is not the body's.
    pub fn say(&mut self, length: u32) {
        self.length = Some(length);
        self.numbers.push(10);
    }

    /// 10: a length out of range, with a body of this size.
    pub fn exceed(&mut self, size: usize) {
        self.body.resize(size, 1);
        self.numbers.push(10);
    }

    /// The length that the body has.
    pub fn right_length(&self) -> u32 {
        2 + self.body.len() as u32
    }

    /// 11: an unknown kind.
    pub fn of_kind(&mut self, kind: u16) {
        self.kind = kind;
        self.numbers.push(11);
    }

    /// 22: nothing stands before a block or reset. 23: settings before settings.
    pub fn behind(&mut self, before: Script, number: u32) {
        self.before = before;
        self.numbers.push(number);
    }

    /// 12: a body of another size.
    pub fn resize(&mut self, size: usize) {
        self.body.resize(size, 1);
        self.numbers.push(12);
    }

    /// 12: a body longer by so many bytes, or shorter.
    pub fn grow(&mut self, by: isize) {
        self.resize(self.body.len().saturating_add_signed(by));
    }

    /// Other bytes at a place of the body, for which a number is due.
    pub fn put<const N: usize>(&mut self, place: usize, bytes: [u8; N], number: u32) {
        self.pass(place, bytes);
        self.numbers.push(number);
    }

    /// Other bytes at a place of the body, with which it stays good.
    pub fn pass<const N: usize>(&mut self, place: usize, bytes: [u8; N]) {
        self.body[place..place + N].copy_from_slice(&bytes);
    }

    /// The place of the last flag of a block, or of that of a reset.
    pub fn last_flag(&self) -> usize {
        match self.kind {
            BLOCK => self.channels - 1,
            _ => 0,
        }
    }

    /// The place of a power of a block in its body.
    pub fn power(&self, place: usize) -> usize {
        self.channels + 4 * place
    }

    /// The place of a block's last power.
    pub fn last_power(&self) -> usize {
        self.body.len() - 4
    }
}
