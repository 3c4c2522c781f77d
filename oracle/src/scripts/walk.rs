//! A script that grows beside the published estimator, so that a call can aim at
//! the figures that it finds.

use super::Script;
use crate::kinds::standing::Estimator;

pub struct Walk<E> {
    pub script: Script,
    pub estimator: Option<E>,
}

impl<E> Default for Walk<E> {
    fn default() -> Self {
        Self::behind(Script::default())
    }
}

impl<E> Walk<E> {
    /// Goes on behind what stands in a script, where no such estimator stands.
    pub fn behind(script: Script) -> Self {
        Self {
            script,
            estimator: None,
        }
    }
}

impl<E: Estimator> Walk<E> {
    pub fn started(start: &E::Start) -> Self {
        let mut walk = Self::default();
        walk.start(start);
        walk
    }

    pub fn start(&mut self, start: &E::Start) {
        self.script.start::<E>(start);
        self.estimator = E::started(start).ok();
    }

    /// Adds a call; one that is turned away changes nothing.
    pub fn update(&mut self, call: &E::Call) {
        self.script.update::<E>(call);
        self.run(1, call);
    }

    pub fn updates(&mut self, calls: &[E::Call]) {
        calls.iter().for_each(|call| self.update(call));
    }

    /// Adds as many updates, each with its lines.
    pub fn each(&mut self, times: usize, call: &E::Call) {
        (0..times).for_each(|_| self.update(call));
    }

    pub fn reset(&mut self) {
        self.reset_as(E::Reset::default());
    }

    pub fn reset_as(&mut self, reset: E::Reset) {
        self.script.reset_as::<E>(&reset);
        if let Some(estimator) = &mut self.estimator {
            estimator.reset(reset);
        }
    }

    /// Updates the estimator alone, so many times.
    pub fn run(&mut self, times: u32, call: &E::Call) {
        if let Some(estimator) = &mut self.estimator {
            estimator.repeat(times, call).ok();
        }
    }
}
