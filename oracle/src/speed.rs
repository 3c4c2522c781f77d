//! Measures the published Rust and the port on the same blocks in one run. Each
//! estimator has a module of its own.

mod blocks;
mod echo;
mod erl;
mod erle;
mod fullband;
mod signal_dependent;
mod subband;

use crate::judge::BANDS;
use crate::scripts::random::Random;
use std::time::{Duration, Instant};

/// How often each side is timed; the least time counts.
const REPEATS: u32 = 9;

/// The blocks of a case, and how often each side runs over them for one time.
const BLOCKS: usize = 250;
const ROUNDS: usize = 200;

pub fn speed() -> Result<(), String> {
    erl::speed()?;
    subband::speed()?;
    signal_dependent::speed()?;
    fullband::speed()?;
    erle::speed()
}

/// So many spectra of powers from 2^least up, within so many octaves.
fn spectra(random: &mut Random, count: usize, least: i32, octaves: u32) -> Vec<[f32; BANDS]> {
    let mut value = |_| {
        let exponent = least + random.below(octaves) as i32;
        random.octave(exponent)
    };
    let spectrum = |_| std::array::from_fn(&mut value);
    (0..count).map(spectrum).collect()
}

/// The running sum of the figures of each channel, stream by stream.
fn stream_sum(streams: &[&[[f32; BANDS]]]) -> f32 {
    let channels = 0..streams[0].len();
    let figures = channels.flat_map(|channel| streams.iter().flat_map(move |s| &s[channel]));
    figures.fold(0.0, |sum, figure| sum + figure)
}

/// Checks that both sides give the same answer, times them by turns, and prints
/// a line: the least time of each for one block, and how many times the Rust's
/// the port's is.
fn measure(name: &str, rust: impl Fn() -> f32, port: impl Fn() -> f32) -> Result<(), String> {
    let (wanted, given) = (rust().to_bits(), port().to_bits());
    if wanted != given {
        return Err(format!("{name}: rust {wanted:08X}, port {given:08X}"));
    }
    let (mut rust_least, mut port_least) = (Duration::MAX, Duration::MAX);
    for _ in 0..REPEATS {
        rust_least = rust_least.min(time(&rust));
        port_least = port_least.min(time(&port));
    }
    let each = |total: Duration| total.as_nanos() as f64 / (BLOCKS * ROUNDS) as f64;
    println!(
        "{name}: rust {:.1} ns, port {:.1} ns, ratio {:.2}",
        each(rust_least),
        each(port_least),
        each(port_least) / each(rust_least)
    );
    Ok(())
}

fn time(work: impl Fn() -> f32) -> Duration {
    let start = Instant::now();
    std::hint::black_box(work());
    start.elapsed()
}
