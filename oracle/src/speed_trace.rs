//! Measures `oracle list` and the trace printer on the same trace.

use crate::scripts::trace::big;
use std::env;
use std::fs::{self, File};
use std::io::{self, BufWriter};
use std::path::{Path, PathBuf};
use std::process::{self, Command, Stdio};
use std::time::{Duration, Instant};

/// How often each side is timed; the least time counts.
const REPEATS: u32 = 5;

/// Makes a trace of a size and a number of channels, checks that both list it
/// alike, times them by turns, and prints a line: how many millions of bytes each
/// lists in a second, and how many times the Rust's time the program's is.
pub fn speed(megabytes: u64, channels: u8, file: &str) -> Result<(), String> {
    let trace = Temporary::written(megabytes, channels).map_err(|error| error.to_string())?;
    let own = env::current_exe().map_err(|error| error.to_string())?;
    let sides = [
        Side::new(own.as_os_str(), &["list"], &trace.path),
        Side::new(file.as_ref(), &[], &trace.path),
    ];
    let [wanted, given] = [sides[0].listing()?, sides[1].listing()?];
    if wanted != given {
        return Err(format!("{file} lists the trace otherwise"));
    }
    let mut least = [Duration::MAX; 2];
    for _ in 0..REPEATS {
        for (least, side) in least.iter_mut().zip(&sides) {
            *least = side.time()?.min(*least);
        }
    }
    let [rust, port] = least.map(|time| time.as_secs_f64());
    let rate = |seconds: f64| trace.size as f64 / 1e6 / seconds;
    println!(
        "trace {megabytes} MB {channels} channels: rust {:.0} MB/s, port {:.0} MB/s, ratio {:.2}",
        rate(rust),
        rate(port),
        port / rust
    );
    Ok(())
}

/// A program that lists a trace.
struct Side<'a> {
    file: &'a std::ffi::OsStr,
    words: &'a [&'a str],
    trace: &'a Path,
}

impl<'a> Side<'a> {
    fn new(file: &'a std::ffi::OsStr, words: &'a [&'a str], trace: &'a Path) -> Self {
        Self { file, words, trace }
    }

    fn listing(&self) -> Result<Vec<u8>, String> {
        let done = self.command()?.output();
        Ok(done.map_err(|error| self.failed(error))?.stdout)
    }

    /// The time of a run whose listing goes nowhere.
    fn time(&self) -> Result<Duration, String> {
        let mut command = self.command()?;
        command.stdout(Stdio::null());
        let start = Instant::now();
        command.status().map_err(|error| self.failed(error))?;
        Ok(start.elapsed())
    }

    fn command(&self) -> Result<Command, String> {
        let trace = File::open(self.trace).map_err(|error| self.failed(error))?;
        let mut command = Command::new(self.file);
        command.args(self.words).stdin(trace);
        Ok(command)
    }

    fn failed(&self, error: io::Error) -> String {
        format!("{} does not run: {error}", self.file.display())
    }
}

/// A trace in a file that is removed at the end.
struct Temporary {
    path: PathBuf,
    size: u64,
}

impl Temporary {
    fn written(megabytes: u64, channels: u8) -> io::Result<Self> {
        let path = env::temp_dir().join(format!("oracle_trace_{}", process::id()));
        let mut trace = Self { path, size: 0 };
        let file = BufWriter::new(File::create(&trace.path)?);
        big::write(megabytes, channels, file)?;
        trace.size = fs::metadata(&trace.path)?.len();
        Ok(trace)
    }
}

impl Drop for Temporary {
    fn drop(&mut self) {
        fs::remove_file(&self.path).ok();
    }
}
