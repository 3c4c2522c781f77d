//! The oracle: runs scripts of library calls, and traces, through the published
//! Rust and compares its lines with those of the programs.

mod compare;
mod judge;
mod kinds;
mod lines;
mod program;
mod record;
mod run;
mod scripts;
#[cfg(port)]
mod speed;
mod speed_trace;
#[cfg(test)]
mod tests;
mod trace;
mod watch;

// The published modules `api` and `audio_processing`, see build.rs.
include!(concat!(env!("OUT_DIR"), "/published.rs"));

use program::Program;
use std::env;
use std::fs;
use std::io::{self, BufWriter, Read, Write};
use std::path::Path;
use std::process::ExitCode;

const USAGE: &str = "usage:
  oracle run PROGRAM [state] < script > lines
  oracle list < trace > listing
  oracle generate NAME [NUMBER] > script
  oracle trace NAME [NUMBER] > trace
  oracle trace big MEGABYTES CHANNELS > trace
  oracle compare [REPLAY [REPLAY_PARTS [TRACE_PRINTER]]]
  oracle watch
  oracle samples PROGRAM DIR
  oracle speed
  oracle speed_trace MEGABYTES CHANNELS [TRACE_PRINTER]
where PROGRAM is replay, replay_parts or trace_printer; of trace_lister there are samples";

fn main() -> ExitCode {
    let arguments: Vec<String> = env::args().skip(1).collect();
    let words: Vec<&str> = arguments.iter().map(String::as_str).collect();
    let done = match words[..] {
        ["run", program] => run_script(program, false),
        ["run", program, "state"] => run_script(program, true),
        ["list"] => list_trace(),
        ["generate", name] => generate(name, None),
        ["generate", name, number] => generate(name, Some(number)),
        ["trace", "big", megabytes, channels] => big_trace(megabytes, channels),
        ["trace", name] => generate(&trace_name(name), None),
        ["trace", name, number] => generate(&trace_name(name), Some(number)),
        ["compare", ref files @ ..] if files.len() <= Program::ALL.len() => compare_with(files),
        ["watch"] => Ok(status(watch::watch())),
        ["samples", program, folder] => write_samples(program, Path::new(folder)),
        ["speed"] => speed(),
        ["speed_trace", megabytes, channels] => {
            speed_trace(megabytes, channels, &built(Program::TracePrinter))
        }
        ["speed_trace", megabytes, channels, file] => speed_trace(megabytes, channels, file),
        _ => Err(USAGE.to_string()),
    };
    match done {
        Ok(code) => code,
        Err(message) => {
            eprintln!("{message}");
            ExitCode::from(2)
        }
    }
}

/// Runs a script; the state of the whole ERLE estimator is shown if asked for.
fn run_script(program: &str, state: bool) -> Result<ExitCode, String> {
    let program = known(program)?;
    let mut script = Vec::new();
    io::stdin().read_to_end(&mut script).map_err(plain)?;
    let (lines, _) = run::Run::showing(program, state, &script).finish();
    print_bytes(lines.as_bytes())
}

/// Lists a trace.
fn list_trace() -> Result<ExitCode, String> {
    trace::stream::list(io::stdin().lock(), io::stdout().lock()).map_err(plain)?;
    Ok(ExitCode::SUCCESS)
}

fn known(program: &str) -> Result<Program, String> {
    Program::named(program).ok_or_else(|| USAGE.to_string())
}

/// Prints one script of a name; the number, from 1, chooses among several.
fn generate(name: &str, number: Option<&str>) -> Result<ExitCode, String> {
    let named = scripts::named(name).ok_or_else(|| {
        let names = scripts::NAMES.map(|listed| listed.name);
        format!("no scripts named {name}; there are {names:?}")
    })?;
    let scripts = named.scripts();
    let count = scripts.len();
    let chosen = match number {
        Some(text) => text.parse().unwrap_or(0),
        None if count == 1 => 1,
        None => 0,
    };
    match scripts.into_iter().nth(usize::wrapping_sub(chosen, 1)) {
        Some(make) => print_bytes(&make().bytes),
        None => Err(format!("{name} has scripts 1 to {count}: say which")),
    }
}

/// The name under which the traces of a name are generated.
fn trace_name(name: &str) -> String {
    format!("trace_{name}")
}

/// Prints a trace of a size and a number of channels.
fn big_trace(megabytes: &str, channels: &str) -> Result<ExitCode, String> {
    let (megabytes, channels) = size_of_trace(megabytes, channels)?;
    let output = BufWriter::new(io::stdout().lock());
    scripts::trace::big::write(megabytes, channels, output).map_err(plain)?;
    Ok(ExitCode::SUCCESS)
}

fn size_of_trace(megabytes: &str, channels: &str) -> Result<(u64, u8), String> {
    let size = megabytes.parse().ok().zip(channels.parse().ok());
    size.filter(|&(_, channels)| judge::CAPTURE_CHANNELS.contains(&u32::from(channels)))
        .ok_or_else(|| USAGE.to_string())
}

/// Compares with the programs in these files; one whose file is not said is
/// sought where it is built.
fn compare_with(files: &[&str]) -> Result<ExitCode, String> {
    let built = Program::ALL.map(built);
    let said = |program: Program| match files.get(program as usize) {
        Some(file) => file,
        None => &built[program as usize][..],
    };
    Ok(status(compare::compare(said)))
}

/// The exit status where all have passed, or not.
fn status(passed: bool) -> ExitCode {
    if passed {
        ExitCode::SUCCESS
    } else {
        ExitCode::FAILURE
    }
}

/// Where a program is built.
fn built(program: Program) -> String {
    let name = program.name();
    format!("crates/{name}/out/{name}")
}

/// Writes a program's stored sample, its input and its lines.
fn write_samples(program: &str, folder: &Path) -> Result<ExitCode, String> {
    let (input, lines) = sample(program)?;
    fs::create_dir_all(folder).map_err(plain)?;
    fs::write(folder.join("stdin"), input).map_err(plain)?;
    fs::write(folder.join("stdout"), lines).map_err(plain)?;
    Ok(ExitCode::SUCCESS)
}

/// The input and the lines of a program's stored sample.
fn sample(program: &str) -> Result<(Vec<u8>, Vec<u8>), String> {
    if program == "trace_lister" {
        return Ok(scripts::trace::stored::packed());
    }
    let program = known(program)?;
    let input = scripts::stored_sample(program).bytes;
    let (lines, _) = run::run(program, &input);
    Ok((input, lines.as_bytes().to_vec()))
}

#[cfg(port)]
fn speed() -> Result<ExitCode, String> {
    speed::speed().map(|()| ExitCode::SUCCESS)
}

#[cfg(not(port))]
fn speed() -> Result<ExitCode, String> {
    Err(
        "built without the port: set PORT_LIBRARY to the folder of libspeed.a and build"
            .to_string(),
    )
}

/// Measures the listing of a trace of a size and a number of channels.
fn speed_trace(megabytes: &str, channels: &str, file: &str) -> Result<ExitCode, String> {
    let (megabytes, channels) = size_of_trace(megabytes, channels)?;
    speed_trace::speed(megabytes, channels, file)?;
    Ok(ExitCode::SUCCESS)
}

fn print_bytes(bytes: &[u8]) -> Result<ExitCode, String> {
    io::stdout().write_all(bytes).map_err(plain)?;
    Ok(ExitCode::SUCCESS)
}

fn plain(error: io::Error) -> String {
    error.to_string()
}
