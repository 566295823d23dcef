//! `twin run [--quiet] TRACE`: does what `vmsa run TRACE` does, in plain Rust.
//! `twin counts TRACE`: runs the trace too, and tells only how often it reached what.

mod attrs;
mod machine;
mod memory;
mod parse;
mod regs;
mod report;
mod rows;
mod tally;
mod text;
mod tlbi;
mod walk;

use crate::parse::{Reader, Refusal, Trace, MOST_BYTES};
use crate::report::{Counts, Report};
use crate::tally::Tally;
use std::fs::File;
use std::io::{self, ErrorKind, Write};
use std::os::unix::fs::FileExt;
use std::process::ExitCode;

/// How the program is called.
const USAGE: &str = "usage: vmsa raw IMAGE TCR TTBR0 VA
usage: vmsa explain REGS DUMP VA EL KIND [pan]
usage: vmsa run TRACE
";

/// Why there is no report.
enum Failure {
    Usage,
    NoFile(String),
    Refused(Refusal),
    Read,
    Write,
    NoMemory,
}

impl Failure {
    /// The exit status and what standard error gets.
    fn told(&self) -> (u8, String) {
        match self {
            Failure::Usage => (2, USAGE.into()),
            Failure::NoFile(name) => (3, report::no_file(name)),
            Failure::Refused(why) => (4, report::refused(*why)),
            Failure::Read => (5, "vmsa: read fault\n".into()),
            Failure::Write => (6, String::new()),
            Failure::NoMemory => (7, "vmsa: out of memory\n".into()),
        }
    }
}

/// What is told of a run.
enum Told {
    Report,
    Mapped,
    Counts,
}

/// The words of the command line: the trace's name, and what is told.
fn command() -> Option<(String, Told)> {
    let words = std::env::args_os().skip(1);
    let mut words: Vec<String> =
        words.map(|word| word.into_string().ok()).collect::<Option<_>>()?;
    let quiet = words.len() == 3 && words[1] == "--quiet";
    if quiet {
        words.remove(1);
    }
    let [command, name] = words.as_slice() else {
        return None;
    };
    let told = match command.as_str() {
        "run" if quiet => Told::Mapped,
        "run" => Told::Report,
        "counts" if !quiet => Told::Counts,
        _ => return None,
    };
    (!name.is_empty() && !name.starts_with('-')).then(|| (name.clone(), told))
}

/// The bytes of a trace file, read once to its size. One that tells no size may have as many as
/// the largest trace.
fn read(name: &str) -> Result<Vec<u8>, Failure> {
    let failed = |error: io::Error| match error.kind() {
        ErrorKind::NotFound => Failure::NoFile(name.to_owned()),
        _ => Failure::Read,
    };
    let file = File::open(name).map_err(failed)?;
    let metadata = file.metadata().map_err(failed)?;
    if metadata.is_dir() {
        return Err(Failure::Read);
    }
    let room = match metadata.len() {
        0 => MOST_BYTES + 1,
        size if size > MOST_BYTES as u64 => return Err(Failure::Refused(Refusal::TooLarge)),
        size => size as usize + 1,
    };
    let mut bytes = vec![0; room];
    let mut count = 0;
    while count < room {
        match file.read_at(&mut bytes[count..], count as u64) {
            Ok(0) => break,
            Ok(more) => count += more,
            Err(error) if error.kind() == ErrorKind::Interrupted => {}
            Err(_) => return Err(Failure::Read),
        }
    }
    bytes.truncate(count);
    Ok(bytes)
}

/// The trace of a file.
fn trace(name: &str) -> Result<Trace, Failure> {
    let text = read(name)?;
    let reader = Reader::new(text.len()).map_err(|_| Failure::NoMemory)?;
    reader.read(&text).map_err(Failure::Refused)
}

/// Runs a trace and writes its report.
fn report(trace: &Trace) -> io::Result<()> {
    let mut report = Report::new(io::stdout().lock());
    machine::run(trace, |answer| report.answer(answer))?;
    report.end()
}

/// Runs a trace and writes only how many accesses are mapped.
fn count(trace: &Trace) -> io::Result<()> {
    let mut counts = Counts::default();
    machine::run(trace, |answer| -> io::Result<()> {
        counts.add(answer);
        Ok(())
    })?;
    writeln!(io::stdout(), "{}", counts.mapped)
}

/// Runs a trace and writes how often it reached what; one that is refused reached nothing.
fn tally(trace: Result<Trace, Failure>) -> Result<(), Failure> {
    let mut tally = Tally::new();
    match trace {
        Ok(trace) => {
            let machine = machine::run(&trace, |answer| -> io::Result<()> {
                tally.answer(answer);
                Ok(())
            });
            tally.machine(&trace, &machine.map_err(|_| Failure::Write)?);
        }
        Err(Failure::Refused(_)) => tally.refused(),
        Err(failure) => return Err(failure),
    }
    tally.write(io::stdout().lock()).map_err(|_| Failure::Write)
}

/// Runs the trace that the command line names.
fn run() -> Result<(), Failure> {
    let (name, told) = command().ok_or(Failure::Usage)?;
    let trace = trace(&name);
    let written = match told {
        Told::Report => report(&trace?),
        Told::Mapped => count(&trace?),
        Told::Counts => return tally(trace),
    };
    written.map_err(|_| Failure::Write)
}

fn main() -> ExitCode {
    let Err(failure) = run() else {
        return ExitCode::SUCCESS;
    };
    let (status, line) = failure.told();
    match io::stderr().write_all(line.as_bytes()) {
        Ok(()) => ExitCode::from(status),
        Err(_) => ExitCode::from(6),
    }
}
