//! The command `sparrowpivot`: Git index files listed, searched, checked and rewritten.
#![forbid(unsafe_code)]
#![cfg_attr(
    not(test),
    deny(
        clippy::unwrap_used,
        clippy::expect_used,
        clippy::panic,
        clippy::print_stdout,
        clippy::print_stderr,
        clippy::indexing_slicing,
        clippy::arithmetic_side_effects
    )
)]

mod args;
mod check;
mod json;
mod locate;
mod quote;
mod rewrite;
mod show;

use std::ffi::OsStr;
use std::io::{self, BufWriter, Read, Write};
use std::process::ExitCode;

use args::{Action, Form, Request};
use rewrite::Lock;
use sparrowpivot::{Entry, Index, Refusal, Stage};

const HELP: &str = include_str!("help.txt");
const VERSION: &str = concat!("sparrowpivot ", env!("CARGO_PKG_VERSION"), "\n");
const BUFFER: usize = 1 << 16;

/// Why the command ends before it is done, or with bad news.
enum Stop {
    /// The command line cannot be followed.
    Usage(String),
    /// Something was refused or not found; the words go to standard error.
    Refused(String),
    /// What was to be said stands in the output.
    NotSound,
    /// The output cannot be written. Its reader may have stopped early, which is no fault.
    Output(io::Error),
}

impl From<io::Error> for Stop {
    fn from(why: io::Error) -> Stop {
        Stop::Output(why)
    }
}

fn main() -> ExitCode {
    let mut out = BufWriter::with_capacity(BUFFER, io::stdout().lock());
    let done = run(&mut out);
    // what was written before a fault is useful too
    let flushed = out.flush();
    match done.and(flushed.map_err(Stop::Output)) {
        Ok(()) => ExitCode::SUCCESS,
        Err(Stop::Output(why)) if why.kind() == io::ErrorKind::BrokenPipe => ExitCode::SUCCESS,
        Err(Stop::Output(why)) => said(1, &format!("standard output: {why}")),
        Err(Stop::NotSound) => ExitCode::from(1),
        Err(Stop::Refused(words)) => said(1, &words),
        Err(Stop::Usage(words)) => said(2, &format!("{words}\ntry `sparrowpivot --help`")),
    }
}

/// Tells a fault on standard error. If even that fails, the status is left to tell it.
fn said(status: u8, words: &str) -> ExitCode {
    let _ = writeln!(io::stderr(), "sparrowpivot: {words}");
    ExitCode::from(status)
}

fn run(out: &mut impl Write) -> Result<(), Stop> {
    let request = args::parse(std::env::args_os().skip(1)).map_err(|usage| Stop::Usage(usage.0))?;
    let (action, form, file) = match request {
        Request::Help => return Ok(out.write_all(HELP.as_bytes())?),
        Request::Version => return Ok(out.write_all(VERSION.as_bytes())?),
        Request::Run(action, form, file) => (action, form, file),
    };
    let file = match file {
        Some(file) => file,
        None => locate::locate().map_err(Stop::Refused)?.into(),
    };
    let lock = match &action {
        Action::Rewrite { out, .. } if out != "-" => Some(Lock::take(out).map_err(Stop::Refused)?),
        _ => None,
    };
    let name = if file == "-" { OsStr::new("standard input") } else { &file };
    act(out, action, form, &file, lock).map_err(|stop| match stop {
        Stop::Refused(words) => Stop::Refused(format!("{}: {words}", name.to_string_lossy())),
        other => other,
    })
}

/// Reads the index and does what is asked for. What is rewritten goes to the file that is locked, or to the output.
fn act(out: &mut impl Write, action: Action, form: Form, file: &OsStr, lock: Option<Lock>) -> Result<(), Stop> {
    let index = read(file).map_err(|why| Stop::Refused(why.to_string()))?;
    match action {
        Action::List => Ok(show::entries(out, form, index.entries())?),
        Action::Find { path, stage } => Ok(show::entries(out, form, found(&index, &path, stage)?.into_iter())?),
        Action::Tree => show::nodes(out, form, index.tree()),
        Action::Check => check::check(out, form, &index)?.then_some(()).ok_or(Stop::NotSound),
        Action::Rewrite { tree, zero_trailer, drop, .. } => {
            let bytes = rewrite::rewritten(&index, tree, zero_trailer, drop).map_err(Stop::Refused)?;
            match lock {
                Some(lock) => lock.replace(&bytes).map_err(Stop::Refused),
                None => Ok(out.write_all(&bytes)?),
            }
        }
    }
}

/// The index in a file, or in standard input where its name is `-`.
fn read(file: &OsStr) -> Result<Index, sparrowpivot::Error> {
    if file != "-" {
        return Index::open(file);
    }
    let mut bytes = Vec::new();
    io::stdin().lock().read_to_end(&mut bytes)?;
    Index::from_bytes(bytes)
}

/// The entries of one path, at one stage or at all of them: at least one.
fn found<'a>(index: &'a Index, path: &[u8], stage: Option<u32>) -> Result<Vec<Entry<'a>>, Stop> {
    let refused = |why: Refusal| Stop::Refused(why.to_string());
    let stages = match stage {
        None => Stage::ALL.to_vec(),
        Some(number) => vec![Stage::try_from(number).map_err(refused)?],
    };
    let mut entries = Vec::new();
    for stage in stages {
        entries.extend(index.find(path, stage).map_err(refused)?);
    }
    if entries.is_empty() {
        let at = stage.map_or(String::new(), |number| format!(" at stage {number}"));
        return Err(Stop::Refused(format!("there is no {}{at}", path.escape_ascii())));
    }
    Ok(entries)
}
