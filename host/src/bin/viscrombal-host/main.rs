//! `viscrombal-host`: a module's file held against a policy, compared with another, or at the end of a chain of replacements; and what its
//! imports ask for.

#![forbid(unsafe_code)]

mod args;
mod chain;
mod check;
mod compare;
mod files;
mod imports;
mod json;
mod locate;
mod order;
mod sha256;
mod show;
mod steps;
mod work;

use std::env;
use std::ffi::OsString;
use std::fmt::Display;
use std::io::{self, Write};
use std::process::ExitCode;

use args::Command;
use files::Stop;
use viscrombal::INTERFACE;

const USAGE: &str = "\
usage: viscrombal-host [OPTIONS] check MODULE.. --policy FILE
       viscrombal-host [OPTIONS] compare BASELINE CANDIDATE
       viscrombal-host [OPTIONS] chain FIRST .. LAST --policy FILE
       viscrombal-host [--json] chain --policy FILE --stricter FILE
       viscrombal-host [OPTIONS] imports MODULE..
       viscrombal-host [--json] locate MODULE OFFSET

  check        holds each module against the policy
  compare      whether the candidate can stand in for the baseline, and why not
  chain        whether each build can stand in for the one before it, by which steps the last came to differ from the first, and what
               the theorem then gives for the last; of two policies, whether whoever passes under the first passes under the second
  imports      what each import of a module asks for, memories in pages and bytes; and in all, what a sandbox must hold for it
  locate       which section, entry and field of the file the byte at an offset belongs to (15, or 0xf as a hex viewer has it)
  --strict     a module that is not clean in what is read is refused, by the lowest of eight rules that it breaks, before anything else
               is said of it. It is no validation: sections that are not read may hold anything
  --recursive  a folder among the modules of check or imports stands for the files below it whose names end in .wasm
  --explain    under a refusal, which field of the file it points at, as locate says it
  --json       one object a line
  --version    the version, the interface, and the archive by the kit that proved it and by its sum

A file named - is standard input.
Exit status: 0 all pass; 1 not compliant, cannot stand in, or does not follow; 2 refused, or cannot be read; 64 wrong words.
";

/// What was built; host/build.rs gives the kit, and the SHA-256 of the archive.
fn version() -> String {
    let (version, kit, archive) = (env!("CARGO_PKG_VERSION"), env!("VISCROMBAL_KIT"), env!("VISCROMBAL_SUM"));
    format!("viscrombal-host {version}\ninterface {INTERFACE}\nkit {kit}\narchive {archive}\n")
}

/// The exit status; of several the worst is given.
#[derive(Debug, Clone, Copy, PartialEq, Eq, PartialOrd, Ord)]
pub enum Status {
    Pass = 0,
    No = 1,
    Refused = 2,
    Usage = 64,
}

impl Status {
    /// Of an answer that is not refused.
    fn passing(pass: bool) -> Status {
        if pass {
            Status::Pass
        } else {
            Status::No
        }
    }
}

/// Runs the command and says which file ended it, if one did. The archive is asked nothing where it is of another version.
fn run(out: &mut dyn Write, command: &Command) -> io::Result<Status> {
    if !matches!(command, Command::Help | Command::Version) {
        if let Err(other) = viscrombal::interface() {
            return Ok(fault(Status::Refused, other));
        }
    }
    let (ended, options) = match command {
        Command::Help => return write!(out, "{USAGE}").map(|()| Status::Pass),
        Command::Version => return write!(out, "{}", version()).map(|()| Status::Pass),
        Command::Check { modules, policy, options } => (check::run(out, modules, policy, *options), options),
        Command::Compare { baseline, candidate, options } => (compare::run(out, baseline, candidate, *options), options),
        Command::Chain { builds, policy, options } => (chain::run(out, builds, policy, *options), options),
        Command::Order { policy, stricter, options } => (order::run(out, policy, stricter, *options), options),
        Command::Imports { modules, options } => (imports::run(out, modules, *options), options),
        Command::Locate { module, offset, options } => (locate::run(out, module, *offset, *options), options),
    };
    match ended {
        Ok(status) => Ok(status),
        Err(Stop::Output(fault)) => Err(fault),
        Err(Stop::File { what, path, trouble }) => files::report(out, what, &path, &trouble, *options).map(|()| Status::Refused),
    }
}

/// A fault of the command itself, on standard error; where that is closed too, the status alone tells.
fn fault(status: Status, words: impl Display) -> Status {
    let _ = writeln!(io::stderr(), "viscrombal-host: {words}");
    status
}

/// What the words ask for.
fn answer(words: impl Iterator<Item = OsString>) -> Status {
    let command = match args::parse(words) {
        Ok(command) => command,
        Err(wrong) => return fault(Status::Usage, format_args!("{wrong}\n{}", USAGE.trim_end())),
    };
    let mut out = io::stdout().lock();
    match run(&mut out, &command).and_then(|status| out.flush().map(|()| status)) {
        Ok(status) => status,
        Err(error) => fault(Status::Refused, format_args!("cannot write: {error}")),
    }
}

fn main() -> ExitCode {
    ExitCode::from(answer(env::args_os().skip(1)) as u8)
}
