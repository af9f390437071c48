//! `hamrisk`: the calls of the library over files and streams. See `hamrisk --help`.
//!
//! A module uses only those further down, never one of its own line or above:
//!
//! - `main`
//! - `help`: the texts
//! - `commands`: the table of what there is
//! - `pages`, `strips`, `rows`, `layouts`, `demo`: what each command does
//! - `args`, `facts`, `faults`, `files`, `pictures`: what they do it with
//! - `failure`, `progress`

mod args;
mod commands;
mod demo;
mod facts;
mod failure;
mod faults;
mod files;
mod help;
mod layouts;
mod pages;
mod pictures;
mod progress;
mod rows;
mod strips;

use args::Args;
use commands::{Command, COMMANDS};
use failure::Failure;
use std::ffi::{OsStr, OsString};
use std::io::{stderr, Write};
use std::process::ExitCode;

fn main() -> ExitCode {
    let words: Vec<OsString> = std::env::args_os().skip(1).collect();
    match run(&words) {
        Ok(()) => ExitCode::SUCCESS,
        Err(failure) => {
            // That it cannot be told is no reason to end with another status.
            let _ = writeln!(stderr(), "hamrisk: {failure}");
            ExitCode::from(failure.status())
        }
    }
}

fn run(words: &[OsString]) -> Result<(), Failure> {
    let Some((name, words)) = words.split_first() else {
        return Err(Failure::Usage("no command is given; see hamrisk --help".into()));
    };
    if name == "--help" || name == "-h" {
        return files::print(&help::overview());
    }
    let command = find(name)?;
    if words.iter().take_while(|word| *word != "--").any(|word| word == "--help" || word == "-h") {
        return files::print(&help::of(command));
    }
    let args = Args::parse(&command.syntax, words)?;
    (command.run)(&args)
}

fn find(name: &OsStr) -> Result<&'static Command, Failure> {
    let unknown = || Failure::Usage(format!("there is no command '{}'; see hamrisk --help", name.to_string_lossy()));
    COMMANDS.iter().find(|command| command.syntax.name == name).ok_or_else(unknown)
}
