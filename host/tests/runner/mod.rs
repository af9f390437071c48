//! How the tests start programs that are for the library's machine.

use std::ffi::OsStr;
use std::process::Command;

/// A program to be started: behind the words of HAMRISK_RUNNER, an emulator, if that is set.
pub fn program(path: impl AsRef<OsStr>) -> Command {
    let runner = std::env::var("HAMRISK_RUNNER").unwrap_or_default();
    let mut words = runner.split_whitespace();
    let Some(first) = words.next() else {
        return Command::new(path);
    };
    let mut command = Command::new(first);
    command.args(words).arg(path);
    command
}
