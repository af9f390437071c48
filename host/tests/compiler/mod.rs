//! How the tests compile C and C++ for the library's machine.

use std::process::Command;

/// A compiler: the words of this environment variable, CC or CXX, if it is set, else the usual one.
pub fn compiler(variable: &str, usual: &str) -> Command {
    let given = std::env::var(variable).unwrap_or_default();
    let mut words = given.split_whitespace();
    let mut command = Command::new(words.next().unwrap_or(usual));
    command.args(words);
    command
}
