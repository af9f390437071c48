//! The texts that say what the commands take.

use crate::args::Opt;
use crate::commands::{Command, COMMANDS};

const STREAMS: &str = "\
A file may be -, which is standard input, or for OUT standard output; messages then go to standard error.
A file of that name is ./- here.

";

const STATUS: &str = "\
Exit status: 0 done; 1 Unsupported, 2 Invalid, 3 Truncated, 4 OutputTooSmall or 5 Limit if the library
refuses; 64 for a wrong command line; 74 for a file or stream that cannot be read or written.
";

const WHOLE: &str = "\
OUT is written only once all is done: a refusal leaves no file behind, one that was there as it was, and
standard output empty.
";

const ARRIVING: &str = "\
stream alone writes while it reads: what it wrote before a refusal stays written.
";

pub fn overview() -> String {
    let mut text = String::from("hamrisk: the sample layer of TIFF, proved, over files and streams\n\n");
    for command in COMMANDS {
        text += &format!("  {:8} {}\n", command.syntax.name, command.about);
    }
    text + "\nhamrisk COMMAND --help says what a command takes.\n\n" + STREAMS + STATUS + WHOLE + ARRIVING
}

pub fn of(command: &Command) -> String {
    let mut usage = format!("hamrisk {}", command.syntax.name);
    for file in command.syntax.files {
        usage += &format!(" {file}");
    }
    let has_options = command.syntax.options().next().is_some();
    if has_options {
        usage += " [OPTIONS]";
    }
    let mut text = format!("{usage}\n\n{}\n{}\n", command.about, command.notes);
    for Opt { name, value, about, served } in command.syntax.options() {
        let about = served.map_or(about.to_string(), |served| about.replace("{}", &served.to_string()));
        text += &format!("  {:18} {about}\n", format!("--{name} {value}").trim_end());
    }
    if has_options {
        text += "\n";
    }
    let (streams, whole) = if command.syntax.files.is_empty() { ("", "") } else { (STREAMS, WHOLE) };
    text + streams + STATUS + whole
}
