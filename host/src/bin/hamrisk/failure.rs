//! Why the command stopped: what it says and its exit status.

use hamrisk::Refusal;
use std::fmt;
use std::io;
use std::path::{Path, PathBuf};

/// The exit status of a wrong command line, and of a file or stream that cannot be read or written, as in sysexits.h.
const WRONG_USAGE: u8 = 64;
const WRONG_FILE: u8 = 74;

#[derive(Debug)]
pub enum Failure {
    /// A wrong command line.
    Usage(String),
    /// A file or stream that cannot be read or written.
    File { path: PathBuf, error: io::Error },
    /// The library refused; `fault` names the number that caused it, if it is known.
    Refused { call: &'static str, refusal: Refusal, fault: Option<String> },
}

/// The first fault of a call's numbers, and the refusal that it leads to.
pub type Fault = (Refusal, String);

impl Failure {
    /// The refusal of a call. A fault that leads to another refusal than the library's is not the cause: it is left out.
    pub fn refused(call: &'static str, refusal: Refusal, fault: Option<Fault>) -> Failure {
        let fault = fault.filter(|(kind, _)| *kind == refusal).map(|(_, text)| text);
        Failure::Refused { call, refusal, fault }
    }

    pub fn file(path: &Path, error: io::Error) -> Failure {
        Failure::File { path: path.to_path_buf(), error }
    }

    pub fn status(&self) -> u8 {
        match self {
            Failure::Usage(_) => WRONG_USAGE,
            Failure::File { .. } => WRONG_FILE,
            Failure::Refused { refusal, .. } => refusal.number() as u8,
        }
    }
}

impl fmt::Display for Failure {
    fn fmt(&self, f: &mut fmt::Formatter) -> fmt::Result {
        match self {
            Failure::Usage(text) => f.write_str(text),
            Failure::File { path, error } => write!(f, "{}: {error}", path.display()),
            Failure::Refused { call, refusal, fault } => {
                write!(f, "{call} refused: {} {refusal:?}: ", refusal.number())?;
                match fault {
                    Some(text) => f.write_str(text),
                    None => write!(f, "{refusal}"),
                }
            }
        }
    }
}
