//! What a command takes, and the words of a command line held to it.

use crate::failure::Failure;
use hamrisk::limits::Served;
use hamrisk::ByteOrder;
use std::ffi::{OsStr, OsString};
use std::path::Path;

/// An option: `value` is what stands after it, empty for a switch. `{}` in what is said of it stands for what is served.
pub struct Opt {
    pub name: &'static str,
    pub value: &'static str,
    pub about: &'static str,
    pub served: Option<Served>,
}

/// The name of a command, and the files and options that it takes.
pub struct Syntax {
    pub name: &'static str,
    pub files: &'static [&'static str],
    pub groups: &'static [&'static [Opt]],
}

impl Syntax {
    pub fn options(&self) -> impl Iterator<Item = &'static Opt> {
        self.groups.iter().copied().flatten()
    }
}

/// The files and options of one command line.
pub struct Args {
    command: &'static str,
    files: Vec<OsString>,
    /// Each option given, with its value; a switch has an empty one.
    options: Vec<(&'static str, OsString)>,
}

impl Args {
    /// Options may stand before, between or after files, as `--name value` or `--name=value`; after `--` all are files.
    pub fn parse(syntax: &Syntax, words: &[OsString]) -> Result<Args, Failure> {
        let mut args = Args { command: syntax.name, files: Vec::new(), options: Vec::new() };
        let mut words = words.iter();
        while let Some(word) = words.next() {
            match word.to_str() {
                Some("--") => args.files.extend(words.by_ref().cloned()),
                Some(text) if text.starts_with("--") => args.take_option(syntax, &text[2..], &mut words)?,
                Some(text) if text.len() > 1 && text.starts_with('-') => {
                    return Err(args.wrong(format!("there is no option {text}")));
                }
                _ => args.files.push(word.clone()),
            }
        }
        if args.files.len() != syntax.files.len() {
            let wanted = if syntax.files.is_empty() { "no file".into() } else { syntax.files.join(" and ") };
            let given = match args.files.len() {
                1 => "1 file".into(),
                count => format!("{count} files"),
            };
            return Err(args.wrong(format!("{wanted} wanted, {given} given")));
        }
        Ok(args)
    }

    fn take_option<'a>(
        &mut self,
        syntax: &Syntax,
        option: &str,
        words: &mut impl Iterator<Item = &'a OsString>,
    ) -> Result<(), Failure> {
        let (name, joined) = match option.split_once('=') {
            Some((name, value)) => (name, Some(value)),
            None => (option, None),
        };
        let Some(Opt { name, value, .. }) = syntax.options().find(|known| known.name == name) else {
            return Err(self.wrong(format!("there is no option --{name}")));
        };
        if self.value(name).is_some() {
            return Err(self.wrong(format!("--{name} is given twice")));
        }
        let given = match (value.is_empty(), joined) {
            (true, None) => OsString::new(),
            (true, Some(_)) => return Err(self.wrong(format!("--{name} takes no value"))),
            (false, Some(given)) => given.into(),
            (false, None) => words.next().cloned().ok_or_else(|| self.wrong(format!("--{name} wants {value}")))?,
        };
        self.options.push((name, given));
        Ok(())
    }

    /// A failure that says what is wrong with this command's words.
    pub fn wrong(&self, what: String) -> Failure {
        Failure::Usage(format!("{}: {what}; see hamrisk {} --help", self.command, self.command))
    }

    pub fn file(&self, place: usize) -> &Path {
        Path::new(&self.files[place])
    }

    pub fn value(&self, name: &str) -> Option<&OsStr> {
        self.options.iter().find(|(given, _)| *given == name).map(|(_, value)| value.as_os_str())
    }

    pub fn has(&self, name: &str) -> bool {
        self.value(name).is_some()
    }

    /// Which of two switches is given: whether it is the first one.
    pub fn either(&self, one: &str, other: &str) -> Result<Option<bool>, Failure> {
        match (self.has(one), self.has(other)) {
            (true, true) => Err(self.wrong(format!("one of --{one} and --{other} is wanted, not both"))),
            (false, false) => Ok(None),
            (first, _) => Ok(Some(first)),
        }
    }

    /// A byte order, if it is given.
    pub fn order(&self, name: &str) -> Result<Option<ByteOrder>, Failure> {
        match self.value(name) {
            None => Ok(None),
            Some(given) if given == "le" => Ok(Some(ByteOrder::Little)),
            Some(given) if given == "be" => Ok(Some(ByteOrder::Big)),
            Some(given) => Err(self.wrong(format!("--{name} wants le or be, not '{}'", given.to_string_lossy()))),
        }
    }

    /// A number that must be given.
    pub fn number(&self, name: &str) -> Result<usize, Failure> {
        let value = self.value(name).ok_or_else(|| self.wrong(format!("--{name} is missing")))?;
        self.parse_number(name, value)
    }

    /// A number, or this one if it is not given.
    pub fn number_or(&self, name: &str, default: usize) -> Result<usize, Failure> {
        self.value(name).map_or(Ok(default), |value| self.parse_number(name, value))
    }

    fn parse_number(&self, name: &str, value: &OsStr) -> Result<usize, Failure> {
        let number = value.to_str().and_then(|text| text.parse().ok());
        number.ok_or_else(|| self.wrong(format!("--{name} wants a whole number, not '{}'", value.to_string_lossy())))
    }
}
