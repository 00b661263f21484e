//! The command line: tables of commands and their flags, how words are matched against them, and the help that is made of them.
use crate::failure::{Failure, STATUSES};
use crate::Answer;
use std::ffi::{OsStr, OsString};
use std::fmt::Write as _;
use std::os::unix::ffi::OsStrExt;

/// What a flag takes.
#[derive(Clone, Copy, Debug, PartialEq, Eq)]
pub enum Takes {
    Nothing,
    /// A word, called this in the help.
    Word(&'static str),
    /// A file that is read, or `-`.
    Input,
    /// A file that is written, or `-`; a secret one is for its owner's eyes only.
    Output {
        secret: bool,
    },
}

pub struct Flag {
    pub name: &'static str,
    pub takes: Takes,
    pub about: &'static str,
}

pub struct Command {
    pub name: &'static str,
    pub about: &'static str,
    pub usage: &'static [&'static str],
    pub details: &'static str,
    pub flags: &'static [Flag],
    pub run: fn(&Given) -> Result<Answer, Failure>,
}

pub const JSON: Flag = Flag { name: "--json", takes: Takes::Nothing, about: "one JSON object on standard output in place of text" };
pub const FORCE: Flag = Flag { name: "--force", takes: Takes::Nothing, about: "write over files that exist" };
pub const SET: Flag = Flag { name: "--set", takes: Takes::Word("SET"), about: "1, 2 or 3, or a name that `frodo sets` lists; otherwise told by the files' lengths" };

/// The flags that were given, each once.
#[derive(Debug, Default)]
pub struct Given(Vec<(&'static str, Takes, OsString)>);

impl Given {
    pub fn has(&self, name: &str) -> bool {
        self.value(name).is_some()
    }

    pub fn value(&self, name: &str) -> Option<&OsStr> {
        self.0.iter().find(|(n, _, _)| *n == name).map(|(_, _, v)| v.as_os_str())
    }

    /// The value of a flag that has to be there.
    pub fn need(&self, name: &str) -> Result<&OsStr, Failure> {
        self.value(name).ok_or_else(|| Failure::usage(format!("{name} is missing")))
    }

    /// Flags that read, in the order given.
    pub fn inputs(&self) -> impl Iterator<Item = (&'static str, &OsStr)> {
        self.0.iter().filter(|(_, takes, _)| *takes == Takes::Input).map(|(n, _, v)| (*n, v.as_os_str()))
    }

    /// Flags that write, in the order given, and whether what they write is secret.
    pub fn outputs(&self) -> impl Iterator<Item = (&'static str, &OsStr, bool)> {
        self.0.iter().filter_map(|(n, takes, v)| match takes {
            Takes::Output { secret } => Some((*n, v.as_os_str(), *secret)),
            _ => None,
        })
    }

    /// Exactly one of two ways is given, each a list of flags: true for the first.
    pub fn either(&self, first: &[&str], second: &[&str]) -> Result<bool, Failure> {
        let some = |names: &[&str]| names.iter().any(|n| self.has(n));
        let (a, b) = (first.join(" and "), second.join(" and "));
        match (some(first), some(second)) {
            (true, true) => Err(Failure::usage(format!("{a} cannot go with {b}"))),
            (false, false) => Err(Failure::usage(format!("{a} or {b} is missing"))),
            (is_first, _) => {
                for name in if is_first { first } else { second } {
                    self.need(name)?;
                }
                Ok(is_first)
            }
        }
    }

    /// Flags that make sense with another flag only.
    pub fn only_with(&self, other: &str, names: &[&str]) -> Result<(), Failure> {
        match names.iter().find(|n| self.has(n) && !self.has(other)) {
            Some(name) => Err(Failure::usage(format!("{name} goes with {other} only"))),
            None => Ok(()),
        }
    }
}

/// A word as a flag and the value behind its `=`, if any.
fn split(word: &OsStr) -> (&OsStr, Option<&OsStr>) {
    let bytes = word.as_bytes();
    match bytes.iter().position(|&b| b == b'=') {
        Some(at) => (OsStr::from_bytes(&bytes[..at]), Some(OsStr::from_bytes(&bytes[at + 1..]))),
        None => (word, None),
    }
}

/// The words behind a command's name, matched against its flags.
pub fn parse(command: &Command, words: &[OsString]) -> Result<Given, Failure> {
    let mut given = Given::default();
    let mut rest = words.iter();
    while let Some(word) = rest.next() {
        let (name, inline) = split(word);
        let Some(flag) = command.flags.iter().find(|f| name == f.name) else {
            let expected: Vec<&str> = command.flags.iter().map(|f| f.name).collect();
            return Err(Failure::usage(format!("{} is no option of `frodo {}`, expected {}", word.to_string_lossy(), command.name, expected.join(", "))));
        };
        if given.has(flag.name) {
            return Err(Failure::usage(format!("{} is given twice", flag.name)));
        }
        let value = match (flag.takes, inline) {
            (Takes::Nothing, None) => OsString::new(),
            (Takes::Nothing, Some(_)) => return Err(Failure::usage(format!("{} takes no value", flag.name))),
            (_, Some(value)) => value.to_owned(),
            (_, None) => rest.next().cloned().ok_or_else(|| Failure::usage(format!("{} wants {} behind it", flag.name, placeholder(flag.takes))))?,
        };
        if value.is_empty() && flag.takes != Takes::Nothing {
            return Err(Failure::usage(format!("{} wants {} behind it, and got nothing", flag.name, placeholder(flag.takes))));
        }
        given.0.push((flag.name, flag.takes, value));
    }
    Ok(given)
}

fn placeholder(takes: Takes) -> &'static str {
    match takes {
        Takes::Nothing => "",
        Takes::Word(word) => word,
        Takes::Input | Takes::Output { .. } => "FILE",
    }
}

fn statuses() -> String {
    STATUSES.iter().fold("exit status:\n".to_string(), |text, (status, about)| format!("{text}  {}  {about}\n", *status as u8))
}

/// The program's help.
pub fn overview(commands: &[Command]) -> String {
    let mut text =
        "frodo: seals keys to a FrodoKEM public key, opens them, and says why a report does not open\n\nusage: frodo COMMAND [OPTIONS]\n\ncommands:\n".to_string();
    for command in commands {
        let _ = writeln!(text, "  {:8} {}", command.name, command.about);
    }
    text + "  help     this, or with a command its options\n\n`frodo COMMAND --help` tells the options. FILE may be - for standard input or output.\nNothing is written when something is refused.\n\n" + &statuses()
}

/// A command's help.
pub fn help(command: &Command) -> String {
    let mut text = format!("frodo {}: {}\n\nusage:\n", command.name, command.about);
    for line in command.usage {
        let _ = writeln!(text, "  frodo {} {line}", command.name);
    }
    if !command.details.is_empty() {
        let _ = writeln!(text, "\n{}", command.details);
    }
    text += "\noptions:\n";
    for flag in command.flags {
        let _ = writeln!(text, "  {:20} {}", format!("{} {}", flag.name, placeholder(flag.takes)), flag.about);
    }
    text + "\nFILE may be - for standard input or output.\n\n" + &statuses()
}

#[cfg(test)]
mod tests {
    use super::*;

    const COMMAND: Command = Command {
        name: "try",
        about: "",
        usage: &[],
        details: "",
        flags: &[Flag { name: "--in", takes: Takes::Input, about: "" }, Flag { name: "--out", takes: Takes::Output { secret: true }, about: "" }, JSON],
        run: |_| unreachable!(),
    };

    fn parsed(words: &[&str]) -> Result<Given, String> {
        parse(&COMMAND, &words.iter().map(OsString::from).collect::<Vec<_>>()).map_err(|f| f.text)
    }

    #[test]
    fn values_stand_behind_or_after_an_equals_sign() {
        for words in [&["--in", "a=b", "--json"][..], &["--in=a=b", "--json"]] {
            let given = parsed(words).unwrap();
            assert_eq!(given.value("--in").unwrap(), "a=b");
            assert!(given.has("--json") && !given.has("--out"));
        }
    }

    #[test]
    fn wrong_words_say_what_is_wrong() {
        assert_eq!(parsed(&["--on"]).unwrap_err(), "--on is no option of `frodo try`, expected --in, --out, --json");
        assert_eq!(parsed(&["--in"]).unwrap_err(), "--in wants FILE behind it");
        assert_eq!(parsed(&["--in="]).unwrap_err(), "--in wants FILE behind it, and got nothing");
        assert_eq!(parsed(&["--in", "a", "--in", "b"]).unwrap_err(), "--in is given twice");
        assert_eq!(parsed(&["--json=1"]).unwrap_err(), "--json takes no value");
    }

    #[test]
    fn one_of_two_ways() {
        let given = parsed(&["--in", "a"]).unwrap();
        assert!(given.either(&["--in"], &["--out"]).unwrap());
        assert_eq!(given.either(&["--in", "--json"], &["--out"]).unwrap_err().text, "--json is missing");
        assert_eq!(given.either(&["--in"], &["--in"]).unwrap_err().text, "--in cannot go with --in");
        assert_eq!(given.either(&["--json"], &["--out"]).unwrap_err().text, "--json or --out is missing");
        assert_eq!(given.only_with("--json", &["--in"]).unwrap_err().text, "--in goes with --json only");
    }
}
