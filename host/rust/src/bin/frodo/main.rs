//! frodo: the library on the command line. Makes keys, seals and opens, and settles whether a report that does not open was damaged or spoiled by noise.
mod args;
mod check;
mod commands;
mod explain;
mod failure;
mod files;
mod interrupts;
mod json;
mod kem;
mod keyfile;
mod outputs;
mod sets;
mod theorems;

use args::{Command, Given};
use failure::{Failure, Status};
use json::Json;
use outputs::Output;
use std::env;
use std::ffi::OsString;
use std::io::{self, Write};
use std::process::ExitCode;

/// What a command found. It has written nothing: outputs are written when all else has gone well.
pub struct Answer {
    pub status: Status,
    pub text: String,
    pub json: Vec<(&'static str, Json)>,
    /// The flag that names the file, and its bytes.
    pub outputs: Vec<(&'static str, Vec<u8>)>,
}

const COMMANDS: [Command; 7] = [commands::SETS, commands::KEYGEN, commands::SEAL, commands::OPEN, commands::MARGIN, check::CHECK, explain::EXPLAIN];

fn main() -> ExitCode {
    let words: Vec<OsString> = env::args_os().skip(1).collect();
    let status = run(&words).unwrap_or_else(|failure| {
        say(&format!("frodo: {failure}\n"));
        if failure.status == Status::Usage {
            say("`frodo --help` and `frodo COMMAND --help` tell what is expected.\n");
        }
        if words.iter().any(|word| word == "--json") {
            let error = Json::Object(vec![("status", Json::Count(failure.status as usize)), ("error", Json::text(failure.text))]);
            let _ = outputs::to_stdout(format!("{error}\n").as_bytes());
        }
        failure.status
    });
    ExitCode::from(status as u8)
}

/// Writes to standard error, which may be closed.
pub fn say(text: &str) {
    let _ = io::stderr().write_all(text.as_bytes());
}

fn run(words: &[OsString]) -> Result<Status, Failure> {
    let names = || COMMANDS.map(|c| c.name).join(", ");
    let Some((first, rest)) = words.split_first() else {
        return Err(Failure::usage(format!("a command is missing: {}", names())));
    };
    if first == "--help" || first == "-h" {
        return outputs::to_stdout(args::overview(&COMMANDS).as_bytes()).map(|()| Status::Done);
    }
    if first == "help" {
        return help(rest);
    }
    if first == "--version" || first == "-V" {
        return outputs::to_stdout(concat!("frodo ", env!("CARGO_PKG_VERSION"), "\n").as_bytes()).map(|()| Status::Done);
    }
    let Some(command) = COMMANDS.iter().find(|c| first == c.name) else {
        return Err(Failure::usage(format!("{} is no command, expected {}", first.to_string_lossy(), names())));
    };
    if rest.iter().any(|word| word == "--help" || word == "-h") {
        return outputs::to_stdout(args::help(command).as_bytes()).map(|()| Status::Done);
    }
    let given = args::parse(command, rest)?;
    check(&given)?;
    let answer = (command.run)(&given)?;
    finish(command, &given, answer)
}

/// `frodo help` is `frodo --help`, and `frodo help COMMAND` is `frodo COMMAND --help`.
fn help(words: &[OsString]) -> Result<Status, Failure> {
    match words {
        [] => run(&["--help".into()]),
        [name] if COMMANDS.iter().any(|c| name == c.name) => run(&[name.clone(), "--help".into()]),
        _ => Err(Failure::usage(format!("`frodo help` takes nothing or one command: {}", COMMANDS.map(|c| c.name).join(", ")))),
    }
}

/// What can be refused before any work is done.
fn check(given: &Given) -> Result<(), Failure> {
    let mut from_stdin = given.inputs().filter(|(_, path)| *path == "-").map(|(flag, _)| flag);
    if let (Some(a), Some(b)) = (from_stdin.next(), from_stdin.next()) {
        return Err(Failure::usage(format!("{a} and {b} both read standard input")));
    }
    let to_stdout = given.outputs().find(|(_, path, _)| *path == "-");
    if let (true, Some((flag, _, _))) = (given.has("--json"), to_stdout) {
        return Err(Failure::usage(format!("--json and {flag} - both write to standard output")));
    }
    outputs::check(given.inputs(), given.outputs().map(|(flag, path, _)| (flag, path)), given.has("--force"))
}

/// Writes the outputs, then says what was found: on standard error where an output has taken standard output. Where that cannot be said, the outputs are taken back.
fn finish(command: &Command, given: &Given, answer: Answer) -> Result<Status, Failure> {
    let mut files = Vec::new();
    for (flag, bytes) in answer.outputs {
        files.extend(given.outputs().find(|(name, _, _)| *name == flag).map(|(_, path, secret)| Output { path, secret, bytes }));
    }
    let placed = outputs::place(&files, given.has("--force"))?;
    let written: Vec<String> = files.iter().filter(|f| f.path != "-").map(|f| files::shown(f.path)).collect();
    if given.has("--json") {
        let mut fields = vec![("command", Json::text(command.name)), ("status", Json::Count(answer.status as usize))];
        fields.extend(answer.json);
        fields.push(("written", Json::List(written.into_iter().map(Json::Text).collect())));
        placed.or_undo(outputs::to_stdout(format!("{}\n", Json::Object(fields)).as_bytes()))?;
        return Ok(answer.status);
    }
    let mut text = answer.text;
    if !written.is_empty() {
        text += &format!("wrote {}\n", written.join(", "));
    }
    if let Some(stream) = files.iter().find(|f| f.path == "-") {
        placed.or_undo(outputs::to_stdout(&stream.bytes))?;
        say(&text);
    } else {
        placed.or_undo(outputs::to_stdout(text.as_bytes()))?;
    }
    Ok(answer.status)
}
