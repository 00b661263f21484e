//! frodo explain: was the report damaged, or did the noise spoil it?
mod burst;
mod facts;
mod finding;
mod gather;
mod judge;
mod key;
mod length;
pub mod matrix;
mod rows;
mod search;
mod seek;
pub mod shake;
mod show;
mod sieve;

pub use facts::{compare, counts, Part};

use crate::args::{Command, Flag, Given, Takes, FORCE, JSON, SET};
use crate::commands::read;
use crate::failure::Failure;
use crate::files::{self, File};
use crate::kem::Kem;
use crate::sets::{self, Kind, Set};
use crate::Answer;
use gather::{Case, Gathered};

const fn input(name: &'static str, about: &'static str) -> Flag {
    Flag { name, takes: Takes::Input, about }
}

pub const EXPLAIN: Command = Command {
    name: "explain",
    about: "says whether a report is intact, damaged or spoiled by noise, and why; repairs it",
    usage: &[
        "--secret FILE --sealed FILE [--seed FILE] [--message FILE] [--salt FILE] [--repair --sealed-out FILE --key-out FILE]",
        "--seed FILE --sealed FILE [--message FILE] [--salt FILE] [--repair --sealed-out FILE --key-out FILE]",
    ],
    details: "\
With seed, message and salt it is decided, if they are this report's: key and report are made again and compared, and the margin says whether noise could have spoiled it.
Where they are not, nothing ties them to the report, and it stays undecided: it may be whole, and another's.
A secret key file that is damaged is told first (`frodo check`); a seed of another key is told, and left out where the report is the key file's. A report that ends too
soon, or has bytes behind it, is judged by what is there.
With a key alone, what the report opens to is sealed again with the report's own salt. Where that gives other bytes nearly everywhere, it is searched for: one damaged
byte anywhere; four neighbouring ones in a row of c1, or any number of them in a row where a row holds 16 bits of the message (set 1); two in each of up to four rows;
some neighbouring words of c2; the last two bytes of the salt, where they are missing; or groups of the message that noise has changed. That takes seconds; --no-search
leaves it out.
Each reason says whether it was seen in this run, is proved (by which theorem, in which file), or is only likely.
With --repair the sealed report and its secret are written where they are known; the exit status is the verdict's all the same.",
    flags: &[
        SET,
        input("--secret", "the secret key"),
        input("--sealed", "the sealed report"),
        input("--seed", "the seed that the key was made from"),
        input("--message", "the message that was sealed"),
        input("--salt", "the salt that it was sealed with"),
        Flag { name: "--no-search", takes: Takes::Nothing, about: "try no other salts and messages" },
        Flag { name: "--repair", takes: Takes::Nothing, about: "write what --sealed-out and --key-out name, where it is known" },
        Flag { name: "--sealed-out", takes: Takes::Output { secret: false }, about: "the report as it was sealed" },
        Flag { name: "--key-out", takes: Takes::Output { secret: true }, about: "its shared secret, mode 0600" },
        FORCE,
        JSON,
    ],
    run: explain,
};

fn optional(given: &Given, flag: &str) -> Result<Option<File>, Failure> {
    given.value(flag).map(files::read).transpose()
}

fn explain(given: &Given) -> Result<Answer, Failure> {
    given.only_with("--repair", &["--sealed-out", "--key-out"])?;
    if given.has("--repair") && !given.has("--sealed-out") && !given.has("--key-out") {
        return Err(Failure::usage("--repair wants --sealed-out FILE, --key-out FILE or both"));
    }
    if !given.has("--secret") && !given.has("--seed") {
        return Err(Failure::usage("--secret or --seed is missing"));
    }
    let sealed = read(given, "--sealed")?;
    let inputs = [(Kind::Secret, "--secret"), (Kind::Seed, "--seed"), (Kind::Message, "--message"), (Kind::Salt, "--salt")];
    let mut files = Vec::new();
    for (kind, flag) in inputs {
        files.push((kind, optional(given, flag)?));
    }
    let known: Vec<(Kind, &File)> = files.iter().filter_map(|(kind, file)| Some((*kind, file.as_ref()?))).collect();
    let set = sets::settle(given.value("--set"), &known)?;
    let search = !given.has("--no-search") && worth_a_search(&set, sealed.bytes.len());
    let [secret, seed, message, salt] = std::array::from_fn(|i| files[i].1.take().map(|file| file.bytes));
    let case = Case { secret, report: sealed.bytes, seed, message, salt, search };
    let Gathered { facts, sealed } = gather::gather(&mut Kem::new(set), &case)?;
    let finding = judge::judge(&set, &facts);
    let outputs = if finding.known { vec![("--sealed-out", sealed.report), ("--key-out", sealed.key)] } else { vec![] };
    let mut text = show::text(&set, &finding, &facts);
    if given.has("--repair") && !finding.known {
        text += "\nnot repaired: the sealed report is not known\n";
    }
    Ok(Answer { status: finding.status, text, json: show::json(&set, &finding, &facts), outputs })
}

/// A file that has the length of another kind of report is taken for that, not searched for damage.
fn worth_a_search(set: &Set, found: usize) -> bool {
    found == set.lengths.ciphertext || !sets::report_lengths().contains_key(&found)
}
