//! frodo check: is a secret key file whole, and which part of it is not?
use crate::args::{Command, Flag, Given, Takes, JSON, SET};
use crate::commands::read;
use crate::explain::{compare, counts, Part};
use crate::failure::{Failure, Status};
use crate::files;
use crate::json::Json;
use crate::kem::Kem;
use crate::keyfile::KeyCheck;
use crate::sets::{self, Kind, Set};
use crate::theorems::{KEY_FITS, KEY_PASSES};
use crate::Answer;

pub const CHECK: Command = Command {
    name: "check",
    about: "says whether a secret key file is whole, and which part of it is not",
    usage: &["--secret FILE [--seed FILE]"],
    details: "\
pkh has to be the hash of the public key, B - A*S small in every entry, and every word of S in the range of the noise. s cannot be checked: any bytes are a valid s,
and no report that is intact needs it. With --seed the key is made again and compared part by part. Nothing secret is shown, and nothing is written.",
    flags: &[
        SET,
        Flag { name: "--secret", takes: Takes::Input, about: "the secret key" },
        Flag { name: "--seed", takes: Takes::Input, about: "the seed that the key was made from" },
        JSON,
    ],
    run: check,
};

fn check(given: &Given) -> Result<Answer, Failure> {
    let secret = read(given, "--secret")?;
    let seed = given.value("--seed").map(files::read).transpose()?;
    let mut known = vec![(Kind::Secret, &secret)];
    known.extend(seed.as_ref().map(|file| (Kind::Seed, file)));
    let set = sets::settle(given.value("--set"), &known)?;
    let found = KeyCheck::of(&set, &secret.bytes);
    let made = seed.map(|file| Kem::new(set).keys(&file.bytes)).transpose()?;
    let against = made.map(|keys| compare(&set.secret_parts(), &secret.bytes, &keys.secret));
    Ok(answer(&set, &secret.name, &found, against.as_deref()))
}

/// What was found, as the command's answer.
fn answer(set: &Set, name: &str, found: &KeyCheck, against: Option<&[Part]>) -> Answer {
    let differs = against.is_some_and(|parts| parts.iter().any(|p| p.differ > 0));
    let status = if found.whole() && !differs { Status::Done } else { Status::KeyDamaged };
    let mut text = if found.whole() {
        format!("whole: {name} is a secret key of set {}, {}, whose parts fit each other\n", set.number, set.name)
    } else {
        format!("not whole: {name}, a secret key of set {}, {}, is damaged\n", set.number, set.name)
    };
    found.faults().iter().for_each(|fault| text += &format!("  {fault}\n"));
    let fits = |holds: bool| if holds { "fits" } else { "does not fit" };
    text += &format!("  pkh {}: it is to be the hash of the public key ({KEY_PASSES})\n", fits(found.pkh_fits));
    text += &format!("  S   {}: it is to leave B - A*S small, and to be small itself: at most {} ({KEY_FITS})\n", fits(found.s_fits()), found.bound);
    text += "  s   cannot be checked: any bytes are a valid s\n";
    if let Some(parts) = against {
        text += &seed_text(found, parts);
    }
    Answer { status, text, json: json(set, found, against), outputs: vec![] }
}

/// How the file compares with the seed's key. A whole file that differs is a good key, and is not to be replaced.
fn seed_text(found: &KeyCheck, parts: &[Part]) -> String {
    let only_s = parts.iter().all(|p| p.differ == 0 || p.name == "s");
    match (counts(parts), found.whole()) {
        (none, _) if none.is_empty() => "it is, in every byte, the key that the seed makes\n".into(),
        (some, true) if only_s => format!("it differs from the seed's key in {some} alone: nothing tells which of the two is damaged there\n"),
        (some, true) => format!("it differs from the seed's key in {some}: the seed is of another key, or damaged. Keep the key file\n"),
        (some, false) => format!("it differs from the seed's key in {some}\n"),
    }
}

/// The check for machines. Counts only: a key's bytes are secret.
pub fn check_json(found: &KeyCheck) -> Json {
    Json::Object(vec![
        ("whole", Json::Bool(found.whole())),
        ("pkh_fits", Json::Bool(found.pkh_fits)),
        ("s_fits", Json::Bool(found.s_fits())),
        ("columns_off", Json::List(found.columns_off().into_iter().map(Json::Count).collect())),
        ("rows_off", Json::Count(found.rows_off)),
        ("s_words_beyond", Json::Count(found.s_beyond)),
        ("faults", Json::List(found.faults().into_iter().map(Json::Text).collect())),
    ])
}

fn json(set: &Set, found: &KeyCheck, against: Option<&[Part]>) -> Vec<(&'static str, Json)> {
    let part = |p: &Part| Json::Object(vec![("part", Json::text(p.name)), ("bytes", Json::Count(p.bytes)), ("differ", Json::Count(p.differ))]);
    vec![
        ("set", Json::Count(set.number as usize)),
        ("name", Json::text(set.name)),
        ("check", check_json(found)),
        ("key_file", against.map_or(Json::Null, |parts| Json::List(parts.iter().map(part).collect()))),
    ]
}
