//! The commands that make one call each: sets, keygen, seal, open and margin.
use crate::args::{Command, Flag, Given, Takes, FORCE, JSON, SET};
use crate::failure::{Failure, Status};
use crate::files::{self, File};
use crate::json::Json;
use crate::kem::Kem;
use crate::sets::{self, Kind, Set};
use crate::theorems::{KEPT_BACK, KEPT_EXACTLY, NOISE_SIZE, SAMPLE_SIZE};
use crate::Answer;
use stroupadal::Margin;

const fn input(name: &'static str, about: &'static str) -> Flag {
    Flag { name, takes: Takes::Input, about }
}

const fn output(name: &'static str, about: &'static str) -> Flag {
    Flag { name, takes: Takes::Output { secret: false }, about }
}

const fn secret(name: &'static str, about: &'static str) -> Flag {
    Flag { name, takes: Takes::Output { secret: true }, about }
}

const fn random(about: &'static str) -> Flag {
    Flag { name: "--random", takes: Takes::Nothing, about }
}

pub const SETS: Command = Command {
    name: "sets",
    about: "lists the sets, their names and lengths, and how large their noise can be",
    usage: &["[--json]"],
    details: "\
The largest sample is the largest size that sampling answers, and the largest noise that of an entry of S'E + E'' - E'S before it is taken mod q; both are proved. An entry that
is h or more, or less than -h, mod q and centred, spoils its bits of the message. The largest noise is more than h in every set, so that no seed is excluded by it; `frodo margin`
says it of a seed, a message and a salt.",
    flags: &[JSON],
    run: list,
};

pub const KEYGEN: Command = Command {
    name: "keygen",
    about: "makes a public and a secret key from a seed",
    usage: &["--seed FILE --public FILE --secret FILE", "--set SET --random --public FILE --secret FILE [--seed-out FILE]"],
    details: "The seed can be kept: with it `frodo margin` and `frodo explain` decide whether noise spoiled a message. Keep it as secret as the secret key.",
    flags: &[
        SET,
        input("--seed", "the key seed: random bytes of the set's length"),
        random("draw the seed from the system"),
        output("--public", "the public key"),
        secret("--secret", "the secret key, mode 0600"),
        secret("--seed-out", "the seed that was drawn, mode 0600"),
        FORCE,
        JSON,
    ],
    run: keygen,
};

pub const SEAL: Command = Command {
    name: "seal",
    about: "seals a message to a public key: gives a sealed report and a shared secret",
    usage: &[
        "--public FILE --message FILE --salt FILE --sealed FILE --key FILE",
        "--public FILE --random --sealed FILE --key FILE [--message-out FILE] [--salt-out FILE]",
    ],
    details: "\
The shared secret is for the caller's own cipher; the sealed report goes beside what that cipher makes.
Message and salt are random bytes, drawn for this report alone.",
    flags: &[
        SET,
        input("--public", "the public key"),
        input("--message", "the message"),
        input("--salt", "the salt"),
        random("draw message and salt from the system"),
        output("--sealed", "the sealed report"),
        secret("--key", "the shared secret, mode 0600"),
        secret("--message-out", "the message that was drawn, mode 0600"),
        output("--salt-out", "the salt that was drawn"),
        FORCE,
        JSON,
    ],
    run: seal,
};

pub const OPEN: Command = Command {
    name: "open",
    about: "opens a sealed report with the secret key: gives the shared secret",
    usage: &["--secret FILE --sealed FILE --key FILE [--message FILE]"],
    details: "A report that is not what sealing makes opens, too: to a secret that nobody else has. That is FrodoKEM's own rule; `frodo explain` tells the two apart.",
    flags: &[
        SET,
        input("--secret", "the secret key"),
        input("--sealed", "the sealed report"),
        secret("--key", "the shared secret, mode 0600"),
        secret("--message", "the recovered message, mode 0600"),
        FORCE,
        JSON,
    ],
    run: open,
};

pub const MARGIN: Command = Command {
    name: "margin",
    about: "says how far the noise of a seed, a message and a salt is from spoiling the message",
    usage: &["--seed FILE --message FILE --salt FILE"],
    details: "Kept or lost: kept if and only if every entry of the noise is at least -h and less than h, and so if and only if the message comes back when its report is opened. \
        At a ratio of exactly 1.0 it is either: an entry of -h spoils nothing, and one of h does.",
    flags: &[SET, input("--seed", "the key seed"), input("--message", "the message"), input("--salt", "the salt"), JSON],
    run: margin,
};

/// The file behind a flag that has to be there.
pub fn read(given: &Given, flag: &str) -> Result<File, Failure> {
    files::read(given.need(flag)?)
}

fn set_fields(set: &Set) -> [(&'static str, Json); 2] {
    [("set", Json::Count(set.number as usize)), ("name", Json::text(set.name))]
}

fn done(set: &Set, text: String, outputs: Vec<(&'static str, Vec<u8>)>) -> Answer {
    Answer { status: Status::Done, text, json: set_fields(set).to_vec(), outputs }
}

/// The rows of the table: a name and each set's length.
fn rows(set: &Set) -> [(&'static str, usize); 9] {
    let l = &set.lengths;
    [
        ("key_seed", l.key_seed),
        ("public_key", l.public_key),
        ("secret_key", l.secret_key),
        ("sealed_report", l.ciphertext),
        ("message", l.message),
        ("salt", l.salt),
        ("shared_secret", l.shared_secret),
        ("noise_words", l.noise_words),
        ("work_words", l.work_words),
    ]
}

/// How large noise can be, and h.
fn noise(set: &Set) -> [(&'static str, usize); 3] {
    [("largest_sample", set.noise_bound() as usize), ("largest_noise", set.noise_most() as usize), ("h", set.half() as usize)]
}

fn list(_: &Given) -> Result<Answer, Failure> {
    let all = sets::all();
    let line = |title: String, cells: [String; 3]| format!("{title:22}{:>22}{:>22}{:>22}\n", cells[0], cells[1], cells[2]);
    let mut text = line("set".into(), all.map(|s| s.number.to_string())) + &line("name".into(), all.map(|s| s.name.to_string()));
    for (row, (name, _)) in rows(&all[0]).iter().enumerate() {
        let unit = if name.ends_with("words") { "u16" } else { "bytes" };
        text += &line(format!("{}, {unit}", name.replace('_', " ")), all.map(|s| rows(&s)[row].1.to_string()));
    }
    for (row, (name, _)) in noise(&all[0]).iter().enumerate() {
        text += &line(name.replace('_', " "), all.map(|s| noise(&s)[row].1.to_string()));
    }
    text += &format!("largest sample: proved ({SAMPLE_SIZE})\nlargest noise: proved ({NOISE_SIZE}); more than h in every set, so that no seed is excluded by it\n");
    let object = |set: &Set| {
        let mut fields = set_fields(set).to_vec();
        fields.extend(rows(set).into_iter().chain(noise(set)).map(|(name, count)| (name, Json::Count(count))));
        Json::Object(fields)
    };
    Ok(Answer { status: Status::Done, text, json: vec![("sets", Json::List(all.iter().map(object).collect()))], outputs: vec![] })
}

fn keygen(given: &Given) -> Result<Answer, Failure> {
    let from_file = given.either(&["--seed"], &["--random"])?;
    given.only_with("--random", &["--seed-out"])?;
    for flag in ["--public", "--secret"] {
        given.need(flag)?;
    }
    let (set, seed) = if from_file {
        let seed = read(given, "--seed")?;
        (sets::settle(given.value("--set"), &[(Kind::Seed, &seed)])?, seed.bytes)
    } else {
        let set = sets::settle(given.value("--set"), &[])?;
        (set, files::random(set.lengths.key_seed)?)
    };
    let keys = Kem::new(set).keys(&seed)?;
    let text = format!("made a key pair of set {}, {}\n", set.number, set.name);
    Ok(done(&set, text, vec![("--public", keys.public), ("--secret", keys.secret), ("--seed-out", seed)]))
}

fn seal(given: &Given) -> Result<Answer, Failure> {
    let from_files = given.either(&["--message", "--salt"], &["--random"])?;
    given.only_with("--random", &["--message-out", "--salt-out"])?;
    for flag in ["--sealed", "--key"] {
        given.need(flag)?;
    }
    let public = read(given, "--public")?;
    let (set, message, salt) = if from_files {
        let (message, salt) = (read(given, "--message")?, read(given, "--salt")?);
        let set = sets::settle(given.value("--set"), &[(Kind::Public, &public), (Kind::Message, &message), (Kind::Salt, &salt)])?;
        (set, message.bytes, salt.bytes)
    } else {
        let set = sets::settle(given.value("--set"), &[(Kind::Public, &public)])?;
        (set, files::random(set.lengths.message)?, files::random(set.lengths.salt)?)
    };
    let sealed = Kem::new(set).seal(&public.bytes, &message, &salt)?;
    let text = format!("sealed to {}, set {}\n", public.name, set.number);
    Ok(done(&set, text, vec![("--sealed", sealed.report), ("--key", sealed.key), ("--message-out", message), ("--salt-out", salt)]))
}

fn open(given: &Given) -> Result<Answer, Failure> {
    given.need("--key")?;
    let (secret, sealed) = (read(given, "--secret")?, read(given, "--sealed")?);
    let set = sets::settle(given.value("--set"), &[(Kind::Secret, &secret), (Kind::Sealed, &sealed)])?;
    let opened = Kem::new(set).open(&secret.bytes, &sealed.bytes)?;
    let text = format!("opened {}, set {}\n", sealed.name, set.number);
    Ok(done(&set, text, vec![("--key", opened.key), ("--message", opened.message)]))
}

/// A ratio of 0 to 1 and beyond as 40 cells.
fn bar(ratio: f64) -> String {
    let filled = (0..40).filter(|&cell| ratio * 40.0 > f64::from(cell)).count();
    format!("[{}{}]{}", "#".repeat(filled), ".".repeat(40 - filled), if ratio > 1.0 { " beyond" } else { "" })
}

/// The margin as text: four lines and a verdict.
pub fn margin_text(set: &Set, found: &Margin) -> String {
    let verdict = if found.kept {
        format!("kept: message and secret come back ({KEPT_BACK})")
    } else {
        format!("lost: an entry is less than -h, or h or more: the message does not come back ({KEPT_EXACTLY})")
    };
    format!("largest of the 64 entries {:>7}\nlimit h {:>25}\nratio {:>27}\n0 {} h\n{verdict}\n", found.size, set.half(), found.ratio, bar(found.ratio))
}

/// The margin for machines.
pub fn margin_json(set: &Set, found: &Margin) -> Json {
    Json::Object(vec![
        ("size", Json::Count(found.size as usize)),
        ("limit", Json::Count(set.half() as usize)),
        ("ratio", Json::Number(found.ratio)),
        ("kept", Json::Bool(found.kept)),
    ])
}

/// A margin, whatever it is, as the command's answer.
fn margin_answer(set: &Set, found: &Margin) -> Answer {
    let mut json = set_fields(set).to_vec();
    json.push(("margin", margin_json(set, found)));
    let status = if found.kept { Status::Done } else { Status::Spoiled };
    Answer { status, text: format!("set {}, {}\n{}", set.number, set.name, margin_text(set, found)), json, outputs: vec![] }
}

fn margin(given: &Given) -> Result<Answer, Failure> {
    let (seed, message, salt) = (read(given, "--seed")?, read(given, "--message")?, read(given, "--salt")?);
    let set = sets::settle(given.value("--set"), &[(Kind::Seed, &seed), (Kind::Message, &message), (Kind::Salt, &salt)])?;
    let found = Kem::new(set).margin(&seed.bytes, &message.bytes, &salt.bytes)?;
    Ok(margin_answer(&set, &found))
}

#[cfg(test)]
mod tests {
    use super::*;

    #[test]
    fn bars() {
        assert_eq!(bar(0.0), format!("[{}]", ".".repeat(40)));
        assert_eq!(bar(0.5), format!("[{}{}]", "#".repeat(20), ".".repeat(20)));
        assert_eq!(bar(0.999), format!("[{}]", "#".repeat(40)));
        assert_eq!(bar(1.0), format!("[{}]", "#".repeat(40)));
        assert_eq!(bar(4.0), format!("[{}] beyond", "#".repeat(40)));
    }

    #[test]
    fn a_lost_margin_has_its_status() {
        let set = sets::all()[2];
        let answer = |size: u32, kept| margin_answer(&set, &Margin { size, ratio: f64::from(size) / 2048.0, kept });
        // the verdict is the library's: a size of h goes with either
        for size in [2048, 2049] {
            let lost = answer(size, false);
            assert!(lost.status == Status::Spoiled && lost.text.contains("\nlost: ") && lost.text.contains("kept-exactly"));
        }
        for size in [2047, 2048] {
            let kept = answer(size, true);
            assert!(kept.status == Status::Done && kept.text.contains("\nkept: ") && !kept.text.contains("beyond"));
        }
    }
}
