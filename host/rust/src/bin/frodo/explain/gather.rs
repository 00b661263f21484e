//! Gathers the facts: opens the report, seals again, compares, and searches where that is far off.
use super::facts::{closeness, compare, Closeness, Facts, Inputs, Message, Part, Salt, Tried, WithoutInputs};
use super::search::Candidate;
use super::seek;
use crate::kem::{Kem, Opened, Sealed};
use crate::keyfile::KeyCheck;
use crate::sets::Set;
use stroupadal::Refusal;

/// A report, and what else there is: a secret key, a seed, or both. All lengths but the report's are the set's.
pub struct Case {
    pub secret: Option<Vec<u8>>,
    pub report: Vec<u8>,
    pub seed: Option<Vec<u8>>,
    pub message: Option<Vec<u8>>,
    pub salt: Option<Vec<u8>>,
    pub search: bool,
}

/// The facts, and the sealing that they speak of.
pub struct Gathered {
    pub facts: Facts,
    pub sealed: Sealed,
}

/// A sealing of a candidate, and how the report compares with it.
pub struct Attempt {
    pub candidate: Candidate,
    pub sealed: Sealed,
    pub parts: Vec<Part>,
}

impl Attempt {
    pub fn far(&self) -> bool {
        closeness(&self.parts) == Closeness::Far
    }
}

/// A key that may judge, and the report.
pub struct Judge<'a> {
    pub set: Set,
    /// The key is the seed's.
    pub by_seed: bool,
    pub secret: &'a [u8],
    /// The bytes that are there, at most as many as a report has.
    pub there: &'a [u8],
    /// The same, and zeros for those that are not.
    pub report: &'a [u8],
}

/// What a key says of the report.
struct Look<'a> {
    judge: Judge<'a>,
    opened: Opened,
    best: Attempt,
    without: Option<WithoutInputs>,
    searched: Option<usize>,
}

impl Look<'_> {
    fn tied(&self) -> bool {
        !self.best.far() || self.without.is_some()
    }
}

impl<'a> Judge<'a> {
    pub fn attempt(&self, candidate: Candidate) -> Result<Attempt, Refusal> {
        let public = &self.secret[self.set.public_in_secret()];
        let sealed = Kem::new(self.set).seal(public, &candidate.message.1, &candidate.salt.1)?;
        let parts = compare(&self.set.sealed_parts(), self.there, &sealed.report);
        Ok(Attempt { candidate, sealed, parts })
    }

    /// Holds the report against a sealing of the inputs and, where that is far, against those that leave an input out.
    fn look(self, case: &Case) -> Result<Look<'a>, Refusal> {
        let opened = Kem::new(self.set).open(self.secret, self.report)?;
        let best = self.attempt(self.candidate(case, &opened, true, true))?;
        let (message, salt) = (case.message.is_some(), case.salt.is_some());
        let fewer = [(false, true), (true, false), (true, true)].into_iter().filter(|(m, s)| (message || !m) && (salt || !s));
        let mut without = None;
        for (no_message, no_salt) in fewer.filter(|_| best.far()) {
            let attempt = self.attempt(self.candidate(case, &opened, !no_message, !no_salt))?;
            if !attempt.far() {
                without = Some(WithoutInputs { message: no_message, salt: no_salt, closeness: closeness(&attempt.parts) });
                break;
            }
        }
        Ok(Look { judge: self, opened, best, without, searched: None })
    }

    /// What the report opens to and carries, or in place of that what was given, where it is to be used.
    fn candidate(&self, case: &Case, opened: &Opened, message: bool, salt: bool) -> Candidate {
        let given = |input: &Option<Vec<u8>>, used: bool| input.clone().filter(|_| used);
        let carried = || (Salt::Carried, self.report[self.set.salt_in_sealed()].to_vec());
        Candidate {
            message: given(&case.message, message).map_or_else(|| (Message::Opened, opened.message.clone()), |m| (Message::Given, m)),
            salt: given(&case.salt, salt).map_or_else(carried, |s| (Salt::Given, s)),
        }
    }
}

/// Gathers all facts of a case. The seed's key is asked first, then the file's where its public key is another: the report tells which of them is its own.
pub fn gather(kem: &mut Kem, case: &Case) -> Result<Gathered, Refusal> {
    let set = kem.set;
    let made = case.seed.as_ref().map(|seed| kem.keys(seed)).transpose()?.map(|keys| keys.secret);
    let there = &case.report[..case.report.len().min(set.lengths.ciphertext)];
    let mut report = there.to_vec();
    report.resize(set.lengths.ciphertext, 0);
    let public = |secret: &[u8]| secret[set.public_in_secret()].to_vec();
    let another = case.secret.as_ref().filter(|file| made.as_ref().is_none_or(|made| public(made) != public(file)));
    let keys = [(true, made.as_ref()), (false, another)].into_iter().filter_map(|(by_seed, secret)| Some((by_seed, secret?)));
    let mut looks = Vec::new();
    for (by_seed, secret) in keys {
        looks.push(Judge { set, by_seed, secret, there, report: &report }.look(case)?);
    }
    let check = case.secret.as_ref().map(|file| KeyCheck::of(&set, file));
    let useless = |look: &Look| !look.judge.by_seed && check.as_ref().is_some_and(|c| c.off != [0; 8]);
    if case.search && !looks.iter().any(Look::tied) {
        for look in looks.iter_mut().filter(|look| !useless(look)) {
            let (found, count) = seek::search(&look.judge, case, &look.best.candidate)?;
            look.searched = count;
            if let Some(found) = found {
                look.best = found;
                break;
            }
        }
    }
    let chosen = looks.iter().position(Look::tied).unwrap_or(0);
    let key_file = made.as_ref().zip(case.secret.as_ref()).map(|(made, file)| compare(&set.secret_parts(), file, made));
    concluded(kem, case, looks.swap_remove(chosen), check, key_file)
}

/// The facts of what the key that judges has said.
fn concluded(kem: &mut Kem, case: &Case, look: Look<'_>, check: Option<KeyCheck>, key_file: Option<Vec<Part>>) -> Result<Gathered, Refusal> {
    let Look { judge, opened, best, without, searched } = look;
    let inputs = Inputs { seed: judge.by_seed, message: case.message.is_some(), salt: case.salt.is_some() };
    let tried = tried(kem, judge.secret, &best, &opened)?;
    let file_opens = match &case.secret {
        Some(file) if key_file.is_some() && !best.far() => opens(kem, file, judge.report, &best)? == (true, true),
        _ => false,
    };
    let margin = match &case.seed {
        Some(seed) if judge.by_seed && (!best.far() || inputs.message && inputs.salt) => Some(kem.margin(seed, &best.candidate.message.1, &best.candidate.salt.1)?),
        _ => None,
    };
    let (found, expected) = (case.report.len(), kem.set.lengths.ciphertext);
    Ok(Gathered { facts: Facts { inputs, found, expected, check, key_file, file_opens, tried, without, margin, searched }, sealed: best.sealed })
}

/// Whether a key opens some bytes to an attempt's message, and to its secret.
fn opens(kem: &mut Kem, secret: &[u8], report: &[u8], attempt: &Attempt) -> Result<(bool, bool), Refusal> {
    let opened = kem.open(secret, report)?;
    Ok((opened.message == attempt.candidate.message.1, opened.key == attempt.sealed.key))
}

fn tried(kem: &mut Kem, secret: &[u8], best: &Attempt, opened: &Opened) -> Result<Tried, Refusal> {
    let (message_back, secret_back) = (opened.message == best.candidate.message.1, opened.key == best.sealed.key);
    let (opens_message, opens_secret) = match closeness(&best.parts) {
        Closeness::Same => (message_back, secret_back),
        Closeness::Near => opens(kem, secret, &best.sealed.report, best)?,
        Closeness::Far => (false, false),
    };
    let (message, salt, parts) = (best.candidate.message.0, best.candidate.salt.0, best.parts.clone());
    Ok(Tried { message, salt, parts, message_back, secret_back, opens_message, opens_secret })
}
