//! The search: stages of candidates, of which the sieve lets few through; these are sealed again by the library and compared.
use super::facts::Message;
use super::gather::{Attempt, Case, Judge};
use super::rows::{self, Opening};
use super::search::{endings, messages, salts, Candidate};
use super::sieve::Sieve;
use std::io::{self, IsTerminal};
use std::thread;
use stroupadal::Refusal;

/// A part of the search: whether it is wanted, what is changed in it, and its candidates.
type Stage<'a> = (bool, &'static str, &'a dyn Fn() -> Box<dyn Iterator<Item = Candidate> + 'a>);

/// How many candidates a core takes at a time.
const BATCH: usize = 1024;

/// How many missing bytes of the salt are searched for.
const MOST_MISSING: usize = 2;

/// Searches near a candidate, changing nothing that was given: what was found, and how many candidates were tried, if it was searched at all.
pub fn search(judge: &Judge<'_>, case: &Case, from: &Candidate) -> Result<(Option<Attempt>, Option<usize>), Refusal> {
    let (any_salt, any_message) = (case.salt.is_none(), case.message.is_none());
    let missing = judge.report.len() - judge.there.len();
    let opening = Opening::new(&judge.set, judge.secret, judge.report);
    let (entries, rows) = (opening.entries_off(), opening.rows_off());
    let put_right = |message: Vec<u8>| Candidate { message: (Message::Rows(rows.len().max(1)), message), ..from.clone() };
    let stages: [Stage<'_>; 6] = [
        (any_salt && (1..=MOST_MISSING).contains(&missing), "the end of the salt", &|| Box::new(endings(from, missing))),
        (any_salt && missing == 0, "one byte of the salt", &|| Box::new(salts(from))),
        (any_message && missing == 0, "bytes of c1", &|| Box::new(rows::messages(&opening).into_iter().map(put_right))),
        (any_message && missing == 0, "one row of c1", &|| Box::new(rows::in_one_row(&opening, false).map(put_right))),
        (any_message && missing == 0, "neighbouring groups of the message", &|| messages(&judge.set, from, &entries)),
        (any_message && missing == 0, "four bytes of a row of c1", &|| Box::new(rows::in_one_row(&opening, true).map(put_right))),
    ];
    if stages.iter().all(|(wanted, _, _)| !wanted) {
        return Ok((None, None));
    }
    crate::say("searching for small damage; --no-search leaves that out\n");
    // the second row of c1 where the first is the damaged one
    let sieve = Sieve::new(judge.set, &judge.secret[judge.set.public_in_secret()], judge.report, usize::from(rows.first() == Some(&0)));
    let (mut found, mut count) = (None, 0);
    for (_, what, stage) in stages.into_iter().filter(|(wanted, _, _)| *wanted) {
        found = first_near(judge, &sieve, what, stage(), &mut count)?;
        if found.is_some() {
            break;
        }
    }
    progress("\r                                                            \r");
    Ok((found, Some(count)))
}

/// The first of some candidates that comes near; counts those that were tried.
fn first_near(judge: &Judge<'_>, sieve: &Sieve, what: &str, candidates: Box<dyn Iterator<Item = Candidate> + '_>, count: &mut usize) -> Result<Option<Attempt>, Refusal> {
    let cores = thread::available_parallelism().map_or(1, usize::from);
    let mut rest = candidates;
    loop {
        progress(&format!("\rsearching: {what}, {count} tried    "));
        let batch: Vec<Candidate> = rest.by_ref().take(BATCH * cores).collect();
        *count += batch.len();
        if batch.is_empty() {
            return Ok(None);
        }
        for candidate in sifted(sieve, &batch) {
            let attempt = judge.attempt(candidate.clone())?;
            if !attempt.far() {
                return Ok(Some(attempt));
            }
        }
    }
}

/// A line that is written over, on a terminal only.
fn progress(line: &str) {
    if io::stderr().is_terminal() {
        crate::say(line);
    }
}

/// The candidates that the sieve lets through, in their order; the work is shared among the cores.
fn sifted<'a>(sieve: &Sieve, candidates: &'a [Candidate]) -> Vec<&'a Candidate> {
    let sift = |part: &'a [Candidate]| part.iter().filter(|c| sieve.lets_through(c)).collect::<Vec<_>>();
    thread::scope(|scope| {
        let running: Vec<_> = candidates.chunks(BATCH).map(|part| scope.spawn(move || sift(part))).collect();
        running.into_iter().flat_map(|part| part.join().expect("the sieve does not panic")).collect()
    })
}
