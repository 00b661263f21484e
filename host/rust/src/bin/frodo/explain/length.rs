//! The verdict on a file that has not the length of a report of the set.
use super::facts::Facts;
use super::finding::{Finding, Verdict, Weight};
use crate::failure::Status;
use crate::sets::{self, Set};
use Weight::{Next, Open, Seen};

/// How many bytes behind a report are taken for an accident of carrying it: a line's end, an end mark, padding.
const TRAILING: usize = 16;

/// What a file of so many bytes can hold whole, though it is no report of this set as it was made: a report of another kind, or one with bytes behind it.
pub fn holds(set: &Set, found: usize) -> Vec<String> {
    let mut kinds = Vec::new();
    for (length, names) in sets::report_lengths().into_iter().filter(|(length, _)| *length <= found) {
        let (more, over, own) = (found - length, found % length, length == set.lengths.ciphertext);
        let behind = match more {
            0 => String::new(),
            _ if over == 0 => format!(", {} times", found / length),
            _ if more <= TRAILING || own => format!(" and {more} bytes more"),
            _ => continue,
        };
        kinds.extend(names.iter().map(|name| name.clone() + &behind));
    }
    kinds
}

/// The verdict on a file of another length that no sealing was tied to. Where it can hold a whole report it may be one, of another key.
pub fn unexplained(set: &Set, facts: &Facts) -> Finding {
    let (found, expected) = (facts.found, facts.expected);
    let kinds = holds(set, found);
    if kinds.is_empty() {
        let headline = if found == 0 { "The report is empty".to_string() } else { format!("The report has {found} bytes") };
        return Finding::new(Verdict::Damaged, format!("{headline}, and a report of set {} has {expected}: {} bytes are missing.", set.number, expected - found))
            .because(Seen, "No set's report has that length.")
            .because(Next, "Get the report again. With --message and --salt what is there is compared, and the rest made again.");
    }
    let headline = match sets::report_lengths().get(&found) {
        Some(names) => {
            format!(
                "The file has {found} bytes, the length of {}: as it stands it is none of this key's, which is of set {} with {expected}.",
                names.join(", or of "),
                set.number
            )
        }
        None => format!("The file has {found} bytes, and a report of set {} has {expected}. It can hold {}.", set.number, kinds.join(", or ")),
    };
    let or = if found < expected { "a report to this key that was cut short" } else { "a report to this key, damaged, with more behind it" };
    Finding::new(Verdict::Undecided, headline)
        .because(Seen, "What it begins with could not be tied to this key.")
        .because(Open, format!("Whether it is whole and was sealed to another key, or is {or}."))
        .because(Next, "Keep it, and try the key that it was sealed to. With --message and --salt of its sealing it can be told whether it was sealed to this one.")
}

/// The verdict on a file that begins with a report which was tied to the key, and goes on.
pub fn longer(set: &Set, facts: &Facts, finding: Finding) -> Finding {
    let more = facts.found - facts.expected;
    let (times, over) = (facts.found / facts.expected, facts.found % facts.expected);
    let copies = if over == 0 { format!(": {times} times the length of one") } else { String::new() };
    let headline = format!(
        "The file begins with a report of set {}, and {more} bytes stand behind it that are none of its own{copies}. Of the report: {}",
        set.number, finding.headline
    );
    let (verdict, status) = match finding.verdict {
        Verdict::Intact => (Verdict::Damaged, Status::Damaged),
        verdict => (verdict, finding.status),
    };
    let next = format!("The first {} bytes are the report, and --repair writes them as they were sealed.", facts.expected);
    Finding { verdict, status, headline, ..finding }.because_if(verdict == Verdict::Damaged, Next, next)
}
