//! What the secret key file and the seed tell of each other, and what is said of that. A key file that may be good is never to be replaced on this program's word.
use super::facts::{counts, related, Facts, Part};
use super::finding::{Finding, Verdict, Weight};
use crate::failure::Status;
use crate::keyfile::KeyCheck;
use crate::theorems::KEY_FITS;
use Weight::{Next, Proved, Seen};

/// How a secret key file and a seed belong together.
#[derive(Clone, Copy, Debug, PartialEq, Eq)]
pub enum Relation {
    /// The file is the seed's key.
    Same,
    /// They differ in s alone, of which nothing tells whose is right.
    OnlyS,
    /// The file is the seed's key, damaged.
    FileDamaged,
    /// The file is a whole key and not the seed's, though they share a part: the seed is damaged.
    SeedDamaged,
    /// They share a part, and the file is not whole: either may be damaged, or both.
    Unclear,
    /// They share nothing.
    Other,
}

/// How many bytes of s, seedA or pkh make it certain that they are not alike by chance: 6 of 32, which chance gives once in 10^8.
const ENOUGH: usize = 6;

/// The relation, from how the file compares with the seed's key and how its parts fit each other. A seed holds s, what S and E are drawn from, and what seedA is drawn
/// from: damage to one of these leaves the others' parts alike.
pub fn relation(parts: &[Part], check: &KeyCheck) -> Relation {
    let part = |name: &str| parts.iter().find(|p| p.name == name);
    let some = |name: &str| part(name).is_some_and(|p| p.agree() >= ENOUGH);
    let b = part("B").is_some_and(|p| related(p.agree(), p.bytes));
    // unrelated words of S are alike in a third of their bytes, most being near 0
    let s_matrix = part("S").is_some_and(|p| 4 * p.differ < p.bytes);
    let own = some("pkh") || b || some("seedA") && s_matrix;
    if parts.iter().all(Part::same) {
        Relation::Same
    } else if check.whole() && parts.iter().all(|p| p.same() || p.name == "s") {
        Relation::OnlyS
    } else if own && !check.whole() {
        Relation::FileDamaged
    } else if some("s") || some("seedA") || s_matrix {
        if check.whole() {
            Relation::SeedDamaged
        } else {
            Relation::Unclear
        }
    } else {
        Relation::Other
    }
}

/// The faults of a key file in a sentence.
pub fn faults(check: &KeyCheck) -> String {
    format!("The secret key file is damaged. What is: {}.", check.faults().join("; "))
}

/// With the faults of a key file before all else, and behind them what is proved of a generated key where S or B does not fit.
fn faulty(check: &KeyCheck, text: String, finding: Finding) -> Finding {
    let proved = format!("In a generated key no word of S and no entry of B - A*S is larger than {}, the set's largest sample.", check.bound);
    let finding = if check.s_fits() { finding } else { finding.first(Proved(KEY_FITS), proved) };
    finding.first(Seen, text)
}

/// With what the key file and the seed tell. Where the file is the damaged one that is said first, and a report that is intact has the status of a bad key file.
pub fn told(facts: &Facts, finding: Finding) -> Finding {
    let Some(check) = &facts.check else {
        return finding;
    };
    let Some(parts) = &facts.key_file else {
        return alone(check, finding);
    };
    match relation(parts, check) {
        Relation::Same => finding.because(Seen, "The secret key file is, in every byte, the key that the seed makes."),
        Relation::OnlyS => {
            let text = format!("The secret key file differs from the seed's key in {} alone. Nothing tells which of the two is damaged there", counts(parts));
            finding.because(Seen, text + ", and no intact report needs s.")
        }
        Relation::FileDamaged => file_damaged(facts, check, parts, finding),
        _ if facts.seed_left_out() => seed_of_another(check, parts, finding),
        _ if facts.tied() => file_of_another(check, parts, finding),
        relation => neither(relation, check, finding),
    }
}

/// Without a seed.
fn alone(check: &KeyCheck, finding: Finding) -> Finding {
    if check.whole() {
        let unsure = matches!(finding.verdict, Verdict::Undecided | Verdict::Spoiled);
        return finding.because_if(unsure, Seen, "The secret key file is whole, as far as its parts tell (`frodo check`).");
    }
    faulty(check, faults(check), bad_key(finding))
}

/// A report that is intact, and a key file that is not: that has a status of its own.
fn bad_key(finding: Finding) -> Finding {
    let status = if finding.verdict == Verdict::Intact { Status::KeyDamaged } else { finding.status };
    Finding { status, ..finding }
}

fn file_damaged(facts: &Facts, check: &KeyCheck, parts: &[Part], finding: Finding) -> Finding {
    let opens = match (facts.file_opens, facts.tied()) {
        (true, _) => "; it opens this report all the same",
        (false, true) => "; it does not open this report to its secret",
        (false, false) => "",
    };
    let rests = if facts.inputs.seed { " The verdict rests on the seed's key." } else { "" };
    let text = format!("{} It differs from the seed's key in {}{opens}.{rests}", faults(check), counts(parts));
    faulty(check, text, bad_key(finding)).because(Next, "`frodo keygen --seed` makes the key again: under a new name, and `frodo check` tells that it is whole.")
}

/// The report is the file's, and the seed was left out.
fn seed_of_another(check: &KeyCheck, parts: &[Part], finding: Finding) -> Finding {
    let which = match relation(parts, check) {
        Relation::SeedDamaged | Relation::Unclear => "The seed is damaged: it makes another key than the file's, with which it shares a part",
        _ => "The seed is of another key: it makes a wholly different one from the secret key file's",
    };
    let finding = finding.first(Seen, format!("{which}. The report was sealed to the file's key, and the seed was left out."));
    let finding = if check.whole() { finding } else { faulty(check, faults(check), bad_key(finding)) };
    finding.because(Next, "Keep the secret key file: this seed does not make it again.")
}

/// The report is the seed's, and the file is not.
fn file_of_another(check: &KeyCheck, parts: &[Part], finding: Finding) -> Finding {
    let state = if check.whole() { "is whole and of another key than the seed's" } else { "is not the seed's key, and is damaged" };
    let text = format!("The secret key file {state}: it differs in {}. The report was sealed to the seed's key, and the verdict rests on that.", counts(parts));
    bad_key(finding)
        .first(Seen, text)
        .because(Next, "`frodo keygen --seed` makes this report's key: under a new name, for the key file that was given may be needed elsewhere.")
}

/// The report could be tied to neither of two keys.
fn neither(relation: Relation, check: &KeyCheck, finding: Finding) -> Finding {
    let which = match relation {
        Relation::SeedDamaged => "The seed is damaged: it makes another key than the secret key file's, which is whole, and shares a part with it",
        Relation::Unclear => "The seed makes another key than the secret key file's, and one of them is damaged, or both are",
        _ => "The seed and the secret key file are of wholly different keys",
    };
    let finding = finding.first(Seen, format!("{which}. The report could be tied to neither key."));
    let finding = if check.whole() { finding } else { faulty(check, faults(check), finding) };
    finding.because(Next, "Find out which of the two is this report's, and replace neither before.")
}
