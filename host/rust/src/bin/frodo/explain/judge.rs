//! The verdict, as a function of the facts alone.
use super::facts::{closeness, counts, Closeness, Facts, Message, Part, Salt, WithoutInputs};
use super::finding::{Finding, Verdict, Weight};
use super::{key, length};
use crate::failure::Status;
use crate::sets::Set;
use crate::theorems::{ACCEPTED, ENCAPS_ONE, KEPT_BACK, KEPT_EXACTLY, KEY_PASSES, RESEALED, THIRD_DEMAND};
use Weight::{Likely, Next, Open, Proved, Seen};

/// The verdict.
pub fn judge(set: &Set, facts: &Facts) -> Finding {
    let tried = &facts.tried;
    let near = closeness(&tried.parts);
    let fits = facts.inputs.seed || facts.check.as_ref().is_some_and(|check| check.pkh_fits);
    let contradicted = near == Closeness::Same && (fits && tried.message_back && !tried.secret_back || kept(facts) == Some(!tried.message_back));
    let finding = match near {
        Closeness::Same if contradicted => contradiction(),
        Closeness::Same if tried.message_back => whole(facts),
        Closeness::Same if facts.inputs.seed => spoiled(facts),
        Closeness::Same if s_fits(facts) => spoiled_by_a_whole_key(facts),
        Closeness::Same => s_damaged(facts),
        Closeness::Near => damaged(facts),
        Closeness::Far => far(set, facts),
    };
    let known = near != Closeness::Far && !contradicted;
    let finding = if facts.found > facts.expected && facts.tied() { length::longer(set, facts, finding) } else { finding };
    Finding { known, ..key::told(facts, finding) }
}

fn kept(facts: &Facts) -> Option<bool> {
    facts.margin.map(|m| m.kept)
}

/// S in the key file that judges fits the public key beside it.
fn s_fits(facts: &Facts) -> bool {
    facts.check.as_ref().is_some_and(|check| check.s_fits())
}

/// The key that judges is a file's, and its parts do not fit each other.
fn bad_key(facts: &Facts) -> bool {
    !facts.inputs.seed && facts.check.as_ref().is_some_and(|check| !check.whole())
}

/// The sealing that was tried, in words.
fn sealing(facts: &Facts) -> String {
    let message = match facts.tried.message {
        Message::Given => "the given message".to_string(),
        Message::Opened => "the message that the report opens to".to_string(),
        Message::Groups(entry, 1) => format!("the message that it opens to, with the group at row {}, column {} changed,", entry / 8, entry % 8),
        Message::Groups(entry, count) => format!("the message that it opens to, with {count} groups from row {}, column {} on changed,", entry / 8, entry % 8),
        Message::Rows(rows) => format!("the message that it opens to when the damage in {rows} of the 8 rows of c1 and c2 is undone"),
    };
    let salt = match facts.tried.salt {
        Salt::Given => "the given salt".to_string(),
        Salt::Carried => "the report's own salt".to_string(),
        Salt::End(count) => format!("the report's salt with the last {count} bytes of it put back"),
        Salt::Byte(byte) => format!("the report's salt with byte {byte} of it changed"),
    };
    let key = if facts.inputs.seed { "the seed's public key" } else { "the public key in the secret key file" };
    format!("{message} with {salt} under {key}")
}

/// What is known of the noise, where a seed has told it.
fn noise(facts: &Facts, finding: Finding) -> Finding {
    match kept(facts) {
        None => finding,
        Some(true) => finding.because(Proved(KEPT_BACK), "The margin is kept: noise cannot spoil this message. Undamaged, it comes back, and its secret with it."),
        Some(false) => finding.because(Proved(KEPT_EXACTLY), "The margin is lost: undamaged, too, this message does not come back. Noise spoils it."),
    }
}

fn whole(facts: &Facts) -> Finding {
    let finding =
        Finding::new(Verdict::Intact, "The report is, in every byte, what sealing makes.").because(Seen, format!("Sealing {} gives these very bytes.", sealing(facts)));
    if !facts.tried.secret_back {
        return unfit(finding);
    }
    let finding = if facts.inputs.seed {
        let text = "The message comes back if and only if every entry of the noise is in range. It came back; and where it does, both ends have one secret.";
        noise(facts, finding.because(Proved(THIRD_DEMAND), text))
    } else {
        finding.because(Proved(ACCEPTED), "Under a key that holds its own hash only such bytes are accepted, and these were: `frodo open` gives their secret.")
    };
    let sent = "That it is also the report that was sent: damage does not turn one sealing into another but by a chance that nobody meets. Whoever has the public key \
        can make another on purpose.";
    finding.because_if(!facts.inputs.message || !facts.inputs.salt, Likely, sent)
}

/// The bytes are right and the secret is not: decapsulation, which goes by the stored pkh, did not accept what the public key makes.
fn unfit(finding: Finding) -> Finding {
    let headline = "The secret key file is damaged: its pkh is not the hash of its public key. The report is, in every byte, what sealing makes.";
    let finding = Finding { headline: headline.into(), status: Status::KeyDamaged, ..finding };
    finding
        .because(Seen, "`frodo open` gives another secret than that sealing has.")
        .because(Proved(KEY_PASSES), "A generated key holds the hash of its public key, and decapsulation would then have accepted these bytes and given that secret.")
        .because(Next, "--repair --key-out writes the report's secret. `frodo keygen --seed` makes the key again, under a new name.")
}

fn spoiled(facts: &Facts) -> Finding {
    let headline = "The report is, in every byte, what sealing makes, and its message does not come back: noise spoiled it.";
    Finding::new(Verdict::Spoiled, headline)
        .because(Seen, format!("Sealing {} gives these very bytes, and the seed's key opens them to another message.", sealing(facts)))
        .because(Proved(THIRD_DEMAND), "The message comes back if and only if every entry of the noise is in range: here one is not. Nothing else can be the cause.")
        .because_if(kept(facts) == Some(false), Proved(KEPT_EXACTLY), "The margin says so too: lost.")
}

/// The same without a seed: the key file's S fits its public key.
fn spoiled_by_a_whole_key(facts: &Facts) -> Finding {
    let headline = "The report is, in every byte, what sealing makes, and its message does not come back: noise spoiled it.";
    let likely = "That S in the secret key file is as it was generated: S is small, and leaves B - A*S small in every entry. A changed word of S would leave a whole column large.";
    Finding::new(Verdict::Spoiled, headline)
        .because(Seen, format!("Sealing {} gives these very bytes, and the secret key opens them to another message.", sealing(facts)))
        .because(Proved(THIRD_DEMAND), "Under a key as it was generated the message fails to come back only where an entry of the noise is out of range.")
        .because(Likely, likely)
        .because(Next, "--repair writes the report's secret, which is known all the same. With --seed nothing is left to chance.")
}

/// The report is what sealing makes, and the key file's S does not fit its public key: it is what cannot open it.
fn s_damaged(facts: &Facts) -> Finding {
    let headline = "The secret key file is damaged, in S. The report is not: it is, in every byte, what sealing makes.";
    Finding::new(Verdict::Intact, headline)
        .because(Seen, format!("Sealing {} gives these very bytes, and the secret key opens them to another message.", sealing(facts)))
        .because(Open, "Whether noise would spoil the message under the key as it was generated: that cannot be told with this S.")
        .because(Next, "--seed decides that. --repair writes the report's secret, which is known either way.")
}

fn damaged(facts: &Facts) -> Finding {
    let tried = &facts.tried;
    let missing = facts.expected.saturating_sub(facts.found);
    let cut = if missing > 0 { format!("The report ends too soon: {missing} bytes are missing. It") } else { "The report".to_string() };
    let finding = Finding::new(Verdict::Damaged, format!("{cut} differs from the sealed one in {}.", counts(&tried.parts)))
        .because(Seen, format!("Sealing {} gives the sealed report.", sealing(facts)));
    let finding = if facts.inputs.message && facts.inputs.salt {
        finding.because(Proved(ENCAPS_ONE), "Public key, message and salt fix every byte of the sealed report, and these are not all of them.")
    } else {
        let matrices = || tried.parts.iter().filter(|p| p.name != "salt");
        let (agree, bytes) = (matrices().map(Part::agree).sum::<usize>(), matrices().map(|p| p.bytes - p.missing).sum::<usize>());
        let text = "Under a key as it was generated: if this message and this salt are those that were sealed, what was made again is the sealed report in every byte, \
            and its secret is the sealed one's.";
        let likely = format!(
            "That they are: {agree} of {bytes} bytes of c1 and c2 agree. Sealings of another message or salt agree in a byte by chance only, 1 in 256, \
            which rests on SHAKE and is not proved."
        );
        finding.because(Proved(RESEALED), text).because(Likely, likely)
    };
    noise(facts, confirmed(facts, finding))
}

/// What came of opening the repaired report.
fn confirmed(facts: &Facts, finding: Finding) -> Finding {
    let tried = &facts.tried;
    match (tried.opens_message, tried.opens_secret) {
        (true, true) => finding.because(Seen, "The repaired report opens to this message and this secret: noise did not spoil it."),
        (true, false) => finding
            .because(Seen, "The repaired report opens to this message, but to another secret: the secret key file's pkh is not the hash of its public key.")
            .because(Proved(KEY_PASSES), "A generated key holds that hash: the key file is damaged as well. The secret that --repair writes is the sealed one's."),
        (false, _) if facts.inputs.seed => finding.because(Proved(THIRD_DEMAND), "The repaired report does not open to this message: noise spoils it as well."),
        (false, _) if s_fits(facts) => finding.because(Likely, "The repaired report does not open to this message: noise spoils it as well. S fits the public key."),
        (false, _) => finding.because(Seen, "The repaired report does not open to this message: S in the secret key file is damaged as well."),
    }
}

fn far(set: &Set, facts: &Facts) -> Finding {
    let inputs = facts.inputs;
    match facts.without {
        Some(without) => others(without),
        None if facts.found != facts.expected => length::unexplained(set, facts),
        None if bad_key(facts) => unjudged(facts),
        None if inputs.message && inputs.salt && !facts.tried.message_back => unrelated(facts),
        None => undecided(facts),
    }
}

/// The report is a sealing to this key, of other inputs than those that were given.
fn others(without: WithoutInputs) -> Finding {
    let what = if without.closeness == Closeness::Same { "in every byte a sealing" } else { "in part a sealing, damaged," };
    let (wrong, flags, seen) = match (without.message, without.salt) {
        (true, true) => {
            ("message and the salt that were given: they are another report's, or damaged", "--message and --salt", "what it opens to with the salt that it carries")
        }
        (true, false) => {
            ("message that was given: that is another report's, or damaged", "--message", "what it opens to with the given salt, or with the one that it carries,")
        }
        (false, _) => ("salt that was given: that is another report's, or damaged", "--salt", "the given message, or what it opens to, with the salt that it carries"),
    };
    Finding::new(Verdict::Undecided, format!("The report is {what} to this key, but not of the {wrong}."))
        .because(Seen, format!("Sealing {seen} gives it; sealing all that was given gives wholly other bytes."))
        .because(Open, "Whether what was given belongs to another report, or the report was replaced by another.")
        .because(Next, format!("Without {flags} it is judged by itself."))
}

/// The key file is damaged, and the report cannot be judged with it.
fn unjudged(facts: &Facts) -> Finding {
    let public = facts.check.as_ref().is_some_and(|check| check.pkh_fits) && !(facts.inputs.message && facts.inputs.salt);
    Finding::new(Verdict::Undecided, "The secret key file is damaged, and with it the report cannot be judged.")
        .because(Seen, format!("Sealing {} gives other bytes nearly everywhere, as it does where the public key, or S, is damaged.", sealing(facts)))
        .because(Open, "Whether the report is intact.")
        .because_if(public, Next, "The public key is whole: --message and --salt of the report's sealing can judge it.")
        .because(Next, "Keep the report. The seed (--seed), or a whole copy of the secret key, can judge it; `frodo check` tells whether a copy is whole.")
}

/// Nothing ties the inputs to the report: it may be destroyed, and it may be whole and another's.
fn unrelated(facts: &Facts) -> Finding {
    let key = if facts.inputs.seed { "seed" } else { "key" };
    let finding =
        Finding::new(Verdict::Undecided, format!("The report has no more in common with what sealing makes of {key}, message and salt than any other report has."))
            .because(Seen, format!("{} differ: as many as between two unrelated sealings.", counts(&facts.tried.parts)))
            .because(Proved(ENCAPS_ONE), format!("The {key}, the message and the salt fix every byte of the sealed report. If they are this report's, it was destroyed."))
            .because(Open, "Whether they are this report's, or it was not sealed to this key, or of another message and salt, and is whole.");
    let carried = facts.tried.parts.iter().any(|p| p.name == "salt" && p.same());
    let finding =
        finding.because_if(carried, Seen, "The given salt is the one that the report carries: the key or the message is not this report's, or c1 and c2 are destroyed.");
    noise(facts, finding).because(Next, "Keep the report, and try other keys, messages and salts before it is given up.")
}

/// What can be the cause where nothing was tied to the report.
fn causes(facts: &Facts) -> Vec<&'static str> {
    let (inputs, narrowed) = (facts.inputs, facts.inputs.message && facts.tried.message_back);
    let mut causes = Vec::new();
    if !narrowed {
        causes.push("c1 or c2 is damaged so much that the message does not come back");
        causes.push("noise spoiled the message");
        causes.push("the report was not sealed to this key");
    }
    causes.push(if inputs.salt { "the given salt is not this report's" } else { "the salt is damaged in more than one byte" });
    if inputs.message && !narrowed {
        causes.push("the given message is not this report's");
    }
    causes
}

fn undecided(facts: &Facts) -> Finding {
    let inputs = facts.inputs;
    let mut finding = Finding::new(Verdict::Undecided, "It cannot be decided from what was given.")
        .because(Seen, format!("Sealing {} gives other bytes nearly everywhere.", sealing(facts)));
    if let Some(count) = facts.searched {
        finding = finding.because(Seen, format!("Of {count} messages and salts that differ a little, none is this report's, by a quick test."));
    }
    let narrowed = inputs.message && facts.tried.message_back;
    finding = finding.because_if(narrowed, Likely, "The report opens to the given message, so that c1, c2 and S are whole or nearly so.");
    let missing: Vec<&str> = [(inputs.message, "--message"), (inputs.salt, "--salt")].iter().filter(|(given, _)| !given).map(|(_, flag)| *flag).collect();
    finding
        .because(Proved(ACCEPTED), "Under a key that holds its own hash such bytes are not accepted: `frodo open` gives a secret made of them and the key's s.")
        .because(Open, format!("Which of these it is: {}.", causes(facts).join("; ")))
        .because_if(!missing.is_empty(), Next, format!("{} of its sealing decide it, if it was sealed to this key.", missing.join(", ")))
}

/// Facts that a theorem rules out.
fn contradiction() -> Finding {
    Finding::new(Verdict::Undecided, "What was seen contradicts a theorem: the machine or this program is at fault.")
        .because(Proved(THIRD_DEMAND), "A report that is what sealing makes, under a key as it was generated, opens to its secret wherever its message comes back.")
        .because(Proved(KEPT_EXACTLY), "And its message comes back if and only if the margin is kept.")
        .because(Next, "Run it again, on another machine.")
}

#[cfg(test)]
mod tests {
    use super::super::facts::{Inputs, Tried};
    use super::*;
    use crate::keyfile::KeyCheck;
    use crate::sets;
    use crate::theorems::{Theorem, KEY_FITS};
    use stroupadal::Margin;

    const KEPT: Option<Margin> = Some(Margin { size: 200, ratio: 200.0 / 2048.0, kept: true });
    const LOST: Option<Margin> = Some(Margin { size: 3000, ratio: 3000.0 / 2048.0, kept: false });
    const ALL: Inputs = Inputs { seed: true, message: true, salt: true };
    const WHOLE: KeyCheck = KeyCheck { pkh_fits: true, s_beyond: 0, off: [0; 8], rows_off: 0, bound: 12, rows: 640 };
    const NO_PKH: KeyCheck = KeyCheck { pkh_fits: false, ..WHOLE };
    const BAD_S: KeyCheck = KeyCheck { off: [0, 639, 0, 0, 0, 0, 0, 0], ..WHOLE };
    const NO_B: KeyCheck = KeyCheck { pkh_fits: false, off: [640; 8], ..WHOLE };

    fn part(name: &'static str, bytes: usize, differ: usize) -> Part {
        Part { name, bytes, differ, missing: 0, first: vec![] }
    }

    fn verdict(facts: &Facts) -> Finding {
        judge(&sets::all()[0], facts)
    }

    /// A report that is in every byte what sealing makes, judged by the secret key alone.
    fn facts() -> Facts {
        let parts = vec![part("c1", 1000, 0), part("c2", 100, 0), part("salt", 64, 0)];
        let tried = Tried { message: Message::Opened, salt: Salt::Carried, parts, message_back: true, secret_back: true, opens_message: true, opens_secret: true };
        let (found, expected, check) = (9752, 9752, Some(WHOLE));
        Facts { inputs: Inputs::default(), found, expected, check, key_file: None, file_opens: true, tried, without: None, margin: None, searched: None }
    }

    fn with_seed() -> Facts {
        let mut f = facts();
        f.inputs = ALL;
        f.key_file = Some(key_parts([0, 0, 0, 0, 0]));
        (f.tried.message, f.tried.salt, f.margin) = (Message::Given, Salt::Given, KEPT);
        f
    }

    /// How a key file compares with the seed's key: differing bytes of s, seedA, B, S and pkh.
    fn key_parts([s, seed_a, b, s_matrix, pkh]: [usize; 5]) -> Vec<Part> {
        vec![part("s", 16, s), part("seedA", 16, seed_a), part("B", 9600, b), part("S", 10240, s_matrix), part("pkh", 16, pkh)]
    }

    const ANOTHER: [usize; 5] = [16, 16, 9560, 7000, 16];

    /// No more of the report agrees than chance gives.
    fn unrelated_to(mut f: Facts) -> Facts {
        (f.tried.parts[0].differ, f.tried.parts[1].differ, f.tried.message_back, f.tried.secret_back, f.file_opens) = (996, 100, false, false, false);
        f
    }

    fn cites(finding: &Finding, theorem: Theorem) -> bool {
        finding.reasons.iter().any(|(weight, _)| *weight == Proved(theorem))
    }

    fn says(finding: &Finding, weight: Weight, words: &str) -> bool {
        finding.reasons.iter().any(|(w, text)| *w == weight && text.contains(words))
    }

    fn first(finding: &Finding, words: &str) -> bool {
        finding.reasons[0].1.contains(words)
    }

    #[test]
    fn intact() {
        let alone = verdict(&facts());
        assert!(alone.verdict == Verdict::Intact && alone.status == Status::Done && alone.known && cites(&alone, ACCEPTED));
        assert!(says(&alone, Likely, "the report that was sent"));
        let decided = verdict(&with_seed());
        assert!(decided.status == Status::Done && cites(&decided, THIRD_DEMAND) && cites(&decided, KEPT_BACK));
        assert!(!decided.reasons.iter().any(|(w, _)| *w == Likely), "with all inputs nothing is left to chance");
    }

    #[test]
    fn spoiled_by_noise() {
        let mut f = with_seed();
        (f.tried.message_back, f.tried.secret_back, f.tried.opens_message, f.tried.opens_secret, f.margin) = (false, false, false, false, LOST);
        let finding = verdict(&f);
        assert!(finding.verdict == Verdict::Spoiled && finding.status == Status::Spoiled && finding.known && cites(&finding, THIRD_DEMAND));
        assert!(cites(&finding, KEPT_EXACTLY));
        // the same without the seed: the key file's S fits its public key, so that it is not the cause
        (f.inputs.seed, f.key_file, f.margin) = (false, None, None);
        let finding = verdict(&f);
        assert!(finding.verdict == Verdict::Spoiled && finding.known && says(&finding, Likely, "as it was generated"));
        // or does not fit it: the report is as it was sealed, and the key file is not
        f.check = Some(BAD_S);
        let finding = verdict(&f);
        assert!(finding.verdict == Verdict::Intact && finding.status == Status::KeyDamaged && finding.known && first(&finding, "S, in column 1"));
        assert!(says(&finding, Next, "--seed decides that") && says(&finding, Open, "noise"));
        // found by the search, with the seed: decided again
        (f.inputs, f.tried.message, f.tried.salt, f.margin) = (Inputs { seed: true, ..Inputs::default() }, Message::Groups(9, 1), Salt::Carried, LOST);
        let finding = verdict(&f);
        assert!(finding.status == Status::Spoiled && says(&finding, Seen, "row 1, column 1"));
    }

    #[test]
    fn what_a_theorem_rules_out_is_not_believed() {
        let mut f = with_seed();
        (f.tried.message_back, f.tried.secret_back) = (false, false);
        assert!(verdict(&f).headline.contains("contradicts a theorem"), "kept, and the message did not come back");
        let mut f = with_seed();
        f.margin = LOST;
        assert!(verdict(&f).headline.contains("contradicts a theorem"), "lost, and the message came back");
        let mut f = with_seed();
        f.tried.secret_back = false;
        let finding = verdict(&f);
        assert!(finding.headline.contains("contradicts a theorem") && finding.status == Status::Undecided && !finding.known);
        // without the seed, under a key that holds its own hash
        let mut f = facts();
        f.tried.secret_back = false;
        assert!(verdict(&f).headline.contains("contradicts a theorem"));
    }

    #[test]
    fn damaged() {
        let mut f = facts();
        (f.tried.parts[0].differ, f.tried.secret_back) = (3, false);
        let finding = verdict(&f);
        assert!(finding.verdict == Verdict::Damaged && finding.known && cites(&finding, RESEALED));
        assert!(finding.headline.contains("3 of 1000 bytes of c1") && says(&finding, Likely, "1097 of 1100"));
        (f.tried.opens_secret, f.check) = (false, Some(NO_PKH));
        assert!(cites(&verdict(&f), KEY_PASSES) && first(&verdict(&f), "pkh"), "the key file is damaged as well");
        (f.tried.opens_message, f.check) = (false, Some(BAD_S));
        assert!(says(&verdict(&f), Seen, "S in the secret key file is damaged as well"));
        f.check = Some(WHOLE);
        assert!(says(&verdict(&f), Likely, "noise spoils it as well"));
        let mut f = with_seed();
        f.tried.parts[2].differ = 2;
        let finding = verdict(&f);
        assert!(finding.status == Status::Damaged && cites(&finding, ENCAPS_ONE) && cites(&finding, KEPT_BACK) && !cites(&finding, RESEALED));
        f.margin = LOST;
        assert!(says(&verdict(&f), Proved(KEPT_EXACTLY), "undamaged, too"));
        // nearly all of it is lost, and what is left is still no chance
        f.tried.parts[0].differ = 950;
        assert!(verdict(&f).status == Status::Damaged && verdict(&f).known);
    }

    #[test]
    fn a_key_file_that_is_damaged() {
        let mut f = facts();
        (f.tried.secret_back, f.check) = (false, Some(NO_PKH));
        let finding = verdict(&f);
        assert!(finding.verdict == Verdict::Intact && finding.status == Status::KeyDamaged && finding.known && cites(&finding, KEY_PASSES));
        let mut f = with_seed();
        (f.check, f.key_file) = (Some(BAD_S), Some(key_parts([0, 0, 0, 2, 0])));
        let finding = verdict(&f);
        assert!(finding.verdict == Verdict::Intact && finding.status == Status::KeyDamaged && says(&finding, Seen, "2 of 10240 bytes of S"));
        assert!(cites(&finding, KEY_FITS) && !cites(&finding, KEY_PASSES));
        // B lost, and all else there: damaged, not another's
        (f.check, f.key_file) = (Some(NO_B), Some(key_parts([0, 0, 9600, 0, 0])));
        assert!(verdict(&f).status == Status::KeyDamaged && first(&verdict(&f), "The secret key file is damaged"));
        let mut f = unrelated_to(facts());
        f.check = Some(NO_B);
        let finding = verdict(&f);
        assert!(
            finding.status == Status::Undecided && finding.headline.starts_with("The secret key file is damaged") && !says(&finding, Open, "was not sealed to this key")
        );
    }

    #[test]
    fn a_seed_that_differs() {
        // in s alone nothing tells whose is right, and the report is intact
        let mut f = with_seed();
        f.key_file = Some(key_parts([1, 0, 0, 0, 0]));
        assert!(verdict(&f).status == Status::Done && says(&verdict(&f), Seen, "Nothing tells which of the two"));
        // of another key, while the report is the file's; or damaged, in what S is drawn from
        for (differing, words) in [(ANOTHER, "The seed is of another key"), ([0, 0, 9560, 7000, 16], "The seed is damaged")] {
            let mut f = facts();
            f.key_file = Some(key_parts(differing));
            let finding = verdict(&f);
            assert!(finding.status == Status::Done && first(&finding, words) && says(&finding, Next, "Keep the secret key file"));
            assert!(!says(&finding, Next, "makes the key again"), "a whole key file is not to be made again");
        }
        // the report is the seed's, and the file another whole key
        let mut f = with_seed();
        (f.key_file, f.file_opens) = (Some(key_parts(ANOTHER)), false);
        let finding = verdict(&f);
        assert!(finding.status == Status::KeyDamaged && first(&finding, "whole and of another key") && says(&finding, Next, "under a new name"));
        // neither
        let finding = verdict(&unrelated_to(f));
        assert!(finding.status == Status::Undecided && first(&finding, "wholly different keys") && says(&finding, Next, "replace neither"));
    }

    #[test]
    fn far_from_every_sealing() {
        let mut f = unrelated_to(facts());
        f.searched = Some(512);
        let finding = verdict(&f);
        assert!(finding.verdict == Verdict::Undecided && !finding.known && cites(&finding, ACCEPTED) && says(&finding, Open, "not sealed to this key"));
        assert!(says(&finding, Seen, "Of 512 messages and salts") && says(&finding, Next, "--message, --salt of its sealing decide it"));
        (f.inputs.message, f.tried.message) = (true, Message::Given);
        assert!(says(&verdict(&f), Open, "the salt is damaged in more than one byte"));
        f.without = Some(WithoutInputs { message: true, salt: false, closeness: Closeness::Same });
        assert!(verdict(&f).headline.contains("in every byte a sealing to this key, but not of the message") && says(&verdict(&f), Next, "Without --message it"));

        // nothing ties seed, message and salt to the report: it may be whole, and another's
        let finding = verdict(&unrelated_to(with_seed()));
        assert!(finding.verdict == Verdict::Undecided && !finding.known && cites(&finding, ENCAPS_ONE) && cites(&finding, KEPT_BACK));
        assert!(says(&finding, Open, "not sealed to this key") && says(&finding, Next, "Keep the report"));
    }

    #[test]
    fn another_length() {
        let of = |found: usize| verdict(&Facts { found, ..unrelated_to(facts()) });
        let short = of(9751);
        assert!(short.status == Status::Damaged && short.headline.contains("9751 bytes") && short.headline.contains("has 9752") && !short.known);
        assert!(of(0).status == Status::Damaged && says(&of(0), Next, "Get the report again"));
        for (length, words) in [
            (15792, "a report of set 2"),
            (9720, "a report without salt, of the sizes of set 1"),
            (15793, "set 2 and 1 bytes more"),
            (9753, "set 1 and 1 bytes more"),
            (31584, "set 2, 2 times"),
        ] {
            let finding = of(length);
            assert!(finding.status == Status::Undecided && finding.headline.contains(words), "{length}: {}", finding.headline);
            assert!(says(&finding, Next, "Keep it") && !says(&finding, Next, "report again"), "it may be whole");
        }
        let longer = |mut f: Facts| {
            f.found = 2 * f.expected;
            verdict(&f)
        };
        let finding = longer(facts());
        assert!(finding.status == Status::Damaged && finding.known && finding.headline.contains("9752 bytes stand behind it") && finding.headline.contains("2 times"));
        let mut f = facts();
        (f.found, f.tried.parts[2].missing) = (9751, 1);
        assert!(verdict(&f).status == Status::Damaged && verdict(&f).known && verdict(&f).headline.contains("1 bytes are missing"));
    }
}
