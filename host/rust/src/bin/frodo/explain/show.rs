//! A finding as text and as JSON.
use super::facts::{Facts, Part};
use super::finding::{Finding, Verdict, Weight};
use super::key::{relation, Relation};
use crate::check::check_json;
use crate::commands::{margin_json, margin_text};
use crate::json::Json;
use crate::sets::Set;
use std::fmt::Write as _;

const WIDTH: usize = 110;

/// Words in lines of WIDTH, each line behind so many blanks; the first line is begun already.
fn wrapped(text: &str, blanks: usize) -> String {
    let mut lines = String::new();
    let mut at = blanks;
    for word in text.split_whitespace() {
        if at > blanks && at + 1 + word.chars().count() > WIDTH {
            let _ = write!(lines, "\n{:blanks$}", "");
            at = blanks;
        }
        let gap = if at == blanks { "" } else { " " };
        let _ = write!(lines, "{gap}{word}");
        at += gap.len() + word.chars().count();
    }
    lines + "\n"
}

fn part_line(part: &Part) -> String {
    let mut line = format!("  {:5} {:>6} of {:>5} bytes", part.name, part.differ, part.bytes);
    for (i, place) in part.first.iter().enumerate() {
        let _ = write!(line, "{} at {}: {:02x}, sealed {:02x}", if i == 0 { ":" } else { ";" }, place.offset, place.found, place.expected);
    }
    if part.differ > part.first.len() {
        line += "; ..";
    }
    if part.missing > 0 {
        let _ = write!(line, "; {} missing", part.missing);
    }
    line + "\n"
}

/// The finding as a reader wants it.
pub fn text(set: &Set, finding: &Finding, facts: &Facts) -> String {
    let mut text = format!("verdict: {}\n{}", finding.verdict.name(), wrapped(&finding.headline, 0));
    if finding.known && finding.verdict == Verdict::Damaged {
        text += "\nwhere the report differs:\n";
        facts.tried.parts.iter().for_each(|part| text += &part_line(part));
    }
    text += "\nwhy:\n";
    for (weight, reason) in &finding.reasons {
        let cited = match weight {
            Weight::Proved(theorem) => format!("{reason} ({theorem})"),
            _ => reason.clone(),
        };
        let _ = write!(text, "  {:8}{}", weight.name(), wrapped(&cited, 10));
    }
    if let Some(margin) = facts.margin {
        let _ = write!(text, "\nmargin:\n{}", margin_text(set, &margin));
    }
    text
}

fn part_json(part: &Part) -> Json {
    let place = |p: &super::facts::Place| {
        Json::Object(vec![("offset", Json::Count(p.offset)), ("found", Json::Count(p.found.into())), ("sealed", Json::Count(p.expected.into()))])
    };
    Json::Object(vec![
        ("part", Json::text(part.name)),
        ("bytes", Json::Count(part.bytes)),
        ("differ", Json::Count(part.differ)),
        ("missing", Json::Count(part.missing)),
        ("first", Json::List(part.first.iter().map(place).collect())),
    ])
}

/// Of a key only counts: its bytes are secret.
fn key_json(part: &Part) -> Json {
    Json::Object(vec![("part", Json::text(part.name)), ("bytes", Json::Count(part.bytes)), ("differ", Json::Count(part.differ))])
}

fn reason_json((weight, text): &(Weight, String)) -> Json {
    let mut fields = vec![("kind", Json::text(weight.name())), ("text", Json::text(text))];
    if let Weight::Proved(theorem) = weight {
        fields.extend([("theorem", Json::text(theorem.name)), ("file", Json::text(theorem.file))]);
    }
    Json::Object(fields)
}

/// How a seed and the secret key file belong together, in a word.
fn seed_json(facts: &Facts) -> Json {
    facts.key_file.as_ref().zip(facts.check.as_ref()).map_or(Json::Null, |(parts, check)| {
        Json::text(match relation(parts, check) {
            Relation::Same => "same",
            Relation::OnlyS => "differs in s",
            Relation::FileDamaged => "key file damaged",
            Relation::SeedDamaged => "seed damaged",
            Relation::Unclear => "unclear",
            Relation::Other => "another key",
        })
    })
}

/// The finding as a machine wants it.
pub fn json(set: &Set, finding: &Finding, facts: &Facts) -> Vec<(&'static str, Json)> {
    let list = |parts: &[Part], of: fn(&Part) -> Json| Json::List(parts.iter().map(of).collect());
    let tied = finding.known && finding.verdict != Verdict::Undecided;
    vec![
        ("set", Json::Count(set.number as usize)),
        ("verdict", Json::text(finding.verdict.name())),
        ("headline", Json::text(&finding.headline)),
        ("known", Json::Bool(finding.known)),
        ("report_bytes", Json::Count(facts.found)),
        ("differences", if tied { list(&facts.tried.parts, part_json) } else { Json::Null }),
        ("key_check", facts.check.as_ref().map_or(Json::Null, check_json)),
        ("key_file", facts.key_file.as_ref().map_or(Json::Null, |parts| list(parts, key_json))),
        ("seed_and_key_file", seed_json(facts)),
        ("judged_by", Json::text(if facts.inputs.seed { "seed" } else { "key file" })),
        ("margin", facts.margin.map_or(Json::Null, |m| margin_json(set, &m))),
        ("searched", facts.searched.map_or(Json::Null, Json::Count)),
        ("reasons", Json::List(finding.reasons.iter().map(reason_json).collect())),
    ]
}
