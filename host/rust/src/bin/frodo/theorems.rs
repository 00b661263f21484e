//! The theorems that the program's answers cite.
use std::fmt;

/// A theorem, or some that stand together, by name and the file that proves it.
#[derive(Clone, Copy, Debug, PartialEq, Eq)]
pub struct Theorem {
    pub name: &'static str,
    pub file: &'static str,
}

impl fmt::Display for Theorem {
    fn fmt(&self, f: &mut fmt::Formatter<'_>) -> fmt::Result {
        write!(f, "{}, {}", self.name, self.file)
    }
}

pub const ACCEPTED: Theorem = Theorem { name: "accepted", file: "crates/scheme/proofs/Accepted.antt" };
pub const THIRD_DEMAND: Theorem = Theorem { name: "third-demand", file: "crates/scheme/proofs/Demand3.antt" };
pub const RESEALED: Theorem = Theorem { name: "resealed, resealed-secret", file: "crates/scheme/proofs/Consequences.antt" };
pub const KEPT_BACK: Theorem = Theorem { name: "kept-back", file: "crates/scheme/proofs/Margin.antt" };
pub const KEPT_EXACTLY: Theorem = Theorem { name: "kept-exactly", file: "crates/scheme/proofs/Margin.antt" };
pub const KEY_PASSES: Theorem = Theorem { name: "key-passes", file: "crates/scheme/proofs/Keys.antt" };
pub const KEY_FITS: Theorem = Theorem { name: "key-fits", file: "crates/sizes/proofs/Keys.antt" };
pub const ENCAPS_ONE: Theorem = Theorem { name: "encaps-one", file: "crates/frodo/proofs/One.antt" };
/// Set by set.
pub const SAMPLE_SIZE: Theorem = Theorem { name: "sample640, sample976, sample1344", file: "crates/noise/proofs/Bounds.antt" };
pub const NOISE_SIZE: Theorem = Theorem { name: "noise640, noise976, noise1344", file: "crates/sizes/proofs/Sizes.antt" };

#[cfg(test)]
mod tests {
    use super::*;
    use crate::sets::{self, Set};

    const THEOREMS: [Theorem; 10] = [ACCEPTED, THIRD_DEMAND, RESEALED, KEPT_BACK, KEPT_EXACTLY, KEY_PASSES, KEY_FITS, ENCAPS_ONE, SAMPLE_SIZE, NOISE_SIZE];

    /// The first line of each statement.
    fn statements(theorem: Theorem) -> Vec<String> {
        let path = format!("{}/../../{}", env!("CARGO_MANIFEST_DIR"), theorem.file);
        let text = std::fs::read_to_string(&path).unwrap_or_else(|error| panic!("{path}: {error}"));
        let statement = |name: &str| text.lines().map(str::trim_start).find(|line| line.starts_with(&format!("pub {name} :"))).map(str::to_string);
        theorem.name.split(", ").map(|name| statement(name).unwrap_or_else(|| panic!("{name} is not in {path}"))).collect()
    }

    /// Every theorem stands, by that name, in the file that it names.
    #[test]
    fn they_are_where_they_are_said_to_be() {
        for theorem in THEOREMS {
            assert_eq!(statements(theorem).len(), theorem.name.split(", ").count());
        }
    }

    /// The bounds that `frodo sets` shows are those of the theorems that it names.
    #[test]
    fn bounds_are_the_proved_ones() {
        for (theorem, bound) in [(SAMPLE_SIZE, Set::noise_bound as fn(&Set) -> i32), (NOISE_SIZE, Set::noise_most)] {
            for (set, statement) in sets::all().iter().zip(statements(theorem)) {
                assert!(statement.ends_with(&format!(" ≤ {}", bound(set))), "set {}: {statement}", set.number);
            }
        }
    }
}
