//! What was seen of a report, before anything is concluded from it.
use crate::keyfile::KeyCheck;
use crate::sets::Span;
use stroupadal::Margin;

/// How many places are listed of each part.
pub const LISTED: usize = 4;

/// A byte that differs.
#[derive(Clone, Copy, Debug, PartialEq, Eq)]
pub struct Place {
    /// From the file's start.
    pub offset: usize,
    pub found: u8,
    pub expected: u8,
}

/// How a part of a file compares with what it should be.
#[derive(Clone, Debug, PartialEq, Eq)]
pub struct Part {
    pub name: &'static str,
    pub bytes: usize,
    /// How many bytes are there and differ.
    pub differ: usize,
    /// How many bytes are not there: the file ends before.
    pub missing: usize,
    /// The first few places that differ.
    pub first: Vec<Place>,
}

impl Part {
    pub fn same(&self) -> bool {
        self.differ == 0 && self.missing == 0
    }

    /// How many bytes are there and agree.
    pub fn agree(&self) -> usize {
        self.bytes - self.missing - self.differ
    }
}

/// Compares a file, which may end too soon, with what it should be, part by part.
pub fn compare(spans: &[Span], found: &[u8], expected: &[u8]) -> Vec<Part> {
    let part = |(name, span): &Span| {
        let missing = span.end - found.len().clamp(span.start, span.end);
        let places = || (span.start..span.end - missing).filter(|&i| found[i] != expected[i]);
        let first = places().take(LISTED).map(|offset| Place { offset, found: found[offset], expected: expected[offset] }).collect();
        Part { name, bytes: span.len(), differ: places().count(), missing, first }
    };
    spans.iter().map(part).collect()
}

/// Counts of what differs, part by part.
pub fn counts(parts: &[Part]) -> String {
    let count = |p: &Part| match (p.differ, p.missing) {
        (0, 0) => None,
        (differ, 0) => Some(format!("{differ} of {} bytes of {}", p.bytes, p.name)),
        (0, missing) => Some(format!("{missing} missing of {} bytes of {}", p.bytes, p.name)),
        (differ, missing) => Some(format!("{differ} and {missing} missing of {} bytes of {}", p.bytes, p.name)),
    };
    parts.iter().filter_map(count).collect::<Vec<_>>().join(", ")
}

/// How near a report is to a sealing.
#[derive(Clone, Copy, Debug, PartialEq, Eq)]
pub enum Closeness {
    /// In every byte.
    Same,
    /// In more bytes of c1 and c2 than chance gives.
    Near,
    /// In no more bytes than unrelated sealings have in common.
    Far,
}

/// Whether so many bytes agree, of those that are there, as chance does not bring about. Unrelated bytes agree in 1 of 256: of the 9720 bytes of c1 and c2 of the
/// smallest set in 38, with a spread of 6. The threshold is 1 of 64, and 16 more so that few bytes do not pass it by luck: 168 of 9720, 21 times the spread away, which
/// chance reaches less than once in 10^40; at any number of bytes less than once in 10^13. What passes is a copy of the sealing, however much of it was lost.
pub fn related(agree: usize, present: usize) -> bool {
    64 * agree > present + 64 * 16
}

/// How near a report is to the sealing that it was compared with.
pub fn closeness(parts: &[Part]) -> Closeness {
    let matrices = || parts.iter().filter(|p| p.name != "salt");
    let (agree, present) = (matrices().map(Part::agree).sum(), matrices().map(|p| p.bytes - p.missing).sum());
    if parts.iter().all(Part::same) {
        Closeness::Same
    } else if related(agree, present) {
        Closeness::Near
    } else {
        Closeness::Far
    }
}

/// Where the message of a sealing comes from.
#[derive(Clone, Copy, Debug, PartialEq, Eq)]
pub enum Message {
    Given,
    /// The report opens to it.
    Opened,
    /// So many groups of B bits, from this entry of the 64 on, differ from what the report opens to.
    Groups(usize, usize),
    /// The report opens to it when damage in so many rows of c1 and c2 is undone.
    Rows(usize),
}

/// Where the salt of a sealing comes from.
#[derive(Clone, Copy, Debug, PartialEq, Eq)]
pub enum Salt {
    Given,
    /// The report carries it.
    Carried,
    /// One byte differs from what the report carries.
    Byte(usize),
    /// So many bytes at its end, which the report lacks, were put back.
    End(usize),
}

/// A sealing that is held against the report.
#[derive(Clone, Debug)]
pub struct Tried {
    pub message: Message,
    pub salt: Salt,
    /// Where the report differs from it.
    pub parts: Vec<Part>,
    /// The report opens to its message.
    pub message_back: bool,
    /// The report opens to its secret.
    pub secret_back: bool,
    /// The sealing itself opens to its message; asked where the report is near it.
    pub opens_message: bool,
    /// The sealing itself opens to its secret.
    pub opens_secret: bool,
}

/// Which inputs there are beside the report, and whether the key that judges is a seed's.
#[derive(Clone, Copy, Debug, Default, PartialEq, Eq)]
pub struct Inputs {
    pub seed: bool,
    pub message: bool,
    pub salt: bool,
}

/// The report is a sealing where a given message, a given salt or both are left out.
#[derive(Clone, Copy, Debug, PartialEq, Eq)]
pub struct WithoutInputs {
    pub message: bool,
    pub salt: bool,
    pub closeness: Closeness,
}

/// All that was seen. The key that judges is the seed's, or the file's where there is no seed, or where the report is the file's and not the seed's.
#[derive(Clone, Debug)]
pub struct Facts {
    pub inputs: Inputs,
    /// How many bytes the file has that was given as the report, and how many a report of the set has.
    pub found: usize,
    pub expected: usize,
    /// With a secret key file: how its parts fit each other.
    pub check: Option<KeyCheck>,
    /// With a seed and a secret key file: how the file compares with the seed's key.
    pub key_file: Option<Vec<Part>>,
    /// With a seed, where `tried` is near: the key as it stands in the file opens the report to its message and its secret.
    pub file_opens: bool,
    /// The sealing that comes nearest.
    pub tried: Tried,
    /// Where that is far.
    pub without: Option<WithoutInputs>,
    /// With the seed's key, where `tried` is near or all inputs are there.
    pub margin: Option<Margin>,
    /// How many other messages and salts were tried.
    pub searched: Option<usize>,
}

impl Facts {
    /// The report was found to be a sealing to the key that judges, whole or in part.
    pub fn tied(&self) -> bool {
        closeness(&self.tried.parts) != Closeness::Far || self.without.is_some()
    }

    /// A seed was given, and it is not what judges.
    pub fn seed_left_out(&self) -> bool {
        self.key_file.is_some() && !self.inputs.seed
    }
}

#[cfg(test)]
mod tests {
    use super::*;

    const SPANS: [Span; 3] = [("c1", 0..5000), ("c2", 5000..6000), ("salt", 6000..6032)];

    #[test]
    fn places_are_counted_and_the_first_listed() {
        let (mut found, expected) = ([0; 6032], [0; 6032]);
        assert_eq!(closeness(&compare(&SPANS, &found, &expected)), Closeness::Same);
        found[6031] = 1;
        assert_eq!(closeness(&compare(&SPANS, &found, &expected)), Closeness::Near);
        found[2..7].fill(9);
        let parts = compare(&SPANS, &found, &expected);
        assert_eq!(parts.iter().map(|p| p.differ).collect::<Vec<_>>(), [5, 0, 1]);
        assert_eq!(parts[0].first.len(), LISTED);
        assert_eq!(parts[2].first, [Place { offset: 6031, found: 1, expected: 0 }]);
        assert_eq!(counts(&parts), "5 of 5000 bytes of c1, 1 of 32 bytes of salt");
        // 6000 / 64 + 16 is 109.75
        found[..5890].fill(9);
        assert_eq!(closeness(&compare(&SPANS, &found, &expected)), Closeness::Near, "110 of 6000 agree");
        found[5890] = 9;
        assert_eq!(closeness(&compare(&SPANS, &found, &expected)), Closeness::Far, "109 of 6000 agree");
    }

    #[test]
    fn what_is_missing_is_not_held_against_what_is_there() {
        let (found, expected) = ([0; 5001], [0; 6032]);
        let parts = compare(&SPANS, &found, &expected);
        assert_eq!(counts(&parts), "999 missing of 1000 bytes of c2, 32 missing of 32 bytes of salt");
        assert_eq!(closeness(&parts), Closeness::Near);
        assert_eq!(closeness(&compare(&SPANS, &found[..17], &expected)), Closeness::Near, "17 of 17 agree");
        assert_eq!(closeness(&compare(&SPANS, &found[..16], &expected)), Closeness::Far, "16 of 16 are too few");
        assert_eq!(closeness(&compare(&SPANS, &[], &expected)), Closeness::Far);
    }
}
