//! The three sets as the program sees them: names, lengths, the parts of a report and of a secret key, and which set some files belong to.
use crate::failure::Failure;
use crate::files::File;
use std::collections::BTreeMap;
use std::ffi::OsStr;
use std::ops::Range;
use stroupadal::{lengths, Frodo1344Shake, Frodo640Shake, Frodo976Shake, Lengths};

#[derive(Clone, Copy, Debug)]
pub struct Set {
    pub number: u32,
    pub name: &'static str,
    pub n: usize,
    pub log_q: usize,
    /// Message bits in an entry: B.
    pub bits: usize,
    pub lengths: Lengths,
}

/// A part of a file, by name and place.
pub type Span = (&'static str, Range<usize>);

/// All sets.
pub fn all() -> [Set; 3] {
    macro_rules! of {
        ($kem:ident) => {
            Set {
                number: $kem::SET,
                name: $kem::NAME,
                n: $kem::N,
                log_q: $kem::LOG_Q,
                bits: $kem::EXTRACTED_BITS,
                lengths: lengths($kem::SET).expect("the library knows its own sets"),
            }
        };
    }
    [of!(Frodo640Shake), of!(Frodo976Shake), of!(Frodo1344Shake)]
}

impl Set {
    /// h = q / 2^(B+1).
    pub fn half(&self) -> u32 {
        1 << (self.log_q - self.bits - 1)
    }

    /// c1, c2 and the salt of a report.
    pub fn sealed_parts(&self) -> Vec<Span> {
        spans(&[("c1", self.log_q * self.n), ("c2", self.log_q * 8), ("salt", self.lengths.salt)])
    }

    /// s, seedA, B, S and pkh of a secret key.
    pub fn secret_parts(&self) -> Vec<Span> {
        let secret = self.lengths.shared_secret;
        spans(&[("s", secret), ("seedA", 16), ("B", self.lengths.public_key - 16), ("S", 16 * self.n), ("pkh", secret)])
    }

    /// Where a secret key holds a part.
    pub fn secret_part(&self, name: &str) -> Range<usize> {
        self.secret_parts().into_iter().find(|(part, _)| *part == name).map_or(0..0, |(_, span)| span)
    }

    /// Where a secret key holds the public key.
    pub fn public_in_secret(&self) -> Range<usize> {
        let start = self.lengths.shared_secret;
        start..start + self.lengths.public_key
    }

    /// Where a report holds the salt.
    pub fn salt_in_sealed(&self) -> Range<usize> {
        self.lengths.ciphertext - self.lengths.salt..self.lengths.ciphertext
    }

    /// The table of the noise, its last entry left out (docs/RULES.md, 4.5).
    pub fn noise_table(&self) -> &'static [u16] {
        match self.n {
            640 => &[4643, 13363, 20579, 25843, 29227, 31145, 32103, 32525, 32689, 32745, 32762, 32766],
            976 => &[5638, 15915, 23689, 28571, 31116, 32217, 32613, 32731, 32760, 32766],
            _ => &[9142, 23462, 30338, 32361, 32725, 32765],
        }
    }

    /// The largest size of a sample: one for each entry of the table that is counted (docs/RULES.md, 4.5.3).
    pub fn noise_bound(&self) -> i32 {
        self.noise_table().len() as i32
    }

    /// The largest size that an entry of S'E + E'' - E'S can have, before it is taken mod q: 2n products of two samples, and a sample.
    pub fn noise_most(&self) -> i32 {
        let (n, bound) = (self.n as i32, self.noise_bound());
        2 * n * bound * bound + bound
    }

    /// The spread of an entry of S'E + E'' - E'S, each word of these being drawn by the table.
    pub fn noise_spread(&self) -> f64 {
        let above = |t: &u16| 1.0 - f64::from(t + 1) / 32768.0;
        // a size is at least k with what lies above entry k - 1: the mean of its square is the sum of (2k - 1) times that
        let variance: f64 = self.noise_table().iter().enumerate().map(|(k, t)| (2 * k + 1) as f64 * above(t)).sum();
        (2.0 * self.n as f64 * variance * variance + variance).sqrt()
    }

    /// The rate of the set's hashes in bytes: SHAKE128's or SHAKE256's.
    pub fn rate(&self) -> usize {
        if self.n == 640 {
            168
        } else {
            136
        }
    }
}

/// The lengths that whole reports have, in order, and what has that length: the reports of the sets, and those that are made without salt.
pub fn report_lengths() -> BTreeMap<usize, Vec<String>> {
    let mut lengths: BTreeMap<usize, Vec<String>> = BTreeMap::new();
    for set in all() {
        let Lengths { ciphertext, salt, .. } = set.lengths;
        lengths.entry(ciphertext).or_default().push(format!("a report of set {}", set.number));
        if salt > 0 {
            lengths.entry(ciphertext - salt).or_default().push(format!("a report without salt, of the sizes of set {}", set.number));
        }
    }
    lengths
}

fn spans(parts: &[(&'static str, usize)]) -> Vec<Span> {
    let mut start = 0;
    parts
        .iter()
        .map(|&(name, length)| {
            start += length;
            (name, start - length..start)
        })
        .collect()
}

/// What a file is to be.
#[derive(Clone, Copy, Debug, PartialEq, Eq)]
pub enum Kind {
    Seed,
    Public,
    Secret,
    Sealed,
    Message,
    Salt,
}

impl Kind {
    pub fn name(self) -> &'static str {
        match self {
            Self::Seed => "key seed",
            Self::Public => "public key",
            Self::Secret => "secret key",
            Self::Sealed => "sealed report",
            Self::Message => "message",
            Self::Salt => "salt",
        }
    }

    pub fn length(self, set: &Set) -> usize {
        let l = &set.lengths;
        match self {
            Self::Seed => l.key_seed,
            Self::Public => l.public_key,
            Self::Secret => l.secret_key,
            Self::Sealed => l.ciphertext,
            Self::Message => l.message,
            Self::Salt => l.salt,
        }
    }
}

/// The set that a word names: its number, its name, or the name's middle.
pub fn named(word: &OsStr) -> Result<Set, Failure> {
    let text = word.to_string_lossy().to_lowercase();
    let is = |set: &Set| text == set.number.to_string() || text == set.name.to_lowercase() || text == set.n.to_string();
    all().into_iter().find(is).ok_or_else(|| {
        let expected = all().map(|s| format!("{} ({})", s.number, s.name)).join(", ");
        Failure::usage(format!("--set {}: there is no such set, expected {expected}", word.to_string_lossy()))
    })
}

/// The lengths of a kind in all sets, for an error's text.
fn choices(kind: Kind) -> String {
    let [a, b, c] = all().map(|s| format!("{} (set {})", kind.length(&s), s.number));
    format!("{a}, {b} or {c}")
}

fn set_of(kind: Kind, length: usize) -> Option<Set> {
    all().into_iter().find(|s| kind.length(s) == length)
}

/// The set whose lengths the files have; `word` is what --set says.
pub fn settle(word: Option<&OsStr>, files: &[(Kind, &File)]) -> Result<Set, Failure> {
    let mut settled = match word {
        Some(word) => Some((named(word)?, "--set says so".to_string())),
        None => None,
    };
    for (kind, file) in files {
        let (found, name) = (file.bytes.len(), kind.name());
        let own = set_of(*kind, found);
        match (&settled, own) {
            (None, Some(own)) => settled = Some((own, format!("{} is a {name} of set {}, with {found} bytes", file.name, own.number))),
            (None, None) => return Err(Failure::refused(format!("{} has {found} bytes, and no {name} has that many: expected {}", file.name, choices(*kind)))),
            (Some((set, _)), Some(own)) if own.number == set.number => {}
            (Some((set, why)), own) => {
                let also = own.map_or_else(|| "no set's".to_string(), |own| format!("set {}'s", own.number));
                return Err(Failure::refused(format!(
                    "{} has {found} bytes, expected {} for a {name} of set {} ({why}); {found} is {also} length",
                    file.name,
                    kind.length(set),
                    set.number
                )));
            }
        }
    }
    settled.map(|(set, _)| set).ok_or_else(|| Failure::usage("--set is missing: 1, 2 or 3"))
}

#[cfg(test)]
mod tests {
    use super::*;

    fn file(name: &str, length: usize) -> File {
        File { name: name.into(), bytes: vec![0; length] }
    }

    #[test]
    fn parts_fill_their_files() {
        for set in all() {
            assert_eq!(set.sealed_parts().last().unwrap().1, set.salt_in_sealed());
            assert_eq!(set.secret_parts().last().unwrap().1.end, set.lengths.secret_key);
            let parts = set.secret_parts();
            assert_eq!(set.public_in_secret(), parts[1].1.start..parts[2].1.end);
        }
        assert_eq!(all().map(|s| s.half()), [4096, 4096, 2048]);
        assert_eq!(all().map(|s| s.noise_bound()), [12, 10, 6]);
        assert_eq!(all().map(|s| s.noise_most()), [184332, 195210, 96774]);
        assert!(all().iter().all(|s| s.noise_most() > s.half() as i32), "so that the bound excludes no seed");
        assert_eq!(all().map(|s| s.noise_spread().round() as u32), [283, 237, 106], "of 2.8, 2.3 and 1.4, drawn as whole numbers");
        assert_eq!(report_lengths().into_keys().collect::<Vec<_>>(), [9720, 9752, 15744, 15792, 21632, 21696]);
    }

    #[test]
    fn files_tell_the_set() {
        assert_eq!(settle(None, &[(Kind::Public, &file("p", 15632)), (Kind::Salt, &file("s", 48))]).unwrap().number, 2);
        assert_eq!(settle(Some(OsStr::new("frodokem-1344-shake")), &[]).unwrap().number, 3);
        let text = |word: Option<&str>, kind, length| settle(word.map(OsStr::new), &[(kind, &file("f", length))]).unwrap_err().text;
        assert_eq!(text(None, Kind::Salt, 33), "f has 33 bytes, and no salt has that many: expected 32 (set 1), 48 (set 2) or 64 (set 3)");
        assert_eq!(text(Some("1"), Kind::Salt, 48), "f has 48 bytes, expected 32 for a salt of set 1 (--set says so); 48 is set 2's length");
        assert_eq!(text(Some("1"), Kind::Salt, 1), "f has 1 bytes, expected 32 for a salt of set 1 (--set says so); 1 is no set's length");
        let both = settle(None, &[(Kind::Message, &file("m", 16)), (Kind::Salt, &file("s", 64))]).unwrap_err().text;
        assert_eq!(both, "s has 64 bytes, expected 32 for a salt of set 1 (m is a message of set 1, with 16 bytes); 64 is set 3's length");
    }
}
