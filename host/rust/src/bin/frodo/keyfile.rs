//! What a secret key file tells of itself: whether its parts fit each other. pkh is the hash of the public key; B - A*S is small, being E; and every word of S is in
//! the range of the noise. s fits anything. The arithmetic is this program's own, and unproved.
use crate::explain::matrix::{centred, row_of_a, stored_s, word};
use crate::explain::shake::shake;
use crate::sets::Set;

/// How the parts of a secret key fit.
#[derive(Clone, Debug, PartialEq, Eq)]
pub struct KeyCheck {
    /// pkh is the hash of the public key beside it.
    pub pkh_fits: bool,
    /// How many words of S, as they are stored, are larger than noise can be.
    pub s_beyond: usize,
    /// For each column, how many entries of B - A*S are larger than noise can be.
    pub off: [usize; 8],
    /// The number of rows that have such an entry outside the columns that are off as a whole.
    pub rows_off: usize,
    /// The largest size of noise, and the number of rows.
    pub bound: i32,
    pub rows: usize,
}

impl KeyCheck {
    /// Checks a secret key of the set's length.
    pub fn of(set: &Set, secret: &[u8]) -> Self {
        let public = &secret[set.public_in_secret()];
        let mut pkh = vec![0; set.lengths.shared_secret];
        shake(set.rate(), public, &mut pkh);
        let (s, bound) = (stored_s(set, secret), set.noise_bound());
        let beyond: Vec<[bool; 8]> = (0..set.n).map(|i| entries(set, public, &s, i).map(|e| e.abs() > bound)).collect();
        let off: [usize; 8] = std::array::from_fn(|j| beyond.iter().filter(|row| row[j]).count());
        let in_b = |row: &&[bool; 8]| (0..8).any(|j| row[j] && !most(off[j], set.n));
        Self {
            pkh_fits: pkh == secret[set.secret_part("pkh")],
            s_beyond: s.iter().flatten().filter(|w| w.abs() > bound).count(),
            off,
            rows_off: beyond.iter().filter(in_b).count(),
            bound,
            rows: set.n,
        }
    }

    /// Every part fits, as far as that can be seen: of s nothing can.
    pub fn whole(&self) -> bool {
        self.pkh_fits && self.s_fits()
    }

    /// S fits the public key, and is what sampling makes.
    pub fn s_fits(&self) -> bool {
        self.s_beyond == 0 && self.off == [0; 8]
    }

    /// The columns in which most entries are off: a changed word of S moves a whole column, a changed word of B one entry.
    pub fn columns_off(&self) -> Vec<usize> {
        (0..8).filter(|&j| most(self.off[j], self.rows)).collect()
    }

    /// What does not fit, and which part that shows to be damaged, as far as it does.
    pub fn faults(&self) -> Vec<String> {
        let columns = self.columns_off();
        let in_b: usize = (0..8).filter(|j| !columns.contains(j)).map(|j| self.off[j]).sum();
        let mut faults = Vec::new();
        let mut say = |holds: bool, text: String| faults.extend(holds.then_some(text));
        let listed = || columns.iter().map(usize::to_string).collect::<Vec<_>>().join(", ");
        let all = columns.len() == 8;
        let hash = if self.pkh_fits { "" } else { ", and pkh is not the hash of the public key" };
        say(all && self.pkh_fits, "S: B - A*S is large in all columns, while pkh is the hash of the public key; S is damaged as a whole, or another key's".into());
        say(all && !self.pkh_fits, format!("seedA, most of B, or all of S: B - A*S is large in all columns{hash}"));
        say(!all && !columns.is_empty(), format!("S, in column {}: B - A*S is large there in nearly all rows", listed()));
        say(in_b > 0 && !self.pkh_fits, format!("B, in {in_b} entries of {} of its {} rows: B - A*S is large there{hash}", self.rows_off, self.rows));
        say(in_b > 0 && self.pkh_fits, format!("B - A*S is large in {in_b} entries, while pkh is the hash of the public key: no generated key is so"));
        say(self.s_beyond > 0, format!("S, in {} words: they are larger than noise can be, {}", self.s_beyond, self.bound));
        say(!self.pkh_fits && !all && in_b == 0, "pkh, or the lowest bits of B: pkh is not the hash of the public key, and B - A*S does not show why".into());
        faults
    }
}

/// More than half: what damage to few words of B does not reach, and damage to a word of S, or to seedA, does not fall short of.
fn most(count: usize, of: usize) -> bool {
    2 * count > of
}

/// Row `i` of B - A*S, centred.
fn entries(set: &Set, public: &[u8], s: &[[i32; 8]], i: usize) -> [i32; 8] {
    let (seed_a, b) = public.split_at(16);
    let mut row: [i32; 8] = std::array::from_fn(|j| word(b, set.log_q, 8 * i + j));
    for (a, s_row) in row_of_a(set, seed_a, i).iter().zip(s) {
        (0..8).for_each(|j| row[j] = row[j].wrapping_sub(a.wrapping_mul(s_row[j])));
    }
    row.map(|entry| centred(set, entry))
}

#[cfg(test)]
mod tests {
    use super::*;
    use crate::kem::Kem;
    use crate::sets;

    /// The check of a generated key with a byte changed at a place of a part.
    fn changed(set: &Set, part: &str, at: usize, bits: u8) -> KeyCheck {
        let mut secret = Kem::new(*set).keys(&vec![5; set.lengths.key_seed]).unwrap().secret;
        secret[set.secret_part(part).start + at] ^= bits;
        KeyCheck::of(set, &secret)
    }

    fn told(check: &KeyCheck, words: &str) -> bool {
        !check.whole() && check.faults().len() == 1 && check.faults()[0].starts_with(words)
    }

    #[test]
    fn a_generated_key_is_whole_and_nothing_is_told_of_s() {
        for set in sets::all() {
            for check in [changed(&set, "s", 0, 0), changed(&set, "s", 3, 0xff)] {
                assert!(check.whole() && check.faults().is_empty(), "set {}: {check:?}", set.number);
            }
        }
    }

    #[test]
    fn each_part_is_told() {
        for set in sets::all() {
            assert!(told(&changed(&set, "pkh", 1, 1), "pkh, or"), "set {}", set.number);
            assert!(told(&changed(&set, "B", 41 * set.log_q, 0x80), "B, in 1 entries of 1 of its"), "set {}", set.number);
            assert!(told(&changed(&set, "B", 8 * set.log_q - 1, 1), "pkh, or the lowest bits of B"), "set {}: E is one off", set.number);
            assert!(told(&changed(&set, "S", 6 * set.n + 8, 1), "S, in column 3"), "set {}", set.number);
            assert!(told(&changed(&set, "seedA", 15, 4), "seedA, most of B"), "set {}", set.number);
            let high = changed(&set, "S", 1, 0x40);
            assert!(high.faults().len() == 2 && high.s_beyond == 1 && high.columns_off() == [0] && high.pkh_fits, "set {}", set.number);
        }
    }

    /// Bit 15 of a word of S is no part of it where q is 2^15 (docs/DIFFERENCES.md, 8): out of range, and harmless.
    #[test]
    fn a_bit_beyond_q() {
        let check = changed(&sets::all()[0], "S", 1, 0x80);
        assert!(check.off == [0; 8] && told(&check, "S, in 1 words"));
    }
}
