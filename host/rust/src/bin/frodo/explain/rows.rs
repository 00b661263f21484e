//! Damage to c1 and c2 that spoils the message: which messages the report would open to if some bytes of a row of c1, or of c2, were others.
//!
//! C - B'*S is the encoded message plus noise that is small beside h, so that each of its 64 entries stands near a multiple of 2h. Damage in row i of c1 or c2 moves
//! the entries of row i alone. Where rows stand off, every change of two neighbouring bytes that brings all entries of a row back is a guess, the nearest one first.
//! Where none does, every change of one byte that moves entries from one multiple to another is. One row that stands off is tried further: all that its groups can be,
//! where these are few, and else what a change of three or four neighbouring bytes makes of them. Guesses need no trust: each is sealed again and compared.
use super::burst::Burst;
use super::matrix::{stored_s, word};
use crate::sets::Set;
use std::collections::HashSet;

/// How many combinations of guesses are given at most where rows stand off.
const MOST: usize = 20_000;

/// Two neighbouring bytes of a row, and what a change of them does to the row's entries.
struct Window {
    /// The two words that they have a part in, in a row.
    words: i64,
    /// How far the bytes are from the lower end of these.
    shift: usize,
    /// How often a change of the first word, and of the second, goes into each entry.
    factors: [[i32; 8]; 2],
}

/// Rows have at most so many bits where all that their groups can be is tried.
const ALL_BITS: usize = 16;

/// C - B'*S of a report, and what it was made of.
pub struct Opening<'a> {
    set: &'a Set,
    c1: &'a [u8],
    c2: &'a [u8],
    /// S, a row for each of the n words of a row of B'.
    s: Vec<[i32; 8]>,
    entries: [[i32; 8]; 8],
    /// The most that an entry may stand off: of 64 entries noise leaves one beyond in one report of 2000. That makes the guesses fail, no more.
    limit: i32,
}

/// How far a row's entries stand off, the less the better, and the row's groups.
type Guess = (i32, [u8; 8]);

impl<'a> Opening<'a> {
    pub fn new(set: &'a Set, secret: &[u8], report: &'a [u8]) -> Self {
        let (parts, d) = (set.sealed_parts(), set.log_q);
        let (c1, c2) = (&report[parts[0].1.clone()], &report[parts[1].1.clone()]);
        let s = stored_s(set, secret);
        let mut entries: [[i32; 8]; 8] = std::array::from_fn(|i| std::array::from_fn(|j| word(c2, d, 8 * i + j)));
        for (i, row) in entries.iter_mut().enumerate() {
            for (k, s_row) in s.iter().enumerate() {
                let b = word(c1, d, i * set.n + k);
                (0..8).for_each(|j| row[j] = row[j].wrapping_sub(b.wrapping_mul(s_row[j])));
            }
        }
        Self { set, c1, c2, s, entries, limit: (4.5 * set.noise_spread()) as i32 }
    }

    /// h = q / 2^(B+1).
    fn half(&self) -> i32 {
        1 << (self.set.log_q - self.set.bits - 1)
    }

    /// How far an entry is from the nearest multiple of 2h.
    fn off(&self, entry: i32) -> i32 {
        ((entry.wrapping_add(self.half()) & (2 * self.half() - 1)) - self.half()).abs()
    }

    /// The entries of the 64 that stand off.
    pub fn entries_off(&self) -> Vec<usize> {
        (0..64).filter(|&at| self.off(self.entries[at / 8][at % 8]) > self.limit).collect()
    }

    /// The rows that have such an entry.
    pub fn rows_off(&self) -> Vec<usize> {
        let mut rows: Vec<usize> = self.entries_off().iter().map(|at| at / 8).collect();
        rows.dedup();
        rows
    }

    /// The groups of a row of entries, unless one of them stands off.
    fn guess(&self, row: impl Fn(usize) -> i32) -> Option<Guess> {
        let mut worst = 0;
        for j in 0..8 {
            worst = worst.max(self.off(row(j)));
            if worst > self.limit {
                return None;
            }
        }
        let group = |j| (row(j).wrapping_add(self.half()) >> (self.half().trailing_zeros() + 1)) & ((1 << self.set.bits) - 1);
        Some((worst, std::array::from_fn(|j| group(j) as u8)))
    }

    /// All windows of row i, of c1 and then of c2.
    fn windows(&self, i: usize) -> impl Iterator<Item = Window> + '_ {
        let (n, d) = (self.set.n, self.set.log_q);
        let window = move |bytes: &[u8], row: usize, at: usize, factor: &dyn Fn(usize) -> [i32; 8]| {
            let first = 8 * at / d;
            let words = i64::from(word(bytes, d, row + first)) << d | i64::from(word(bytes, d, row + first + 1));
            Window { words, shift: 2 * d - (8 * at - first * d) - 16, factors: [factor(first), factor(first + 1)] }
        };
        let c1 = (0..n * d / 8 - 1).map(move |at| window(self.c1, i * n, at, &|k| self.s.get(k).copied().unwrap_or([0; 8])));
        let c2 = (0..d - 1).map(move |at| window(self.c2, i * 8, at, &|k| std::array::from_fn(|j| if j == k { -1 } else { 0 })));
        c1.chain(c2)
    }

    /// The groups of row i as it stands.
    fn groups(&self, i: usize) -> [u8; 8] {
        self.entries[i].map(|entry| ((entry.wrapping_add(self.half()) >> (self.half().trailing_zeros() + 1)) & ((1 << self.set.bits) - 1)) as u8)
    }

    /// What three neighbouring bytes of row i of c1, or four, can have made of its groups, where words have two bytes.
    fn burst(&self, i: usize, four: bool) -> Vec<[u8; 8]> {
        let Set { n, log_q, bits, .. } = *self.set;
        if log_q != 16 {
            return Vec::new();
        }
        let words: Vec<i32> = (0..n).map(|k| word(self.c1, log_q, i * n + k)).collect();
        Burst { entries: self.entries[i], words: &words, s: &self.s, step: 2 * self.half(), bits, spread: self.set.noise_spread() }.guesses(four)
    }

    /// The guess that row i makes as it stands.
    fn as_is(&self, i: usize) -> Option<Guess> {
        self.guess(|j| self.entries[i][j])
    }

    /// All guesses for row i, the best first, with one byte changed, or two. Two are so many more ways than one that what they leave counts double.
    fn guesses(&self, i: usize, two: bool) -> Vec<Guess> {
        let (d, row) = (self.set.log_q, &self.entries[i]);
        let mask = (1_i64 << d) - 1;
        let changes: Vec<i64> = (1..=0xffff).filter(|change| two || change & 0xff == 0 || change >> 8 == 0).collect();
        // the entry that stands off most is looked at first
        let first = (0..8).max_by_key(|&j| self.off(row[j])).unwrap_or(0);
        let mut found: Vec<Guess> = Vec::new();
        for Window { words, shift, factors: [a, b] } in self.windows(i) {
            for change in changes.iter().copied() {
                let new = words ^ change << shift;
                let (high, low) = (((new >> d) - (words >> d)) as i32, ((new & mask) - (words & mask)) as i32);
                let entry = |j: usize| row[j].wrapping_sub(high.wrapping_mul(a[j])).wrapping_sub(low.wrapping_mul(b[j]));
                if self.off(entry(first)) <= self.limit {
                    let weight = if change & 0xff == 0 || change >> 8 == 0 { 1 } else { 2 };
                    found.extend(self.guess(entry).map(|(worst, groups)| (weight * worst, groups)));
                }
            }
        }
        found.sort_unstable();
        let mut seen = HashSet::new();
        found.retain(|(_, groups)| seen.insert(*groups));
        found
    }
}

/// The message that 64 groups of B bits make, lowest bit first.
fn message(set: &Set, rows: &[[u8; 8]]) -> Vec<u8> {
    let mut bytes = vec![0; set.lengths.message];
    for (g, group) in rows.iter().flatten().enumerate() {
        for bit in (0..set.bits).filter(|bit| group >> bit & 1 == 1) {
            let at = g * set.bits + bit;
            bytes[at / 8] |= 1 << (at % 8);
        }
    }
    bytes
}

/// The messages that the report opens to with one byte changed where no row stands off, or two in each of two to four rows that do, the best guesses first. Empty where more
/// rows stand off, or one cannot be brought back.
pub fn messages(opening: &Opening<'_>) -> Vec<Vec<u8>> {
    let as_is: Vec<Option<Guess>> = (0..8).map(|i| opening.as_is(i)).collect();
    let off = as_is.iter().filter(|guess| guess.is_none()).count();
    match off {
        // one row is put right by `in_one_row`
        1 => Vec::new(),
        0 => unseen(opening, &as_is.iter().flatten().map(|(_, groups)| *groups).collect::<Vec<_>>()),
        2..=4 => combined(opening, &as_is, off),
        _ => Vec::new(),
    }
}

/// The messages that the report opens to where the one row that stands off holds other groups: all that there are where the groups of a row are few, else those that a change of
/// three bytes, or of four, makes.
pub fn in_one_row<'a>(opening: &'a Opening<'a>, four: bool) -> Box<dyn Iterator<Item = Vec<u8>> + 'a> {
    let few = 8 * opening.set.bits <= ALL_BITS;
    let rows = match opening.rows_off()[..] {
        [row] if !(few && four) => vec![row],
        _ => vec![],
    };
    let whole: Vec<[u8; 8]> = (0..8).map(|i| opening.groups(i)).collect();
    let put = move |(row, groups): (usize, [u8; 8])| {
        let mut rows = whole.clone();
        rows[row] = groups;
        message(opening.set, &rows)
    };
    let guesses = move |row: usize| -> Box<dyn Iterator<Item = [u8; 8]>> {
        if few {
            Box::new(every_row(opening.set.bits))
        } else {
            Box::new(opening.burst(row, four).into_iter())
        }
    };
    Box::new(rows.into_iter().flat_map(move |row| guesses(row).map(move |groups| (row, groups))).map(put))
}

/// Eight groups of so many bits, all that there are.
fn every_row(bits: usize) -> impl Iterator<Item = [u8; 8]> {
    (0..1_u32 << (8 * bits)).map(move |value| std::array::from_fn(|j| (value >> (bits * j)) as u8 & ((1 << bits) - 1)))
}

/// Every message that one changed byte can have made of another without a trace but the message.
fn unseen(opening: &Opening<'_>, rows: &[[u8; 8]]) -> Vec<Vec<u8>> {
    let other = |i: usize| opening.guesses(i, false).into_iter().map(move |(_, groups)| (i, groups)).filter(|(i, groups)| rows[*i] != *groups);
    let put = |(at, groups): (usize, [u8; 8])| -> Vec<[u8; 8]> { rows.iter().enumerate().map(|(i, row)| if i == at { groups } else { *row }).collect() };
    (0..rows.len()).flat_map(other).map(|change| message(opening.set, &put(change))).collect()
}

/// The guesses of the rows that stand off, combined: as many of each row as keep the combinations few.
fn combined(opening: &Opening<'_>, as_is: &[Option<Guess>], off: usize) -> Vec<Vec<u8>> {
    let each = (1..=MOST).rev().find(|k| k.saturating_pow(off as u32) <= MOST).unwrap_or(1);
    let mut all: Vec<(usize, Vec<[u8; 8]>)> = vec![(0, Vec::new())];
    for (i, guess) in as_is.iter().enumerate() {
        let choices = guess.map_or_else(|| opening.guesses(i, true), |guess| vec![guess]);
        let extend = |(rank, rows): &(usize, Vec<[u8; 8]>)| -> Vec<(usize, Vec<[u8; 8]>)> {
            choices.iter().take(each).enumerate().map(|(place, (_, groups))| (rank + place, [rows.as_slice(), &[*groups]].concat())).collect()
        };
        all = all.iter().flat_map(extend).collect();
    }
    all.sort();
    all.iter().map(|(_, rows)| message(opening.set, rows)).collect()
}

#[cfg(test)]
mod tests {
    use super::*;
    use crate::kem::Kem;
    use crate::sets;

    /// Bytes that differ from place to place.
    fn bytes(label: u8, count: usize) -> Vec<u8> {
        (0..count).map(|i| (i as u8).wrapping_mul(167).wrapping_add(label).rotate_left(u32::from(label) + i as u32 / 31)).collect()
    }

    #[test]
    fn damage_that_spoils_the_message_is_undone() {
        for set in sets::all() {
            let mut kem = Kem::new(set);
            let (seed, sent, salt) = (bytes(1, set.lengths.key_seed), bytes(2, set.lengths.message), bytes(3, set.lengths.salt));
            let keys = kem.keys(&seed).unwrap();
            let whole = kem.seal(&keys.public, &sent, &salt).unwrap().report;
            let messages = |report: &[u8]| {
                let opening = Opening::new(&set, &keys.secret, report);
                (opening.rows_off().len(), messages(&opening))
            };
            assert!(!messages(&whole).1.contains(&sent), "set {}: nothing stands off", set.number);
            let mut top = whole.clone();
            top[set.n * set.log_q / 8] ^= 0x80;
            assert!(messages(&top).1.contains(&sent), "set {}: the highest bit of row 1's first word", set.number);
            let mut both = whole.clone();
            // from byte 100 on in c1's first row, and in c2's last row: the first byte whose damage spoils the message
            for from in [100, set.salt_in_sealed().start - 15] {
                let damaged = |at: usize| whole.iter().enumerate().map(|(i, b)| if i == at { b ^ 0x5b } else { *b }).collect::<Vec<u8>>();
                let at = (from..).find(|&at| kem.open(&keys.secret, &damaged(at)).unwrap().message != sent).unwrap();
                both[at] ^= 0x5b;
            }
            let (off, guesses) = messages(&both);
            assert!(off == 2 && guesses.contains(&sent), "set {}: {off} rows off, {} guesses", set.number, guesses.len());
        }
    }

    #[test]
    fn a_burst_in_one_row_is_undone() {
        for set in sets::all() {
            let mut kem = Kem::new(set);
            let (seed, sent, salt) = (bytes(4, set.lengths.key_seed), bytes(5, set.lengths.message), bytes(6, set.lengths.salt));
            let keys = kem.keys(&seed).unwrap();
            let whole = kem.seal(&keys.public, &sent, &salt).unwrap().report;
            let row = set.n * set.log_q / 8;
            // at an even and at an odd place; where all groups of a row are tried, a hundred bytes
            for at in [2 * row + 300, 5 * row + 411] {
                let mut damaged = whole.clone();
                let count = if 8 * set.bits <= ALL_BITS { 100 } else { 4 };
                damaged[at..at + count].iter_mut().zip([0x5b, 0xc3, 0x96, 0xe7].iter().cycle()).for_each(|(byte, bits)| *byte ^= bits);
                let opening = Opening::new(&set, &keys.secret, &damaged);
                assert_eq!(opening.rows_off(), [at / row], "set {}", set.number);
                assert!(in_one_row(&opening, 8 * set.bits > ALL_BITS).any(|message| message == sent), "set {}, from {at} on", set.number);
                let three: Vec<u8> = damaged[..at + 3].iter().chain(&whole[at + 3..]).copied().collect();
                let opening = Opening::new(&set, &keys.secret, &three);
                // damage may move entries by whole steps, and leave none standing off: that is not undone
                assert!(opening.rows_off().is_empty() || in_one_row(&opening, false).any(|message| message == sent), "set {}, three from {at} on", set.number);
            }
        }
    }
}
