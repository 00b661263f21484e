//! A quick test of which messages and salts can be a report's: some hundred times as quick as sealing. It goes by one row of c1 alone, S'*A + E' in eight
//! columns: of the right message and salt, what is left of c1 there when S'*A is taken away is E', which is small. Damage to a few of these words does not
//! matter. What comes through is sealed again by the library and compared; the sieve itself needs no trust.
use super::matrix::{centred, row_of_a, word};
use super::search::Candidate;
use super::shake::shake;
use crate::sets::Set;

/// Columns that are looked at, and how many of them have to fit.
const COLUMNS: usize = 8;
const FIT: usize = 4;

pub struct Sieve {
    set: Set,
    rate: usize,
    pkh: Vec<u8>,
    /// The row of c1.
    row: usize,
    /// For each of the columns, that column of A, and the row's word there.
    columns: Vec<(Vec<i32>, i32)>,
}

impl Sieve {
    /// For reports to a public key, by a row that is best not the damaged one. The first is the quickest.
    pub fn new(set: Set, public: &[u8], report: &[u8], row: usize) -> Self {
        let rate = set.rate();
        let mut pkh = vec![0; set.lengths.shared_secret];
        shake(rate, public, &mut pkh);
        let places: [usize; COLUMNS] = std::array::from_fn(|c| c * set.n / COLUMNS + c);
        let mut columns: Vec<(Vec<i32>, i32)> = places.iter().map(|&c| (Vec::new(), word(report, set.log_q, row * set.n + c))).collect();
        for k in 0..set.n {
            let of_a = row_of_a(&set, &public[..16], k);
            places.iter().zip(&mut columns).for_each(|(&c, (column, _))| column.push(of_a[c]));
        }
        Self { set, rate, pkh, row, columns }
    }

    /// The row of S' of a message and a salt.
    fn s_row(&self, message: &[u8], salt: &[u8]) -> Vec<i32> {
        let table = self.set.noise_table();
        let mut seed = vec![0; self.set.lengths.salt];
        shake(self.rate, &[&self.pkh, message, salt].concat(), &mut seed);
        let mut drawn = vec![0; 2 * self.set.n * (self.row + 1)];
        shake(self.rate, &[&[0x96], seed.as_slice()].concat(), &mut drawn);
        let sample = |r: u16| {
            let size = table.iter().map(|&t| i32::from(t < r >> 1)).sum::<i32>();
            if r & 1 == 1 {
                -size
            } else {
                size
            }
        };
        drawn[2 * self.set.n * self.row..].chunks_exact(2).map(|pair| sample(u16::from_le_bytes([pair[0], pair[1]]))).collect()
    }

    /// Whether a candidate can be what was sealed.
    pub fn lets_through(&self, candidate: &Candidate) -> bool {
        let s = self.s_row(&candidate.message.1, &candidate.salt.1);
        let fits = |(column, found): &(Vec<i32>, i32)| {
            let product = s.iter().zip(column).fold(0_i32, |sum, (x, a)| sum.wrapping_add(x * a));
            centred(&self.set, found.wrapping_sub(product)).abs() <= self.set.noise_bound()
        };
        // most candidates are told by three columns, of which damage to a byte or two leaves one
        let (few, rest) = self.columns.split_at(3);
        let first = few.iter().filter(|c| fits(c)).count();
        first > 0 && first + rest.iter().filter(|c| fits(c)).count() >= FIT
    }
}

#[cfg(test)]
mod tests {
    use super::super::facts::{Message, Salt};
    use super::*;
    use crate::kem::Kem;
    use crate::sets;

    #[test]
    fn only_what_was_sealed_comes_through() {
        for set in sets::all() {
            let mut kem = Kem::new(set);
            let keys = kem.keys(&vec![9; set.lengths.key_seed]).unwrap();
            let right = Candidate { message: (Message::Opened, vec![0x37; set.lengths.message]), salt: (Salt::Carried, vec![0x91; set.lengths.salt]) };
            let mut report = kem.seal(&keys.public, &right.message.1, &right.salt.1).unwrap().report;
            for damaged in [false, true] {
                // two of the columns' words, in the second round
                report[0] ^= if damaged { 0x55 } else { 0 };
                report[set.n / COLUMNS * set.log_q / 8 + 2] ^= if damaged { 0x55 } else { 0 };
                let sieve = Sieve::new(set, &keys.public, &report, 0);
                assert!(sieve.lets_through(&right), "set {}, damaged {damaged}", set.number);
                let through = super::super::search::salts(&right).filter(|c| sieve.lets_through(c)).count();
                assert_eq!(through, 0, "set {}, damaged {damaged}", set.number);
                assert!(Sieve::new(set, &keys.public, &report, 1).lets_through(&right), "set {}: the second row", set.number);
            }
        }
    }
}
