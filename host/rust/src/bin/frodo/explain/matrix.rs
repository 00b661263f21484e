//! A from its seed, a row at a time (docs/RULES.md, 4.6), and words that are packed into bytes. Unproved, as all of the program is.
use super::shake::shake;
use crate::sets::Set;

/// The words of row `k` of A.
pub fn row_of_a(set: &Set, seed_a: &[u8], k: usize) -> Vec<i32> {
    let mut bytes = vec![0; 2 * set.n];
    shake(168, &[&(k as u16).to_le_bytes(), seed_a].concat(), &mut bytes);
    bytes.chunks_exact(2).map(|pair| i32::from(u16::from_le_bytes([pair[0], pair[1]]))).collect()
}

/// Word `index` of bytes that hold words of d bits, highest bit first; 0 behind their end.
pub fn word(bytes: &[u8], d: usize, index: usize) -> i32 {
    (index * d..(index + 1) * d).fold(0, |word, bit| word << 1 | bytes.get(bit / 8).map_or(0, |byte| i32::from(byte >> (7 - bit % 8) & 1)))
}

/// S of a secret key as it is stored, a row for each of the n words of a row of B'.
pub fn stored_s(set: &Set, secret: &[u8]) -> Vec<[i32; 8]> {
    let stored = &secret[set.secret_part("S")];
    let at = |k: usize, j: usize| i32::from(i16::from_le_bytes([stored[2 * (j * set.n + k)], stored[2 * (j * set.n + k) + 1]]));
    (0..set.n).map(|k| std::array::from_fn(|j| at(k, j))).collect()
}

/// A sum mod q, centred into [-q/2, q/2).
pub fn centred(set: &Set, sum: i32) -> i32 {
    let half = 1_i32 << (set.log_q - 1);
    (sum.wrapping_add(half) & (2 * half - 1)) - half
}
