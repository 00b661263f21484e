//! SHAKE for the sieve and for the check of a key file (FIPS 202 (2015), SHAKE128 and SHAKE256). The proved library shows no SHAKE to its callers; this one is held against it by a test.
//! What the sieve lets through is sealed again by the library.

/// The round constants, from the register of rc(t).
const ROUNDS: [u64; 24] = {
    let (mut constants, mut register, mut round) = ([0; 24], 1_u8, 0);
    while round < 24 {
        let mut j = 0;
        while j < 7 {
            if register & 1 == 1 {
                constants[round] |= 1_u64 << ((1 << j) - 1);
            }
            register = register << 1 ^ if register & 0x80 == 0 { 0 } else { 0x71 };
            j += 1;
        }
        round += 1;
    }
    constants
};

/// Where rho and pi take each lane, and how far they turn it, as one walk.
const WALK: [(usize, u32); 24] = {
    let (mut walk, mut x, mut y, mut t) = ([(0, 0); 24], 1, 0, 0);
    while t < 24 {
        (x, y) = (y, (2 * x + 3 * y) % 5);
        walk[t] = (x + 5 * y, ((t + 1) * (t + 2) / 2 % 64) as u32);
        t += 1;
    }
    walk
};

fn permute(a: &mut [u64; 25]) {
    for constant in ROUNDS {
        let c: [u64; 5] = std::array::from_fn(|x| a[x] ^ a[x + 5] ^ a[x + 10] ^ a[x + 15] ^ a[x + 20]);
        let d: [u64; 5] = std::array::from_fn(|x| c[(x + 4) % 5] ^ c[(x + 1) % 5].rotate_left(1));
        for (i, lane) in a.iter_mut().enumerate() {
            *lane ^= d[i % 5];
        }
        let mut moved = a[1];
        for (to, turn) in WALK {
            moved = std::mem::replace(&mut a[to], moved.rotate_left(turn));
        }
        for row in a.chunks_exact_mut(5) {
            let old: [u64; 5] = std::array::from_fn(|x| row[x]);
            for x in 0..5 {
                row[x] = old[x] ^ !old[(x + 1) % 5] & old[(x + 2) % 5];
            }
        }
        a[0] ^= constant;
    }
}

/// SHAKE of the given rate in bytes, 168 or 136: fills `out`.
pub fn shake(rate: usize, input: &[u8], out: &mut [u8]) {
    let mut state = [0; 25];
    let mut padded = input.to_vec();
    padded.push(0x1f);
    padded.resize(padded.len().next_multiple_of(rate), 0);
    *padded.last_mut().expect("at least one block") |= 0x80;
    for block in padded.chunks_exact(rate) {
        for (lane, bytes) in state.iter_mut().zip(block.chunks_exact(8)) {
            *lane ^= u64::from_le_bytes(bytes.try_into().expect("eight bytes"));
        }
        permute(&mut state);
    }
    for (count, piece) in out.chunks_mut(rate).enumerate() {
        if count > 0 {
            permute(&mut state);
        }
        for (lane, bytes) in state.iter().zip(piece.chunks_mut(8)) {
            bytes.copy_from_slice(&lane.to_le_bytes()[..bytes.len()]);
        }
    }
}

#[cfg(test)]
mod tests {
    use super::shake;
    use crate::kem::Kem;
    use crate::sets;

    /// A generated key holds the hash of its public key: the proved library's SHAKE128 in set 1, SHAKE256 in the others.
    #[test]
    fn gives_the_library_s_hash() {
        for set in sets::all() {
            let keys = Kem::new(set).keys(&vec![7; set.lengths.key_seed]).unwrap();
            let mut pkh = vec![0; set.lengths.shared_secret];
            shake(set.rate(), &keys.public, &mut pkh);
            assert_eq!(pkh, keys.secret[set.secret_parts()[4].1.clone()], "set {}", set.number);
        }
    }
}
