//! Where sealing again what a report opens to gives wholly other bytes: other salts and messages that differ a little. What is found is sealed and compared like
//! anything else, so that the search itself needs no trust.
use super::facts::{Message, Salt};
use crate::sets::Set;

/// How many messages that differ in neighbouring groups are tried at most: where entries stand off, and where none does, so that damage to c2 is unlikely.
const MOST_GROUPS: usize = 1 << 19;
const MOST_UNSEEN: usize = 1 << 15;

/// A message and a salt to try.
#[derive(Clone, Debug, PartialEq, Eq)]
pub struct Candidate {
    pub message: (Message, Vec<u8>),
    pub salt: (Salt, Vec<u8>),
}

/// Every salt that differs in one byte.
pub fn salts(from: &Candidate) -> impl Iterator<Item = Candidate> + '_ {
    (0..from.salt.1.len()).flat_map(|byte| (1..=255).map(move |change| (byte, change))).map(|(byte, change): (usize, u8)| {
        let mut salt = from.salt.1.clone();
        salt[byte] ^= change;
        Candidate { salt: (Salt::Byte(byte), salt), ..from.clone() }
    })
}

/// Every salt that differs in its last bytes alone, which a report that ends too soon lacks.
pub fn endings(from: &Candidate, count: usize) -> impl Iterator<Item = Candidate> + '_ {
    (0..1_u32 << (8 * count)).map(move |value| {
        let mut salt = from.salt.1.clone();
        let start = salt.len() - count;
        salt[start..].copy_from_slice(&value.to_be_bytes()[4 - count..]);
        Candidate { salt: (Salt::End(count), salt), ..from.clone() }
    })
}

/// Every message that differs in one group of B bits, and then in neighbouring ones: what a spoiled entry, or damage to neighbouring words of c2, makes of it. Where entries
/// stand off, the neighbouring groups are all of these and as many more around them as keep the messages few; else they are any.
pub fn messages<'a>(set: &Set, from: &'a Candidate, off: &[usize]) -> Box<dyn Iterator<Item = Candidate> + 'a> {
    let bits = set.bits;
    let span = off.first().zip(off.last());
    let starts = move |count: usize| match span {
        Some((&first, &last)) => ((last + 1).saturating_sub(count)..=first).filter(|start| start + count <= 64).collect::<Vec<_>>(),
        None => (0..=64 - count).collect(),
    };
    let most = if off.is_empty() { MOST_UNSEEN } else { MOST_GROUPS };
    let count = (1..=20 / bits).rev().find(|&count| starts(count).len() << (count * bits) <= most).unwrap_or(1);
    let windows = (0..64).map(|start| (start, 1)).chain(starts(count).into_iter().map(move |start| (start, count)));
    let changes = move |(start, count): (usize, usize)| (1..1_u32 << (count * bits)).map(move |change| (start, change));
    Box::new(windows.flat_map(changes).map(move |(start, change)| changed(from, bits, start, change)))
}

/// A candidate with bits of its message changed, from group `start` on.
fn changed(from: &Candidate, bits: usize, start: usize, change: u32) -> Candidate {
    let mut message = from.message.1.clone();
    for bit in (0..32).filter(|bit| change >> bit & 1 == 1) {
        let at = start * bits + bit;
        message[at / 8] ^= 1 << (at % 8);
    }
    let (low, high) = (change.trailing_zeros() as usize / bits, change.ilog2() as usize / bits);
    Candidate { message: (Message::Groups(start + low, high - low + 1), message), ..from.clone() }
}

#[cfg(test)]
mod tests {
    use super::*;
    use crate::sets;
    use std::collections::HashSet;

    fn start(set: &Set) -> Candidate {
        Candidate { message: (Message::Opened, vec![0x5a; set.lengths.message]), salt: (Salt::Carried, vec![0xa5; set.lengths.salt]) }
    }

    #[test]
    fn candidates_are_all_different_and_one_step_away() {
        for set in sets::all() {
            let from = start(&set);
            let salts: HashSet<Vec<u8>> = salts(&from).map(|c| c.salt.1).collect();
            assert_eq!(salts.len(), 255 * set.lengths.salt);
            let differ = |c: &Candidate| {
                (0..8 * c.message.1.len()).filter(|at| (c.message.1[at / 8] ^ from.message.1[at / 8]) >> (at % 8) & 1 == 1).map(|at| at / set.bits).collect()
            };
            for c in messages(&set, &from, &[]).step_by(997).chain(messages(&set, &from, &[9, 11]).step_by(997)) {
                let groups: Vec<usize> = differ(&c);
                assert_eq!(c.message.0, Message::Groups(groups[0], groups[groups.len() - 1] - groups[0] + 1));
            }
            let one: HashSet<Vec<u8>> = messages(&set, &from, &[]).filter(|c| matches!(c.message.0, Message::Groups(_, 1))).map(|c| c.message.1).collect();
            assert_eq!(one.len(), 64 * ((1 << set.bits) - 1));
            assert!(messages(&set, &from, &[]).count() <= 2 * MOST_UNSEEN && messages(&set, &from, &[9, 11]).count() <= 2 * MOST_GROUPS);
            assert_eq!(messages(&set, &from, &[0, 63]).count(), 64 * ((1 << set.bits) - 1), "not neighbours: one group alone");
            let ends: HashSet<Vec<u8>> = endings(&from, 2).map(|c| c.salt.1).collect();
            assert!(ends.len() == 65536 && ends.contains(&from.salt.1));
        }
    }

    #[test]
    fn a_group_is_b_bits_lowest_first() {
        let set = sets::all()[2];
        let from = start(&set);
        let last = messages(&set, &from, &[63]).last().unwrap().message;
        assert_eq!(last, (Message::Groups(60, 4), [vec![0x5a; 30], vec![0xa5; 2]].concat()));
    }
}
