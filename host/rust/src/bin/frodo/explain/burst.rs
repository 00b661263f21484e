//! Damage to three or four neighbouring bytes of a row of c1, where words have 16 bits: which rows of groups it can have made of another.
//!
//! Three bytes are a whole word and the half of one beside it; four are two whole words, or a low half, a whole word and a high half. A change of x in word k moves entry c of the row by x * S[k][c], and what is left is noise, near
//! a multiple of 2h in all eight entries. One whole word is solved for: each entry leaves it some stretches of values mod 2h, and the stretches that all eight leave are few.
//! The other word, or the two halves, are tried. Of 2^32 changes at each of 2n places some thousands leave noise that is small enough; these are guesses, the likeliest first.
use std::collections::HashSet;
use std::thread;

/// Eight entries, and S's words for one word of a row of B'.
type Eight = [i32; 8];

/// A row's groups, and the square of what they leave as noise.
type Found = (i64, [u8; 8]);

/// How many guesses are given at most.
const MOST: usize = 1 << 20;

/// Where so many guesses are found on a core the row is hardly off, and small changes fit everywhere: no more are looked for.
const MANY: usize = 1 << 22;

/// A row that is to be put right.
pub struct Burst<'a> {
    /// Its entries of C - B'*S.
    pub entries: Eight,
    /// Its words of B'.
    pub words: &'a [i32],
    pub s: &'a [Eight],
    /// 2h, and B.
    pub step: i32,
    pub bits: usize,
    /// The spread of the noise of an entry.
    pub spread: f64,
}

/// The entries that have a say in a whole word: those that S does not leave alone, the smallest factor first.
fn having_a_say(s: &Eight) -> Vec<usize> {
    let mut order: Vec<usize> = (0..8).filter(|&c| s[c] != 0).collect();
    order.sort_by_key(|&c| s[c].abs());
    order
}

fn less(from: &Eight, x: i32, s: &Eight) -> Eight {
    std::array::from_fn(|c| from[c].wrapping_sub(x.wrapping_mul(s[c])))
}

impl Burst<'_> {
    fn centred(&self, entry: i32) -> i32 {
        (entry.wrapping_add(self.step / 2) & (self.step - 1)) - self.step / 2
    }

    /// What noise reaches in one entry, but for one in ten thousand.
    fn limit(&self) -> i32 {
        (4.0 * self.spread) as i32
    }

    /// What the squares of the noise of eight entries add up to at most, but for one row in a hundred: chi-squared of eight.
    fn most(&self) -> i64 {
        (20.1 * self.spread * self.spread) as i64
    }

    /// All values in lo..=hi of a whole word that leave small noise in all entries of `order`.
    fn solve(&self, left: &Eight, s: &Eight, order: &[usize], (lo, hi): (i32, i32), each: &mut dyn FnMut(i32)) {
        let Some((&c, rest)) = order.split_first() else {
            (lo..=hi).for_each(each);
            return;
        };
        let (factor, target) = (s[c].abs(), (left[c] * s[c].signum()) & (self.step - 1));
        let limit = self.limit();
        // factor * y is within the limit of target + k * step
        let first = (lo * factor - target - limit + self.step - 1).div_euclid(self.step);
        let last = (hi * factor - target + limit).div_euclid(self.step);
        for k in first..=last {
            let at = target + k * self.step;
            let from = lo.max((at - limit + factor - 1).div_euclid(factor));
            let to = hi.min((at + limit).div_euclid(factor));
            if from <= to {
                self.solve(left, s, rest, (from, to), each);
            }
        }
    }

    /// Solves for the word `k`, all else being changed already, and adds the rows of groups that its values make. Its highest bits do not move the noise, and are free; so
    /// are those of `other`, a second such word.
    fn around(&self, left: &Eight, k: usize, order: &[usize], other: Option<usize>, found: &mut Vec<Found>) {
        let (s, limit) = (&self.s[k], self.limit());
        if found.len() > MANY || (0..8).any(|c| s[c] == 0 && self.centred(left[c]).abs() > limit) {
            return;
        }
        let whole = (0, if order.is_empty() { 0 } else { self.step - 1 });
        self.solve(left, s, order, whole, &mut |y| {
            let row = less(left, y, s);
            let size: i64 = row.iter().map(|&entry| i64::from(self.centred(entry)).pow(2)).sum();
            if size <= self.most() {
                for u in 0..1_i32 << self.bits {
                    let turned = less(&row, u * self.step, s);
                    let tops = if other.is_some() { 1_i32 << self.bits } else { 1 };
                    let groups = |v: i32| other.map_or(turned, |o| less(&turned, v * self.step, &self.s[o])).map(|entry| self.group(entry));
                    found.extend((0..tops).map(|v| (size, groups(v))));
                }
            }
        });
    }

    fn group(&self, entry: i32) -> u8 {
        ((entry.wrapping_add(self.step / 2) >> self.step.trailing_zeros()) & ((1 << self.bits) - 1)) as u8
    }

    /// What the low byte of word k may be changed by.
    fn low_changes(&self, k: usize) -> std::ops::RangeInclusive<i32> {
        let low = self.words[k] & 0xff;
        -low..=0xff - low
    }

    /// The guesses of the three bytes from word k on, and of those from its low half on.
    fn three_at(&self, k: usize, found: &mut Vec<Found>) {
        let (first, second) = (having_a_say(&self.s[k]), having_a_say(&self.s[k + 1]));
        for high in 0..self.step >> 8 {
            self.around(&less(&self.entries, high << 8, &self.s[k + 1]), k, &first, Some(k + 1), found);
        }
        for x in self.low_changes(k) {
            self.around(&less(&self.entries, x, &self.s[k]), k + 1, &second, None, found);
        }
    }

    /// The guesses of the four bytes from word k on, two whole words, and of those from its low half on.
    fn four_at(&self, k: usize, found: &mut Vec<Found>) {
        let order = having_a_say(&self.s[k + 1]);
        for x in 0..self.step {
            self.around(&less(&self.entries, x, &self.s[k]), k + 1, &order, Some(k), found);
        }
        for x in self.low_changes(k).filter(|_| k + 2 < self.s.len()) {
            let left = less(&self.entries, x, &self.s[k]);
            for high in 0..self.step >> 8 {
                self.around(&less(&left, high << 8, &self.s[k + 2]), k + 1, &order, Some(k + 2), found);
            }
        }
    }

    /// All guesses of three bytes, or of four, the likeliest first.
    pub fn guesses(&self, four: bool) -> Vec<[u8; 8]> {
        let cores = thread::available_parallelism().map_or(1, usize::from);
        let share = |core: usize| {
            let mut found = Vec::new();
            (core..self.s.len() - 1).step_by(cores).for_each(|k| if four { self.four_at(k, &mut found) } else { self.three_at(k, &mut found) });
            found
        };
        let mut found: Vec<Found> = thread::scope(|scope| {
            let running: Vec<_> = (0..cores).map(|core| scope.spawn(move || share(core))).collect();
            running.into_iter().flat_map(|part| part.join().expect("the search does not panic")).collect()
        });
        found.sort_unstable();
        let mut seen = HashSet::new();
        found.into_iter().filter(|(_, groups)| seen.insert(*groups)).map(|(_, groups)| groups).take(MOST).collect()
    }
}

#[cfg(test)]
mod tests {
    use super::*;

    /// The stretches leave exactly the values that trying all of them does.
    #[test]
    fn a_word_is_solved_for() {
        let s: [Eight; 2] = [[3, -1, 0, 2, 1, -4, 1, 0], [1, 2, -2, 0, 5, 1, -1, 3]];
        let entries = [100, -250, 20, 1900, 4000, 77, 8191, -5];
        let burst = Burst { entries, words: &[0, 0], s: &s, step: 8192, bits: 3, spread: 600.0 };
        let mut solved = Vec::new();
        burst.solve(&entries, &s[0], &having_a_say(&s[0]), (0, 8191), &mut |y| solved.push(y));
        let fits = |y: i32| (0..8).all(|c| s[0][c] == 0 || burst.centred(entries[c] - y * s[0][c]).abs() <= burst.limit());
        assert_eq!(solved, (0..8192).filter(|&y| fits(y)).collect::<Vec<_>>());
        assert!(!solved.is_empty());
    }
}
