//! Every call beside frodo-kem-rs, byte for byte: keys, ciphertexts, secrets and recovered messages, honest and with every kind of damage, and the margin beside two
//! computations that know nothing of the library. Outputs and scratches are dirty before each call; after it the fronts of the scratches are zero, later
//! words are as they were. Built where FRODO_ARCHIVE names the folder of libfrodo_c.a.
//!
//! SEEDS=n: seeds a set (200). Every seed gets key generation, encapsulation, the margin and both decapsulations honestly, and then every kind of damage, or as many
//! as DAMAGES says, in turn, so that each kind comes up equally often; every kind goes through `decapsulate`, and every second time through
//! `decapsulate_shared_secret` too. All inputs are SHAKE256 of a fixed label, the set and the seed's number.
#[cfg(not(frodo_archive))]
fn main() {
    eprintln!("built without FRODO_ARCHIVE: nothing to compare");
    std::process::exit(3);
}

#[cfg(frodo_archive)]
fn main() {
    compare::run();
}

#[cfg(frodo_archive)]
mod compare {
    use driver::ours::{self, Scratch};
    use driver::*;
    use shake::digest::{ExtendableOutput, Update, XofReader};
    use shake::{Shake128, Shake256};
    use std::time::Instant;

    /// Words of a scratch beyond what the set wants.
    const LATER: usize = 40;

    /// Where a comparison stands, for the message of a difference.
    struct Place {
        set: u32,
        seed: usize,
        kind: &'static str,
    }

    fn fail(at: &Place, why: String) -> ! {
        println!("side-by-side: FAILED: set {}, seed {}, {}: {why}", at.set, at.seed, at.kind);
        std::process::exit(1);
    }

    fn same(at: &Place, what: &str, ours: &[u8], theirs: &[u8]) {
        if ours.len() != theirs.len() {
            fail(at, format!("{what}: {} bytes, frodo-kem-rs {}", ours.len(), theirs.len()));
        }
        if let Some(k) = (0..ours.len()).find(|&k| ours[k] != theirs[k]) {
            fail(at, format!("{what}: byte {k} is {:02x}, frodo-kem-rs's is {:02x}", ours[k], theirs[k]));
        }
    }

    /// Random bytes of one seed of one set.
    struct Source(Box<dyn XofReader>);

    impl Source {
        fn new(set: u32, seed: usize) -> Self {
            let mut hash = Shake256::default();
            hash.update(format!("frodo side by side, set {set}, seed {seed}").as_bytes());
            Source(Box::new(hash.finalize_xof()))
        }
        fn bytes(&mut self, n: usize) -> Vec<u8> {
            let mut to = vec![0; n];
            self.0.read(&mut to);
            to
        }
        fn below(&mut self, bound: usize) -> usize {
            let b = self.bytes(8);
            (u64::from_le_bytes(b.try_into().unwrap()) % bound as u64) as usize
        }
    }

    /// The library's side: dirty outputs and scratches before each call, and the scratch rule after it.
    struct Ours {
        set: u32,
        fronts: (usize, usize),
        scratch: Scratch,
        dirt: u32,
    }

    impl Ours {
        fn new<K: Kem>(set: u32) -> Self {
            let fronts = (16 * K::N + 64, 17 * K::N + 256);
            Ours { set, fronts, scratch: Scratch { noise: vec![0; fronts.0 + LATER], work: vec![0; fronts.1 + LATER] }, dirt: 1 }
        }
        fn dirty(&mut self, n: usize) -> Vec<u8> {
            self.dirt = self.dirt.wrapping_mul(1664525).wrapping_add(1013904223);
            let d = self.dirt;
            (0..n).map(|k| (k as u32).wrapping_mul(2654435761).wrapping_add(d).to_le_bytes()[3]).collect()
        }
        /// Makes a call over dirty scratches and looks at them afterwards.
        fn call(&mut self, at: &Place, what: &str, call: impl FnOnce(u32, &mut Scratch) -> u32) {
            let d = self.dirt as u16;
            for (k, w) in self.scratch.noise.iter_mut().enumerate() {
                *w = (k as u16).wrapping_mul(40503).wrapping_add(d) | 1;
            }
            for (k, w) in self.scratch.work.iter_mut().enumerate() {
                *w = (k as u16).wrapping_mul(30011).wrapping_sub(d) | 2;
            }
            let later = (self.scratch.noise[self.fronts.0..].to_vec(), self.scratch.work[self.fronts.1..].to_vec());
            let answer = call(self.set, &mut self.scratch);
            if answer != 0 {
                fail(at, format!("{what} was refused with {answer}"));
            }
            for (name, words, front, later) in [("noise", &self.scratch.noise, self.fronts.0, later.0), ("work", &self.scratch.work, self.fronts.1, later.1)] {
                if let Some(k) = (0..front).find(|&k| words[k] != 0) {
                    fail(at, format!("{what}: word {k} of the {name} scratch is {:04x} afterwards", words[k]));
                }
                if words[front..] != later {
                    fail(at, format!("{what}: words after the front of the {name} scratch have changed"));
                }
            }
        }
        fn decapsulate(&mut self, at: &Place, sk: &[u8], ct: &[u8], secret_bytes: usize, message_bytes: usize) -> (Vec<u8>, Vec<u8>) {
            let (mut ss, mut message) = (self.dirty(secret_bytes), self.dirty(message_bytes));
            self.call(at, "decapsulate", |set, scratch| ours::decapsulate(set, sk, ct, &mut ss, &mut message, scratch));
            (ss, message)
        }
        fn decapsulate_shared_secret(&mut self, at: &Place, sk: &[u8], ct: &[u8], secret_bytes: usize) -> Vec<u8> {
            let mut ss = self.dirty(secret_bytes);
            self.call(at, "decapsulate_shared_secret", |set, scratch| ours::decapsulate_shared_secret(set, sk, ct, &mut ss, scratch));
            ss
        }
    }

    /// Where parts of a secret key and a ciphertext lie, from the crate's constants.
    struct Parts {
        s: (usize, usize),
        seed_a: (usize, usize),
        b: (usize, usize),
        matrix_s: (usize, usize),
        pkh: (usize, usize),
        c1: (usize, usize),
        c2: (usize, usize),
        salt: (usize, usize),
    }

    fn parts<K: Kem>() -> Parts {
        let (s, pk, seed_a) = (K::SHARED_SECRET_LENGTH, K::PUBLIC_KEY_LENGTH, K::BYTES_SEED_A);
        let (matrix, c1, c2) = (s + pk, K::LOG_Q * K::N, K::LOG_Q * 8);
        Parts {
            s: (0, s),
            seed_a: (s, s + seed_a),
            b: (s + seed_a, s + pk),
            matrix_s: (matrix, matrix + 16 * K::N),
            pkh: (matrix + 16 * K::N, K::SECRET_KEY_LENGTH),
            c1: (0, c1),
            c2: (c1, c1 + c2),
            salt: (c1 + c2, K::CIPHERTEXT_LENGTH),
        }
    }

    fn bit(bytes: &mut [u8], part: (usize, usize), source: &mut Source) {
        bytes[part.0 + source.below(part.1 - part.0)] ^= 1 << source.below(8);
    }

    fn byte(bytes: &mut [u8], part: (usize, usize), source: &mut Source) {
        bytes[part.0 + source.below(part.1 - part.0)] ^= 1 + source.below(255) as u8;
    }

    fn all(bytes: &mut [u8], part: (usize, usize), source: &mut Source) {
        let new = source.bytes(part.1 - part.0);
        bytes[part.0..part.1].copy_from_slice(&new);
    }

    /// About one byte in thirty, and three at least.
    fn many(bytes: &mut [u8], part: (usize, usize), source: &mut Source) {
        for _ in 0..3 + (part.1 - part.0) / 30 {
            byte(bytes, part, source);
        }
    }

    /// A word of S gets these bits flipped.
    fn word(sk: &mut [u8], at: &Parts, bits: u16, source: &mut Source) {
        let k = at.matrix_s.0 + 2 * source.below((at.matrix_s.1 - at.matrix_s.0) / 2);
        let w = u16::from_le_bytes([sk[k], sk[k + 1]]) ^ bits;
        sk[k..k + 2].copy_from_slice(&w.to_le_bytes());
    }

    type Damage = fn(sk: &mut Vec<u8>, ct: &mut Vec<u8>, at: &Parts, foreign: &[u8], source: &mut Source);

    /// The kinds of damage: to the ciphertext, to the secret key, or to both. `foreign` is another seed's secret key.
    const KINDS: &[(&str, Damage)] = &[
        ("c1, one bit", |_, ct, at, _, source| bit(ct, at.c1, source)),
        ("c1, one byte", |_, ct, at, _, source| byte(ct, at.c1, source)),
        ("c1, many bytes", |_, ct, at, _, source| many(ct, at.c1, source)),
        ("c2, one bit", |_, ct, at, _, source| bit(ct, at.c2, source)),
        ("c2, one byte", |_, ct, at, _, source| byte(ct, at.c2, source)),
        ("c2, many bytes", |_, ct, at, _, source| many(ct, at.c2, source)),
        ("salt, one bit", |_, ct, at, _, source| bit(ct, at.salt, source)),
        ("salt, one byte", |_, ct, at, _, source| byte(ct, at.salt, source)),
        ("salt, all of it", |_, ct, at, _, source| all(ct, at.salt, source)),
        ("random ciphertext", |_, ct, at, _, source| all(ct, (0, at.salt.1), source)),
        ("ciphertext of zeros", |_, ct, _, _, _| ct.fill(0)),
        ("ciphertext of ones", |_, ct, _, _, _| ct.fill(255)),
        ("s, one bit", |sk, _, at, _, source| bit(sk, at.s, source)),
        ("s and c1, one bit", |sk, ct, at, _, source| {
            bit(sk, at.s, source);
            bit(ct, at.c1, source)
        }),
        ("seedA, one bit", |sk, _, at, _, source| bit(sk, at.seed_a, source)),
        ("B, one bit", |sk, _, at, _, source| bit(sk, at.b, source)),
        ("B, many bytes", |sk, _, at, _, source| many(sk, at.b, source)),
        ("S, low bit of a word", |sk, _, at, _, source| word(sk, at, 1, source)),
        ("S, bit 15 of a word", |sk, _, at, _, source| word(sk, at, 0x8000, source)),
        ("S, bit 15 of all words", |sk, _, at, _, _| sk[at.matrix_s.0..at.matrix_s.1].chunks_exact_mut(2).for_each(|w| w[1] ^= 0x80)),
        ("S, many bytes", |sk, _, at, _, source| many(sk, at.matrix_s, source)),
        ("pkh, one bit", |sk, _, at, _, source| bit(sk, at.pkh, source)),
        ("pkh of another key", |sk, _, at, foreign, _| sk[at.pkh.0..at.pkh.1].copy_from_slice(&foreign[at.pkh.0..at.pkh.1])),
        ("public key of another", |sk, _, at, foreign, _| sk[at.seed_a.0..at.b.1].copy_from_slice(&foreign[at.seed_a.0..at.b.1])),
        ("another key", |sk, _, _, foreign, _| sk.copy_from_slice(foreign)),
        ("random secret key", |sk, _, at, _, source| all(sk, (0, at.pkh.1), source)),
        ("random key, honest s", |sk, _, at, _, source| all(sk, (at.seed_a.0, at.pkh.1), source)),
        ("random key, ciphertext", |sk, ct, at, _, source| {
            all(sk, (0, at.pkh.1), source);
            all(ct, (0, at.salt.1), source)
        }),
        ("key of ones", |sk, _, _, _, _| sk.fill(255)),
        ("key of zeros", |sk, _, _, _, _| sk.fill(0)),
    ];

    fn shake(set: u32, input: &[&[u8]], bytes: usize) -> Vec<u8> {
        let mut to = vec![0; bytes];
        if set == 1 {
            let mut hash = Shake128::default();
            input.iter().for_each(|part| hash.update(part));
            hash.finalize_xof().read(&mut to);
        } else {
            let mut hash = Shake256::default();
            input.iter().for_each(|part| hash.update(part));
            hash.finalize_xof().read(&mut to);
        }
        to
    }

    /// Noise words as signed numbers, by the crate's sampler.
    fn drawn<K: Kem>(set: u32, first: u8, seed_se: &[u8], words: usize) -> Vec<i64> {
        let bytes = shake(set, &[&[first], seed_se], 2 * words);
        let mut at: Vec<u16> = bytes.chunks_exact(2).map(|c| u16::from_le_bytes([c[0], c[1]])).collect();
        K::default().sample(&mut at);
        at.iter().map(|&w| w as i16 as i64).collect()
    }

    fn centred<K: Kem>(x: i64) -> i64 {
        let q = K::Q as i64;
        let r = x.rem_euclid(q);
        if r >= q / 2 { r - q } else { r }
    }

    /// The margin's size from its definition, the largest of S'E + E'' - E'S, over whole numbers.
    fn size_by_definition<K: Kem>(set: u32, seed: &[u8], pk: &[u8], message: &[u8], salt: &[u8]) -> i64 {
        let (n, k) = (K::N, K::SHARED_SECRET_LENGTH);
        let key = drawn::<K>(set, 0x5f, &seed[k..k + K::BYTES_SEED_SE], 16 * n);
        let (s_transposed, e) = key.split_at(8 * n);
        let pkh = shake(set, &[pk], k);
        let seed_se = shake(set, &[&pkh, message, salt], K::BYTES_SEED_SE);
        let seal = drawn::<K>(set, 0x96, &seed_se, 16 * n + 64);
        let (s, e1, e2) = (&seal[..8 * n], &seal[8 * n..16 * n], &seal[16 * n..]);
        let mut largest = 0;
        for row in 0..8 {
            for column in 0..8 {
                let sum: i64 = (0..n).map(|i| s[row * n + i] * e[8 * i + column] - e1[row * n + i] * s_transposed[column * n + i]).sum();
                largest = largest.max(centred::<K>(sum + e2[8 * row + column]).abs());
            }
        }
        largest
    }

    /// The same from the crate's own ciphertext and key: C - B'S less the encoded message.
    fn size_by_crate<K: Kem>(sk: &[u8], ct: &[u8], at: &Parts, message: &[u8]) -> i64 {
        let kem = K::default();
        let s: Vec<u16> = sk[at.matrix_s.0..at.matrix_s.1].chunks_exact(2).map(|c| u16::from_le_bytes([c[0], c[1]])).collect();
        let (mut b, mut c, mut x, mut m) = (vec![0; K::N_X_N_BAR], vec![0; 64], vec![0; 64], vec![0; 64]);
        kem.unpack(&ct[at.c1.0..at.c1.1], &mut b);
        kem.unpack(&ct[at.c2.0..at.c2.1], &mut c);
        kem.mul_bs(&b, &s, &mut x);
        kem.encode_message(message, &mut m);
        (0..64).map(|k| centred::<K>(c[k] as i64 - x[k] as i64 - m[k] as i64).abs()).max().unwrap()
    }

    #[derive(Default, Clone)]
    struct Count {
        compared: usize,
        secrets_only: usize,
        accepted: usize,
    }

    /// Compares one set, and gives the lines to print.
    fn set<K: Kem>(number: u32, seeds: usize, damages: usize) -> String {
        let kem = K::default();
        let at = parts::<K>();
        let mut mine = Ours::new::<K>(number);
        let (secret_bytes, message_bytes) = (K::SHARED_SECRET_LENGTH, K::BYTES_MU);
        let mut counts = vec![Count::default(); KINDS.len() + 1];
        let mut largest = 0;
        let mut started = Instant::now();
        // the key of the seed before: another's
        let mut foreign = kem.generate_keypair_from_seed(&mut Source::new(number, usize::MAX).bytes(K::KEY_SEED_SIZE)).1.as_ref().to_vec();
        let place = |seed, kind| Place { set: number, seed, kind };

        let l = ours::lengths(number);
        let given = [l.seed, l.public_key, l.secret_key, l.ciphertext, l.message, l.salt, l.shared_secret, l.noise_words, l.work_words];
        let theirs = [K::KEY_SEED_SIZE, K::PUBLIC_KEY_LENGTH, K::SECRET_KEY_LENGTH, K::CIPHERTEXT_LENGTH, message_bytes, K::BYTES_SALT, secret_bytes, mine.fronts.0, mine.fronts.1];
        if given.map(|x| x as usize) != theirs {
            fail(&place(0, "lengths"), format!("{given:?}, expected {theirs:?}"));
        }

        for i in 0..seeds {
            let mut source = Source::new(number, i);
            let seed = source.bytes(K::KEY_SEED_SIZE);
            let (message, salt) = (source.bytes(message_bytes), source.bytes(K::BYTES_SALT));

            let here = place(i, "key generation");
            let mut their_seed = seed.clone();
            let (their_pk, their_sk) = kem.generate_keypair_from_seed(&mut their_seed);
            let (mut my_seed, mut pk, mut sk) = (seed.clone(), mine.dirty(K::PUBLIC_KEY_LENGTH), mine.dirty(K::SECRET_KEY_LENGTH));
            mine.call(&here, "generate_keypair_from_seed", |set, scratch| ours::keypair(set, &mut my_seed, &mut pk, &mut sk, scratch));
            same(&here, "public key", &pk, their_pk.as_ref());
            same(&here, "secret key", &sk, their_sk.as_ref());
            same(&here, "seed afterwards", &my_seed, &their_seed);
            same(&here, "seed afterwards, and zeros", &my_seed, &vec![0; my_seed.len()]);

            let here = place(i, "encapsulation");
            let (their_ct, their_ss) = kem.encapsulate(&their_pk, &message, &salt);
            let (mut ct, mut ss) = (mine.dirty(K::CIPHERTEXT_LENGTH), mine.dirty(secret_bytes));
            mine.call(&here, "encapsulate", |set, scratch| ours::encapsulate(set, &pk, &message, &salt, &mut ct, &mut ss, scratch));
            same(&here, "ciphertext", &ct, their_ct.as_ref());
            same(&here, "shared secret", &ss, their_ss.as_ref());

            let here = place(i, "margin");
            let mut margin = None;
            mine.call(&here, "margin", |set, scratch| {
                let m = ours::margin(set, &seed, &message, &salt, scratch);
                margin = Some(m);
                m.refusal
            });
            let (m, h) = (margin.unwrap(), (K::Q >> (K::EXTRACTED_BITS + 1)) as f64);
            for (way, size) in [("by definition", size_by_definition::<K>(number, &seed, &pk, &message, &salt)), ("from the ciphertext", size_by_crate::<K>(&sk, &ct, &at, &message))] {
                if i64::from(m.size) != size {
                    fail(&here, format!("size {}, {way} {size}", m.size));
                }
            }
            if m.ratio != f64::from(m.size) / h {
                fail(&here, format!("{m:?} with h = {h}"));
            }
            largest = largest.max(m.size);

            for turn in 0..=damages {
                // turn 0 is honest; the others go through the kinds
                let kind = if turn == 0 { 0 } else { 1 + (i * damages + turn - 1) % KINDS.len() };
                let here = place(i, if kind == 0 { "honest" } else { KINDS[kind - 1].0 });
                let (mut used_sk, mut used_ct) = (sk.clone(), ct.clone());
                if kind > 0 {
                    KINDS[kind - 1].1(&mut used_sk, &mut used_ct, &at, &foreign, &mut source);
                }
                let their_key = DecryptionKeyRef::<K>::from_slice(&used_sk).unwrap_or_else(|e| fail(&here, format!("frodo-kem-rs refuses the key: {e:?}")));
                let cipher = CiphertextRef::<K>::from_slice(&used_ct).unwrap_or_else(|e| fail(&here, format!("frodo-kem-rs refuses the ciphertext: {e:?}")));
                let (their_ss, their_message) = kem.decapsulate(their_key, cipher);
                let (my_ss, my_message) = mine.decapsulate(&here, &used_sk, &used_ct, secret_bytes, message_bytes);
                same(&here, "shared secret of decapsulate", &my_ss, their_ss.as_ref());
                same(&here, "message of decapsulate", &my_message, &their_message);
                let count = &mut counts[kind];
                count.compared += 1;
                if kind == 0 || count.compared % 2 == 1 {
                    let their_key = DecryptionKeyRef::<K>::from_slice(&used_sk).unwrap();
                    let cipher = CiphertextRef::<K>::from_slice(&used_ct).unwrap();
                    let theirs = kem.decapsulate_shared_secret(their_key, cipher);
                    let my_ss = mine.decapsulate_shared_secret(&here, &used_sk, &used_ct, secret_bytes);
                    same(&here, "shared secret of decapsulate_shared_secret", &my_ss, theirs.as_ref());
                    count.secrets_only += 1;
                }
                if kind == 0 {
                    let back = *their_message == *message;
                    if m.kept != u32::from(back) {
                        fail(&here, format!("{m:?}, and frodo-kem-rs {} the message back", if back { "gives" } else { "does not give" }));
                    }
                    same(&here, "secret, and that of encapsulation", &my_ss, &ss);
                    same(&here, "message, and that which was sealed", &my_message, &message);
                }
                // SHAKE(ciphertext, s) is what a ciphertext that is not accepted gives
                let rejected = shake(number, &[&used_ct, &used_sk[..secret_bytes]], secret_bytes);
                count.accepted += usize::from(my_ss != rejected);
            }
            foreign = sk;
            if started.elapsed().as_secs() >= 5 {
                started = Instant::now();
                eprintln!("side-by-side: set {number}, seed {} of {seeds}", i + 1);
            }
        }

        let mut lines = vec![
            format!("set {number}: {seeds} seeds: key pairs, ciphertexts and secrets agree; margin sizes agree with two other computations, the largest {largest}, and verdicts with decapsulation"),
            format!("  {:24} {:>12} {:>14} {:>9}", "kind", "decapsulate", "shared secret", "accepted"),
        ];
        for (k, count) in counts.iter().enumerate() {
            let name = if k == 0 { "honest" } else { KINDS[k - 1].0 };
            lines.push(format!("  {name:24} {:>12} {:>14} {:>9}", count.compared, count.secrets_only, count.accepted));
        }
        lines.join("\n")
    }

    pub fn run() {
        let number = |name: &str, otherwise: usize| match std::env::var(name) {
            Ok(text) if !text.is_empty() => text.parse().unwrap_or_else(|_| {
                println!("side-by-side: FAILED: {name}={text} is no number");
                std::process::exit(1)
            }),
            _ => otherwise,
        };
        let (seeds, damages) = (number("SEEDS", 200), number("DAMAGES", KINDS.len()).min(KINDS.len()));
        let one = |k: u32| with_set!(k, K => set::<K>(k, seeds, damages), else unreachable!());
        // set 3 takes as long as the other two
        std::thread::scope(|scope| {
            let third = scope.spawn(|| one(3));
            println!("{}", one(1));
            println!("{}", one(2));
            println!("{}", third.join().unwrap_or_else(|_| std::process::exit(1)));
        });
        println!("side-by-side: {seeds} seeds a set, {} kinds of damage, {} of them a seed: no difference", KINDS.len(), damages);
    }
}
