//! The calls as a Rust user makes them: round trips, what is left of what was lent, every refusal with its text, and the published secrets.
use stroupadal::{
    decapsulate, decapsulate_shared_secret, encapsulate, generate_keypair_from_seed, lengths, margin, Frodo1344Shake, Frodo640Shake, Frodo976Shake, Lengths, Refusal,
    Scratch,
};

const DIRTY: u8 = 0xa5;
const DIRTY_WORD: u16 = 0xa5a5;

/// Scratch with words to spare.
struct Memory {
    noise: Vec<u16>,
    work: Vec<u16>,
}

impl Memory {
    fn of(l: &Lengths, spare: usize) -> Self {
        Self { noise: vec![DIRTY_WORD; l.noise_words + spare], work: vec![DIRTY_WORD; l.work_words + spare] }
    }

    fn lent(&mut self) -> Scratch<'_> {
        Scratch { noise: &mut self.noise, work: &mut self.work }
    }

    fn is_wiped(&self, l: &Lengths) -> bool {
        let wiped = |words: &[u16], front: usize| words[..front].iter().all(|&w| w == 0) && words[front..].iter().all(|&w| w == DIRTY_WORD);
        wiped(&self.noise, l.noise_words) && wiped(&self.work, l.work_words)
    }

    fn is_untouched(&self) -> bool {
        self.noise.iter().chain(&self.work).all(|&w| w == DIRTY_WORD)
    }
}

/// Bytes that differ from place to place and from label to label.
fn bytes(label: u32, count: usize) -> Vec<u8> {
    let mut at = 0x9e37_79b9_u32.wrapping_mul(label + 1);
    (0..count)
        .map(|_| {
            at = at.wrapping_mul(1_664_525).wrapping_add(1_013_904_223);
            (at >> 24) as u8
        })
        .collect()
}

#[test]
fn constants_are_the_library_s() {
    macro_rules! same {
        ($($kem:ident)*) => {$(
            assert_eq!(
                lengths($kem::SET),
                Some(Lengths {
                    key_seed: $kem::KEY_SEED_SIZE,
                    public_key: $kem::PUBLIC_KEY_LENGTH,
                    secret_key: $kem::SECRET_KEY_LENGTH,
                    ciphertext: $kem::CIPHERTEXT_LENGTH,
                    message: $kem::BYTES_MU,
                    salt: $kem::BYTES_SALT,
                    shared_secret: $kem::SHARED_SECRET_LENGTH,
                    noise_words: $kem::NOISE_WORDS,
                    work_words: $kem::WORK_WORDS,
                }),
                "{}",
                $kem::NAME
            );
        )*};
    }
    same!(Frodo640Shake Frodo976Shake Frodo1344Shake);
    for set in [0, 4, 257, 65537, u32::MAX] {
        assert_eq!(lengths(set), None, "set {set}");
    }
}

#[test]
fn a_sealed_message_opens() {
    for set in 1..=3 {
        let l = lengths(set).unwrap();
        for spare in [0, 77] {
            let (seed, message, salt) = (bytes(set, l.key_seed), bytes(10 + set, l.message), bytes(20 + set, l.salt));
            let mut memory = Memory::of(&l, spare);
            let found = margin(set, &seed, &message, &salt, &mut memory.lent()).unwrap();
            assert!(found.kept && found.size > 0 && found.ratio > 0.0 && found.ratio < 1.0, "set {set}: {found:?}");
            assert!(memory.is_wiped(&l));

            let (mut used, mut public, mut secret) = (seed, vec![DIRTY; l.public_key], vec![DIRTY; l.secret_key]);
            memory = Memory::of(&l, spare);
            generate_keypair_from_seed(set, &mut used, &mut public, &mut secret, &mut memory.lent()).unwrap();
            assert!(memory.is_wiped(&l) && used.iter().all(|&b| b == 0));

            let (mut sealed, mut key) = (vec![DIRTY; l.ciphertext], vec![DIRTY; l.shared_secret]);
            memory = Memory::of(&l, spare);
            encapsulate(set, &public, &message, &salt, &mut sealed, &mut key, &mut memory.lent()).unwrap();
            assert!(memory.is_wiped(&l));
            assert_eq!(sealed[l.ciphertext - l.salt..], salt);

            let (mut opened, mut alone, mut recovered) = (vec![DIRTY; l.shared_secret], vec![DIRTY; l.shared_secret], vec![DIRTY; l.message]);
            memory = Memory::of(&l, spare);
            decapsulate(set, &secret, &sealed, &mut opened, &mut recovered, &mut memory.lent()).unwrap();
            assert!(memory.is_wiped(&l));
            memory = Memory::of(&l, spare);
            decapsulate_shared_secret(set, &secret, &sealed, &mut alone, &mut memory.lent()).unwrap();
            assert!(memory.is_wiped(&l));
            assert_eq!((&opened, &alone, &recovered), (&key, &key, &message), "set {set}");

            sealed[3] ^= 1;
            decapsulate(set, &secret, &sealed, &mut opened, &mut recovered, &mut memory.lent()).unwrap();
            assert_ne!(opened, key, "set {set}: a damaged ciphertext gave the secret");
        }
    }
}

/// The five calls of set `set` with buffers of the lengths `l`: the refusal of each, where nothing was changed.
fn refusals(set: u32, l: &Lengths) -> [Result<(), Refusal>; 5] {
    let mut memory = Memory::of(l, 0);
    let (mut seed, mut public, mut secret) = (vec![DIRTY; l.key_seed], vec![DIRTY; l.public_key], vec![DIRTY; l.secret_key]);
    let (mut sealed, mut key, mut message) = (vec![DIRTY; l.ciphertext], vec![DIRTY; l.shared_secret], vec![DIRTY; l.message]);
    let salt = vec![DIRTY; l.salt];
    let mut answers = [Ok(()); 5];
    for (call, answer) in answers.iter_mut().enumerate() {
        *answer = match call {
            0 => generate_keypair_from_seed(set, &mut seed, &mut public, &mut secret, &mut memory.lent()),
            1 => encapsulate(set, &public, &message, &salt, &mut sealed, &mut key, &mut memory.lent()),
            2 => decapsulate(set, &secret, &sealed, &mut key, &mut message, &mut memory.lent()),
            3 => decapsulate_shared_secret(set, &secret, &sealed, &mut key, &mut memory.lent()),
            _ => margin(set, &seed, &message, &salt, &mut memory.lent()).map(|_| ()),
        };
        if answer.is_err() {
            let lent = [&seed, &public, &secret, &sealed, &key, &message, &salt];
            assert!(memory.is_untouched() && lent.iter().all(|b| b.iter().all(|&x| x == DIRTY)), "set {set} call {call}: {answer:?} changed something");
        } else {
            // a call that was done is undone, so that the next one finds dirty buffers
            memory = Memory::of(l, 0);
            for b in [&mut seed, &mut public, &mut secret, &mut sealed, &mut key, &mut message] {
                b.fill(DIRTY);
            }
        }
    }
    answers
}

#[test]
fn each_wrong_length_has_its_refusal() {
    type Field = (fn(&mut Lengths) -> &mut usize, &'static str, [u32; 5]);
    // which call has which buffer: key generation, encapsulation, both decapsulations, margin
    let fields: [Field; 9] = [
        (|l| &mut l.key_seed, "key seed", [2, 0, 0, 0, 2]),
        (|l| &mut l.public_key, "public key", [3, 3, 0, 0, 0]),
        (|l| &mut l.secret_key, "secret key", [4, 0, 4, 4, 0]),
        (|l| &mut l.ciphertext, "ciphertext", [0, 5, 5, 5, 0]),
        (|l| &mut l.message, "message", [0, 6, 6, 0, 6]),
        (|l| &mut l.salt, "salt", [0, 7, 0, 0, 7]),
        (|l| &mut l.shared_secret, "shared secret", [0, 8, 8, 8, 0]),
        (|l| &mut l.noise_words, "scratches", [9; 5]),
        (|l| &mut l.work_words, "scratches", [9; 5]),
    ];
    for set in 1..=3 {
        let right = lengths(set).unwrap();
        assert_eq!(refusals(set, &right), [Ok(()); 5], "set {set}");
        for (field, name, numbers) in fields {
            let mut wrong = right;
            *field(&mut wrong) -= 1;
            for (answer, number) in refusals(set, &wrong).into_iter().zip(numbers) {
                match answer {
                    Ok(()) => assert_eq!(number, 0, "set {set}, {name} one short"),
                    Err(refusal) => {
                        assert_eq!(refusal.number(), number, "set {set}, {name} one short");
                        let text = refusal.to_string();
                        for part in [name, &field(&mut wrong).to_string(), &field(&mut right.clone()).to_string()] {
                            assert!(text.contains(part), "'{text}' does not say '{part}'");
                        }
                    }
                }
            }
        }
    }
}

#[test]
fn no_set_comes_before_every_other_refusal() {
    let wrong = Lengths { key_seed: 1, public_key: 1, secret_key: 1, ciphertext: 1, message: 1, salt: 1, shared_secret: 1, noise_words: 1, work_words: 1 };
    for set in [0, 4, 257, 65537, u32::MAX] {
        assert_eq!(refusals(set, &wrong), [Err(Refusal::UnknownSet { found: set }); 5]);
    }
    assert_eq!(Refusal::UnknownSet { found: 4 }.to_string(), "refusal 1: there is no set 4, expected 1, 2 or 3");
}

/// Sets 1 to 3 of the published answers: the shared secret, which hangs on every byte of the public key and the ciphertext.
#[test]
fn published_secrets() {
    let list = std::fs::read_to_string(concat!(env!("CARGO_MANIFEST_DIR"), "/../../crates/replay_kem/data/published.txt")).expect("the published answers");
    let unhex = |text: &str| -> Vec<u8> { (0..text.len()).step_by(2).map(|i| u8::from_str_radix(&text[i..i + 2], 16).expect("hex digits")).collect() };
    let mut seen = 0;
    for line in list.lines().filter(|line| !line.starts_with('#') && !line.is_empty()) {
        let fields: Vec<&str> = line.split_whitespace().collect();
        let set = fields[0].parse().expect("a set number");
        let l = lengths(set).expect("a set");
        let mut memory = Memory::of(&l, 0);
        let (mut seed, message, salt, expected) = (unhex(fields[1]), unhex(fields[2]), unhex(fields[3]), unhex(fields[7]));
        let (mut public, mut secret) = (vec![0; l.public_key], vec![0; l.secret_key]);
        let (mut sealed, mut key, mut opened) = (vec![0; l.ciphertext], vec![0; l.shared_secret], vec![0; l.shared_secret]);
        generate_keypair_from_seed(set, &mut seed, &mut public, &mut secret, &mut memory.lent()).unwrap();
        encapsulate(set, &public, &message, &salt, &mut sealed, &mut key, &mut memory.lent()).unwrap();
        decapsulate_shared_secret(set, &secret, &sealed, &mut opened, &mut memory.lent()).unwrap();
        assert_eq!((&key, &opened), (&expected, &expected), "{line}");
        seen += 1;
    }
    assert_eq!(seen, 24, "answers of sets 1 to 3");
}
