//! The calls by set number. The proved code does every test; what stands here is how slices are lent and how a refusal is worded.
use crate::{sys, Refusal};

/// The two scratches that a call works in, whatever they hold. After a call that was done, the front of each, as many words as the set wants, is zero;
/// later words are untouched.
#[derive(Debug)]
pub struct Scratch<'a> {
    /// At least 16n + 64 words.
    pub noise: &'a mut [u16],
    /// At least 17n + 256 words.
    pub work: &'a mut [u16],
}

/// The lengths of a set's buffers: bytes, and words for the scratches.
#[derive(Clone, Copy, Debug, PartialEq, Eq)]
#[allow(missing_docs)]
pub struct Lengths {
    pub key_seed: usize,
    pub public_key: usize,
    pub secret_key: usize,
    pub ciphertext: usize,
    pub message: usize,
    pub salt: usize,
    pub shared_secret: usize,
    /// The fewest words of noise scratch.
    pub noise_words: usize,
    /// The fewest words of work scratch.
    pub work_words: usize,
}

/// How far noise is from spoiling a message.
#[derive(Clone, Copy, Debug, PartialEq)]
pub struct Margin {
    /// The largest size of a centred entry of S'E + E'' - E'S.
    pub size: u32,
    /// That size over h = q/2^(B+1), exactly.
    pub ratio: f64,
    /// Every centred entry is at least -h and less than h. That is so if and only if decapsulation gives the message back; then it gives encapsulation's secret, too. Kept goes with
    /// every size below h and with none above it; of a size of h itself, a ratio of 1.0, noise with an entry of h is lost, and noise whose worst entry is -h is kept.
    pub kept: bool,
}

/// The lengths of set `set`, where there is one.
#[must_use]
pub fn lengths(set: u32) -> Option<Lengths> {
    let of = table(set);
    (of.public_key != 0).then_some(of)
}

fn table(set: u32) -> Lengths {
    // SAFETY: takes a number and touches no memory.
    let of = unsafe { sys::frodo_lengths(set) };
    Lengths {
        key_seed: of.seed as usize,
        public_key: of.public_key as usize,
        secret_key: of.secret_key as usize,
        ciphertext: of.ciphertext as usize,
        message: of.message as usize,
        salt: of.salt as usize,
        shared_secret: of.shared_secret as usize,
        noise_words: of.noise_words as usize,
        work_words: of.work_words as usize,
    }
}

/// What a call was lent, for a refusal's text; 0 where the call has no such buffer.
#[derive(Default)]
struct Lent {
    key_seed: usize,
    public_key: usize,
    secret_key: usize,
    ciphertext: usize,
    message: usize,
    salt: usize,
    shared_secret: usize,
    noise: usize,
    work: usize,
}

/// An answer of the library, which is proved to be one of 0 to 9, as a result.
fn result(number: u32, set: u32, lent: Lent) -> Result<(), Refusal> {
    let of = table(set);
    Err(match number {
        0 => return Ok(()),
        1 => Refusal::UnknownSet { found: set },
        2 => Refusal::KeySeedLength { found: lent.key_seed, expected: of.key_seed },
        3 => Refusal::PublicKeyLength { found: lent.public_key, expected: of.public_key },
        4 => Refusal::SecretKeyLength { found: lent.secret_key, expected: of.secret_key },
        5 => Refusal::CiphertextLength { found: lent.ciphertext, expected: of.ciphertext },
        6 => Refusal::MessageLength { found: lent.message, expected: of.message },
        7 => Refusal::SaltLength { found: lent.salt, expected: of.salt },
        8 => Refusal::SharedSecretLength { found: lent.shared_secret, expected: of.shared_secret },
        _ => Refusal::ScratchLength {
            noise: lent.noise,
            noise_expected: of.noise_words,
            work: lent.work,
            work_expected: of.work_words,
        },
    })
}

/// Writes both keys of set `set` and zeroes the seed.
///
/// # Errors
/// [`Refusal`] 1, 2, 3, 4 or 9, the first that is so; then nothing has changed.
pub fn generate_keypair_from_seed(
    set: u32,
    seed: &mut [u8],
    public_key: &mut [u8],
    secret_key: &mut [u8],
    scratch: &mut Scratch<'_>,
) -> Result<(), Refusal> {
    // SAFETY: each pointer and length is a slice's, valid for the call, and slices that are lent to be changed do not overlap.
    let number = unsafe {
        sys::frodo_generate_keypair_from_seed(
            set,
            seed.as_mut_ptr(),
            seed.len(),
            public_key.as_mut_ptr(),
            public_key.len(),
            secret_key.as_mut_ptr(),
            secret_key.len(),
            scratch.noise.as_mut_ptr(),
            scratch.noise.len(),
            scratch.work.as_mut_ptr(),
            scratch.work.len(),
        )
    };
    let lent = Lent {
        key_seed: seed.len(),
        public_key: public_key.len(),
        secret_key: secret_key.len(),
        noise: scratch.noise.len(),
        work: scratch.work.len(),
        ..Lent::default()
    };
    result(number, set, lent)
}

/// Seals `message` with `salt` under a public key of set `set`: writes the ciphertext and the shared secret.
///
/// # Errors
/// [`Refusal`] 1, 3, 5, 6, 7, 8 or 9, the first that is so; then nothing has changed.
pub fn encapsulate(
    set: u32,
    public_key: &[u8],
    message: &[u8],
    salt: &[u8],
    ciphertext: &mut [u8],
    shared_secret: &mut [u8],
    scratch: &mut Scratch<'_>,
) -> Result<(), Refusal> {
    // SAFETY: as in `generate_keypair_from_seed`; slices that are only read may overlap each other.
    let number = unsafe {
        sys::frodo_encapsulate(
            set,
            public_key.as_ptr(),
            public_key.len(),
            message.as_ptr(),
            message.len(),
            salt.as_ptr(),
            salt.len(),
            ciphertext.as_mut_ptr(),
            ciphertext.len(),
            shared_secret.as_mut_ptr(),
            shared_secret.len(),
            scratch.noise.as_mut_ptr(),
            scratch.noise.len(),
            scratch.work.as_mut_ptr(),
            scratch.work.len(),
        )
    };
    let lent = Lent {
        public_key: public_key.len(),
        message: message.len(),
        salt: salt.len(),
        ciphertext: ciphertext.len(),
        shared_secret: shared_secret.len(),
        noise: scratch.noise.len(),
        work: scratch.work.len(),
        ..Lent::default()
    };
    result(number, set, lent)
}

/// Opens a ciphertext of set `set`: writes the shared secret and the recovered message.
///
/// # Errors
/// [`Refusal`] 1, 4, 5, 6, 8 or 9, the first that is so; then nothing has changed.
pub fn decapsulate(
    set: u32,
    secret_key: &[u8],
    ciphertext: &[u8],
    shared_secret: &mut [u8],
    message: &mut [u8],
    scratch: &mut Scratch<'_>,
) -> Result<(), Refusal> {
    // SAFETY: as in `encapsulate`.
    let number = unsafe {
        sys::frodo_decapsulate(
            set,
            secret_key.as_ptr(),
            secret_key.len(),
            ciphertext.as_ptr(),
            ciphertext.len(),
            shared_secret.as_mut_ptr(),
            shared_secret.len(),
            message.as_mut_ptr(),
            message.len(),
            scratch.noise.as_mut_ptr(),
            scratch.noise.len(),
            scratch.work.as_mut_ptr(),
            scratch.work.len(),
        )
    };
    let lent = Lent {
        secret_key: secret_key.len(),
        ciphertext: ciphertext.len(),
        shared_secret: shared_secret.len(),
        message: message.len(),
        noise: scratch.noise.len(),
        work: scratch.work.len(),
        ..Lent::default()
    };
    result(number, set, lent)
}

/// [`decapsulate`] without the message.
///
/// # Errors
/// [`Refusal`] 1, 4, 5, 8 or 9, the first that is so; then nothing has changed.
pub fn decapsulate_shared_secret(
    set: u32,
    secret_key: &[u8],
    ciphertext: &[u8],
    shared_secret: &mut [u8],
    scratch: &mut Scratch<'_>,
) -> Result<(), Refusal> {
    // SAFETY: as in `encapsulate`.
    let number = unsafe {
        sys::frodo_decapsulate_shared_secret(
            set,
            secret_key.as_ptr(),
            secret_key.len(),
            ciphertext.as_ptr(),
            ciphertext.len(),
            shared_secret.as_mut_ptr(),
            shared_secret.len(),
            scratch.noise.as_mut_ptr(),
            scratch.noise.len(),
            scratch.work.as_mut_ptr(),
            scratch.work.len(),
        )
    };
    let lent = Lent {
        secret_key: secret_key.len(),
        ciphertext: ciphertext.len(),
        shared_secret: shared_secret.len(),
        noise: scratch.noise.len(),
        work: scratch.work.len(),
        ..Lent::default()
    };
    result(number, set, lent)
}

/// How far the noise of a key seed, a message and a salt of set `set` is from spoiling the message.
///
/// # Errors
/// [`Refusal`] 1, 2, 6, 7 or 9, the first that is so; then nothing has changed.
pub fn margin(set: u32, seed: &[u8], message: &[u8], salt: &[u8], scratch: &mut Scratch<'_>) -> Result<Margin, Refusal> {
    // SAFETY: as in `encapsulate`.
    let found = unsafe {
        sys::frodo_margin(
            set,
            seed.as_ptr(),
            seed.len(),
            message.as_ptr(),
            message.len(),
            salt.as_ptr(),
            salt.len(),
            scratch.noise.as_mut_ptr(),
            scratch.noise.len(),
            scratch.work.as_mut_ptr(),
            scratch.work.len(),
        )
    };
    let lent = Lent {
        key_seed: seed.len(),
        message: message.len(),
        salt: salt.len(),
        noise: scratch.noise.len(),
        work: scratch.work.len(),
        ..Lent::default()
    };
    result(found.refusal, set, lent).map(|()| Margin { size: found.size, ratio: found.ratio, kept: found.kept == 1 })
}
