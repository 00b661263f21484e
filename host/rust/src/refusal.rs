//! Why a call was turned away, by the numbers of the paper (docs/RULES.md, 3.1).
use core::fmt;

/// Why a call was turned away. The call has then changed nothing that it was lent.
///
/// Its number is the paper's; its text says what was wrong and what was expected.
///
/// ```
/// use stroupadal::{Frodo640Shake as Kem, Refusal, Scratch};
///
/// let (mut noise, mut work) = ([0; Kem::NOISE_WORDS], [0; Kem::WORK_WORDS]);
/// let mut scratch = Scratch { noise: &mut noise, work: &mut work };
/// let refusal = Kem::margin(&[0; 63], &[0; 16], &[0; 32], &mut scratch).unwrap_err();
/// assert_eq!(refusal, Refusal::KeySeedLength { found: 63, expected: 64 });
/// assert_eq!(refusal.number(), 2);
/// assert_eq!(refusal.to_string(), "refusal 2: the key seed has 63 bytes, expected 64");
/// ```
#[derive(Clone, Copy, Debug, PartialEq, Eq)]
#[repr(u32)]
pub enum Refusal {
    /// The set number is not 1, 2 or 3.
    UnknownSet {
        /// The number that was given.
        found: u32,
    } = 1,
    /// The key seed's length is wrong.
    KeySeedLength {
        /// Bytes lent.
        found: usize,
        /// Bytes of the set.
        expected: usize,
    } = 2,
    /// The public key's length is wrong.
    PublicKeyLength {
        /// Bytes lent.
        found: usize,
        /// Bytes of the set.
        expected: usize,
    } = 3,
    /// The secret key's length is wrong.
    SecretKeyLength {
        /// Bytes lent.
        found: usize,
        /// Bytes of the set.
        expected: usize,
    } = 4,
    /// The ciphertext's length is wrong.
    CiphertextLength {
        /// Bytes lent.
        found: usize,
        /// Bytes of the set.
        expected: usize,
    } = 5,
    /// The message's length is wrong, read or written.
    MessageLength {
        /// Bytes lent.
        found: usize,
        /// Bytes of the set.
        expected: usize,
    } = 6,
    /// The salt's length is wrong.
    SaltLength {
        /// Bytes lent.
        found: usize,
        /// Bytes of the set.
        expected: usize,
    } = 7,
    /// The shared secret's length is wrong.
    SharedSecretLength {
        /// Bytes lent.
        found: usize,
        /// Bytes of the set.
        expected: usize,
    } = 8,
    /// Either scratch is too short.
    ScratchLength {
        /// Words of noise scratch lent.
        noise: usize,
        /// The fewest words of noise scratch.
        noise_expected: usize,
        /// Words of work scratch lent.
        work: usize,
        /// The fewest words of work scratch.
        work_expected: usize,
    } = 9,
}

impl Refusal {
    /// The paper's number, 1 to 9.
    #[must_use]
    pub const fn number(&self) -> u32 {
        match self {
            Self::UnknownSet { .. } => 1,
            Self::KeySeedLength { .. } => 2,
            Self::PublicKeyLength { .. } => 3,
            Self::SecretKeyLength { .. } => 4,
            Self::CiphertextLength { .. } => 5,
            Self::MessageLength { .. } => 6,
            Self::SaltLength { .. } => 7,
            Self::SharedSecretLength { .. } => 8,
            Self::ScratchLength { .. } => 9,
        }
    }
}

impl fmt::Display for Refusal {
    fn fmt(&self, f: &mut fmt::Formatter<'_>) -> fmt::Result {
        write!(f, "refusal {}: ", self.number())?;
        let (what, found, expected) = match *self {
            Self::UnknownSet { found } => return write!(f, "there is no set {found}, expected 1, 2 or 3"),
            Self::ScratchLength { noise, noise_expected, work, work_expected } => {
                return write!(
                    f,
                    "the scratches have {noise} (noise) and {work} (work) words, expected at least {noise_expected} and {work_expected}"
                );
            }
            Self::KeySeedLength { found, expected } => ("key seed", found, expected),
            Self::PublicKeyLength { found, expected } => ("public key", found, expected),
            Self::SecretKeyLength { found, expected } => ("secret key", found, expected),
            Self::CiphertextLength { found, expected } => ("ciphertext", found, expected),
            Self::MessageLength { found, expected } => ("message", found, expected),
            Self::SaltLength { found, expected } => ("salt", found, expected),
            Self::SharedSecretLength { found, expected } => ("shared secret", found, expected),
        };
        write!(f, "the {what} has {found} bytes, expected {expected}")
    }
}

impl core::error::Error for Refusal {}
