//! FrodoKEM for a dying process: a safe face of the proved static library `libfrodo_c.a`.
//!
//! No heap, no standard library, no dependency, no global state. All memory is lent by the caller; every call comes back, and a call that is
//! refused has changed nothing. Each set is a type with its lengths as constants:
//!
//! | | [`Frodo640Shake`] | [`Frodo976Shake`] | [`Frodo1344Shake`] |
//! |---|---|---|---|
//! | set number | 1 | 2 | 3 |
//! | key seed | 64 | 88 | 112 |
//! | public key | 9616 | 15632 | 21520 |
//! | secret key | 19888 | 31296 | 43088 |
//! | ciphertext | 9752 | 15792 | 21696 |
//! | message and shared secret | 16 | 24 | 32 |
//! | salt | 32 | 48 | 64 |
//! | noise scratch, `u16` words | 10304 | 15680 | 21568 |
//! | work scratch, `u16` words | 11136 | 16848 | 23104 |
//!
//! ```
//! use stroupadal::{Frodo640Shake as Kem, Scratch};
//!
//! let (mut noise, mut work) = ([0; Kem::NOISE_WORDS], [0; Kem::WORK_WORDS]);
//! let mut scratch = Scratch { noise: &mut noise, work: &mut work };
//!
//! // the customer makes a key, from a seed of random bytes
//! let mut seed = [7; Kem::KEY_SEED_SIZE];
//! let (mut public, mut secret) = ([0; Kem::PUBLIC_KEY_LENGTH], [0; Kem::SECRET_KEY_LENGTH]);
//! Kem::generate_keypair_from_seed(&mut seed, &mut public, &mut secret, &mut scratch)?;
//!
//! // the dying process seals: message and salt are random bytes of its own
//! let (message, salt) = ([1; Kem::BYTES_MU], [2; Kem::BYTES_SALT]);
//! let (mut sealed, mut key) = ([0; Kem::CIPHERTEXT_LENGTH], [0; Kem::SHARED_SECRET_LENGTH]);
//! Kem::encapsulate(&public, &message, &salt, &mut sealed, &mut key, &mut scratch)?;
//!
//! // the customer opens
//! let (mut opened, mut recovered) = ([0; Kem::SHARED_SECRET_LENGTH], [0; Kem::BYTES_MU]);
//! Kem::decapsulate(&secret, &sealed, &mut opened, &mut recovered, &mut scratch)?;
//! assert_eq!((opened, recovered), (key, message));
//! # Ok::<(), stroupadal::Refusal>(())
//! ```
#![no_std]
#![deny(missing_docs, unsafe_op_in_unsafe_fn)]

mod calls;
mod refusal;
mod sys;

/// README.md's Rust example, as a test.
#[cfg(doctest)]
#[doc = include_str!("../../../README.md")]
pub struct Readme;

/// And that of the page on moving over.
#[cfg(doctest)]
#[doc = include_str!("../../../docs/MOVING-OVER.md")]
pub struct MovingOver;

pub use calls::{decapsulate, decapsulate_shared_secret, encapsulate, generate_keypair_from_seed, lengths, margin, Lengths, Margin, Scratch};
pub use refusal::Refusal;

macro_rules! set {
    ($(#[$about:meta])* $name:ident, $number:literal, $title:literal, $n:literal, $log_q:literal, $bits:literal, $secret:literal) => {
        $(#[$about])*
        #[derive(Clone, Copy, Debug, Default, PartialEq, Eq)]
        pub struct $name;

        impl $name {
            /// The set's number.
            pub const SET: u32 = $number;
            /// The set's name in the FrodoKEM standard proposal (2023).
            pub const NAME: &'static str = $title;
            /// Rows and columns of A.
            pub const N: usize = $n;
            /// Rows of S', and columns of S.
            pub const N_BAR: usize = 8;
            /// Bits of q.
            pub const LOG_Q: usize = $log_q;
            /// Message bits in an entry: B.
            pub const EXTRACTED_BITS: usize = $bits;
            /// Bytes of seedA.
            pub const BYTES_SEED_A: usize = 16;
            /// Bytes of seedSE.
            pub const BYTES_SEED_SE: usize = 2 * Self::SHARED_SECRET_LENGTH;
            /// Bytes of the message.
            pub const BYTES_MU: usize = 8 * Self::EXTRACTED_BITS;
            /// Bytes of the salt.
            pub const BYTES_SALT: usize = 2 * Self::SHARED_SECRET_LENGTH;
            /// Bytes of the public key's hash, as the secret key stores it.
            pub const BYTES_PK_HASH: usize = Self::SHARED_SECRET_LENGTH;
            /// Bytes of the key seed: s, seedSE, z.
            pub const KEY_SEED_SIZE: usize = Self::SHARED_SECRET_LENGTH + Self::BYTES_SEED_SE + Self::BYTES_SEED_A;
            /// Bytes of the shared secret.
            pub const SHARED_SECRET_LENGTH: usize = $secret;
            /// Bytes of the public key: seedA, then packed B.
            pub const PUBLIC_KEY_LENGTH: usize = Self::BYTES_SEED_A + Self::LOG_Q * Self::N;
            /// Bytes of the secret key: s, public key, S transposed, pkh.
            pub const SECRET_KEY_LENGTH: usize =
                Self::SHARED_SECRET_LENGTH + Self::PUBLIC_KEY_LENGTH + 2 * Self::N * Self::N_BAR + Self::BYTES_PK_HASH;
            /// Bytes of the ciphertext: c1, c2, salt.
            pub const CIPHERTEXT_LENGTH: usize = Self::LOG_Q * Self::N + Self::LOG_Q * Self::N_BAR + Self::BYTES_SALT;
            /// The fewest words of the noise scratch.
            pub const NOISE_WORDS: usize = 16 * Self::N + 64;
            /// The fewest words of the work scratch.
            pub const WORK_WORDS: usize = 17 * Self::N + 256;

            /// Writes both keys and zeroes the seed.
            ///
            /// # Errors
            /// [`Refusal`] 2, 3, 4 or 9, the first that is so; then nothing has changed.
            pub fn generate_keypair_from_seed(
                seed: &mut [u8],
                public_key: &mut [u8],
                secret_key: &mut [u8],
                scratch: &mut Scratch<'_>,
            ) -> Result<(), Refusal> {
                generate_keypair_from_seed(Self::SET, seed, public_key, secret_key, scratch)
            }

            /// Seals `message` with `salt` under `public_key`: writes the ciphertext and the shared secret. Message and salt are random bytes of the caller's.
            ///
            /// # Errors
            /// [`Refusal`] 3, 5, 6, 7, 8 or 9, the first that is so; then nothing has changed.
            pub fn encapsulate(
                public_key: &[u8],
                message: &[u8],
                salt: &[u8],
                ciphertext: &mut [u8],
                shared_secret: &mut [u8],
                scratch: &mut Scratch<'_>,
            ) -> Result<(), Refusal> {
                encapsulate(Self::SET, public_key, message, salt, ciphertext, shared_secret, scratch)
            }

            /// Opens `ciphertext`: writes the shared secret and the message that was recovered, the message also where the ciphertext is not accepted (the
            /// secret is then one that nobody else has).
            ///
            /// # Errors
            /// [`Refusal`] 4, 5, 6, 8 or 9, the first that is so; then nothing has changed.
            pub fn decapsulate(
                secret_key: &[u8],
                ciphertext: &[u8],
                shared_secret: &mut [u8],
                message: &mut [u8],
                scratch: &mut Scratch<'_>,
            ) -> Result<(), Refusal> {
                decapsulate(Self::SET, secret_key, ciphertext, shared_secret, message, scratch)
            }

            /// [`Self::decapsulate`] without the message.
            ///
            /// # Errors
            /// [`Refusal`] 4, 5, 8 or 9, the first that is so; then nothing has changed.
            pub fn decapsulate_shared_secret(
                secret_key: &[u8],
                ciphertext: &[u8],
                shared_secret: &mut [u8],
                scratch: &mut Scratch<'_>,
            ) -> Result<(), Refusal> {
                decapsulate_shared_secret(Self::SET, secret_key, ciphertext, shared_secret, scratch)
            }

            /// How far the noise of a key seed, a message and a salt is from spoiling the message.
            ///
            /// # Errors
            /// [`Refusal`] 2, 6, 7 or 9, the first that is so; then nothing has changed.
            pub fn margin(seed: &[u8], message: &[u8], salt: &[u8], scratch: &mut Scratch<'_>) -> Result<Margin, Refusal> {
                margin(Self::SET, seed, message, salt, scratch)
            }
        }
    };
}

set!(
    /// FrodoKEM-640-SHAKE, set 1.
    Frodo640Shake, 1, "FrodoKEM-640-SHAKE", 640, 15, 2, 16
);
set!(
    /// FrodoKEM-976-SHAKE, set 2.
    Frodo976Shake, 2, "FrodoKEM-976-SHAKE", 976, 16, 3, 24
);
set!(
    /// FrodoKEM-1344-SHAKE, set 3.
    Frodo1344Shake, 3, "FrodoKEM-1344-SHAKE", 1344, 16, 4, 32
);
