//! `shake` by Debian's sha3.
pub use sha3::{digest, Shake128, Shake256};
