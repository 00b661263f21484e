//! `rand_core`, as far as the crate names it. The two calls that draw randomness are not ported, so there is no generator.
pub trait RngCore {
    fn fill_bytes(&mut self, to: &mut [u8]);
}

pub trait CryptoRng: RngCore {}
