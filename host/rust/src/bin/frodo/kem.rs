//! The library's calls with buffers of a set's lengths.
use crate::sets::Set;
use stroupadal::{decapsulate, encapsulate, generate_keypair_from_seed, margin, Margin, Refusal, Scratch};

/// A set's calls, and the scratch that they work in.
pub struct Kem {
    pub set: Set,
    noise: Vec<u16>,
    work: Vec<u16>,
}

pub struct Keys {
    pub public: Vec<u8>,
    pub secret: Vec<u8>,
}

#[derive(Clone)]
pub struct Sealed {
    pub report: Vec<u8>,
    pub key: Vec<u8>,
}

pub struct Opened {
    pub key: Vec<u8>,
    pub message: Vec<u8>,
}

impl Kem {
    pub fn new(set: Set) -> Self {
        Self { set, noise: vec![0; set.lengths.noise_words], work: vec![0; set.lengths.work_words] }
    }

    fn lent(&mut self) -> Scratch<'_> {
        Scratch { noise: &mut self.noise, work: &mut self.work }
    }

    pub fn keys(&mut self, seed: &[u8]) -> Result<Keys, Refusal> {
        let l = self.set.lengths;
        let (mut used, mut public, mut secret) = (seed.to_vec(), vec![0; l.public_key], vec![0; l.secret_key]);
        generate_keypair_from_seed(self.set.number, &mut used, &mut public, &mut secret, &mut self.lent())?;
        Ok(Keys { public, secret })
    }

    pub fn seal(&mut self, public: &[u8], message: &[u8], salt: &[u8]) -> Result<Sealed, Refusal> {
        let l = self.set.lengths;
        let (mut report, mut key) = (vec![0; l.ciphertext], vec![0; l.shared_secret]);
        encapsulate(self.set.number, public, message, salt, &mut report, &mut key, &mut self.lent())?;
        Ok(Sealed { report, key })
    }

    pub fn open(&mut self, secret: &[u8], report: &[u8]) -> Result<Opened, Refusal> {
        let l = self.set.lengths;
        let (mut key, mut message) = (vec![0; l.shared_secret], vec![0; l.message]);
        decapsulate(self.set.number, secret, report, &mut key, &mut message, &mut self.lent())?;
        Ok(Opened { key, message })
    }

    pub fn margin(&mut self, seed: &[u8], message: &[u8], salt: &[u8]) -> Result<Margin, Refusal> {
        margin(self.set.number, seed, message, salt, &mut self.lent())
    }
}
