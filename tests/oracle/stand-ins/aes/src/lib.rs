//! The new `aes` by Debian's older one, which has no AES-NI: the AES sets run slower than with the real dependency.
use old::cipher::{block::InvalidKeyLength, consts::U16, generic_array::GenericArray};

pub type Block = GenericArray<u8, U16>;
pub struct Aes128Enc(old::Aes128);

pub mod cipher {
    use super::{Aes128Enc, Block, InvalidKeyLength};
    use old::cipher::{BlockCipher, NewBlockCipher};

    pub trait KeySizeUser {
        fn key_size() -> usize;
    }

    pub trait KeyInit: Sized {
        fn new_from_slice(key: &[u8]) -> Result<Self, InvalidKeyLength>;
    }

    pub trait BlockCipherEncrypt {
        fn encrypt_blocks(&self, blocks: &mut [Block]);
    }

    impl KeySizeUser for Aes128Enc {
        fn key_size() -> usize {
            16
        }
    }

    impl KeyInit for Aes128Enc {
        fn new_from_slice(key: &[u8]) -> Result<Self, InvalidKeyLength> {
            Ok(Aes128Enc(old::Aes128::new_varkey(key)?))
        }
    }

    impl BlockCipherEncrypt for Aes128Enc {
        fn encrypt_blocks(&self, blocks: &mut [Block]) {
            self.0.encrypt_slice(blocks)
        }
    }
}
