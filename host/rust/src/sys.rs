//! include/frodo.h, as Rust declares it.

#[repr(C)]
pub struct FrodoMargin {
    pub refusal: u32,
    pub size: u32,
    pub ratio: f64,
    pub kept: u32,
}

#[repr(C)]
pub struct FrodoLengths {
    pub seed: u32,
    pub public_key: u32,
    pub secret_key: u32,
    pub ciphertext: u32,
    pub message: u32,
    pub salt: u32,
    pub shared_secret: u32,
    pub noise_words: u32,
    pub work_words: u32,
}

extern "C" {
    pub fn frodo_generate_keypair_from_seed(
        set: u32,
        seed: *mut u8,
        seed_len: usize,
        pk: *mut u8,
        pk_len: usize,
        sk: *mut u8,
        sk_len: usize,
        noise: *mut u16,
        noise_len: usize,
        work: *mut u16,
        work_len: usize,
    ) -> u32;

    pub fn frodo_encapsulate(
        set: u32,
        pk: *const u8,
        pk_len: usize,
        message: *const u8,
        message_len: usize,
        salt: *const u8,
        salt_len: usize,
        ct: *mut u8,
        ct_len: usize,
        ss: *mut u8,
        ss_len: usize,
        noise: *mut u16,
        noise_len: usize,
        work: *mut u16,
        work_len: usize,
    ) -> u32;

    pub fn frodo_decapsulate(
        set: u32,
        sk: *const u8,
        sk_len: usize,
        ct: *const u8,
        ct_len: usize,
        ss: *mut u8,
        ss_len: usize,
        message: *mut u8,
        message_len: usize,
        noise: *mut u16,
        noise_len: usize,
        work: *mut u16,
        work_len: usize,
    ) -> u32;

    pub fn frodo_decapsulate_shared_secret(
        set: u32,
        sk: *const u8,
        sk_len: usize,
        ct: *const u8,
        ct_len: usize,
        ss: *mut u8,
        ss_len: usize,
        noise: *mut u16,
        noise_len: usize,
        work: *mut u16,
        work_len: usize,
    ) -> u32;

    pub fn frodo_margin(
        set: u32,
        seed: *const u8,
        seed_len: usize,
        message: *const u8,
        message_len: usize,
        salt: *const u8,
        salt_len: usize,
        noise: *mut u16,
        noise_len: usize,
        work: *mut u16,
        work_len: usize,
    ) -> FrodoMargin;

    pub fn frodo_lengths(set: u32) -> FrodoLengths;
}
