//! The library's calls, as libfrodo_c.a has them.
#[repr(C)]
#[derive(Clone, Copy, Debug)]
pub struct Margin {
    pub refusal: u32,
    pub size: u32,
    pub ratio: f64,
    pub kept: u32,
}

#[repr(C)]
#[derive(Clone, Copy, Debug, PartialEq)]
pub struct Lengths {
    pub seed: u32,
    pub public_key: u32,
    pub secret_key: u32,
    pub ciphertext: u32,
    pub message: u32,
    pub salt: u32,
    pub shared_secret: u32,
    pub noise_words: u32,
    pub work_words: u32,
}

#[rustfmt::skip]
#[link(name = "frodo_c", kind = "static")]
extern "C" {
    fn frodo_generate_keypair_from_seed(set: u32, seed: *mut u8, seed_len: usize, pk: *mut u8, pk_len: usize, sk: *mut u8, sk_len: usize,
        noise: *mut u16, noise_len: usize, work: *mut u16, work_len: usize) -> u32;
    fn frodo_encapsulate(set: u32, pk: *const u8, pk_len: usize, message: *const u8, message_len: usize, salt: *const u8, salt_len: usize,
        ct: *mut u8, ct_len: usize, ss: *mut u8, ss_len: usize, noise: *mut u16, noise_len: usize, work: *mut u16, work_len: usize) -> u32;
    fn frodo_decapsulate(set: u32, sk: *const u8, sk_len: usize, ct: *const u8, ct_len: usize, ss: *mut u8, ss_len: usize,
        message: *mut u8, message_len: usize, noise: *mut u16, noise_len: usize, work: *mut u16, work_len: usize) -> u32;
    fn frodo_decapsulate_shared_secret(set: u32, sk: *const u8, sk_len: usize, ct: *const u8, ct_len: usize, ss: *mut u8, ss_len: usize,
        noise: *mut u16, noise_len: usize, work: *mut u16, work_len: usize) -> u32;
    fn frodo_margin(set: u32, seed: *const u8, seed_len: usize, message: *const u8, message_len: usize, salt: *const u8, salt_len: usize,
        noise: *mut u16, noise_len: usize, work: *mut u16, work_len: usize) -> Margin;
    fn frodo_lengths(set: u32) -> Lengths;
}

/// The two scratches of a call.
pub struct Scratch {
    pub noise: Vec<u16>,
    pub work: Vec<u16>,
}

pub fn keypair(set: u32, seed: &mut [u8], pk: &mut [u8], sk: &mut [u8], scratch: &mut Scratch) -> u32 {
    let (noise, work) = (&mut scratch.noise, &mut scratch.work);
    unsafe {
        frodo_generate_keypair_from_seed(set, seed.as_mut_ptr(), seed.len(), pk.as_mut_ptr(), pk.len(), sk.as_mut_ptr(), sk.len(), noise.as_mut_ptr(), noise.len(), work.as_mut_ptr(), work.len())
    }
}

pub fn encapsulate(set: u32, pk: &[u8], message: &[u8], salt: &[u8], ct: &mut [u8], ss: &mut [u8], scratch: &mut Scratch) -> u32 {
    let (noise, work) = (&mut scratch.noise, &mut scratch.work);
    unsafe {
        frodo_encapsulate(
            set, pk.as_ptr(), pk.len(), message.as_ptr(), message.len(), salt.as_ptr(), salt.len(), ct.as_mut_ptr(), ct.len(), ss.as_mut_ptr(), ss.len(),
            noise.as_mut_ptr(), noise.len(), work.as_mut_ptr(), work.len(),
        )
    }
}

pub fn decapsulate(set: u32, sk: &[u8], ct: &[u8], ss: &mut [u8], message: &mut [u8], scratch: &mut Scratch) -> u32 {
    let (noise, work) = (&mut scratch.noise, &mut scratch.work);
    unsafe {
        frodo_decapsulate(
            set, sk.as_ptr(), sk.len(), ct.as_ptr(), ct.len(), ss.as_mut_ptr(), ss.len(), message.as_mut_ptr(), message.len(), noise.as_mut_ptr(), noise.len(),
            work.as_mut_ptr(), work.len(),
        )
    }
}

pub fn decapsulate_shared_secret(set: u32, sk: &[u8], ct: &[u8], ss: &mut [u8], scratch: &mut Scratch) -> u32 {
    let (noise, work) = (&mut scratch.noise, &mut scratch.work);
    unsafe {
        frodo_decapsulate_shared_secret(set, sk.as_ptr(), sk.len(), ct.as_ptr(), ct.len(), ss.as_mut_ptr(), ss.len(), noise.as_mut_ptr(), noise.len(), work.as_mut_ptr(), work.len())
    }
}

pub fn margin(set: u32, seed: &[u8], message: &[u8], salt: &[u8], scratch: &mut Scratch) -> Margin {
    let (noise, work) = (&mut scratch.noise, &mut scratch.work);
    unsafe {
        frodo_margin(set, seed.as_ptr(), seed.len(), message.as_ptr(), message.len(), salt.as_ptr(), salt.len(), noise.as_mut_ptr(), noise.len(), work.as_mut_ptr(), work.len())
    }
}

pub fn lengths(set: u32) -> Lengths {
    unsafe { frodo_lengths(set) }
}
