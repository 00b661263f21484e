//! Key generation, encapsulation and decapsulation of sets 1 to 3 beside frodo-kem-rs: turn by turn in one process, by the thread's CPU time, the least of ROUNDS (150).
//! Outputs and scratches were written once before; each side's bytes are compared first. Built where FRODO_ARCHIVE names the folder of libfrodo_c.a.
//! Lines `set 3 encapsulate 0.97` give the ratio, ours over the crate's.
#[cfg(not(frodo_archive))]
fn main() {
    eprintln!("built without FRODO_ARCHIVE: nothing to compare");
    std::process::exit(3);
}

#[cfg(frodo_archive)]
fn main() {
    bench::run();
}

#[cfg(frodo_archive)]
mod bench {
    use driver::ours::{self, Scratch};
    use driver::*;
    use std::hint::black_box;

    extern "C" {
        fn clock_gettime(clock: i32, time: *mut [i64; 2]) -> i32;
    }

    /// Milliseconds of the thread's CPU time.
    fn now() -> f64 {
        let mut time = [0i64; 2];
        assert_eq!(unsafe { clock_gettime(3, &mut time) }, 0, "the thread's CPU clock");
        time[0] as f64 * 1e3 + time[1] as f64 * 1e-6
    }

    /// Least milliseconds of two calls, turn by turn; each gives what it took.
    fn least(rounds: usize, mut ours: impl FnMut() -> f64, mut theirs: impl FnMut() -> f64) -> (f64, f64) {
        let (mut a, mut b) = (f64::MAX, f64::MAX);
        for _ in 0..rounds {
            a = a.min(ours());
            b = b.min(theirs());
        }
        (a, b)
    }

    fn took<T>(call: impl FnOnce() -> T) -> f64 {
        let start = now();
        black_box(call());
        now() - start
    }

    fn set<K: Kem>(number: u32, rounds: usize, lines: &mut Vec<(String, f64)>) {
        eprintln!("calls: set {number}");
        let kem = K::default();
        let first: Vec<u8> = (0..K::KEY_SEED_SIZE).map(|k| (7 * k + 3) as u8).collect();
        let (message, salt) = (vec![0x5bu8; K::BYTES_MU], vec![0xc4u8; K::BYTES_SALT]);
        let mut scratch = Scratch { noise: vec![1; 16 * K::N + 64], work: vec![1; 17 * K::N + 256] };
        let (mut pk, mut sk, mut ct) = (vec![1u8; K::PUBLIC_KEY_LENGTH], vec![1u8; K::SECRET_KEY_LENGTH], vec![1u8; K::CIPHERTEXT_LENGTH]);
        let (mut ss, mut opened, mut recovered) = (vec![1u8; K::SHARED_SECRET_LENGTH], vec![1u8; K::SHARED_SECRET_LENGTH], vec![1u8; K::BYTES_MU]);

        // the same bytes on both sides
        let (their_pk, their_sk) = kem.generate_keypair_from_seed(&mut first.clone());
        let (their_ct, their_ss) = kem.encapsulate(&their_pk, &message, &salt);
        let mut seed = first.clone();
        assert_eq!(ours::keypair(number, &mut seed, &mut pk, &mut sk, &mut scratch), 0, "key generation");
        assert_eq!(ours::encapsulate(number, &pk, &message, &salt, &mut ct, &mut ss, &mut scratch), 0, "encapsulation");
        assert_eq!(ours::decapsulate(number, &sk, &ct, &mut opened, &mut recovered, &mut scratch), 0, "decapsulation");
        assert!(pk == their_pk.as_ref() && sk == their_sk.as_ref(), "keys part from the crate's");
        assert!(ct == their_ct.as_ref() && ss == their_ss.as_ref(), "ciphertext or secret parts from the crate's");
        assert!(opened == ss && recovered == message, "decapsulation parts from encapsulation");

        let keys = least(
            rounds,
            || {
                let mut seed = first.clone();
                took(|| ours::keypair(number, black_box(&mut seed), &mut pk, &mut sk, &mut scratch))
            },
            || {
                let mut seed = first.clone();
                took(|| kem.generate_keypair_from_seed(black_box(&mut seed)))
            },
        );
        let mut say = |call: &str, (ours, theirs): (f64, f64)| {
            println!("{number:>3}  {call:14} {ours:>10.3} {theirs:>16.3} {:>7.2}", ours / theirs);
            lines.push((format!("set {number} {call}"), ours / theirs));
        };
        say("keypair", keys);
        let mut scratch = Scratch { noise: vec![1; 16 * K::N + 64], work: vec![1; 17 * K::N + 256] };
        say("encapsulate", least(
            rounds,
            || took(|| ours::encapsulate(number, black_box(&pk), &message, &salt, &mut ct, &mut ss, &mut scratch)),
            || took(|| kem.encapsulate(black_box(&their_pk), &message, &salt)),
        ));
        say("decapsulate", least(
            rounds,
            || took(|| ours::decapsulate(number, black_box(&sk), black_box(&ct), &mut opened, &mut recovered, &mut scratch)),
            || took(|| kem.decapsulate(black_box(&their_sk), black_box(&their_ct))),
        ));
    }

    pub fn run() {
        let rounds = std::env::var("ROUNDS").ok().and_then(|text| text.parse().ok()).unwrap_or(150);
        let mut lines = Vec::new();
        println!("set  call              ours ms  frodo-kem-rs ms   ratio");
        for k in 1..=3 {
            with_set!(k, K => set::<K>(k, rounds, &mut lines), else unreachable!());
        }
        for (what, ratio) in lines {
            println!("{what} {ratio:.2}");
        }
    }
}
