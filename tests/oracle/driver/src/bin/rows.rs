//! The row engine of set 3 beside the crate's own, all rows of A, A*S + E and S'*A + E', and the sampling of each set's noise: interleaved in one process, by thread CPU time,
//! the least of many, as ratios. Built where BENCH_ARCHIVE is set.
#[cfg(not(bench_archive))]
fn main() {
    eprintln!("built without BENCH_ARCHIVE: nothing to compare");
    std::process::exit(3);
}

#[cfg(bench_archive)]
fn main() {
    bench::run();
}

#[cfg(bench_archive)]
mod bench {
    use driver::*;
    use std::hint::black_box;

    #[link(name = "bench_c", kind = "static")]
    extern "C" {
        fn bench_rows(seed: *const u8, seed_len: usize, out: *mut u16, out_len: usize);
        fn bench_as(seed: *const u8, seed_len: usize, s: *const u16, s_len: usize, e: *const u16, e_len: usize, work: *mut u16, work_len: usize);
        fn bench_sa(seed: *const u8, seed_len: usize, noise: *mut u16, noise_len: usize, out: *mut u16, out_len: usize);
        fn bench_samples(set: u32, words: *mut u16, words_len: usize);
    }
    extern "C" {
        fn clock_gettime(clock: i32, time: *mut [i64; 2]) -> i32;
    }

    const N: usize = 1344;
    const ROUNDS: usize = 60;

    fn now() -> f64 {
        let mut time = [0i64; 2];
        assert_eq!(unsafe { clock_gettime(3, &mut time) }, 0, "the thread's CPU clock");
        time[0] as f64 * 1e3 + time[1] as f64 * 1e-6
    }

    /// Least milliseconds of two calls, turn by turn.
    fn least(mut ours: impl FnMut(), mut theirs: impl FnMut()) -> (f64, f64) {
        let (mut a, mut b) = (f64::MAX, f64::MAX);
        for _ in 0..ROUNDS {
            let start = now();
            ours();
            let middle = now();
            theirs();
            let end = now();
            a = a.min(middle - start);
            b = b.min(end - middle);
        }
        (a, b)
    }

    fn say(name: &str, (ours, theirs): (f64, f64)) {
        println!("{name:12} ours {ours:8.3} ms, frodo-kem-rs {theirs:8.3} ms, ratio {:.2}", ours / theirs);
    }

    pub fn run() {
        let kem = FrodoKem1344Shake::default();
        let seed: Vec<u8> = (0..16).map(|k| 7 * k + 1).collect();
        let s: Vec<u16> = (0..8 * N).map(|k| (k % 13) as u16).collect();
        let e: Vec<u16> = (0..8 * N).map(|k| 65530u16.wrapping_add((k % 11) as u16)).collect();
        let (mut row, mut work, mut out) = (vec![0u16; N], vec![0u16; 9 * N], vec![0u16; 8 * N]);
        let (mut b, mut c) = (vec![0u16; 8 * N], vec![0u16; 8 * N]);

        say("rows", least(
            || unsafe { bench_rows(seed.as_ptr(), 16, black_box(&mut row).as_mut_ptr(), N) },
            || {
                let mut x = 0u16;
                kem.expand_a_rows(&seed, N, &mut |_, rows| x ^= rows[0]);
                black_box(x);
            },
        ));
        say("A*S + E", least(
            || unsafe { bench_as(seed.as_ptr(), 16, s.as_ptr(), 8 * N, e.as_ptr(), 8 * N, black_box(&mut work).as_mut_ptr(), 9 * N) },
            || kem.mul_add_as_plus_e_from_seed(&seed, &s, &e, black_box(&mut b)),
        ));
        assert_eq!(work[..8 * N], b[..], "A*S + E parts from the crate's");
        let given: Vec<u16> = s.iter().chain(&e).copied().collect();
        let mut noise = given.clone();
        say("S'*A + E'", least(
            || {
                noise.copy_from_slice(&given);
                unsafe { bench_sa(seed.as_ptr(), 16, black_box(&mut noise).as_mut_ptr(), 16 * N, out.as_mut_ptr(), 8 * N) }
            },
            || kem.mul_add_sa_plus_e_from_seed(&seed, &s, &e, black_box(&mut c)),
        ));
        assert_eq!(out, c, "S'*A + E' parts from the crate's");
        samples::<FrodoKem640Shake>(1, 640);
        samples::<FrodoKem976Shake>(2, 976);
        samples::<FrodoKem1344Shake>(3, 1344);
    }

    /// The noise of an encapsulation, 16n + 64 words, 50 times in a turn: neither side branches on a word, so that what was sampled can be sampled again.
    fn samples<K: Kem>(set: u32, n: usize) {
        let kem = K::default();
        let mut ours: Vec<u16> = (0..16 * n + 64).map(|k| (40503 * k) as u16).collect();
        let mut theirs = ours.clone();
        unsafe { bench_samples(set, ours.as_mut_ptr(), ours.len()) }
        kem.sample(&mut theirs);
        assert_eq!(ours, theirs, "the samples of set {set} part from the crate's");
        let found = least(
            || (0..50).for_each(|_| unsafe { bench_samples(set, black_box(&mut ours).as_mut_ptr(), 16 * n + 64) }),
            || (0..50).for_each(|_| kem.sample(black_box(&mut theirs))),
        );
        say(&format!("samples, {set}"), found);
    }
}
