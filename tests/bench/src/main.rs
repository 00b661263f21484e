//! The proved permutation beside Debian's Rust `keccak`: interleaved in one process, by thread CPU time, the least of many, as a ratio.
use std::hint::black_box;

extern "C" {
    fn bench_permute(state: *mut [u64; 25]);
    fn clock_gettime(clock: i32, time: *mut [i64; 2]) -> i32;
}

const THREAD_CPU_TIME: i32 = 3;
const ROUNDS: usize = 400;
const CALLS: usize = 2000;

fn now() -> f64 {
    let mut time = [0i64; 2];
    assert_eq!(unsafe { clock_gettime(THREAD_CPU_TIME, &mut time) }, 0, "the thread's CPU clock");
    time[0] as f64 + time[1] as f64 * 1e-9
}

/// Nanoseconds a call, over `CALLS` calls in a row.
fn once(mut call: impl FnMut()) -> f64 {
    let start = now();
    for _ in 0..CALLS {
        call();
    }
    (now() - start) * 1e9 / CALLS as f64
}

fn main() {
    let (mut ours, mut theirs) = ([0u64; 25], [0u64; 25]);
    let (mut least_ours, mut least_theirs) = (f64::MAX, f64::MAX);
    for _ in 0..ROUNDS {
        least_ours = least_ours.min(once(|| unsafe { bench_permute(black_box(&mut ours)) }));
        least_theirs = least_theirs.min(once(|| keccak::f1600(black_box(&mut theirs))));
    }
    assert_eq!(ours, theirs, "the two permutations part");
    println!("permutation: ours {least_ours:.1} ns, Rust keccak 0.1 {least_theirs:.1} ns");
    println!("permutation {:.2}", least_ours / least_theirs);
}
