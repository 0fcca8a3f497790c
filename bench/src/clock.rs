//! CPU time of a run.

use crate::programs::Program;
use std::hint::black_box;

#[repr(C)]
struct Time {
    seconds: i64,
    nanoseconds: i64,
}

extern "C" {
    fn clock_gettime(clock: i32, time: *mut Time) -> i32;
}

/// The CPU time of this thread, in nanoseconds.
fn now() -> f64 {
    const THREAD: i32 = 3; // CLOCK_THREAD_CPUTIME_ID
    let mut time = Time { seconds: 0, nanoseconds: 0 };
    // SAFETY: `time` has the layout of x86-64 Linux's timespec.
    let failed = unsafe { clock_gettime(THREAD, &mut time) };
    assert!(failed == 0, "there is no clock of CPU time");
    time.seconds as f64 * 1e9 + time.nanoseconds as f64
}

fn time_of(program: Program, list: &[u8], out: &mut [u8], times: u32) -> f64 {
    let began = now();
    for _ in 0..times {
        black_box(program(black_box(list), out));
    }
    (now() - began) / f64::from(times)
}

/// The CPU time of one run in nanoseconds, for each program: the least of many
/// rounds, in which the programs take turns, so that a busy machine disturbs
/// neither more than the other.
pub fn least_times<const N: usize>(
    programs: [Program; N],
    list: &[u8],
    out: &mut [u8],
) -> [f64; N] {
    const ROUNDS: u32 = 15;
    const ROUND: f64 = 4e6;
    let mut least = programs.map(|program| time_of(program, list, out, 3));
    for _ in 0..ROUNDS {
        for (program, least) in programs.iter().zip(&mut least) {
            let times = (ROUND / *least).ceil().clamp(1.0, 1e6) as u32;
            *least = least.min(time_of(*program, list, out, times));
        }
    }
    least
}
