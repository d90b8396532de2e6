//! Runs a program once and prints its wall time and its processor time in nanoseconds, its peak memory in KiB and
//! its status.
//! A process of its own, and small: a child's peak memory counts that of the process that started it.
//! Usage: measure PROGRAM WORD..

use std::env;
use std::os::unix::process::ExitStatusExt;
use std::process::{Command, Stdio};
use std::time::Instant;

/// The C library's `struct rusage` of 64-bit Linux: two times in seconds and microseconds, the program's own and
/// the system's for it, and then 14 words.
#[repr(C)]
struct Usage {
    times: [i64; 4],
    peak: i64,
    others: [i64; 13],
}

const CHILDREN: i32 = -1;

extern "C" {
    fn getrusage(who: i32, usage: *mut Usage) -> i32;
}

fn main() {
    let mut words = env::args_os().skip(1);
    let mut command = Command::new(words.next().expect("usage: measure PROGRAM WORD.."));
    command.args(words).stdin(Stdio::null()).stdout(Stdio::null());
    let began = Instant::now();
    let status = command.status().expect("a program");
    let took = began.elapsed().as_nanos();
    let mut usage = Usage { times: [0; 4], peak: 0, others: [0; 13] };
    // SAFETY: the pointer is to a struct of the size and layout that the call writes.
    assert_eq!(unsafe { getrusage(CHILDREN, &mut usage) }, 0);
    let status = status.code().unwrap_or_else(|| -status.signal().unwrap_or(0));
    let [seconds, rest, system_seconds, system_rest] = usage.times;
    let processor = (seconds + system_seconds) * 1_000_000_000 + (rest + system_rest) * 1_000;
    println!("{took} {processor} {} {status}", usage.peak);
}
