//! Runs a program with the standard streams of its own, and writes what it took into a file: user and
//! system time in microseconds, peak memory in kilobytes, and the time by the clock in microseconds. Its
//! own memory is small, since the peak that Linux reports is never below that of the process that starts
//! the program.

use std::os::unix::process::ExitStatusExt;
use std::process::{Command, ExitStatus};
use std::time::Instant;

/// `struct rusage` of 64-bit Linux, but for the twelve counts at its end.
#[repr(C)]
#[derive(Default)]
struct Usage {
    user: [i64; 2],
    system: [i64; 2],
    peak_kilobytes: i64,
    rest: [i64; 13],
}

unsafe extern "C" {
    fn wait4(process: i32, status: *mut i32, options: i32, usage: *mut Usage) -> i32;
}

fn main() {
    let words: Vec<String> = std::env::args().collect();
    let started = Instant::now();
    let child = Command::new(&words[2]).args(&words[3..]).spawn().expect("a program");
    let mut usage = Usage::default();
    let mut status = 0;
    // The pointers are to locals, and the kernel writes no more than a status and a `struct rusage`.
    let waited = unsafe { wait4(child.id() as i32, &mut status, 0, &mut usage) };
    let elapsed = started.elapsed().as_micros();
    assert!(waited == child.id() as i32, "the child was not waited for");
    let micros = |[seconds, micros]: [i64; 2]| seconds * 1_000_000 + micros;
    let text = format!("{} {} {} {elapsed}\n", micros(usage.user), micros(usage.system), usage.peak_kilobytes);
    std::fs::write(&words[1], text).expect("a file to write");
    std::process::exit(ExitStatus::from_raw(status).code().unwrap_or(125));
}
