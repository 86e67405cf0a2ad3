//! What a child process takes: processor seconds (user and system), which other work on the machine disturbs less than the clock's, the clock's, and the peak of resident memory.
// (each tool uses some of it)
#![allow(dead_code)]
use std::fs::{self, File};
use std::io;
use std::path::Path;
use std::process::{Child, Command, Stdio};
use std::thread;
use std::time::{Duration, Instant};

/// `struct rusage` of Linux on 64 bits, up to the peak of resident memory; the rest isn't looked at.
#[repr(C)]
#[derive(Default)]
struct Usage {
    user: [i64; 2],
    system: [i64; 2],
    peak_kilobytes: i64,
    rest: [i64; 13],
}

extern "C" {
    fn wait4(pid: i32, status: *mut i32, options: i32, usage: *mut Usage) -> i32;
    fn getrusage(who: i32, usage: *mut Usage) -> i32;
}

/// What a run took.
#[derive(Clone, Copy)]
pub struct Taken {
    pub seconds: f64,
    pub clock: f64,
    pub kilobytes: i64,
    pub status: i32,
}

fn seconds(time: [i64; 2]) -> f64 {
    time[0] as f64 + time[1] as f64 / 1e6
}

/// The processor seconds of this process so far, with all its threads.
pub fn own_seconds() -> io::Result<f64> {
    let mut usage = Usage::default();
    // SAFETY: the pointer is to a value of the type that the call fills, which lives as long as it.
    if unsafe { getrusage(0, &mut usage) } != 0 {
        return Err(io::Error::last_os_error());
    }
    Ok(seconds(usage.user) + seconds(usage.system))
}

/// Runs a command to its end.
pub fn run(command: &mut Command, input: &Path, output: &Path) -> io::Result<Taken> {
    let begun = Instant::now();
    let child = command
        .stdin(File::open(input)?)
        .stdout(File::create(output)?)
        .stderr(Stdio::null())
        .spawn()?;
    end(&child, begun)
}

/// Resident memory, in kB.
#[derive(Clone, Copy, Default)]
pub struct Resident {
    pub all: i64,
    /// What the run itself takes, without the pages of the program's file and of its libraries.
    pub anonymous: i64,
}

/// The number of a line of `/proc/PID/smaps_rollup`, in kB.
fn rolled_up(text: &str, name: &str) -> i64 {
    let line = text.lines().find_map(|line| line.strip_prefix(name));
    let number = line.and_then(|line| line.split_whitespace().next());
    number.and_then(|it| it.parse().ok()).unwrap_or(0)
}

/// The most resident and the most anonymous memory of a run, as far as a look each half millisecond sees them. A look counts pages.
/// `wait4` may be off by some hundred kB, since Linux adds up each processor's share in steps of 32 pages.
pub fn resident(command: &mut Command, input: &Path, output: &Path) -> io::Result<Resident> {
    let mut child = command
        .stdin(File::open(input)?)
        .stdout(File::create(output)?)
        .stderr(Stdio::null())
        .spawn()?;
    let looks = format!("/proc/{}/smaps_rollup", child.id());
    let mut most = Resident::default();
    while child.try_wait()?.is_none() {
        let text = fs::read_to_string(&looks).unwrap_or_default();
        most.all = most.all.max(rolled_up(&text, "Rss:"));
        most.anonymous = most.anonymous.max(rolled_up(&text, "Anonymous:"));
        thread::sleep(Duration::from_micros(500));
    }
    Ok(most)
}

/// Waits for the end of a child that began then.
pub fn end(child: &Child, begun: Instant) -> io::Result<Taken> {
    let mut usage = Usage::default();
    let mut status = 0;
    let pid = child.id() as i32;
    // SAFETY: both pointers are to values of the types that the call fills, which live as long as it.
    if unsafe { wait4(pid, &mut status, 0, &mut usage) } != pid {
        return Err(io::Error::last_os_error());
    }
    Ok(Taken {
        seconds: seconds(usage.user) + seconds(usage.system),
        clock: begun.elapsed().as_secs_f64(),
        kilobytes: usage.peak_kilobytes,
        status: status >> 8,
    })
}

/// The least time of this many runs.
pub fn best(rounds: usize, mut once: impl FnMut() -> io::Result<Taken>) -> io::Result<Taken> {
    let mut best = once()?;
    for _ in 1..rounds {
        let taken = once()?;
        best.seconds = best.seconds.min(taken.seconds);
        best.clock = best.clock.min(taken.clock);
        best.kilobytes = best.kilobytes.min(taken.kilobytes);
    }
    Ok(best)
}
