//! Group commit by hand, for `bench/part commits`: threads that each put records of 300 bytes into one file, and wait until they are on the disk.
//!
//! The first who waits writes what all put, and syncs: a batch is one write and one `fdatasync`. No gate says whether a batch is whole, so a crash may leave a part of one.
//! A record is a byte, its length, its SHA-256 and its bytes, as in the gateway's log. Each thread makes the digest of its own record, by OpenSSL.
//!
//! `rustc -O bench/commits.rs`, then `commits FILE SECONDS THREADS..`. The file is made, and removed.
use std::fs::{remove_file, File, OpenOptions};
use std::os::fd::AsRawFd;
use std::os::unix::fs::FileExt;
use std::sync::{Condvar, Mutex};
use std::time::{Duration, Instant};

#[link(name = "crypto")]
extern "C" {
    fn SHA256(bytes: *const u8, len: usize, out: *mut u8) -> *mut u8;
}

extern "C" {
    fn fdatasync(fd: i32) -> i32;
}

struct Tail {
    // where no thread has it
    file: Option<File>,
    batch: Vec<u8>,
    put: u64,
    settled: u64,
    end: u64,
    batches: u64,
}

struct Journal {
    tail: Mutex<Tail>,
    news: Condvar,
}

// A record as it is stored.
fn spelled(bytes: &[u8]) -> Vec<u8> {
    let mut digest = [0; 32];
    // (OpenSSL reads and writes no more than it is given)
    unsafe { SHA256(bytes.as_ptr(), bytes.len(), digest.as_mut_ptr()) };
    let mut out = Vec::with_capacity(37 + bytes.len());
    out.push(1);
    out.extend_from_slice(&(bytes.len() as u32 + 32).to_be_bytes());
    out.extend_from_slice(&digest);
    out.extend_from_slice(bytes);
    out
}

fn write_synced(file: &File, bytes: &[u8], at: u64) {
    file.write_all_at(bytes, at).unwrap();
    assert_eq!(unsafe { fdatasync(file.as_raw_fd()) }, 0);
}

impl Journal {
    fn new(file: File) -> Journal {
        Journal {
            tail: Mutex::new(Tail {
                file: Some(file),
                batch: vec![],
                put: 0,
                settled: 0,
                end: 0,
                batches: 0,
            }),
            news: Condvar::new(),
        }
    }

    // Puts a record. Its number.
    fn put(&self, bytes: &[u8]) -> u64 {
        let record = spelled(bytes);
        let mut tail = self.tail.lock().unwrap();
        tail.batch.extend_from_slice(&record);
        tail.put += 1;
        tail.put
    }

    // Waits until the record of this number is on the disk.
    fn settle(&self, number: u64) {
        let mut tail = self.tail.lock().unwrap();
        while tail.settled < number {
            let Some(file) = tail.file.take() else {
                tail = self.news.wait(tail).unwrap();
                continue;
            };
            let (batch, put, end) = (std::mem::take(&mut tail.batch), tail.put, tail.end);
            drop(tail);
            write_synced(&file, &batch, end);
            tail = self.tail.lock().unwrap();
            tail.end = end + batch.len() as u64;
            tail.settled = put;
            tail.batches += 1;
            tail.file = Some(file);
            self.news.notify_all();
        }
    }
}

// Commits up to the end. How long each took.
fn commit_all(journal: &Journal, end: Instant) -> Vec<Duration> {
    let record = [b'x'; 300];
    let mut times = vec![];
    let mut begun = Instant::now();
    while begun < end {
        let number = journal.put(&record);
        journal.settle(number);
        let ended = Instant::now();
        times.push(ended - begun);
        begun = ended;
    }
    times
}

fn round(path: &str, seconds: f64, threads: usize) {
    let file = OpenOptions::new()
        .create_new(true)
        .write(true)
        .open(path)
        .unwrap();
    file.sync_all().unwrap();
    let journal = Journal::new(file);
    let begun = Instant::now();
    let end = begun + Duration::from_secs_f64(seconds);
    let mut times: Vec<Duration> = std::thread::scope(|scope| {
        let workers: Vec<_> = (0..threads)
            .map(|_| scope.spawn(|| commit_all(&journal, end)))
            .collect();
        workers
            .into_iter()
            .flat_map(|worker| worker.join().unwrap())
            .collect()
    });
    let took = begun.elapsed().as_secs_f64();
    times.sort();
    let at = |hundredth: usize| times[(times.len() - 1) / 100 * hundredth].as_micros();
    let commits = times.len() as f64;
    let batches = journal.tail.lock().unwrap().batches as f64;
    println!(
        "{threads} threads: {:.0} commits a second, median {} us, p99 {} us, {:.0} syncs a second, {:.1} commits a sync",
        commits / took, at(50), at(99), batches / took, commits / batches
    );
    remove_file(path).unwrap();
}

fn main() {
    let words: Vec<String> = std::env::args().collect();
    let (path, seconds) = (&words[1], words[2].parse().unwrap());
    for threads in &words[3..] {
        round(path, seconds, threads.parse().unwrap());
    }
}
