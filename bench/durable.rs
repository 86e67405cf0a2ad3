//! A durable relay by hand, beside which `bench/gateway --relay` measures the gateway: what is accepted is on the disk before it is answered, and is then sent on.
//!
//! It reads no message but for MSH-10, validates none and translates none. A sender's blocks are appended to one file, each behind its SHA-256, and the first who
//! waits writes and syncs for all. Each receiver's thread reads the file on in pieces, holds each message against its digest, sends it, and waits until a record of
//! its acknowledgment is on the disk. A start doesn't read the file: what was passed is written for one, and the relay measures what the work costs.
//!
//! `rustc -O bench/durable.rs`, then `durable FILE PORT..`: it prints the port that it listens at, and goes on until it is killed.
use std::fs::{File, OpenOptions};
use std::io::{BufRead, BufReader, Read, Write};
use std::net::{TcpListener, TcpStream};
use std::os::fd::AsRawFd;
use std::os::unix::fs::FileExt;
use std::sync::{Arc, Condvar, Mutex};
use std::thread;
use std::time::Duration;

#[link(name = "crypto")]
extern "C" {
    fn SHA256(bytes: *const u8, len: usize, out: *mut u8) -> *mut u8;
}

extern "C" {
    fn fdatasync(fd: i32) -> i32;
}

/// What ends the content of a block, and the bytes around one.
const FS: u8 = 0x1c;
const VT: u8 = 0x0b;

/// A record's kind: a message, or that a receiver passed one.
const ACCEPTED: u8 = 1;
const PASSED: u8 = 2;

/// The bytes of a record before its own: a gate, its kind, its length, its digest.
const HEAD: usize = 38;

/// How many bytes of the file are read at once.
const PIECE: usize = 65_536;

type Outcome<T> = Result<T, Box<dyn std::error::Error + Send + Sync>>;

struct Tail {
    /// where no thread has it
    file: Option<File>,
    batch: Vec<u8>,
    /// up to where records were put, and up to where they are on the disk
    end: u64,
    synced: u64,
    /// the same of messages: receivers' threads wait for them alone
    due: u64,
    shown: u64,
}

/// One file, whose records many threads put.
struct Log {
    tail: Mutex<Tail>,
    news: Condvar,
    bell: Condvar,
    path: String,
}

fn spelled(kind: u8, bytes: &[u8]) -> Vec<u8> {
    let mut digest = [0; 32];
    // (OpenSSL reads and writes no more than it is given)
    unsafe { SHA256(bytes.as_ptr(), bytes.len(), digest.as_mut_ptr()) };
    let mut out = Vec::with_capacity(HEAD + bytes.len());
    out.extend([1, kind]);
    out.extend((bytes.len() as u32).to_be_bytes());
    out.extend(digest);
    out.extend(bytes);
    out
}

impl Log {
    fn new(path: &str) -> Outcome<Log> {
        let file = OpenOptions::new().create_new(true).write(true).open(path)?;
        let tail = Tail {
            file: Some(file),
            batch: vec![],
            end: 0,
            synced: 0,
            due: 0,
            shown: 0,
        };
        Ok(Log {
            tail: Mutex::new(tail),
            news: Condvar::new(),
            bell: Condvar::new(),
            path: path.into(),
        })
    }

    /// Puts a record, and gives where it ends.
    fn put(&self, kind: u8, bytes: &[u8]) -> u64 {
        let record = spelled(kind, bytes);
        let mut tail = self.tail.lock().unwrap();
        tail.batch.extend_from_slice(&record);
        tail.end += record.len() as u64;
        if kind == ACCEPTED {
            tail.due = tail.end;
        }
        tail.end
    }

    /// Waits until all is on the disk up to there. The first who waits brings it there.
    fn settle(&self, end: u64) {
        let mut tail = self.tail.lock().unwrap();
        while tail.synced < end {
            let Some(file) = tail.file.take() else {
                tail = self.news.wait(tail).unwrap();
                continue;
            };
            let batch = std::mem::take(&mut tail.batch);
            let (from, upto, due) = (tail.synced, tail.end, tail.due);
            drop(tail);
            file.write_all_at(&batch, from).unwrap();
            assert_eq!(unsafe { fdatasync(file.as_raw_fd()) }, 0);
            tail = self.tail.lock().unwrap();
            tail.synced = upto;
            tail.file = Some(file);
            self.news.notify_all();
            if tail.shown < due {
                tail.shown = due;
                self.bell.notify_all();
            }
        }
    }

    /// Waits until messages behind this place are on the disk, and gives where they end.
    fn wait(&self, at: u64) -> u64 {
        let mut tail = self.tail.lock().unwrap();
        while tail.shown <= at {
            tail = self.bell.wait(tail).unwrap();
        }
        tail.shown
    }
}

/// MSH-10 of a message.
fn control_of(content: &[u8]) -> Outcome<&[u8]> {
    Ok(content.split(|it| *it == b'|').nth(9).ok_or("no MSH-10")?)
}

/// Answers the blocks of a connection: those of one read together.
fn attend(log: &Log, mut line: TcpStream) -> Outcome<()> {
    line.set_nodelay(true)?;
    let (mut taken, mut piece) = (vec![], [0; 16_384]);
    loop {
        let count = line.read(&mut piece)?;
        if count == 0 {
            return Ok(());
        }
        taken.extend_from_slice(&piece[..count]);
        let (mut answers, mut end, mut from) = (vec![], 0, 0);
        while let Some(at) = taken[from..].iter().position(|it| *it == FS) {
            let block = &taken[from..from + at];
            let content = &block[block.iter().position(|it| *it == VT).ok_or("no VT")? + 1..];
            end = log.put(ACCEPTED, content);
            answers.extend(b"\x0bMSH|^~\\&|||||20240102030406||ACK|1|P|2.5.1\rMSA|AA|");
            answers.extend(control_of(content)?);
            answers.extend(b"\r\x1c\r");
            from += at + 1;
        }
        taken.drain(..from);
        log.settle(end);
        line.write_all(&answers)?;
    }
}

/// What was read of a log's file, from a place on.
struct Piece {
    file: File,
    bytes: Vec<u8>,
    at: usize,
}

impl Piece {
    /// The next bytes, which stand at this place of the file, where the file counts up to another.
    fn next(&mut self, size: usize, place: u64, upto: u64) -> Outcome<&[u8]> {
        if self.bytes.len() - self.at < size {
            let more = size.max(PIECE).min((upto - place) as usize);
            self.bytes.resize(more, 0);
            self.file.read_exact_at(&mut self.bytes, place)?;
            self.at = 0;
        }
        self.at += size;
        Ok(&self.bytes[self.at - size..self.at])
    }
}

/// Sends a receiver each message of the log from a place on, in order, once the one before is acknowledged.
fn forward(log: &Log, receiver: u8, port: u16, at: &mut u64) -> Outcome<()> {
    let mut line = TcpStream::connect(("127.0.0.1", port))?;
    line.set_nodelay(true)?;
    let mut reader = BufReader::new(line.try_clone()?);
    let (mut head, mut upto, mut answer) = ([0; HEAD], 0, vec![]);
    let mut piece = Piece {
        file: File::open(&log.path)?,
        bytes: vec![],
        at: 0,
    };
    loop {
        if upto <= *at {
            upto = log.wait(*at);
        }
        head.copy_from_slice(piece.next(HEAD, *at, upto)?);
        let size = u32::from_be_bytes(head[2..6].try_into()?) as usize;
        let bytes = piece.next(size, *at + HEAD as u64, upto)?;
        let after = *at + (HEAD + size) as u64;
        if head[1] != ACCEPTED {
            *at = after;
            continue;
        }
        if spelled(ACCEPTED, bytes)[..HEAD] != head {
            return Err("another digest".into());
        }
        line.write_all(&[&[VT][..], bytes, &[FS, b'\r'][..]].concat())?;
        answer.clear();
        reader.read_until(FS, &mut answer)?;
        let stated = [b"\rMSA|AA|", control_of(bytes)?].concat();
        if !answer.windows(stated.len()).any(|it| it == stated) {
            return Err("not acknowledged".into());
        }
        let mut passed = vec![receiver];
        passed.extend(at.to_be_bytes());
        log.settle(log.put(PASSED, &passed));
        *at = after;
    }
}

fn main() -> Outcome<()> {
    let words: Vec<String> = std::env::args().collect();
    let log = Arc::new(Log::new(&words[1])?);
    for (receiver, port) in words[2..].iter().enumerate() {
        let (log, port) = (log.clone(), port.parse()?);
        thread::spawn(move || {
            let mut at = 0;
            while let Err(error) = forward(&log, receiver as u8, port, &mut at) {
                eprintln!("receiver {receiver}: {error}");
                thread::sleep(Duration::from_secs(1));
            }
        });
    }
    let listener = TcpListener::bind("127.0.0.1:0")?;
    println!("{}", listener.local_addr()?.port());
    for line in listener.incoming() {
        let (log, line) = (log.clone(), line?);
        thread::spawn(move || attend(&log, line));
    }
    Ok(())
}
