//! `baseline PROFILE STAMP owned|lending|slices`: answers each message of a stream on standard input by a profile, as `hl7gate validate` does, in plain Rust.
//!
//! As a programmer writes it who doesn't think of speed (owned: `er7`), with texts borrowed from the message bytes (`lending`), or tuned (`slices`).
mod answer;
mod delimiters;
mod er7;
mod lending;
mod message;
mod mllp;
mod profile;
mod slices;
mod validate;

use answer::answer;
use er7::Owned;
use lending::Lending;
use mllp::{block, Decoder};
use profile::Profile;
use std::io::{self, Read, Write};
use std::process::ExitCode;

/// The status of the program that this one is compared with: 0 all AA, 1 not, 3 a fault of a frame or a device.
fn run(profile: &Profile, stamp: &str, lends: bool) -> io::Result<u8> {
    let mut input = io::stdin().lock();
    let mut output = io::stdout().lock();
    let mut decoder = Decoder::default();
    let mut buffer = [0u8; 65_536];
    let mut blocks = Vec::new();
    let mut number = 0;
    let mut status = 0;
    loop {
        let count = input.read(&mut buffer)?;
        if count == 0 {
            return Ok(if decoder.is_between() { status } else { 3 });
        }
        let fed = decoder.feed(&buffer[..count], &mut blocks);
        for content in blocks.drain(..) {
            number += 1;
            let (accepted, reply) = if lends {
                answer::<Lending>(profile, stamp, number, &content)
            } else {
                answer::<Owned>(profile, stamp, number, &content)
            };
            if !accepted {
                status = 1;
            }
            output.write_all(&block(&reply))?;
            output.flush()?;
        }
        if fed.is_err() {
            return Ok(3);
        }
    }
}

fn answered(path: &str, stamp: &str, form: &str) -> io::Result<u8> {
    let text = std::fs::read_to_string(path)?;
    let profile =
        profile::parse(&text).map_err(|line| io::Error::other(format!("profile line {line}")))?;
    match form {
        "owned" => run(&profile, stamp, false),
        "lending" => run(&profile, stamp, true),
        "slices" => slices::run(&profile, stamp),
        _ => Err(io::Error::other("the forms are owned, lending and slices")),
    }
}

fn main() -> ExitCode {
    let words: Vec<String> = std::env::args().collect();
    let [_, path, stamp, form] = words.as_slice() else {
        eprintln!("baseline PROFILE STAMP owned|lending|slices");
        return ExitCode::from(2);
    };
    match answered(path, stamp, form) {
        Ok(status) => ExitCode::from(status),
        Err(error) => {
            eprintln!("{error}");
            ExitCode::from(3)
        }
    }
}
