//! `hospital PROGRAM EXAMPLES FOLDER ROUNDS`: runs the plan of a hospital over its laboratory's reports, each of which goes to two receivers, and validates the same stream
//! by the laboratory's profile; and prints what both took.
//!
//! Times are processor seconds (user and system) of the best of ROUNDS rounds.
mod taken;

use std::io::{self, Write};
use std::path::{Path, PathBuf};
use std::process::{Command, ExitCode};
use std::{env, fs};
use taken::{best, run};

const STAMP: &str = "20240102030406";

/// So often the reports stand in the stream.
const TIMES: usize = 10_000;

/// Framed reports of the examples, which the plan takes.
const REPORTS: [&str; 3] = [
    "report",
    "report_of_two_patients",
    "report_with_other_delimiters",
];

fn make_stream(examples: &Path, stream: &Path) -> io::Result<()> {
    let mut reports = Vec::new();
    for name in REPORTS {
        reports.extend(fs::read(examples.join("cases").join(name))?);
    }
    let mut file = io::BufWriter::new(fs::File::create(stream)?);
    for _ in 0..TIMES {
        file.write_all(&reports)?;
    }
    file.flush()
}

fn print(program: &Path, examples: &Path, folder: &Path, rounds: usize) -> io::Result<()> {
    let stream = folder.join("reports");
    make_stream(examples, &stream)?;
    let megabytes = fs::metadata(&stream)?.len() as f64 / 1e6;
    let messages = TIMES * REPORTS.len();
    println!("| {megabytes:.1} MB, {messages} reports | MB/s | messages/s | peak kB | Speed ratio |\n|---|---|---|---|---|");
    let mut validated = None;
    for words in [
        vec!["validate".into(), examples.join("laboratory.profile")],
        vec![
            "run".into(),
            examples.join("hospital.plan"),
            PathBuf::from(folder),
        ],
    ] {
        let answers = folder.join("answers");
        let taken = best(rounds, || {
            run(
                Command::new(program).args(&words).args(["--stamp", STAMP]),
                &stream,
                &answers,
            )
        })?;
        if taken.status != 0 {
            return Err(io::Error::other(format!("it ended with {}", taken.status)));
        }
        let base = *validated.get_or_insert(taken.seconds);
        println!(
            "| `{}` | {:.1} | {:.0} | {} | {:.2} |",
            words[0].display(),
            megabytes / taken.seconds,
            messages as f64 / taken.seconds,
            taken.kilobytes,
            base / taken.seconds
        );
    }
    Ok(())
}

fn main() -> ExitCode {
    let words: Vec<String> = env::args().collect();
    let [_, program, examples, folder, rounds] = words.as_slice() else {
        eprintln!("hospital PROGRAM EXAMPLES FOLDER ROUNDS");
        return ExitCode::from(2);
    };
    match print(
        Path::new(program),
        Path::new(examples),
        Path::new(folder),
        rounds.parse().unwrap_or(3),
    ) {
        Ok(()) => ExitCode::SUCCESS,
        Err(error) => {
            eprintln!("{error}");
            ExitCode::FAILURE
        }
    }
}
