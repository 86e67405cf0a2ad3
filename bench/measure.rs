//! `measure PROGRAM BASELINE PROFILES TRAFFIC ROUNDS`: runs the program and the baseline's three forms over each stream, compares their answers, and prints what they took.
//!
//! It reads no file whole: a child's peak counts what its parent had when it began.
//! Times are processor seconds (user and system) of the best of ROUNDS rounds, which other work on the machine disturbs less than the clock's.
mod taken;

use std::fs::File;
use std::io::{self, BufRead, BufReader};
use std::path::{Path, PathBuf};
use std::process::{Command, ExitCode};
use std::{env, fs};
use taken::{resident, run, Resident, Taken};

const STAMP: &str = "20240102030406";

/// The two programs, and where their files are.
struct Bench {
    program: PathBuf,
    baseline: PathBuf,
    profiles: PathBuf,
    traffic: PathBuf,
    rounds: usize,
}

/// The forms of the baseline.
const FORMS: [&str; 3] = ["owned", "lending", "slices"];

/// What the program and the baseline's forms took for a stream.
struct Row {
    name: &'static str,
    bytes: f64,
    messages: usize,
    program: Taken,
    forms: [Taken; 3],
    /// How many times as fast as each form the program is: the median of the rounds, since a machine's speed changes from one to the next.
    ratios: [f64; 3],
    /// The memory of the program, and of each form.
    memory: [Resident; 4],
}

impl Row {
    fn speed(&self, taken: Taken) -> f64 {
        self.bytes / 1e6 / taken.seconds
    }
}

/// How many messages were answered, where both files are the same.
fn same_answers(one: &Path, other: &Path) -> io::Result<Option<usize>> {
    let mut one = BufReader::new(File::open(one)?);
    let mut other = BufReader::new(File::open(other)?);
    let mut count = 0;
    loop {
        let (a, b) = (one.fill_buf()?, other.fill_buf()?);
        if a.is_empty() || b.is_empty() {
            return Ok((a.is_empty() && b.is_empty()).then_some(count));
        }
        let both = a.len().min(b.len());
        if a[..both] != b[..both] {
            return Ok(None);
        }
        count += a[..both].iter().filter(|byte| **byte == 0x0b).count();
        one.consume(both);
        other.consume(both);
    }
}

fn median(mut numbers: Vec<f64>) -> f64 {
    numbers.sort_by(f64::total_cmp);
    numbers[numbers.len() / 2]
}

impl Bench {
    /// The program, or a form of the baseline, over streams of a profile.
    fn command(&self, profile: &Path, form: Option<&str>) -> Command {
        let mut command = match form {
            None => Command::new(&self.program),
            Some(_) => Command::new(&self.baseline),
        };
        match form {
            None => command
                .arg("validate")
                .arg(profile)
                .args(["--stamp", STAMP]),
            Some(form) => command.arg(profile).args([STAMP, form]),
        };
        command
    }

    /// The medians of the peaks of as many runs as there are rounds. Linux loads a program at another address each time, and maps more or fewer pages of its file.
    fn memory(
        &self,
        profile: &Path,
        form: Option<&str>,
        input: &Path,
        answers: &Path,
    ) -> io::Result<Resident> {
        let mut peaks = Vec::new();
        for _ in 0..self.rounds.max(1) {
            peaks.push(resident(&mut self.command(profile, form), input, answers)?);
        }
        let of = |part: fn(&Resident) -> i64| {
            median(peaks.iter().map(|peak| part(peak) as f64).collect()) as i64
        };
        Ok(Resident {
            all: of(|peak| peak.all),
            anonymous: of(|peak| peak.anonymous),
        })
    }

    /// Each round runs all of them once, so that a slow phase of the machine meets each.
    fn row(&self, name: &'static str, profile: &str) -> io::Result<Row> {
        let profile = self.profiles.join(profile);
        let input = self.traffic.join(name);
        let all = [None, Some(FORMS[0]), Some(FORMS[1]), Some(FORMS[2])];
        let answers = all.map(|form| {
            let form = form.unwrap_or("program");
            self.traffic.join(format!("{name}.{form}"))
        });
        let mut least: [Option<Taken>; 4] = [None; 4];
        let mut ratios = [(); 3].map(|()| Vec::new());
        for _ in 0..self.rounds.max(1) {
            let mut seconds = [0.0; 4];
            for (which, (form, answers)) in all.iter().zip(&answers).enumerate() {
                let taken = run(&mut self.command(&profile, *form), &input, answers)?;
                seconds[which] = taken.seconds;
                if least[which].map_or(true, |least| taken.seconds < least.seconds) {
                    least[which] = Some(taken);
                }
            }
            for (ratios, form) in ratios.iter_mut().zip(&seconds[1..]) {
                ratios.push(form / seconds[0]);
            }
        }
        let [Some(program), Some(owned), Some(lending), Some(slices)] = least else {
            return Err(io::Error::other("no round was run"));
        };
        let forms = [owned, lending, slices];
        let mut memory = [Resident::default(); 4];
        for ((form, answers), memory) in all.iter().zip(&answers).zip(&mut memory) {
            *memory = self.memory(&profile, *form, &input, answers)?;
        }
        let mut messages = 0;
        for ((form, taken), other) in FORMS.iter().zip(forms).zip(&answers[1..]) {
            let same = same_answers(&answers[0], other)?;
            messages = same
                .filter(|_| program.status == taken.status)
                .ok_or_else(|| {
                    io::Error::other(format!(
                        "{name}, {form}: the answers or the statuses differ"
                    ))
                })?;
        }
        Ok(Row {
            name,
            bytes: fs::metadata(input)?.len() as f64,
            messages,
            program,
            forms,
            ratios: ratios.map(median),
            memory,
        })
    }

    /// What the program takes, and how many times as fast as each form of the baseline it is, and how many times as much memory it takes.
    fn print_honest(&self, streams: &[(&'static str, &str)]) -> io::Result<()> {
        println!("| Stream | MB | Messages | MB/s | messages/s | peak kB | anonymous kB | speed to owned | lending | slices | peak to owned | lending | slices | anonymous to slices |");
        println!("|---|---|---|---|---|---|---|---|---|---|---|---|---|---|");
        for (name, profile) in streams {
            let row = self.row(name, profile)?;
            print!(
                "| {} | {:.1} | {} | {:.1} | {:.0} | {} | {} |",
                row.name,
                row.bytes / 1e6,
                row.messages,
                row.speed(row.program),
                row.messages as f64 / row.program.seconds,
                row.memory[0].all,
                row.memory[0].anonymous,
            );
            for ratio in row.ratios {
                print!(" {ratio:.2} |");
            }
            let [program, forms @ ..] = row.memory;
            for form in forms {
                print!(" {:.2} |", program.all as f64 / form.all as f64);
            }
            let [.., slices] = forms;
            println!(
                " {:.2} |",
                program.anonymous as f64 / slices.anonymous as f64
            );
        }
        Ok(())
    }

    /// How many times as long a byte of a stream takes as one of an honest stream: the median of rounds that run both.
    fn times(
        &self,
        profile: &str,
        form: Option<&str>,
        honest: &str,
        name: &str,
    ) -> io::Result<f64> {
        let profile = self.profiles.join(profile);
        let answers = self.traffic.join("times");
        let a_byte = |name| -> io::Result<f64> {
            let input = self.traffic.join(name);
            let taken = run(&mut self.command(&profile, form), &input, &answers)?;
            Ok(taken.seconds / fs::metadata(input)?.len() as f64)
        };
        let mut ratios = Vec::new();
        for _ in 0..self.rounds.max(1) {
            let honest = a_byte(honest)?;
            ratios.push(a_byte(name)? / honest);
        }
        Ok(median(ratios))
    }

    /// Hostile streams against an honest one whose contents have the same size, per byte.
    fn print_hostile(
        &self,
        honest: &str,
        profile: &str,
        streams: &[&'static str],
    ) -> io::Result<()> {
        println!("| Stream | Program MB/s | peak kB | times {honest} | Slices MB/s | peak kB | times {honest} |");
        println!("|---|---|---|---|---|---|---|");
        for name in streams {
            let row = self.row(name, profile)?;
            let [_, _, slices] = row.forms;
            println!(
                "| {} | {:.1} | {} | {:.2} | {:.1} | {} | {:.2} |",
                row.name,
                row.speed(row.program),
                row.memory[0].all,
                self.times(profile, None, honest, name)?,
                row.speed(slices),
                row.memory[3].all,
                self.times(profile, Some(FORMS[2]), honest, name)?,
            );
        }
        Ok(())
    }

    fn print_all(&self) -> io::Result<()> {
        let (adt, oru) = ("adt_a01.profile", "oru_r01.profile");
        self.print_honest(&[
            ("admissions", adt),
            ("reports", oru),
            ("small", adt),
            ("results_5000", oru),
            ("megabyte", oru),
            ("document", oru),
            ("sixty_kilobytes", oru),
            ("unreadable", oru),
            ("tiny_blocks", oru),
        ])?;
        println!();
        let hostile = [
            "separators",
            "fields",
            "components",
            "subcomponents",
            "repetitions",
            "escapes",
            "lone_escapes",
            "empty_lines",
        ];
        self.print_hostile("megabyte", oru, &hostile)?;
        println!();
        self.print_hostile("sixty_kilobytes", oru, &["short_lines"])
    }
}

fn main() -> ExitCode {
    let words: Vec<String> = env::args().collect();
    let [_, program, baseline, profiles, traffic, rounds] = words.as_slice() else {
        eprintln!("measure PROGRAM BASELINE PROFILES TRAFFIC ROUNDS");
        return ExitCode::from(2);
    };
    let bench = Bench {
        program: program.into(),
        baseline: baseline.into(),
        profiles: profiles.into(),
        traffic: traffic.into(),
        rounds: rounds.parse().unwrap_or(3),
    };
    match bench.print_all() {
        Ok(()) => ExitCode::SUCCESS,
        Err(error) => {
            eprintln!("{error}");
            ExitCode::FAILURE
        }
    }
}
