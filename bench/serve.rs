//! `serve PROGRAM EXAMPLES TRAFFIC FOLDER ROUNDS`: serves the plan of a hospital on loopback, to clients that send admissions or reports and with receivers
//! that acknowledge at once, and runs the same plan over the same streams; and prints what both took. Clients await the answers that `run` gave.
//! A relay is measured beside it, which does the network's part alone (relay.rs): this program itself, by other words.
//!
//! Speeds are by the clock, since a service has many threads; each figure is the least of ROUNDS rounds.
mod loopback;
mod relay;
mod taken;

use loopback::{code, next_block, play, receive, Message, Outcome, Stream};
use std::fs::{self, File};
use std::io::{BufRead, BufReader, Read};
use std::net::{TcpListener, TcpStream};
use std::path::{Path, PathBuf};
use std::process::{Child, Command, ExitCode, Stdio};
use std::sync::mpsc::channel;
use std::time::{Duration, Instant};
use std::{array, env, thread};
use taken::{best, end, own_seconds, run, Taken};

/// The streams, by their files in the traffic, and to how many receivers each of their messages goes that is accepted.
const STREAMS: [(&str, usize); 2] = [("admissions", 1), ("reports", 2)];

/// The receivers of the plan, by their hosts; admissions go to the first.
const RECEIVERS: [&str; 2] = ["wards", "archive"];

/// Sessions and workers of a service.
const CREWS: [[usize; 2]; 4] = [[1, 1], [1, 4], [8, 1], [8, 4]];

/// At most this many messages of a pipelining client wait for their answers.
const WINDOW: usize = 64;

/// This many messages are sent at half load.
const PACED: usize = 5_000;

/// The program with its first words, its files, and how often it is measured.
#[derive(Clone)]
struct Bench {
    program: PathBuf,
    words: Vec<String>,
    plan: PathBuf,
    traffic: PathBuf,
    folder: PathBuf,
    rounds: usize,
}

fn peak(child: &Child) -> Outcome<f64> {
    let status = fs::read_to_string(format!("/proc/{}/status", child.id()))?;
    let (_, peak) = status.split_once("VmHWM:").ok_or("no peak")?;
    Ok(peak.split_whitespace().next().ok_or("no peak")?.parse()?)
}

impl Bench {
    /// Runs the plan over a stream.
    fn run(&self, name: &str) -> Outcome<Taken> {
        let (input, answers) = (self.traffic.join(name), self.folder.join(name));
        let mut command = Command::new(&self.program);
        command.arg("run").arg(&self.plan).arg(&self.folder);
        let taken = best(self.rounds, || run(&mut command, &input, &answers))?;
        match taken.status {
            0 => Ok(taken),
            status => Err(format!("`run` ended with {status}").into()),
        }
    }

    /// A stream, with the codes that `run` answered.
    fn stream(&self, name: &'static str, goes_to: usize) -> Outcome<Stream> {
        let mut input = BufReader::new(File::open(self.traffic.join(name))?);
        let mut answers = BufReader::new(File::open(self.folder.join(name))?);
        let (mut messages, mut block, mut answer) = (Vec::new(), Vec::new(), Vec::new());
        while next_block(&mut input, &mut block)? && next_block(&mut answers, &mut answer)? {
            let start = block.strip_prefix(b"\r").unwrap_or(&block);
            let block = [start, b"\r"].concat().into();
            let code = code(&answer)?;
            messages.push(Message { block, code });
        }
        Ok(Stream {
            name,
            goes_to,
            messages,
        })
    }

    /// Starts a service. Gives it with its port when its receivers are connected.
    fn start(&self, crew: [usize; 2], plan: &str) -> Outcome<(Child, u16)> {
        let file = self.folder.join("plan");
        fs::write(&file, plan)?;
        let mut command = Command::new(&self.program);
        command.args(&self.words);
        command.arg("serve").arg(file).arg("127.0.0.1:0");
        command.args(crew.map(|it| it.to_string()));
        command.stdin(Stdio::piped()).stdout(Stdio::piped());
        let mut child = command.stderr(Stdio::piped()).spawn()?;
        let mut lines = BufReader::new(child.stderr.take().ok_or("no lines")?).lines();
        let listens = lines.next().ok_or("no line")??;
        for _receiver in RECEIVERS {
            lines.next().ok_or("no line of a receiver")??;
        }
        thread::spawn(move || lines.for_each(drop));
        let (_, port) = listens.rsplit_once(':').ok_or(listens.clone())?;
        Ok((child, port.parse()?))
    }

    /// Serves a stream, whose messages are dealt out to the clients in turn, at so many messages a second. Gives the seconds up to the last answer and to the
    /// last delivery, processor seconds of the service and of this process, the service's peak of memory, and the milliseconds that an answer took: the median
    /// and the 99th percentile.
    fn serve(
        &self,
        crew: [usize; 2],
        stream: &Stream,
        window: usize,
        speed: f64,
    ) -> Outcome<[f64; 7]> {
        let (tell, told) = channel();
        let mut plan = fs::read_to_string(&self.plan)?;
        for (at, name) in RECEIVERS.into_iter().enumerate() {
            let (listener, tell) = (TcpListener::bind("127.0.0.1:0")?, tell.clone());
            let address = listener.local_addr()?.to_string();
            plan = plan.replace(&format!("{name}.hospital.example:2575"), &address);
            let due = if at < stream.goes_to {
                stream.accepted()
            } else {
                0
            };
            thread::spawn(move || tell.send(receive(&listener, due)));
        }
        let started = Instant::now();
        let (mut child, port) = self.start(crew, &plan)?;
        let mut clients = Vec::new();
        for at in 0..crew[0] {
            let share = stream.messages.iter().skip(at).step_by(crew[0]);
            let line = TcpStream::connect(("127.0.0.1", port))?;
            line.set_nodelay(true)?;
            clients.push((at, line, share.cloned().collect::<Vec<_>>()));
        }
        let (own, begun) = (own_seconds()?, Instant::now());
        let period = Duration::from_secs_f64(crew[0] as f64 / speed);
        let clients = clients.into_iter().map(|(at, line, share)| {
            let begin = begun + Duration::from_secs_f64(at as f64 / speed);
            thread::spawn(move || play(line, &share, begin, period, window))
        });
        let mut taken = Vec::new();
        for client in clients.collect::<Vec<_>>() {
            taken.extend(client.join().expect("a client doesn't panic")?);
        }
        let (answered, mut delivered, mut lines) = (begun.elapsed(), begun.elapsed(), Vec::new());
        for _receiver in RECEIVERS {
            let (at, line) = told.recv()??;
            delivered = delivered.max(at.saturating_duration_since(begun));
            lines.push(line);
        }
        let (own, kilobytes) = (own_seconds()? - own, peak(&child)?);
        drop(child.stdin.take());
        let mut total = String::new();
        let mut output = child.stdout.take().ok_or("no output")?;
        output.read_to_string(&mut total)?;
        let seconds = end(&child, started)?.seconds;
        if total != stream.total() {
            return Err(format!("it said {total}and not {}", stream.total()).into());
        }
        taken.sort_by(f64::total_cmp);
        let [median, late] = [50, 99].map(|part| taken[taken.len() * part / 100]);
        let [answered, delivered] = [answered, delivered].map(|it| it.as_secs_f64());
        Ok([answered, delivered, seconds, own, kilobytes, median, late])
    }

    fn least(
        &self,
        crew: [usize; 2],
        stream: &Stream,
        window: usize,
        speed: f64,
    ) -> Outcome<[f64; 7]> {
        let mut least = self.serve(crew, stream, window, speed)?;
        for _round in 1..self.rounds {
            let taken = self.serve(crew, stream, window, speed)?;
            least = array::from_fn(|at| least[at].min(taken[at]));
        }
        Ok(least)
    }

    fn print_row(&self, crew: [usize; 2], stream: &Stream, base: Taken) -> Outcome<()> {
        let [answered, delivered, seconds, own, kilobytes, ..] =
            self.least(crew, stream, WINDOW, f64::INFINITY)?;
        let ([sessions, workers], name) = (crew, stream.name);
        let count = stream.messages.len() as f64;
        let mut few = stream.clone();
        few.messages.truncate(PACED);
        let [.., median, late] = self.least(crew, &few, 1, count / delivered / 2.0)?;
        println!(
            "| {name} | {sessions} | {workers} | {:.0} | {:.0} | {:.2} | {:.2} | {:.2} | {median:.2} | {late:.2} | {kilobytes} |",
            count / answered,
            count / delivered,
            base.clock / delivered,
            seconds / base.seconds,
            own / seconds,
        );
        Ok(())
    }

    /// The same by a relay, which sends what the last run left: so the stream is run once more.
    fn relay(&self, stream: &Stream) -> Outcome<Bench> {
        self.run(stream.name)?;
        let path = |path: PathBuf| path.to_str().map(String::from).ok_or("a path of bytes");
        let mut words = vec![String::from("relay"), path(self.traffic.join(stream.name))?];
        words.push(path(self.folder.clone())?);
        Ok(Bench {
            program: env::current_exe()?,
            words,
            ..self.clone()
        })
    }

    fn print_full(&self, stream: Stream, base: Taken) -> Outcome<()> {
        let speed = stream.messages.len() as f64 / base.clock;
        let full = stream.filled();
        let [_, delivered, _, _, kilobytes, ..] =
            self.serve([8, 4], &full, WINDOW, f64::INFINITY)?;
        let count = full.messages.len() as f64;
        println!(
            "| {} | Entries | Peak kB | times `run` | Delivered a second | Speed ratio |\n|---|---|---|---|---|---|",
            full.name
        );
        println!(
            "| {count} | {} | {kilobytes} | {:.0} | {:.0} | {:.2} |",
            full.entries(),
            kilobytes / base.kilobytes as f64,
            count / delivered,
            count / delivered / speed
        );
        Ok(())
    }

    fn print(&self) -> Outcome<()> {
        // (before a stream is in memory: a child's peak counts what its parent had when it began)
        let bases = STREAMS.map(|(name, _)| self.run(name));
        println!("| Stream | Sessions | Workers | Answered a second | Delivered a second | Speed ratio | Processor ratio | Clients and receivers | Median ms | 99th percentile ms | Peak kB |");
        println!("|---|---|---|---|---|---|---|---|---|---|---|");
        let mut last = None;
        for ((name, goes_to), base) in STREAMS.into_iter().zip(bases) {
            let (base, stream) = (base?, self.stream(name, goes_to)?);
            let (accepted, count) = (stream.accepted(), stream.messages.len());
            let speed = count as f64 / base.clock;
            println!(
                "| {name}, `run`: {accepted} of {count} accepted | | | {speed:.0} | {speed:.0} | 1.00 | 1.00 | | | | {} |",
                base.kilobytes
            );
            for crew in CREWS {
                self.print_row(crew, &stream, base)?;
            }
            let (relay, mut stream) = (self.relay(&stream)?, stream);
            stream.name = "the same by a relay";
            for sessions in [1, 8] {
                relay.print_row([sessions, 0], &stream, base)?;
            }
            stream.name = name;
            last = Some((stream, base));
        }
        println!();
        last.map_or(Ok(()), |(stream, base)| self.print_full(stream, base))
    }
}

fn ended(done: Outcome<()>) -> ExitCode {
    match done {
        Ok(()) => ExitCode::SUCCESS,
        Err(error) => {
            eprintln!("{error}");
            ExitCode::FAILURE
        }
    }
}

fn main() -> ExitCode {
    let words: Vec<String> = env::args().collect();
    if let [_, _relay, stream, folder, _serve, plan, _address, sessions, _workers] =
        words.as_slice()
    {
        let [stream, folder, plan] = [stream, folder, plan].map(Path::new);
        return ended(relay::relay(
            stream,
            folder,
            plan,
            sessions.parse().unwrap_or(1),
        ));
    }
    let [_, program, examples, traffic, folder, rounds] = words.as_slice() else {
        eprintln!("serve PROGRAM EXAMPLES TRAFFIC FOLDER ROUNDS");
        return ExitCode::from(2);
    };
    let bench = Bench {
        program: program.into(),
        words: Vec::new(),
        plan: PathBuf::from(examples).join("hospital.plan"),
        traffic: traffic.into(),
        folder: folder.into(),
        rounds: rounds.parse().unwrap_or(3),
    };
    ended(bench.print())
}
