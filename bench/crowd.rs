//! `crowd COUNT SENDERS RECEIVERS < words`: the senders and receivers of `bench/gateway` and `bench/soak`, threads of one process.
//!
//! It prints the ports of its receivers. Then each line of its input is a word. `form DIGITS R R ..` is a message in hexadecimal digits,
//! with `CONTROLID` for MSH-10, and the receivers that it goes to; senders take turns at the forms. `go PORT` starts the senders,
//! `gone R` and `there R` take receiver R away and back, `look` prints how many messages were accepted, how many senders send, and how many messages were acknowledged,
//! `rest` has the senders pause until `on`, `stop` ends them, and `end` prints what was found and ends it all.
use std::error::Error;
use std::io::{self, BufRead, BufReader, ErrorKind, Write};
use std::net::{TcpListener, TcpStream};
use std::sync::atomic::{AtomicBool, AtomicU64, Ordering::Relaxed};
use std::sync::Arc;
use std::thread::{self, JoinHandle};
use std::time::{Duration, Instant};

/// What ends the content of a block.
const FS: u8 = 0x1c;
/// Answers that took longer are counted, in microseconds.
const SLOW: [u32; 3] = [10_000, 100_000, 1_000_000];

type Outcome<T> = Result<T, Box<dyn Error + Send + Sync>>;

/// What senders and receivers share.
#[derive(Default)]
struct Shared {
    accepted: AtomicU64,
    acknowledged: AtomicU64,
    rests: AtomicBool,
    is_over: AtomicBool,
    is_end: AtomicBool,
}

/// What a sender saw: which of its messages were accepted, and how long their answers took, in microseconds.
#[derive(Default)]
struct Sent {
    accepted: Vec<bool>,
    times: Vec<u32>,
}

/// What a receiver got: how often each message of each sender, and what was wrong with it.
struct Got {
    came: Vec<Vec<u8>>,
    last: Vec<usize>,
    before: Option<(usize, usize)>,
    repeats: u64,
    disorder: u64,
    lines: u64,
}

impl Got {
    fn nothing(senders: usize) -> Got {
        Got {
            came: vec![Vec::new(); senders],
            last: vec![0; senders],
            before: None,
            repeats: 0,
            disorder: 0,
            lines: 0,
        }
    }

    fn take(&mut self, sender: usize, number: usize) {
        if number > self.last[sender] {
            self.last[sender] = number;
        } else if self.before == Some((sender, number)) {
            self.repeats += 1;
        } else {
            self.disorder += 1;
        }
        self.before = Some((sender, number));
        let came = &mut self.came[sender];
        if came.len() <= number {
            came.resize((number + 1).next_power_of_two(), 0);
        }
        came[number] = came[number].saturating_add(1);
    }
}

/// The control id of a sender's message: three digits and nine.
fn control_of(sender: usize, number: usize) -> String {
    format!("{sender:03}{number:09}")
}

/// The sender and the number of a control id.
fn parts(control: &[u8]) -> Outcome<(usize, usize)> {
    let (sender, number) = std::str::from_utf8(control)?
        .split_at_checked(3)
        .ok_or("a strange control id")?;
    Ok((sender.parse()?, number.parse()?))
}

/// A listener at a port that the system gives to nobody who connects: it may be left and taken again.
fn listener_at(port: Option<u16>) -> TcpListener {
    let mut next = 20_000 + (std::process::id() % 9_000) as u16;
    loop {
        if let Ok(listener) = TcpListener::bind(("127.0.0.1", port.unwrap_or(next))) {
            return listener;
        }
        next += 1;
        thread::sleep(Duration::from_millis(if port.is_some() { 20 } else { 0 }));
    }
}

/// Acknowledges each block of a connection, while the receiver is there.
fn acknowledge(
    line: TcpStream,
    is_gone: impl Fn() -> bool,
    got: &mut Got,
    count: &AtomicU64,
) -> Outcome<()> {
    line.set_nodelay(true)?;
    line.set_read_timeout(Some(Duration::from_millis(50)))?;
    let mut reader = BufReader::with_capacity(65_536, line.try_clone()?);
    let (mut line, mut block) = (line, Vec::new());
    while !is_gone() {
        match reader.read_until(FS, &mut block) {
            Ok(0) => break,
            Ok(_) if block.last() != Some(&FS) => break,
            Ok(_) => {}
            Err(error) if error.kind() == ErrorKind::WouldBlock => continue,
            Err(error) => return Err(error.into()),
        }
        let control = block.split(|byte| *byte == b'|').nth(9);
        let control = control.ok_or("a message without a control id")?;
        let (sender, number) = parts(control)?;
        got.take(sender, number);
        let head = b"\x0bMSH|^~\\&|||||||ACK|R|P|2.5.1\rMSA|AA|";
        line.write_all(&[head, control, b"\r\x1c\r"].concat())?;
        count.fetch_add(1, Relaxed);
        block.clear();
    }
    Ok(())
}

/// Takes one connection after another, and is gone while it is said to be.
fn receive(listener: TcpListener, senders: usize, is_gone: &AtomicBool, shared: &Shared) -> Got {
    let port = listener
        .local_addr()
        .expect("a listener has an address")
        .port();
    let (mut listener, mut got) = (listener, Got::nothing(senders));
    while !shared.is_end.load(Relaxed) {
        if is_gone.load(Relaxed) {
            drop(listener);
            while is_gone.load(Relaxed) {
                thread::sleep(Duration::from_millis(20));
            }
            listener = listener_at(Some(port));
        }
        listener
            .set_nonblocking(true)
            .expect("a listener that doesn't wait");
        match listener.accept() {
            Ok((line, _)) => {
                got.lines += 1;
                // (that a gateway is killed ends its connections)
                let is_gone = || is_gone.load(Relaxed) || shared.is_end.load(Relaxed);
                let _ = acknowledge(line, is_gone, &mut got, &shared.acknowledged);
            }
            Err(_) => thread::sleep(Duration::from_millis(5)),
        }
    }
    got
}

/// A message whose control id is yet to be put in, and the receivers that it goes to.
struct Form {
    head: Vec<u8>,
    tail: Vec<u8>,
    receivers: Vec<usize>,
}

impl Form {
    fn read(words: &str) -> Outcome<Form> {
        let (digits, receivers) = words.split_once(' ').ok_or("a form without receivers")?;
        let receivers = receivers.split(' ').map(|it| Ok(it.parse()?));
        let receivers = receivers.collect::<Outcome<_>>()?;
        let digits = digits.as_bytes().chunks(2);
        let bytes = digits.map(|two| Ok(u8::from_str_radix(std::str::from_utf8(two)?, 16)?));
        let bytes: Vec<u8> = bytes.collect::<Outcome<_>>()?;
        let mark = b"CONTROLID";
        let at = bytes.windows(mark.len()).position(|it| it == mark);
        let at = at.ok_or("a message without CONTROLID")?;
        let (head, tail) = (bytes[..at].to_vec(), bytes[at + mark.len()..].to_vec());
        Ok(Form {
            head,
            tail,
            receivers,
        })
    }
}

/// Sends messages over a connection, each when the one before is answered.
fn send_over(
    at: usize,
    port: u16,
    form: &Form,
    share: u64,
    shared: &Shared,
    sent: &mut Sent,
) -> Outcome<()> {
    let mut line = TcpStream::connect(("127.0.0.1", port))?;
    line.set_nodelay(true)?;
    line.set_read_timeout(Some(Duration::from_secs(120)))?;
    let mut reader = BufReader::with_capacity(65_536, line.try_clone()?);
    let mut answer = Vec::new();
    while (sent.times.len() as u64) < share && !shared.is_over.load(Relaxed) {
        if shared.rests.load(Relaxed) {
            thread::sleep(Duration::from_millis(20));
            continue;
        }
        let control = control_of(at, sent.accepted.len() + 1);
        // (until it is answered it isn't known to be accepted)
        sent.accepted.push(false);
        let begun = Instant::now();
        line.write_all(&[&form.head, control.as_bytes(), &form.tail].concat())?;
        answer.clear();
        reader.read_until(FS, &mut answer)?;
        let taken = begun.elapsed();
        let stated = format!("MSA|AA|{control}\r");
        if answer
            .windows(stated.len())
            .any(|it| it == stated.as_bytes())
        {
            *sent.accepted.last_mut().expect("it was pushed") = true;
            sent.times.push(taken.as_micros() as u32);
            shared.accepted.fetch_add(1, Relaxed);
        }
        if answer.last() != Some(&FS) {
            return Err("the connection ended".into());
        }
    }
    Ok(())
}

/// Sends messages until so many were accepted or the time is over. One that isn't answered is left, and the next is sent.
fn send(at: usize, port: u16, form: &Form, share: u64, shared: &Shared) -> Sent {
    let mut sent = Sent::default();
    while send_over(at, port, form, share, shared, &mut sent).is_err() {
        thread::sleep(Duration::from_millis(20));
        if shared.is_over.load(Relaxed) {
            break;
        }
    }
    sent
}

/// What was found, as JSON.
fn found(forms: &[Arc<Form>], sent: &[Sent], got: &[Got]) -> String {
    let sum = |count: fn(&Got) -> u64| got.iter().map(count).sum::<u64>();
    let mut lost = 0;
    for (sender, sent) in sent.iter().enumerate() {
        let due = &forms[sender % forms.len()].receivers;
        for (at, _) in sent
            .accepted
            .iter()
            .enumerate()
            .filter(|(_, is_accepted)| **is_accepted)
        {
            let missed = due.iter().filter(|it| {
                got[**it].came[sender]
                    .get(at + 1)
                    .is_none_or(|count| *count == 0)
            });
            lost += missed.count();
        }
    }
    let all = sent.iter().map(|it| it.accepted.len()).sum::<usize>();
    let mut times: Vec<u32> = sent
        .iter()
        .flat_map(|it| it.times.iter().copied())
        .collect();
    times.sort_unstable();
    let share = |of: f64| {
        times
            .get((times.len() as f64 * of) as usize)
            .or(times.last())
            .unwrap_or(&0)
    };
    format!(
        "{{\"accepted\":{},\"others\":{},\"lost\":{lost},\"disorder\":{},\"repeats\":{},\"lines\":{},\"median\":{},\"ninety_nine\":{},\"longest\":{},\"slow\":{:?}}}",
        times.len(),
        all - times.len(),
        sum(|it| it.disorder),
        sum(|it| it.repeats),
        sum(|it| it.lines),
        share(0.5),
        share(0.99),
        share(1.0),
        SLOW.map(|limit| times.iter().filter(|it| **it >= limit).count())
    )
}

fn main() -> Outcome<()> {
    let mut words = std::env::args().skip(1);
    let mut number =
        || -> Outcome<usize> { Ok(words.next().ok_or("COUNT SENDERS RECEIVERS")?.parse()?) };
    let (count, senders, receivers) = (number()?, number()?, number()?);
    let share = count.div_ceil(senders) as u64;
    let shared = Arc::new(Shared::default());
    let gone: Arc<Vec<AtomicBool>> =
        Arc::new((0..receivers).map(|_| AtomicBool::new(false)).collect());
    let listeners: Vec<TcpListener> = (0..receivers).map(|_| listener_at(None)).collect();
    let ports = listeners
        .iter()
        .map(|it| Ok(it.local_addr()?.port().to_string()));
    println!("{}", ports.collect::<io::Result<Vec<_>>>()?.join(" "));
    let receiving: Vec<JoinHandle<Got>> = listeners
        .into_iter()
        .enumerate()
        .map(|(at, listener)| {
            let (gone, shared) = (gone.clone(), shared.clone());
            thread::spawn(move || receive(listener, senders, &gone[at], &shared))
        })
        .collect();
    let (mut forms, mut sending): (Vec<Arc<Form>>, Vec<JoinHandle<Sent>>) = Default::default();
    for line in io::stdin().lines() {
        let line = line?;
        let (word, rest) = line.split_once(' ').unwrap_or((&line, "0"));
        let at = || Ok::<usize, Box<dyn Error + Send + Sync>>(rest.parse()?);
        match word {
            "form" => forms.push(Arc::new(Form::read(rest)?)),
            "go" => {
                let port = at()? as u16;
                let start = |sender: usize| {
                    let (form, shared) = (forms[sender % forms.len()].clone(), shared.clone());
                    thread::spawn(move || send(sender, port, &form, share, &shared))
                };
                sending.extend((0..senders).map(start));
            }
            "gone" => gone[at()?].store(true, Relaxed),
            "there" => gone[at()?].store(false, Relaxed),
            "rest" => shared.rests.store(true, Relaxed),
            "on" => shared.rests.store(false, Relaxed),
            "stop" => shared.is_over.store(true, Relaxed),
            "look" => {
                let running = sending.iter().filter(|it| !it.is_finished()).count();
                let acknowledged = shared.acknowledged.load(Relaxed);
                println!("{} {running} {acknowledged}", shared.accepted.load(Relaxed));
            }
            _ => break,
        }
    }
    shared.is_over.store(true, Relaxed);
    shared.is_end.store(true, Relaxed);
    for it in gone.iter() {
        it.store(false, Relaxed);
    }
    let end = |it: JoinHandle<Sent>| it.join().expect("a sender doesn't panic");
    let sent: Vec<Sent> = sending.into_iter().map(end).collect();
    let end = |it: JoinHandle<Got>| it.join().expect("a receiver doesn't panic");
    let got: Vec<Got> = receiving.into_iter().map(end).collect();
    println!("{}", found(&forms, &sent, &got));
    Ok(())
}
