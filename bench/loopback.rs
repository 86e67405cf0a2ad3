//! The streams, the clients and the receivers of a service on loopback.
use std::error::Error;
use std::io::{BufRead, BufReader, Write};
use std::net::{TcpListener, TcpStream};
use std::sync::Arc;
use std::thread;
use std::time::{Duration, Instant};

/// The most entries of a journal.
const ENTRIES: usize = 262_144;

pub type Outcome<T> = Result<T, Box<dyn Error + Send + Sync>>;

/// What ends the content of a block.
const FS: u8 = 0x1c;

/// A framed message, and the second letter of the code that answers it.
#[derive(Clone)]
pub struct Message {
    pub block: Arc<[u8]>,
    pub code: u8,
}

impl Message {
    pub fn is_accepted(&self) -> bool {
        self.code == b'A'
    }
}

/// Messages, and to how many receivers each goes that is accepted.
#[derive(Clone)]
pub struct Stream {
    pub name: &'static str,
    pub goes_to: usize,
    pub messages: Vec<Message>,
}

impl Stream {
    pub fn accepted(&self) -> usize {
        self.messages.iter().filter(|it| it.is_accepted()).count()
    }

    pub fn entries(&self) -> usize {
        self.messages.len() + 3 * self.goes_to * self.accepted()
    }

    /// What a service says in the end.
    pub fn total(&self) -> String {
        let (accepted, entries) = (self.accepted(), self.entries());
        let (refused, made) = (self.messages.len() - accepted, accepted * self.goes_to);
        format!(
            "accepted {accepted} refused {refused} kept {made} released {made} entries {entries}\n"
        )
    }

    /// Its messages again and again, as far as a journal has room.
    pub fn filled(mut self) -> Stream {
        let (all, mut room) = (self.messages.clone(), ENTRIES);
        self.messages.clear();
        for message in all.into_iter().cycle() {
            let receivers = self.goes_to * usize::from(message.is_accepted());
            match room.checked_sub(1 + 3 * receivers) {
                Some(left) => room = left,
                None => break,
            }
            self.messages.push(message);
        }
        self
    }
}

/// The second letter of the code of an answer.
pub fn code(answer: &[u8]) -> Outcome<u8> {
    let mut places = answer.windows(7);
    let found = places.find(|bytes| bytes.starts_with(b"\rMSA|"));
    Ok(found.ok_or("an answer without a code")?[6])
}

/// Reads up to the end of the next content; the CR behind it comes with the next. False at the end of the line.
pub fn next_block(reader: &mut impl BufRead, block: &mut Vec<u8>) -> Outcome<bool> {
    block.clear();
    reader.read_until(FS, block)?;
    Ok(block.last() == Some(&FS))
}

/// A client: writes a message each period from `begin` on, while fewer than a limit wait for their answers. Returns the milliseconds of each answer.
///
/// A message that is held up by those before it has waited since it was due. That the client itself is woken late isn't counted.
pub fn play(
    mut line: TcpStream,
    messages: &[Message],
    begin: Instant,
    period: Duration,
    window: usize,
) -> Outcome<Vec<f64>> {
    let mut reader = BufReader::new(line.try_clone()?);
    let (mut answer, mut since, mut taken) = (Vec::new(), Vec::new(), Vec::new());
    for at in 0..messages.len() + window - 1 {
        if let Some(message) = messages.get(at) {
            let due = begin + period.mul_f64(at as f64);
            let wait = due.saturating_duration_since(Instant::now());
            thread::sleep(wait);
            since.push(if wait.is_zero() { due } else { Instant::now() });
            line.write_all(&message.block)?;
        }
        if at + 1 >= window {
            let first = at + 1 - window;
            if !next_block(&mut reader, &mut answer)? || code(&answer)? != messages[first].code {
                return Err("an answer isn't that of `run`".into());
            }
            taken.push(since[first].elapsed().as_secs_f64() * 1e3);
        }
    }
    Ok(taken)
}

/// A receiver: takes one connection, and acknowledges this many messages at once. Returns the time of the last, and the connection, still open.
pub fn receive(listener: &TcpListener, due: usize) -> Outcome<(Instant, TcpStream)> {
    let (mut line, _) = listener.accept()?;
    line.set_nodelay(true)?;
    let mut reader = BufReader::with_capacity(65_536, line.try_clone()?);
    let mut block = Vec::new();
    for _message in 0..due {
        if !next_block(&mut reader, &mut block)? {
            return Err("a receiver's line ended early".into());
        }
        let fields = block.split(|byte| matches!(byte, b'|' | b'\r' | 0x0b));
        let mut header = fields.skip_while(|field| *field != b"MSH");
        let control = header.nth(9).ok_or("a message without a control id")?;
        let head = b"\x0bMSH|^~\\&|||||||ACK|R|P|2.5.1\rMSA|AA|";
        line.write_all(&[head, control, b"\r\x1c\r"].concat())?;
    }
    Ok((Instant::now(), line))
}
