//! A relay: the network's part of a service, and nothing else of it. It knows each answer, and each block for a receiver, from what `run` left, by the control id
//! of the message (MSH-10): it reads no message, validates none and translates none, and keeps nothing. What it takes is what any service would on this machine.
use crate::loopback::{code, next_block, Outcome};
use std::collections::HashMap;
use std::fs::{self, File};
use std::io::{BufReader, Read, Write};
use std::net::{TcpListener, TcpStream};
use std::path::Path;
use std::sync::mpsc::{channel, Receiver, Sender};
use std::sync::Arc;
use std::thread;

type Block = Arc<[u8]>;

/// What a message gets: its answer, and a block for each receiver of these numbers.
struct Due {
    answer: Block,
    sends: Vec<(usize, Block)>,
}

/// The blocks of a file, each from its VT to the CR behind its FS.
fn blocks(path: &Path) -> Outcome<Vec<Block>> {
    let mut reader = BufReader::new(File::open(path)?);
    let (mut blocks, mut block) = (Vec::new(), Vec::new());
    while next_block(&mut reader, &mut block)? {
        let start = block.strip_prefix(b"\r").unwrap_or(&block);
        blocks.push([start, b"\r"].concat().into());
    }
    Ok(blocks)
}

/// The control id of a message within a block.
fn control(block: &[u8]) -> &[u8] {
    let mut fields = block.split(|byte| *byte == b'|');
    fields.nth(9).unwrap_or(b"")
}

/// What each message of a stream gets, by its control id.
fn dues(stream: &Path, answers: &Path, receivers: &[Vec<Block>]) -> Outcome<HashMap<Vec<u8>, Due>> {
    let mut dues = HashMap::new();
    for (message, answer) in blocks(stream)?.iter().zip(blocks(answers)?) {
        let sends = Vec::new();
        dues.insert(control(message).to_vec(), Due { answer, sends });
    }
    for (number, sent) in receivers.iter().enumerate() {
        for block in sent {
            let due = dues.get_mut(control(block)).ok_or("sent to nobody")?;
            due.sends.push((number, block.clone()));
        }
    }
    Ok(dues)
}

/// Answers the messages of a connection, and hands on what receivers are sent. Gives how many were accepted and how many refused.
fn attend(
    line: TcpStream,
    dues: &HashMap<Vec<u8>, Due>,
    outs: &[Sender<Block>],
) -> Outcome<[usize; 2]> {
    line.set_nodelay(true)?;
    let mut reader = BufReader::with_capacity(65_536, line.try_clone()?);
    let (mut line, mut block, mut counts) = (line, Vec::new(), [0, 0]);
    while next_block(&mut reader, &mut block)? {
        let due = dues.get(control(&block)).ok_or("an unknown message")?;
        for (number, block) in &due.sends {
            outs[*number].send(block.clone())?;
        }
        line.write_all(&due.answer)?;
        counts[usize::from(code(&due.answer)? != b'A')] += 1;
    }
    Ok(counts)
}

/// Sends blocks to a receiver, each when the last one was acknowledged. Gives how many.
fn carry(line: TcpStream, blocks: Receiver<Block>) -> Outcome<usize> {
    line.set_nodelay(true)?;
    let mut reader = BufReader::new(line.try_clone()?);
    let (mut line, mut acknowledgment, mut count) = (line, Vec::new(), 0);
    for block in blocks {
        line.write_all(&block)?;
        if !next_block(&mut reader, &mut acknowledgment)? {
            return Err("a receiver's line ended".into());
        }
        count += 1;
    }
    Ok(count)
}

/// The addresses of a plan's receivers.
fn addresses(plan: &str) -> Vec<(&str, &str)> {
    let words = plan
        .lines()
        .filter_map(|line| line.strip_prefix("receiver "));
    words.filter_map(|rest| rest.split_once(' ')).collect()
}

/// Does what a service does by a plan, for a stream that `run` ran over and whose answers and receivers' files it left in the folder; and says the same.
pub fn relay(stream: &Path, folder: &Path, plan: &Path, sessions: usize) -> Outcome<()> {
    let plan = fs::read_to_string(plan)?;
    let receivers = addresses(&plan);
    let sent = receivers
        .iter()
        .map(|(name, _)| blocks(&folder.join(format!("{name}.mllp"))));
    let sent = sent.collect::<Outcome<Vec<_>>>()?;
    let answers = folder.join(stream.file_name().ok_or("no stream")?);
    let dues = Arc::new(dues(stream, &answers, &sent)?);
    let listener = TcpListener::bind("127.0.0.1:0")?;
    eprintln!("listening on {}", listener.local_addr()?);
    let (mut outs, mut couriers) = (Vec::new(), Vec::new());
    for (name, address) in receivers {
        let (line, (out, blocks)) = (TcpStream::connect(address)?, channel());
        eprintln!("receiver {name} connected");
        outs.push(out);
        couriers.push(thread::spawn(move || carry(line, blocks)));
    }
    let mut attending = Vec::new();
    for _session in 0..sessions {
        let (line, dues, outs) = (listener.accept()?.0, dues.clone(), outs.clone());
        attending.push(thread::spawn(move || attend(line, &dues, &outs)));
    }
    drop(outs);
    let (mut accepted, mut refused, mut sent) = (0, 0, 0);
    for session in attending {
        let counts = session.join().expect("a session doesn't panic")?;
        accepted += counts[0];
        refused += counts[1];
    }
    for courier in couriers {
        sent += courier.join().expect("a courier doesn't panic")?;
    }
    std::io::stdin().read_to_end(&mut Vec::new())?;
    let entries = accepted + refused + 3 * sent;
    println!("accepted {accepted} refused {refused} kept {sent} released {sent} entries {entries}");
    Ok(())
}
