//! ER7 as a tuned program reads it: one pass over the message bytes by a table of byte classes, texts that stay where they are, and vectors that are used again
//! for each message. Validation walks the shapes and the values side by side and makes no tree. Answers are written into one buffer, and go out before the next read.
use crate::answer::text_of;
use crate::delimiters::{canonical, delimiters_of, is_named, Delimiters};
use crate::mllp::TooLong;
use crate::profile::Usage::{Forbidden, Required};
use crate::profile::{Comp, Field, Node, Profile, Sub};
use crate::validate::{can_begin, first_due, DATA, MISSING, SEQUENCE, TABLE};
use std::collections::HashSet;
use std::io::{self, Read, Write};

const VT: u8 = 0x0b;
const FS: u8 = 0x1c;
const CR: u8 = 0x0d;
const LIMIT: usize = 1_048_576;
/// Tables of up to so many values are gone through, larger ones hashed.
const SMALL: usize = 16;
/// The bit of a text that is in `Message::made` and not in the message bytes.
const MADE: u32 = 1 << 31;

/// What a byte is to a reader, by the delimiters.
#[derive(Clone, Copy, PartialEq, PartialOrd)]
enum Class {
    Plain,
    Odd,
    Sub,
    Comp,
    Rep,
    Field,
    End,
    Refused,
}

/// The classes of all bytes.
fn classes(delimiters: &Delimiters) -> [Class; 256] {
    let mut classes = [Class::Plain; 256];
    classes[..0x20].fill(Class::Refused);
    classes[usize::from(b'\t')] = Class::Plain;
    for byte in *b"|^~\\&" {
        classes[usize::from(byte)] = Class::Odd;
    }
    classes[usize::from(delimiters.escape)] = Class::Odd;
    classes[usize::from(delimiters.subcomponent)] = Class::Sub;
    classes[usize::from(delimiters.component)] = Class::Comp;
    classes[usize::from(delimiters.repetition)] = Class::Rep;
    classes[usize::from(delimiters.field)] = Class::Field;
    classes[usize::from(b'\r')] = Class::End;
    classes[usize::from(b'\n')] = Class::End;
    classes
}

/// A value that is present: field, repetition, component and subcomponent, and where its canonical text is.
struct Value {
    place: [u32; 4],
    from: u32,
    to: u32,
}

/// A name, and which of the values are the segment's.
struct Segment {
    name: [u8; 3],
    from: usize,
    to: usize,
}

/// A message whose texts are in `content`, or in `made` where they aren't canonical there.
#[derive(Default)]
struct Message {
    made: Vec<u8>,
    values: Vec<Value>,
    segments: Vec<Segment>,
}

/// The message bytes and what was read of them.
#[derive(Clone, Copy)]
struct View<'a> {
    content: &'a [u8],
    message: &'a Message,
}

impl Message {
    /// Reads the fields of a line from a byte on, the first of which has this number, and gives where the line ends.
    fn read_line(
        &mut self,
        delimiters: &Delimiters,
        classes: &[Class; 256],
        content: &[u8],
        from: usize,
        first: u32,
    ) -> Option<usize> {
        let mut place = [first, 1, 1, 1];
        let (mut start, mut at, mut is_odd) = (from, from, false);
        loop {
            let class = content
                .get(at)
                .map_or(Class::End, |byte| classes[usize::from(*byte)]);
            if class == Class::Plain {
                at += 1;
                continue;
            }
            if class == Class::Odd {
                is_odd = true;
                at += 1;
                continue;
            }
            if at > start {
                self.add(delimiters, content, place, start, at, is_odd);
            }
            match class {
                Class::Sub => place[3] += 1,
                Class::Comp => place = [place[0], place[1], place[2] + 1, 1],
                Class::Rep => place = [place[0], place[1] + 1, 1, 1],
                Class::Field => place = [place[0] + 1, 1, 1, 1],
                Class::Refused => return None,
                _ => return Some(at),
            }
            at += 1;
            (start, is_odd) = (at, false);
        }
    }

    fn add(
        &mut self,
        delimiters: &Delimiters,
        content: &[u8],
        place: [u32; 4],
        start: usize,
        end: usize,
        is_odd: bool,
    ) {
        let (mut from, mut to) = (start as u32, end as u32);
        if is_odd {
            from = self.made.len() as u32 | MADE;
            self.made
                .extend_from_slice(&canonical(delimiters, &content[start..end]));
            to = self.made.len() as u32;
        }
        self.values.push(Value { place, from, to });
    }

    /// Reads message bytes, or gives None where they are no message.
    fn read(&mut self, content: &[u8]) -> Option<()> {
        self.made.clear();
        self.values.clear();
        self.segments.clear();
        let is_end = |byte: &u8| matches!(byte, b'\r' | b'\n');
        let start = content.iter().position(|byte| !is_end(byte))?;
        let header = content[start..].split(is_end).next()?;
        let delimiters = delimiters_of(header).ok()?;
        let classes = classes(&delimiters);
        let mut at = self.read_line(
            &delimiters,
            &classes,
            content,
            (start + 9).min(start + header.len()),
            3,
        )?;
        self.segments.push(Segment {
            name: *b"MSH",
            from: 0,
            to: self.values.len(),
        });
        while at < content.len() {
            if is_end(&content[at]) {
                at += 1;
                continue;
            }
            let line = &content[at..content.len().min(at + 4)];
            let line = &line[..line.iter().position(is_end).unwrap_or(line.len())];
            if self.segments.len() == 10_000 || !is_named(&delimiters, line) {
                return None;
            }
            let from = self.values.len();
            at = self.read_line(&delimiters, &classes, content, at + line.len(), 1)?;
            self.segments.push(Segment {
                name: [line[0], line[1], line[2]],
                from,
                to: self.values.len(),
            });
        }
        Some(())
    }
}

impl<'a> View<'a> {
    fn text(&self, value: &Value) -> &'a [u8] {
        if value.from & MADE != 0 {
            &self.message.made[(value.from & !MADE) as usize..value.to as usize]
        } else {
            &self.content[value.from as usize..value.to as usize]
        }
    }

    fn values(&self, number: usize) -> &'a [Value] {
        let segment = &self.message.segments[number];
        &self.message.values[segment.from..segment.to]
    }
}

/// A table whose values are gone through or hashed.
enum Table {
    Small(Vec<Vec<u8>>),
    Large(HashSet<Vec<u8>>),
}

impl Table {
    fn has(&self, text: &[u8]) -> bool {
        match self {
            Table::Small(values) => values.iter().any(|value| value == text),
            Table::Large(values) => values.contains(text),
        }
    }
}

/// A profile with what a validator looks up for each message.
pub struct Validator<'p> {
    profile: &'p Profile,
    names: Vec<[u8; 3]>,
    tables: Vec<Table>,
    listed: Vec<usize>,
    next: usize,
    assigned: Vec<(usize, &'p [Field])>,
}

/// A code, the name and the number of a segment, and a place in it.
type Found = Option<(u16, [u8; 3], usize, [u32; 4])>;

impl<'p> Validator<'p> {
    pub fn new(profile: &'p Profile) -> Self {
        let table = |values: &HashSet<Vec<u8>>| match values.len() {
            0..=SMALL => Table::Small(values.iter().cloned().collect()),
            _ => Table::Large(values.clone()),
        };
        Validator {
            profile,
            names: profile.names.iter().copied().collect(),
            tables: profile.tables.iter().map(table).collect(),
            listed: Vec::new(),
            next: 0,
            assigned: Vec::new(),
        }
    }

    fn name(&self, message: &Message) -> Option<[u8; 3]> {
        Some(message.segments[*self.listed.get(self.next)?].name)
    }

    /// The name that is out of order or missing, with the number of its segment or of the one behind the last.
    fn misfit(&self, message: &Message, due: [u8; 3]) -> ([u8; 3], usize) {
        match self.listed.get(self.next) {
            Some(number) => (message.segments[*number].name, *number),
            None => (due, message.segments.len()),
        }
    }

    fn take_nodes(&mut self, message: &Message, nodes: &'p [Node]) -> Result<(), ([u8; 3], usize)> {
        for node in nodes {
            let mut count = 0;
            let (least, due) = match node {
                Node::Segment { name, card, fields } => {
                    while count < card.max && self.name(message) == Some(*name) {
                        self.assigned.push((self.listed[self.next], fields));
                        self.next += 1;
                        count += 1;
                    }
                    (card.min, Some(*name))
                }
                Node::Group { card, nodes } => {
                    while count < card.max
                        && self
                            .name(message)
                            .is_some_and(|name| can_begin(nodes, name))
                    {
                        self.take_nodes(message, nodes)?;
                        count += 1;
                    }
                    (card.min, first_due(nodes))
                }
            };
            if count < least {
                return Err(self.misfit(message, due.unwrap_or(*b"???")));
            }
        }
        Ok(())
    }

    fn sub_breach(&self, shape: &Sub, text: &[u8]) -> Option<u16> {
        if text.is_empty() {
            return (shape.usage == Required).then_some(MISSING);
        }
        if shape.usage == Forbidden {
            return Some(DATA);
        }
        if text == b"\"\"" {
            return None;
        }
        if shape.len.is_some_and(|most| text.len() > most) {
            return Some(DATA);
        }
        (!self.tables[shape.table?].has(text)).then_some(TABLE)
    }

    fn comp_breach(&self, view: View, shape: &Comp, values: &[Value]) -> Option<(u16, u32)> {
        if values.is_empty() {
            return (shape.usage == Required).then_some((MISSING, 0));
        }
        if shape.usage == Forbidden {
            return Some((DATA, 0));
        }
        let mut at = 0;
        for sub in &shape.subs {
            let number = sub.number as u32;
            while at < values.len() && values[at].place[3] < number {
                at += 1;
            }
            let text = match values.get(at) {
                Some(value) if value.place[3] == number => view.text(value),
                _ => &[],
            };
            if let Some(code) = self.sub_breach(sub, text) {
                return Some((code, number));
            }
        }
        None
    }

    fn rep_breach(&self, view: View, shape: &Field, values: &[Value]) -> Option<(u16, [u32; 2])> {
        let mut rest = values;
        for comp in &shape.comps {
            let number = comp.number as u32;
            let found = cut(&mut rest, 2, number);
            if let Some((code, sub)) = self.comp_breach(view, comp, found) {
                return Some((code, [number, sub]));
            }
        }
        None
    }

    fn field_breach(&self, view: View, shape: &Field, values: &[Value]) -> Option<(u16, [u32; 3])> {
        if shape.usage == Forbidden {
            return (!values.is_empty()).then_some((DATA, [0; 3]));
        }
        let changes = values
            .windows(2)
            .filter(|pair| pair[0].place[1] != pair[1].place[1])
            .count();
        if changes + usize::from(!values.is_empty()) < shape.card.min {
            return Some((MISSING, [0; 3]));
        }
        let (mut rest, mut before) = (values, 0);
        while let Some(first) = rest.first() {
            let rep = first.place[1];
            if before == shape.card.max {
                return Some((DATA, [rep, 0, 0]));
            }
            let repetition = cut(&mut rest, 1, rep);
            if let Some((code, [comp, sub])) = self.rep_breach(view, shape, repetition) {
                return Some((code, [rep, comp, sub]));
            }
            before += 1;
        }
        None
    }

    fn segment_breach(
        &self,
        view: View,
        number: usize,
        shapes: &[Field],
    ) -> Option<(u16, [u32; 4])> {
        let mut rest = view.values(number);
        for shape in shapes {
            let field = shape.number as u32;
            let found = cut(&mut rest, 0, field);
            if let Some((code, [rep, comp, sub])) = self.field_breach(view, shape, found) {
                return Some((code, [field, rep, comp, sub]));
            }
        }
        None
    }

    /// The least breach of a message, if there is one.
    fn breach(&mut self, view: View) -> Found {
        self.listed.clear();
        self.assigned.clear();
        self.next = 0;
        let segments = view.message.segments.iter().enumerate();
        let listed = segments.filter(|(_, segment)| self.names.contains(&segment.name));
        self.listed.extend(listed.map(|(number, _)| number));
        let fits = self.take_nodes(view.message, &self.profile.nodes);
        let fits = fits.and_then(|()| match self.listed.get(self.next) {
            Some(number) => Err((view.message.segments[*number].name, *number)),
            None => Ok(()),
        });
        if let Err((name, number)) = fits {
            return Some((SEQUENCE, name, number, [0; 4]));
        }
        self.assigned.iter().find_map(|(number, shapes)| {
            let (code, place) = self.segment_breach(view, *number, shapes)?;
            Some((code, view.message.segments[*number].name, *number, place))
        })
    }
}

/// Takes the values whose number of this level is this one, behind those of smaller numbers, which are passed over.
fn cut<'m>(values: &mut &'m [Value], level: usize, number: u32) -> &'m [Value] {
    let mut from = 0;
    while from < values.len() && values[from].place[level] < number {
        from += 1;
    }
    let mut to = from;
    while to < values.len() && values[to].place[level] == number {
        to += 1;
    }
    let taken = &values[from..to];
    *values = &values[to..];
    taken
}

/// Writes a number in decimal.
fn push_number(out: &mut Vec<u8>, mut number: u64) {
    let (mut digits, mut at) = ([0u8; 20], 20);
    loop {
        at -= 1;
        digits[at] = b'0' + (number % 10) as u8;
        number /= 10;
        if number == 0 {
            break;
        }
    }
    out.extend_from_slice(&digits[at..]);
}

impl View<'_> {
    /// The first repetition of a field of MSH.
    fn header(&self, field: u32) -> &[Value] {
        let mut values = self.values(0);
        let mut values = cut(&mut values, 0, field);
        cut(&mut values, 1, 1)
    }

    fn push_header_text(&self, out: &mut Vec<u8>, field: u32, comp: u32) {
        let mut values = self.header(field);
        let mut values = cut(&mut values, 2, comp);
        if let Some(value) = cut(&mut values, 3, 1).first() {
            out.extend_from_slice(self.text(value));
        }
    }

    /// Writes the first repetition of a field of MSH, with no separator that could be left out.
    fn push_header(&self, out: &mut Vec<u8>, field: u32) {
        let (mut comp, mut sub) = (1, 1);
        for value in self.header(field) {
            while comp < value.place[2] {
                out.push(b'^');
                (comp, sub) = (comp + 1, 1);
            }
            while sub < value.place[3] {
                out.push(b'&');
                sub += 1;
            }
            out.extend_from_slice(self.text(value));
        }
    }
}

/// Writes an answer up to its MSA, or that of message bytes that can't be read.
fn push_begun(out: &mut Vec<u8>, view: Option<View>, stamp: &str, number: u64, code: &[u8]) {
    out.extend_from_slice(b"\x0bMSH|^~\\&|");
    for field in [5, 6, 3, 4] {
        if let Some(view) = view {
            view.push_header(out, field);
        }
        out.push(b'|');
    }
    out.extend_from_slice(stamp.as_bytes());
    out.extend_from_slice(b"||ACK^");
    if let Some(view) = view {
        view.push_header_text(out, 9, 2);
    }
    out.extend_from_slice(b"^ACK|G");
    push_number(out, number);
    out.push(b'|');
    let before = out.len();
    if let Some(view) = view {
        view.push_header(out, 11);
    }
    if out.len() == before {
        out.push(b'P');
    }
    out.extend_from_slice(b"|2.5.1\rMSA|");
    out.extend_from_slice(code);
    if let Some(view) = view {
        let before = out.len();
        out.push(b'|');
        view.push_header_text(out, 10, 1);
        if out.len() == before + 1 {
            out.pop();
        }
    }
    out.push(b'\r');
}

fn push_error(out: &mut Vec<u8>, code: u16) {
    out.push(b'|');
    push_number(out, code.into());
    out.push(b'^');
    out.extend_from_slice(text_of(code).as_bytes());
    out.extend_from_slice(b"^HL70357|E\r");
}

/// What is kept from message to message.
struct Answers<'p> {
    validator: Validator<'p>,
    message: Message,
    stamp: &'p str,
    number: u64,
    is_accepted: bool,
}

impl Answers<'_> {
    /// Writes the answer of message bytes as a block.
    fn push(&mut self, out: &mut Vec<u8>, content: &[u8]) {
        self.number += 1;
        if self.message.read(content).is_none() {
            self.is_accepted = false;
            push_begun(out, None, self.stamp, self.number, b"AR");
            out.extend_from_slice(b"ERR||");
            push_error(out, 207);
        } else {
            let view = View {
                content,
                message: &self.message,
            };
            match self.validator.breach(view) {
                None => push_begun(out, Some(view), self.stamp, self.number, b"AA"),
                Some((code, name, number, place)) => {
                    self.is_accepted = false;
                    push_begun(out, Some(view), self.stamp, self.number, b"AE");
                    out.extend_from_slice(b"ERR||");
                    out.extend_from_slice(&name);
                    let earlier = self.message.segments[..number].iter();
                    let before = earlier.filter(|segment| segment.name == name).count();
                    out.push(b'^');
                    push_number(out, before as u64 + 1);
                    for number in place.iter().take_while(|number| **number > 0) {
                        out.push(b'^');
                        push_number(out, (*number).into());
                    }
                    push_error(out, code);
                }
            }
        }
        out.extend_from_slice(&[FS, CR]);
    }
}

/// Where the first of these bytes is.
fn find(bytes: &[u8], byte: u8) -> Option<usize> {
    const WIDTH: usize = 32;
    let mut at = 0;
    while let Some(chunk) = bytes.get(at..at + WIDTH) {
        if chunk.iter().fold(false, |found, it| found | (*it == byte)) {
            break;
        }
        at += WIDTH;
    }
    let found = bytes[at..].iter().position(|it| *it == byte)?;
    Some(at + found)
}

/// Answers the blocks that are whole, and gives how many bytes were taken and whether a block is open behind them.
fn take_blocks(
    answers: &mut Answers,
    bytes: &[u8],
    out: &mut Vec<u8>,
) -> Result<(usize, bool), TooLong> {
    let mut at = 0;
    loop {
        let Some(start) = find(&bytes[at..], VT) else {
            return Ok((bytes.len(), false));
        };
        let from = at + start + 1;
        let mut end = from;
        loop {
            let Some(found) = find(&bytes[end..], FS) else {
                let last = usize::from(bytes.last() == Some(&FS) && bytes.len() > from);
                return if bytes.len() - from - last > LIMIT {
                    Err(TooLong)
                } else {
                    Ok((from - 1, true))
                };
            };
            end += found;
            if bytes.get(end + 1) == Some(&CR) {
                break;
            }
            end += 1;
        }
        if end - from > LIMIT {
            return Err(TooLong);
        }
        answers.push(out, &bytes[from..end]);
        at = end + 2;
    }
}

/// Answers each message of a stream on standard input, and gives the status.
pub fn run(profile: &Profile, stamp: &str) -> io::Result<u8> {
    let (mut input, mut output) = (io::stdin().lock(), io::stdout().lock());
    let mut answers = Answers {
        validator: Validator::new(profile),
        message: Message::default(),
        stamp,
        number: 0,
        is_accepted: true,
    };
    let (mut bytes, mut held, mut is_open) = (vec![0; 65_536], 0, false);
    let mut out = Vec::new();
    loop {
        if held == bytes.len() {
            bytes.resize(2 * held, 0);
        }
        let count = input.read(&mut bytes[held..])?;
        if count == 0 {
            return Ok(if is_open {
                3
            } else {
                u8::from(!answers.is_accepted)
            });
        }
        held += count;
        let taken = take_blocks(&mut answers, &bytes[..held], &mut out);
        output.write_all(&out)?;
        output.flush()?;
        out.clear();
        let Ok((taken, open)) = taken else {
            return Ok(3);
        };
        is_open = open;
        bytes.copy_within(taken..held, 0);
        held -= taken;
    }
}
