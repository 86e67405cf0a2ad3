//! ER7 with borrowed texts: one vector of the values that are present, each with its place, whose texts are slices of the content wherever they can be.
//! Validation walks the shapes and the values side by side.
use crate::delimiters::{canonical, delimiters_of, is_allowed, is_named, Delimiters};
use crate::message::{Message, Unreadable};
use crate::profile::{Comp, Field, Profile, Usage};
use crate::validate::{sub_breach, Found, DATA, MISSING};
use std::borrow::Cow;
use std::ops::Range;

/// A value that is present: field, repetition, component and subcomponent, and its canonical text.
struct Value<'a> {
    place: [u32; 4],
    text: Cow<'a, [u8]>,
}

/// A name, and which of the values are the segment's.
struct Segment {
    name: [u8; 3],
    values: Range<usize>,
}

pub struct Lending<'a> {
    segments: Vec<Segment>,
    values: Vec<Value<'a>>,
}

/// Reads the fields of a line, the first of which has this number.
fn read_fields<'a>(
    values: &mut Vec<Value<'a>>,
    delimiters: &Delimiters,
    first: u32,
    bytes: &'a [u8],
) {
    let mut place = [first, 1, 1, 1];
    let mut rest = bytes;
    loop {
        let is_separator = |byte: &u8| {
            *byte == delimiters.field
                || *byte == delimiters.component
                || *byte == delimiters.repetition
                || *byte == delimiters.subcomponent
        };
        let end = rest.iter().position(is_separator);
        let raw = &rest[..end.unwrap_or(rest.len())];
        if !raw.is_empty() {
            let text = canonical(delimiters, raw);
            values.push(Value { place, text });
        }
        let Some(end) = end else {
            return;
        };
        let level = match rest[end] {
            byte if byte == delimiters.field => 0,
            byte if byte == delimiters.repetition => 1,
            byte if byte == delimiters.component => 2,
            _ => 3,
        };
        place[level] += 1;
        place[level + 1..].fill(1);
        rest = &rest[end + 1..];
    }
}

/// Takes the values whose number of this level is this one away from the front.
fn take<'m, 'a>(values: &mut &'m [Value<'a>], level: usize, number: u32) -> &'m [Value<'a>] {
    let is = |value: &Value| value.place[level] == number;
    let end = values.iter().position(|value| !is(value));
    let (taken, rest) = values.split_at(end.unwrap_or(values.len()));
    *values = rest;
    taken
}

/// The same, behind those of smaller numbers, which are passed over.
fn find<'m, 'a>(values: &mut &'m [Value<'a>], level: usize, number: usize) -> &'m [Value<'a>] {
    let reaches = |value: &Value| value.place[level] as usize >= number;
    let from = values.iter().position(reaches).unwrap_or(values.len());
    *values = &values[from..];
    take(values, level, number as u32)
}

fn comp_breach(profile: &Profile, shape: &Comp, values: &[Value]) -> Found<1> {
    if values.is_empty() {
        return (shape.usage == Usage::Required).then_some((MISSING, [0]));
    }
    if shape.usage == Usage::Forbidden {
        return Some((DATA, [0]));
    }
    let mut rest = values;
    shape.subs.iter().find_map(|sub| {
        let text = find(&mut rest, 3, sub.number).first();
        let text = text.map_or(&[][..], |value| &value.text);
        sub_breach(profile, sub, text).map(|code| (code, [sub.number]))
    })
}

fn rep_breach(profile: &Profile, shape: &Field, values: &[Value]) -> Found<2> {
    let mut rest = values;
    shape.comps.iter().find_map(|comp| {
        let found = find(&mut rest, 2, comp.number);
        let (code, [sub]) = comp_breach(profile, comp, found)?;
        Some((code, [comp.number, sub]))
    })
}

fn count(values: &[Value]) -> usize {
    let mut rest = values;
    let mut count = 0;
    while let Some(first) = rest.first() {
        take(&mut rest, 1, first.place[1]);
        count += 1;
    }
    count
}

fn field_breach(profile: &Profile, shape: &Field, values: &[Value]) -> Found<3> {
    if shape.usage == Usage::Forbidden {
        return (!values.is_empty()).then_some((DATA, [0; 3]));
    }
    if count(values) < shape.card.min {
        return Some((MISSING, [0; 3]));
    }
    let mut rest = values;
    let mut before = 0;
    while let Some(first) = rest.first() {
        let rep = first.place[1];
        if before == shape.card.max {
            return Some((DATA, [rep as usize, 0, 0]));
        }
        let repetition = take(&mut rest, 1, rep);
        if let Some((code, [comp, sub])) = rep_breach(profile, shape, repetition) {
            return Some((code, [rep as usize, comp, sub]));
        }
        before += 1;
    }
    None
}

impl Lending<'_> {
    /// The first repetition of a field of MSH.
    fn header(&self, field: usize) -> &[Value<'_>] {
        let mut values = &self.values[self.segments[0].values.clone()];
        let mut values = find(&mut values, 0, field);
        find(&mut values, 1, 1)
    }
}

impl<'a> Message<'a> for Lending<'a> {
    fn read(content: &'a [u8]) -> Result<Self, Unreadable> {
        if !content.iter().all(is_allowed) {
            return Err(Unreadable);
        }
        let mut lines = content
            .split(|byte| matches!(byte, b'\r' | b'\n'))
            .filter(|line| !line.is_empty());
        let header = lines.next().ok_or(Unreadable)?;
        let delimiters = delimiters_of(header)?;
        let mut values = Vec::with_capacity(content.len() / 8);
        read_fields(&mut values, &delimiters, 3, header.get(9..).unwrap_or(&[]));
        let mut segments = vec![Segment {
            name: *b"MSH",
            values: 0..values.len(),
        }];
        for line in lines {
            if segments.len() == 10_000 || !is_named(&delimiters, line) {
                return Err(Unreadable);
            }
            let from = values.len();
            read_fields(&mut values, &delimiters, 1, line.get(4..).unwrap_or(&[]));
            segments.push(Segment {
                name: [line[0], line[1], line[2]],
                values: from..values.len(),
            });
        }
        Ok(Lending { segments, values })
    }

    fn segment_count(&self) -> usize {
        self.segments.len()
    }

    fn name(&self, number: usize) -> [u8; 3] {
        self.segments[number].name
    }

    fn breach_in(&self, number: usize, profile: &Profile, shapes: &[Field]) -> Found<4> {
        let mut rest = &self.values[self.segments[number].values.clone()];
        shapes.iter().find_map(|shape| {
            let found = find(&mut rest, 0, shape.number);
            let (code, [rep, comp, sub]) = field_breach(profile, shape, found)?;
            Some((code, [shape.number, rep, comp, sub]))
        })
    }

    fn header_text(&self, field: usize, comp: usize) -> &[u8] {
        let mut values = self.header(field);
        let mut values = find(&mut values, 2, comp);
        find(&mut values, 3, 1)
            .first()
            .map_or(&[], |value| &value.text)
    }

    fn write_header(&self, out: &mut Vec<u8>, field: usize) {
        let (mut comp, mut sub) = (1, 1);
        for value in self.header(field) {
            while comp < value.place[2] {
                out.push(b'^');
                (comp, sub) = (comp + 1, 1);
            }
            while sub < value.place[3] {
                out.push(b'&');
                sub += 1;
            }
            out.extend_from_slice(&value.text);
        }
    }
}
