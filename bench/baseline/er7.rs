//! ER7 with owned texts: message bytes as a message of nested vectors, each text a vector of its own (HL7 v2.5.1 chapter 2, 2.5 to 2.7).
use crate::delimiters::{canonical, delimiters_of, is_allowed, is_named, Delimiters};
use crate::message::{Message, Unreadable};
use crate::profile::{Comp, Field as FieldShape, Profile, Usage};
use crate::validate::{sub_breach, Found, DATA, MISSING};

type Text = Vec<u8>;
type Component = Vec<Text>;
type Repetition = Vec<Component>;
type Field = Vec<Repetition>;

/// A segment; field n stands at n - 1.
struct Segment {
    name: [u8; 3],
    fields: Vec<Field>,
}

pub struct Owned {
    segments: Vec<Segment>,
}

impl Segment {
    fn field(&self, number: usize) -> &[Repetition] {
        match self.fields.get(number - 1) {
            Some(field) => field,
            None => &[],
        }
    }
}

fn is_component_present(component: &Component) -> bool {
    component.iter().any(|text| !text.is_empty())
}

fn is_present(repetition: &Repetition) -> bool {
    repetition.iter().any(is_component_present)
}

/// What stands between separators, each part read by itself; nothing where there are no bytes.
fn parts<T>(raw: &[u8], separator: u8, read: impl Fn(&[u8]) -> T) -> Vec<T> {
    if raw.is_empty() {
        return Vec::new();
    }
    raw.split(|byte| *byte == separator).map(read).collect()
}

fn read_field(delimiters: &Delimiters, raw: &[u8]) -> Field {
    parts(raw, delimiters.repetition, |raw| {
        parts(raw, delimiters.component, |raw| {
            parts(raw, delimiters.subcomponent, |raw| {
                canonical(delimiters, raw).into_owned()
            })
        })
    })
}

fn read_segment(delimiters: &Delimiters, line: &[u8]) -> Result<Segment, Unreadable> {
    if !is_named(delimiters, line) {
        return Err(Unreadable);
    }
    let behind = line.get(4..).unwrap_or(&[]);
    let fields = parts(behind, delimiters.field, |raw| read_field(delimiters, raw));
    Ok(Segment {
        name: [line[0], line[1], line[2]],
        fields,
    })
}

fn read_header(delimiters: &Delimiters, line: &[u8]) -> Segment {
    let mut fields = vec![Vec::new(), Vec::new()];
    let behind = line.get(9..).unwrap_or(&[]);
    fields.extend(parts(behind, delimiters.field, |raw| {
        read_field(delimiters, raw)
    }));
    Segment {
        name: *b"MSH",
        fields,
    }
}

fn trimmed<'a, T>(items: &'a [T], present: impl Fn(&T) -> bool) -> &'a [T] {
    let count = items.iter().rposition(present).map_or(0, |last| last + 1);
    &items[..count]
}

/// Writes a repetition with no separator that could be left out.
fn write_repetition(out: &mut Vec<u8>, repetition: &[Component]) {
    for (i, component) in trimmed(repetition, is_component_present).iter().enumerate() {
        if i > 0 {
            out.push(b'^');
        }
        for (k, text) in trimmed(component, |text| !text.is_empty())
            .iter()
            .enumerate()
        {
            if k > 0 {
                out.push(b'&');
            }
            out.extend_from_slice(text);
        }
    }
}

fn comp_breach(profile: &Profile, shape: &Comp, repetition: &Repetition) -> Found<1> {
    let component = repetition
        .get(shape.number - 1)
        .filter(|found| is_component_present(found));
    let Some(component) = component else {
        return (shape.usage == Usage::Required).then_some((MISSING, [0]));
    };
    if shape.usage == Usage::Forbidden {
        return Some((DATA, [0]));
    }
    shape.subs.iter().find_map(|sub| {
        let text = component.get(sub.number - 1).map_or(&[][..], |text| text);
        sub_breach(profile, sub, text).map(|code| (code, [sub.number]))
    })
}

fn rep_breach(profile: &Profile, shape: &FieldShape, repetition: &Repetition) -> Found<2> {
    shape.comps.iter().find_map(|comp| {
        let (code, [sub]) = comp_breach(profile, comp, repetition)?;
        Some((code, [comp.number, sub]))
    })
}

fn field_breach(profile: &Profile, shape: &FieldShape, segment: &Segment) -> Found<3> {
    let field = segment.field(shape.number);
    let count = field
        .iter()
        .filter(|repetition| is_present(repetition))
        .count();
    if shape.usage == Usage::Forbidden {
        return (count > 0).then_some((DATA, [0; 3]));
    }
    if count < shape.card.min {
        return Some((MISSING, [0; 3]));
    }
    let present = field
        .iter()
        .enumerate()
        .filter(|(_, repetition)| is_present(repetition));
    for (before, (i, repetition)) in present.enumerate() {
        if before == shape.card.max {
            return Some((DATA, [i + 1, 0, 0]));
        }
        if let Some((code, [comp, sub])) = rep_breach(profile, shape, repetition) {
            return Some((code, [i + 1, comp, sub]));
        }
    }
    None
}

fn segment_breach(profile: &Profile, shapes: &[FieldShape], segment: &Segment) -> Found<4> {
    shapes.iter().find_map(|shape| {
        let (code, [rep, comp, sub]) = field_breach(profile, shape, segment)?;
        Some((code, [shape.number, rep, comp, sub]))
    })
}

impl Message<'_> for Owned {
    fn read(content: &[u8]) -> Result<Self, Unreadable> {
        if !content.iter().all(is_allowed) {
            return Err(Unreadable);
        }
        let mut lines = content
            .split(|byte| matches!(byte, b'\r' | b'\n'))
            .filter(|line| !line.is_empty());
        let header = lines.next().ok_or(Unreadable)?;
        let delimiters = delimiters_of(header)?;
        let mut segments = vec![read_header(&delimiters, header)];
        for line in lines {
            if segments.len() == 10_000 {
                return Err(Unreadable);
            }
            segments.push(read_segment(&delimiters, line)?);
        }
        Ok(Owned { segments })
    }

    fn segment_count(&self) -> usize {
        self.segments.len()
    }

    fn name(&self, number: usize) -> [u8; 3] {
        self.segments[number].name
    }

    fn breach_in(&self, number: usize, profile: &Profile, shapes: &[FieldShape]) -> Found<4> {
        segment_breach(profile, shapes, &self.segments[number])
    }

    fn header_text(&self, field: usize, comp: usize) -> &[u8] {
        self.segments[0]
            .field(field)
            .first()
            .and_then(|repetition| repetition.get(comp - 1))
            .and_then(|component| component.first())
            .map_or(&[], |text| text)
    }

    fn write_header(&self, out: &mut Vec<u8>, field: usize) {
        if let Some(repetition) = self.segments[0].field(field).first() {
            write_repetition(out, repetition);
        }
    }
}
