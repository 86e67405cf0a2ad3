//! Delimiters, and the canonical text of a raw value (HL7 v2.5.1 chapter 2, 2.5.4 and 2.7).
use crate::message::Unreadable;
use std::borrow::Cow;

pub struct Delimiters {
    pub field: u8,
    pub component: u8,
    pub repetition: u8,
    pub escape: u8,
    pub subcomponent: u8,
}

/// Whether a message may have the byte.
pub fn is_allowed(byte: &u8) -> bool {
    *byte >= 0x20 || matches!(byte, b'\t' | b'\r' | b'\n')
}

/// Whether a line behind the header begins as a segment does.
pub fn is_named(delimiters: &Delimiters, line: &[u8]) -> bool {
    line.len() >= 3
        && line[0].is_ascii_uppercase()
        && line[1..3]
            .iter()
            .all(|byte| byte.is_ascii_uppercase() || byte.is_ascii_digit())
        && &line[..3] != b"MSH"
        && (line.len() == 3 || line[3] == delimiters.field)
}

fn is_special(byte: u8) -> bool {
    matches!(byte, b'|' | b'^' | b'~' | b'\\' | b'&')
}

fn is_delimiter(byte: u8) -> bool {
    byte.is_ascii_graphic() && !byte.is_ascii_alphanumeric() && byte != b'"'
}

/// The delimiters of a header.
pub fn delimiters_of(header: &[u8]) -> Result<Delimiters, Unreadable> {
    if !header.starts_with(b"MSH") || header.len() < 8 {
        return Err(Unreadable);
    }
    let five = &header[3..8];
    let distinct = (0..5).all(|i| !five[..i].contains(&five[i]));
    let ended = header.len() == 8 || header[8] == header[3];
    if !distinct || !ended || !five.iter().all(|byte| is_delimiter(*byte)) {
        return Err(Unreadable);
    }
    Ok(Delimiters {
        field: five[0],
        component: five[1],
        repetition: five[2],
        escape: five[3],
        subcomponent: five[4],
    })
}

fn push_plainly(text: &mut Vec<u8>, byte: u8) {
    match byte {
        b'|' => text.extend_from_slice(b"\\F\\"),
        b'^' => text.extend_from_slice(b"\\S\\"),
        b'&' => text.extend_from_slice(b"\\T\\"),
        b'~' => text.extend_from_slice(b"\\R\\"),
        b'\\' => text.extend_from_slice(b"\\E\\"),
        _ => text.push(byte),
    }
}

/// The canonical text of a raw value, borrowed where it is the raw value.
pub fn canonical<'a>(delimiters: &Delimiters, raw: &'a [u8]) -> Cow<'a, [u8]> {
    let is_plain = |byte: &u8| *byte != delimiters.escape && !is_special(*byte);
    if raw.iter().all(is_plain) {
        return Cow::Borrowed(raw);
    }
    let mut text = Vec::with_capacity(raw.len());
    let mut at = 0;
    while at < raw.len() {
        let byte = raw[at];
        at += 1;
        if byte != delimiters.escape {
            push_plainly(&mut text, byte);
            continue;
        }
        let body = match raw[at..].iter().position(|byte| *byte == delimiters.escape) {
            Some(end) => &raw[at..at + end],
            None => &[],
        };
        if body.is_empty() || body.iter().any(|byte| is_special(*byte)) {
            push_plainly(&mut text, byte);
            continue;
        }
        at += body.len() + 1;
        match body {
            b"F" => push_plainly(&mut text, delimiters.field),
            b"S" => push_plainly(&mut text, delimiters.component),
            b"T" => push_plainly(&mut text, delimiters.subcomponent),
            b"R" => push_plainly(&mut text, delimiters.repetition),
            b"E" => push_plainly(&mut text, delimiters.escape),
            _ => {
                text.push(b'\\');
                text.extend_from_slice(body);
                text.push(b'\\');
            }
        }
    }
    Cow::Owned(text)
}
