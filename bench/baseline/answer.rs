//! Answers in original acknowledgment mode (HL7 v2.5.1 chapter 2, 2.9.2).
use crate::message::Message;
use crate::profile::Profile;
use crate::validate::{validate, Breach};

pub fn text_of(code: u16) -> &'static str {
    match code {
        100 => "Segment sequence error",
        101 => "Required field missing",
        102 => "Data type error",
        103 => "Table value not found",
        _ => "Application internal error",
    }
}

fn write_header<'a, M: Message<'a>>(message: Option<&M>, out: &mut Vec<u8>, field: usize) {
    if let Some(message) = message {
        message.write_header(out, field);
    }
}

fn header_text<'m, 'a, M: Message<'a>>(
    message: Option<&'m M>,
    field: usize,
    comp: usize,
) -> &'m [u8] {
    message.map_or(&[], |message| message.header_text(field, comp))
}

fn write_processing<'a, M: Message<'a>>(message: Option<&M>, out: &mut Vec<u8>) {
    let before = out.len();
    write_header(message, out, 11);
    if out.len() == before {
        out.push(b'P');
    }
}

/// An answer up to its MSA.
fn begun<'a, M: Message<'a>>(message: Option<&M>, stamp: &str, number: u64, code: &str) -> Vec<u8> {
    let mut out = b"MSH|^~\\&|".to_vec();
    for field in [5, 6, 3, 4] {
        write_header(message, &mut out, field);
        out.push(b'|');
    }
    out.extend_from_slice(stamp.as_bytes());
    out.extend_from_slice(b"||ACK^");
    out.extend_from_slice(header_text(message, 9, 2));
    out.extend_from_slice(format!("^ACK|G{number}|").as_bytes());
    write_processing(message, &mut out);
    out.extend_from_slice(format!("|2.5.1\rMSA|{code}").as_bytes());
    let control = header_text(message, 10, 1);
    if !control.is_empty() {
        out.push(b'|');
        out.extend_from_slice(control);
    }
    out.push(b'\r');
    out
}

fn add_error(out: &mut Vec<u8>, location: &str, code: u16) {
    let text = text_of(code);
    out.extend_from_slice(format!("ERR||{location}|{code}^{text}^HL70357|E\r").as_bytes());
}

fn location(breach: &Breach) -> String {
    let mut location = format!(
        "{}^{}",
        String::from_utf8_lossy(&breach.segment),
        breach.sequence
    );
    for number in breach.place.iter().take_while(|number| **number > 0) {
        location.push_str(&format!("^{number}"));
    }
    location
}

/// The answer of this number to message bytes, and whether it is AA.
pub fn answer<'a, M: Message<'a>>(
    profile: &Profile,
    stamp: &str,
    number: u64,
    content: &'a [u8],
) -> (bool, Vec<u8>) {
    let Ok(message) = M::read(content) else {
        let mut out = begun::<M>(None, stamp, number, "AR");
        add_error(&mut out, "", 207);
        return (false, out);
    };
    match validate(profile, &message) {
        None => (true, begun(Some(&message), stamp, number, "AA")),
        Some(breach) => {
            let mut out = begun(Some(&message), stamp, number, "AE");
            add_error(&mut out, &location(&breach), breach.code);
            (false, out)
        }
    }
}
