//! Whether a message conforms to a profile, and if not, its least breach (HL7 v2.5.1 chapter 2, 2.12).
use crate::message::Message;
use crate::profile::{Field, Node, Profile, Sub, Usage};

/// A breach: its code, and its place with 0 for what isn't said.
pub struct Breach {
    pub code: u16,
    pub segment: [u8; 3],
    pub sequence: usize,
    pub place: [usize; 4],
}

pub const SEQUENCE: u16 = 100;
pub const MISSING: u16 = 101;
pub const DATA: u16 = 102;
pub const TABLE: u16 = 103;

pub fn can_begin(nodes: &[Node], name: [u8; 3]) -> bool {
    for node in nodes {
        let (begins, min) = match node {
            Node::Segment {
                name: own, card, ..
            } => (card.max > 0 && *own == name, card.min),
            Node::Group { card, nodes } => (can_begin(nodes, name), card.min),
        };
        if begins {
            return true;
        }
        if min > 0 {
            return false;
        }
    }
    false
}

/// The first name of the fewest segments that fit.
pub fn first_due(nodes: &[Node]) -> Option<[u8; 3]> {
    nodes.iter().find_map(|node| match node {
        Node::Segment { name, card, .. } if card.min > 0 => Some(*name),
        Node::Group { card, nodes } if card.min > 0 => first_due(nodes),
        _ => None,
    })
}

/// Where the names don't fit.
enum Misfit {
    OutOfOrder(usize),
    Missing([u8; 3]),
}

/// The listed segments of a message, cut along a profile.
struct Cut<'a, M> {
    message: &'a M,
    listed: Vec<usize>,
    next: usize,
    assigned: Vec<(usize, &'a [Field])>,
}

impl<'a, 'm, M: Message<'m>> Cut<'a, M> {
    fn name(&self) -> Option<[u8; 3]> {
        let number = self.listed.get(self.next)?;
        Some(self.message.name(*number))
    }

    fn take_segment(&mut self, fields: &'a [Field]) {
        self.assigned.push((self.listed[self.next], fields));
        self.next += 1;
    }

    fn misfit(&self, due: [u8; 3]) -> Misfit {
        match self.listed.get(self.next) {
            Some(number) => Misfit::OutOfOrder(*number),
            None => Misfit::Missing(due),
        }
    }

    fn take_node(&mut self, node: &'a Node) -> Result<(), Misfit> {
        match node {
            Node::Segment { name, card, fields } => {
                let mut count = 0;
                while count < card.max && self.name() == Some(*name) {
                    self.take_segment(fields);
                    count += 1;
                }
                if count < card.min {
                    return Err(self.misfit(*name));
                }
            }
            Node::Group { card, nodes } => {
                let mut count = 0;
                while count < card.max && self.name().is_some_and(|name| can_begin(nodes, name)) {
                    self.take_nodes(nodes)?;
                    count += 1;
                }
                if count < card.min {
                    return Err(self.misfit(first_due(nodes).unwrap_or(*b"???")));
                }
            }
        }
        Ok(())
    }

    fn take_nodes(&mut self, nodes: &'a [Node]) -> Result<(), Misfit> {
        nodes.iter().try_for_each(|node| self.take_node(node))
    }
}

/// A code, and the numbers below it.
pub type Found<const N: usize> = Option<(u16, [usize; N])>;

/// What a text breaks of a subcomponent's rules; an empty text is an absent one.
pub fn sub_breach(profile: &Profile, shape: &Sub, text: &[u8]) -> Option<u16> {
    if text.is_empty() {
        return (shape.usage == Usage::Required).then_some(MISSING);
    }
    if shape.usage == Usage::Forbidden {
        return Some(DATA);
    }
    if text == b"\"\"" {
        return None;
    }
    if shape.len.is_some_and(|most| text.len() > most) {
        return Some(DATA);
    }
    let table = shape.table?;
    (!profile.tables[table].contains(text)).then_some(TABLE)
}

fn breach_at<'m, M: Message<'m>>(
    message: &M,
    number: usize,
    name: [u8; 3],
    code: u16,
    place: [usize; 4],
) -> Breach {
    let before = (0..number)
        .filter(|earlier| message.name(*earlier) == name)
        .count();
    Breach {
        code,
        segment: name,
        sequence: before + 1,
        place,
    }
}

/// The least breach of a message, if there is one.
pub fn validate<'m, M: Message<'m>>(profile: &Profile, message: &M) -> Option<Breach> {
    let listed = (0..message.segment_count())
        .filter(|number| profile.names.contains(&message.name(*number)))
        .collect();
    let mut cut = Cut {
        message,
        listed,
        next: 0,
        assigned: Vec::new(),
    };
    let misfit = match cut.take_nodes(&profile.nodes) {
        Ok(()) => cut
            .listed
            .get(cut.next)
            .map(|number| Misfit::OutOfOrder(*number)),
        Err(misfit) => Some(misfit),
    };
    match misfit {
        Some(Misfit::OutOfOrder(number)) => {
            let name = message.name(number);
            Some(breach_at(message, number, name, SEQUENCE, [0; 4]))
        }
        Some(Misfit::Missing(name)) => Some(breach_at(
            message,
            message.segment_count(),
            name,
            SEQUENCE,
            [0; 4],
        )),
        None => cut.assigned.iter().find_map(|(number, shapes)| {
            let (code, place) = message.breach_in(*number, profile, shapes)?;
            Some(breach_at(
                message,
                *number,
                message.name(*number),
                code,
                place,
            ))
        }),
    }
}
