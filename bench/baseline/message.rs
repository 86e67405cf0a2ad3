//! What validation and answers ask of a message, however it keeps its texts.
use crate::profile::{Field, Profile};
use crate::validate::Found;

/// The content is no message.
#[derive(Debug)]
pub struct Unreadable;

pub trait Message<'a>: Sized {
    /// The message of these bytes.
    fn read(content: &'a [u8]) -> Result<Self, Unreadable>;

    fn segment_count(&self) -> usize;

    /// The name of the segment of this number, from 0.
    fn name(&self, number: usize) -> [u8; 3];

    /// The least breach of these fields in the segment of this number: field, repetition, component and subcomponent.
    fn breach_in(&self, number: usize, profile: &Profile, shapes: &[Field]) -> Found<4>;

    /// The first text of a component of a field of MSH, empty where it is absent.
    fn header_text(&self, field: usize, comp: usize) -> &[u8];

    /// Writes the first repetition of a field of MSH, with no separator that could be left out.
    fn write_header(&self, out: &mut Vec<u8>, field: usize);
}
