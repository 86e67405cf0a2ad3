//! MLLP Release 1: blocks of a stream that comes in pieces.

const VT: u8 = 0x0b;
const FS: u8 = 0x1c;
const CR: u8 = 0x0d;
const LIMIT: usize = 1_048_576;

/// A block is longer than allowed.
#[derive(Debug)]
pub struct TooLong;

/// Takes a stream in pieces.
#[derive(Default)]
pub struct Decoder {
    open: Option<Vec<u8>>,
}

impl Decoder {
    /// Takes the next piece, and gives the contents of the blocks that end in it.
    pub fn feed(&mut self, piece: &[u8], blocks: &mut Vec<Vec<u8>>) -> Result<(), TooLong> {
        let mut rest = piece;
        loop {
            let Some(content) = &mut self.open else {
                let Some(start) = rest.iter().position(|byte| *byte == VT) else {
                    return Ok(());
                };
                rest = &rest[start + 1..];
                self.open = Some(Vec::new());
                continue;
            };
            match end_of_block(content, rest) {
                Some(taken) => {
                    content.extend_from_slice(&rest[..taken]);
                    content.truncate(content.len() - 2);
                    if content.len() > LIMIT {
                        return Err(TooLong);
                    }
                    blocks.push(self.open.take().unwrap_or_default());
                    rest = &rest[taken..];
                }
                None => {
                    content.extend_from_slice(rest);
                    let last = usize::from(content.last() == Some(&FS));
                    if content.len() - last > LIMIT {
                        return Err(TooLong);
                    }
                    return Ok(());
                }
            }
        }
    }

    /// Whether the stream may end here.
    pub fn is_between(&self) -> bool {
        self.open.is_none()
    }
}

/// How many bytes the open block takes up to and with the CR behind its FS.
fn end_of_block(content: &[u8], bytes: &[u8]) -> Option<usize> {
    if content.last() == Some(&FS) && bytes.first() == Some(&CR) {
        return Some(1);
    }
    let mut from = 0;
    while let Some(at) = bytes[from..].iter().position(|byte| *byte == FS) {
        if bytes.get(from + at + 1) == Some(&CR) {
            return Some(from + at + 2);
        }
        from += at + 1;
    }
    None
}

/// Message bytes as a block.
pub fn block(content: &[u8]) -> Vec<u8> {
    let mut block = Vec::with_capacity(content.len() + 3);
    block.push(VT);
    block.extend_from_slice(content);
    block.extend_from_slice(&[FS, CR]);
    block
}
