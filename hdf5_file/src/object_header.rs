//! The messages of an object header that is read: IV.A.1.a and b, with IV.A.2.q, 'Object Header Continuation Message'.
use crate::Unreadable;
use crate::cursor::{Bytes, Cursor, PartsMet};
use std::collections::VecDeque;

const WHAT: &str = "object header";
const CONTINUATION: u64 = 0x10;
/// A message's flag: its data is somewhere else.
const SHARED: u64 = 1 << 1;
/// Flags of a header, version 2.
const ORDER_TRACKED: u8 = 1 << 2;
const PHASE_CHANGES: u8 = 1 << 4;
const TIMES: u8 = 1 << 5;

/// A message.
pub struct Message<'f> {
    pub kind: u64,
    pub is_shared: bool,
    /// Whether the checksum of its header, or of a continuation, covers it: version 1 has none.
    pub is_covered: bool,
    /// The number that its header gives it among those of its kind, where it does.
    pub order: Option<u64>,
    pub data: Cursor<'f>,
}

/// How messages begin: the widths of kind, size and flags, of what is reserved behind them, and of the number.
#[derive(Clone, Copy)]
struct Prefix {
    kind: u64,
    reserved: u64,
    order: u64,
    /// The header has a checksum, and a continuation a signature and a checksum.
    is_sealed: bool,
}

impl Prefix {
    fn length(&self) -> u64 {
        self.kind + 2 + 1 + self.reserved + self.order
    }
}

/// All messages of the object header at an address, those in its continuations too.
pub fn messages<'f>(bytes: &Bytes<'f>, at: u64) -> Result<Vec<Message<'f>>, Unreadable> {
    let start = bytes.at(WHAT, at)?;
    let (prefix, first) = match start.rest.starts_with(b"OHDR") {
        true => version_2(start)?,
        false => version_1(start)?,
    };
    let (mut met, mut found) = (PartsMet::default(), Vec::new());
    let mut blocks = VecDeque::from([first]);
    while let Some(block) = blocks.pop_front() {
        met.add(WHAT, place_of(bytes, &block), block.rest.len() as u64)?;
        for message in in_block(block, prefix)? {
            if message.kind == CONTINUATION {
                blocks.push_back(continuation(bytes, message.data, prefix)?);
            } else {
                found.push(message);
            }
        }
    }
    Ok(found)
}

/// Where in the file the rest of something begins.
fn place_of(bytes: &Bytes, at: &Cursor) -> u64 {
    (at.rest.as_ptr() as usize - bytes.all.as_ptr() as usize) as u64
}

/// 'Version 1 Object Header': its messages are aligned to eight bytes, and so is where they begin.
fn version_1(mut at: Cursor) -> Result<(Prefix, Cursor), Unreadable> {
    at.version("version of an object header", &[1])?;
    at.take(1 + 2 + 4)?; // reserved, number of messages, references
    let size = at.number(4)?;
    at.take(4)?; // what the alignment leaves
    let prefix = Prefix {
        kind: 2,
        reserved: 3,
        order: 0,
        is_sealed: false,
    };
    at.rest = at.take(size)?;
    Ok((prefix, at))
}

/// 'Version 2 Object Header', with its checksum.
fn version_2(start: Cursor) -> Result<(Prefix, Cursor), Unreadable> {
    let mut at = start.clone();
    at.signature(b"OHDR")?;
    at.version("version of an object header", &[2])?;
    let flags = at.byte()?;
    at.take(if flags & TIMES != 0 { 16 } else { 0 })?;
    at.take(if flags & PHASE_CHANGES != 0 { 4 } else { 0 })?;
    let size = at.number(1 << (flags & 3))?;
    let mut block = at.clone();
    block.rest = at.take(size)?;
    at.checksum(&start)?;
    let order = if flags & ORDER_TRACKED != 0 { 2 } else { 0 };
    Ok((
        Prefix {
            kind: 1,
            reserved: 0,
            order,
            is_sealed: true,
        },
        block,
    ))
}

/// The block that a continuation message leads to: its messages alone.
fn continuation<'f>(
    bytes: &Bytes<'f>,
    mut message: Cursor<'f>,
    prefix: Prefix,
) -> Result<Cursor<'f>, Unreadable> {
    let (address, length) = (message.defined()?, message.length()?);
    let mut block = bytes.at("continuation of an object header", address)?;
    block.rest = block.take(length)?;
    if prefix.is_sealed {
        let (start, overhead) = (block.clone(), 4 + 4);
        block.signature(b"OCHK")?;
        let mut at = block.clone();
        block.rest = at.take(length.saturating_sub(overhead))?;
        at.checksum(&start)?;
    }
    Ok(block)
}

/// The messages of one block; what is too short for one is a gap.
fn in_block<'f>(mut block: Cursor<'f>, prefix: Prefix) -> Result<Vec<Message<'f>>, Unreadable> {
    let mut found = Vec::new();
    while block.rest.len() as u64 >= prefix.length() {
        let kind = block.number(prefix.kind)?;
        let size = block.number(2)?;
        let flags = block.number(1)?;
        block.take(prefix.reserved)?;
        let order = match prefix.order {
            0 => None,
            width => Some(block.number(width)?),
        };
        let mut data = block.clone();
        data.rest = block.take(size)?;
        let is_shared = flags & SHARED != 0;
        found.push(Message {
            kind,
            is_shared,
            is_covered: prefix.is_sealed,
            order,
            data,
        });
    }
    Ok(found)
}
