//! Whether a group has links to other objects: IV.A.2.c, 'Link Info Message', and IV.A.2.r, 'Symbol Table Message'.
use crate::Unreadable;
use crate::cursor::{Bytes, Cursor};
use crate::heap::Messages;
use crate::tree::{Record, Tree};

/// Whether a symbol table has links. III.A.1, 'Version 1 B-trees': each entry of its tree's leaves leads to a node with links;
/// that of a group without any is a leaf without entries.
pub fn has_symbols(mut message: Cursor) -> Result<bool, Unreadable> {
    let tree = message.defined()?;
    let mut at = message.bytes.at("tree of a symbol table", tree)?;
    at.signature(b"TREE")?;
    at.version("type of the tree of a symbol table", &[0])?;
    let (level, entries) = (at.byte()?, at.number(2)?);
    Ok((level, entries) != (0, 0))
}

/// Whether there are links in dense storage: objects of its heap, or records in their index by name.
pub fn has_dense_links(mut message: Cursor) -> Result<bool, Unreadable> {
    message.version("version of a message on links", &[0])?;
    let flags = message.byte()?;
    message.take(if flags & 1 != 0 { 8 } else { 0 })?; // the largest number of one
    let (heap, names) = (message.address()?, message.address()?);
    let bytes = message.bytes;
    let has_objects = |heap| {
        let header = Messages::new(bytes, heap).header()?;
        let objects = [
            header.managed_objects_count,
            header.huge_objects_count,
            header.tiny_objects_count,
        ];
        Ok::<_, Unreadable>(objects != [0; 3])
    };
    let has_records = |names| Ok(!Tree::<LinkByName>::open(bytes, names)?.is_empty());
    Ok(heap.map(has_objects).transpose()?.unwrap_or(false)
        || names.map(has_records).transpose()?.unwrap_or(false))
}

/// 'Type 5 Record Layout - Link Name for Indexed Group', of which nothing is read.
#[derive(Clone, Copy)]
struct LinkByName;

impl Record for LinkByName {
    const TYPE: u8 = 5;

    /// A hash of four bytes, and a heap ID of seven.
    fn size(_: &Bytes) -> u64 {
        4 + 7
    }

    fn read(at: &mut Cursor) -> Result<Self, Unreadable> {
        at.take(Self::size(&at.bytes))?;
        Ok(LinkByName)
    }
}

#[cfg(test)]
mod tests {
    use super::*;
    use crate::{UNDEFINED, sealed};
    use fractal_heap::{Header, OpenPlan};

    fn asked(
        has: fn(Cursor) -> Result<bool, Unreadable>,
        file: &[u8],
        message: &[u8],
    ) -> Result<bool, Unreadable> {
        let bytes = Bytes {
            all: file,
            offset_size: 8,
            length_size: 8,
        };
        has(bytes.over("message", 0, message))
    }

    // A node has its signature, its type, its level, the number of its entries, and two siblings.
    #[test]
    fn a_symbol_table_is_empty_where_its_tree_is() {
        let message = [8u64, 99].map(u64::to_le_bytes).concat();
        let node = |level: u8, entries: u16| {
            let start = [&[0; 8][..], b"TREE", &[0, level], &entries.to_le_bytes()].concat();
            [start, [UNDEFINED; 2].map(u64::to_le_bytes).concat()].concat()
        };
        for (level, entries, due) in [(0, 0, false), (0, 1, true), (0, 256, true), (1, 0, true)] {
            let answer = asked(has_symbols, &node(level, entries), &message);
            assert_eq!(answer, Ok(due), "{level} {entries}");
        }
        let whole = node(0, 0);
        for cut in 8..16 {
            assert!(asked(has_symbols, &whole[..cut], &message).is_err());
        }
        for at in [8, 12] {
            let mut other = whole.clone();
            other[at] += 1;
            assert!(asked(has_symbols, &other, &message).is_err(), "{at}");
        }
        let nowhere = [UNDEFINED, 99].map(u64::to_le_bytes).concat();
        assert!(asked(has_symbols, &whole, &nowhere).is_err());
    }

    /// The header of a heap with so many managed, huge and tiny objects.
    fn heap(counts: [u64; 3]) -> Vec<u8> {
        let mut header = OpenPlan::open(8).unwrap().header(0);
        header.managed_objects_count = counts[0];
        header.huge_objects_count = counts[1];
        header.tiny_objects_count = counts[2];
        let mut bytes = vec![0; Header::length(8, 8)];
        header.write(8, 8, &mut bytes).unwrap();
        bytes
    }

    /// The header of an index with so many records: III.A.2, of type 5.
    fn index(records: u64) -> Vec<u8> {
        let mut bytes = b"BTHD\0\x05".to_vec();
        bytes.extend(512u32.to_le_bytes());
        bytes.extend([11, 0, 0, 0, 100, 40]);
        bytes.extend(if records > 0 { 1 } else { UNDEFINED }.to_le_bytes());
        bytes.extend((records as u16).to_le_bytes());
        bytes.extend(records.to_le_bytes());
        sealed(bytes)
    }

    #[test]
    fn links_are_in_a_heap_or_in_an_index() {
        let message = |flags: u8, addresses: [u64; 2]| {
            let newest = if flags & 1 != 0 { &[7; 8][..] } else { &[] };
            let addresses = addresses.map(u64::to_le_bytes).concat();
            [&[0, flags][..], newest, &addresses].concat()
        };
        let none = [UNDEFINED; 2];
        for flags in [0, 1] {
            assert_eq!(
                asked(has_dense_links, &[], &message(flags, none)),
                Ok(false)
            );
            for (counts, records, due) in [
                ([0, 0, 0], 0, false),
                ([1, 0, 0], 1, true),
                ([0, 1, 0], 0, true),
                ([0, 0, 1], 0, true),
                ([0, 0, 0], 1, true),
            ] {
                let heap = heap(counts);
                let file = [&heap[..], &index(records)].concat();
                let message = message(flags, [0, heap.len() as u64]);
                assert_eq!(asked(has_dense_links, &file, &message), Ok(due));
                let cut = &file[..file.len() - 1];
                assert_eq!(
                    asked(has_dense_links, cut, &message).is_err(),
                    counts == [0; 3]
                );
            }
        }
    }
}
