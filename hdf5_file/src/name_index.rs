//! The index of attributes by their names: III.A.2, 'Version 2 B-tree Header', 'Internal Node' and 'Leaf Node', with
//! records of type 8, 'Version 2 B-tree, Type 8 Record Layout - Attribute Name for Indexed Attributes'.
use crate::tree;
use crate::{UNDEFINED, sealed};

/// The type of the B-tree and of its nodes.
const TYPE: u8 = 8;
const RECORD_SIZE: usize = 17;
const NODE_SIZE: usize = 512;
const NODE_OVERHEAD: usize = tree::NODE_OVERHEAD as usize;
const HEADER_LENGTH: u64 = 38;
/// As HDF5 has them, in percent.
const SPLIT: u8 = 100;
const MERGE: u8 = 40;
/// A record's creation order where none is tracked.
pub const UNTRACKED: u32 = 65_535;

type Record = [u8; RECORD_SIZE];

/// An attribute as the index has it.
#[derive(Debug, Clone, Copy)]
pub struct Named<'n> {
    /// Its name.
    pub name: &'n [u8],
    /// Its message's heap ID.
    pub id: [u8; 8],
    /// Its number where order is tracked, from 0.
    pub order: Option<u16>,
}

impl Named<'_> {
    fn record(&self, hash: u32) -> Record {
        let mut bytes = [0; RECORD_SIZE];
        let message_flags = 0;
        bytes[..8].copy_from_slice(&self.id);
        bytes[8] = message_flags;
        bytes[9..13].copy_from_slice(&self.order.map_or(UNTRACKED, u32::from).to_le_bytes());
        bytes[13..].copy_from_slice(&hash.to_le_bytes());
        bytes
    }
}

/// What the nodes of one level above the leaves can have, and how wide the counts are that stand beside a child there.
struct Level {
    /// Records in such a node and in all below it, at most.
    most: u64,
    /// Bytes of the number of all records below a child. Above a leaf there is none: it would be that of its own.
    below_width: usize,
}

fn width(limit: u64) -> usize {
    tree::width(limit) as usize // at most 8
}

/// The B-tree of a list of names, which knows how long it will be.
pub struct NameIndex {
    /// In their order: by hash, and those of one hash by the bytes of their names.
    records: Vec<Record>,
    /// From the leaves up to the root.
    levels: Vec<Level>,
}

/// Records of a leaf, at most.
const LEAF_MOST: u64 = ((NODE_SIZE - NODE_OVERHEAD) / RECORD_SIZE) as u64;

impl NameIndex {
    /// The index of these attributes, whose names differ.
    pub fn new(attributes: &[Named]) -> Self {
        let mut keys: Vec<(u32, &Named)> = attributes
            .iter()
            .map(|a| (fractal_heap::checksum(a.name), a))
            .collect();
        keys.sort_unstable_by_key(|&(hash, a)| (hash, a.name));
        let records: Vec<Record> = keys.iter().map(|(hash, a)| a.record(*hash)).collect();
        let levels = levels(records.len() as u64);
        NameIndex { records, levels }
    }

    /// Levels above the leaves.
    pub fn depth(&self) -> usize {
        self.levels.len() - 1
    }

    /// Header and nodes, where the header is at `at`.
    pub fn write(&self, at: u64) -> Vec<u8> {
        let mut nodes = Nodes {
            index: self,
            at: at + HEADER_LENGTH,
            bytes: Vec::new(),
        };
        let root = match &self.records[..] {
            [] => Child {
                address: UNDEFINED,
                own: 0,
                all: 0,
            },
            records => nodes.put(self.depth(), records),
        };
        let mut bytes = self.header(&root);
        bytes.extend(nodes.bytes);
        bytes
    }

    fn header(&self, root: &Child) -> Vec<u8> {
        let mut bytes = [b"BTHD", &[0, TYPE][..]].concat();
        bytes.extend((NODE_SIZE as u32).to_le_bytes());
        bytes.extend((RECORD_SIZE as u16).to_le_bytes());
        bytes.extend((self.depth() as u16).to_le_bytes());
        bytes.extend([SPLIT, MERGE]);
        bytes.extend(root.address.to_le_bytes());
        bytes.extend((root.own as u16).to_le_bytes());
        bytes.extend(root.all.to_le_bytes());
        sealed(bytes)
    }
}

/// As many levels as these records take.
fn levels(records: u64) -> Vec<Level> {
    let mut levels = vec![Level {
        most: LEAF_MOST,
        below_width: 0,
    }];
    let mut below = LEAF_MOST;
    while below < records {
        let pointer = pointer_size(levels.last().map_or(0, |level| level.below_width));
        let own = (NODE_SIZE - NODE_OVERHEAD - pointer) / (RECORD_SIZE + pointer);
        below += own as u64 * (below + 1);
        levels.push(Level {
            most: below,
            below_width: width(below),
        });
    }
    levels
}

/// Bytes that lead to a child: its address, the number of its own records, which is never more than a leaf's, and that
/// of all records below.
fn pointer_size(below_width: usize) -> usize {
    8 + width(LEAF_MOST) + below_width
}

/// What leads to a node.
struct Child {
    address: u64,
    /// Records in it.
    own: u64,
    /// Records in it and below it.
    all: u64,
}

/// The nodes as they come: children before the nodes above them.
struct Nodes<'i> {
    index: &'i NameIndex,
    at: u64,
    bytes: Vec<u8>,
}

impl Nodes<'_> {
    /// Puts a node with all below it.
    fn put(&mut self, level: usize, records: &[Record]) -> Child {
        let (body, own) = match level {
            0 => (
                [b"BTLF", &[0, TYPE][..], &records.concat()].concat(),
                records.len(),
            ),
            _ => self.internal(level, records),
        };
        let address = self.at + self.bytes.len() as u64;
        // The checksum stands right behind the records and pointers; what is left of the node is not covered.
        let end = self.bytes.len() + NODE_SIZE;
        self.bytes.extend(sealed(body));
        self.bytes.resize(end, 0);
        Child {
            address,
            own: own as u64,
            all: records.len() as u64,
        }
    }

    /// The bytes of an internal node, and how many records are its own. It has the fewest children that the records
    /// need, filled alike: so every node but the root is at least half full, which HDF5 expects when it deletes.
    fn internal(&mut self, level: usize, records: &[Record]) -> (Vec<u8>, usize) {
        let below = &self.index.levels[level - 1];
        let below_width = below.below_width;
        // Each child takes one place more than it has records: that of the record behind it, which is this node's.
        // Behind the last child that place stays empty.
        let places = records.len() + 1;
        let children = places.div_ceil(below.most as usize + 1);
        let (mut own, mut pointers) = (Vec::new(), Vec::new());
        let mut rest = records;
        for i in 0..children {
            let length = (i + 1) * places / children - i * places / children - 1;
            let (child, behind) = rest.split_at(length);
            let child = self.put(level - 1, child);
            pointers.extend(child.address.to_le_bytes());
            pointers.extend(&child.own.to_le_bytes()[..width(LEAF_MOST)]);
            pointers.extend(&child.all.to_le_bytes()[..below_width]);
            rest = match behind.split_first() {
                Some((record, behind)) => {
                    own.extend(record);
                    behind
                }
                None => behind,
            };
        }
        let body = [b"BTIN", &[0, TYPE][..], &own, &pointers].concat();
        (body, children - 1)
    }
}

#[cfg(test)]
mod tests {
    use super::*;

    fn index(names: &[String]) -> NameIndex {
        let named = names.iter().map(|name| Named {
            name: name.as_bytes(),
            id: [0; 8],
            order: None,
        });
        NameIndex::new(&named.collect::<Vec<_>>())
    }

    // By hand from the format: 29 records in a leaf; above the leaves 18, with pointers of 9 bytes, and 569 in all;
    // then 17 with pointers of 11, and 10,259; 17, and 184,679; 16 with pointers of 12.
    #[test]
    fn a_level_is_added_where_the_one_below_is_full() {
        for (records, due) in [
            (0, 0),
            (29, 0),
            (30, 1),
            (569, 1),
            (570, 2),
            (10_259, 2),
            (10_260, 3),
            (184_679, 3),
            (184_680, 4),
        ] {
            assert_eq!(levels(records).len() - 1, due, "{records}");
        }
        let widths: Vec<usize> = levels(184_680).iter().map(|l| l.below_width).collect();
        assert_eq!(widths, [0, 2, 2, 3, 3]);
    }

    #[test]
    fn every_node_but_the_root_is_half_full() {
        for records in [30, 31, 59, 60, 569, 570, 571, 10_259, 10_260, 12_345] {
            let names: Vec<String> = (0..records).map(|i| format!("note {i}")).collect();
            let bytes = index(&names).write(1000);
            let (header, nodes) = bytes.split_at(HEADER_LENGTH as usize);
            let root = u64::from_le_bytes(header[16..24].try_into().unwrap());
            assert_eq!(
                root + 512,
                1000 + bytes.len() as u64,
                "the root is the last"
            );
            for node in nodes[..nodes.len() - 512].chunks(512) {
                let most = if &node[..4] == b"BTLF" { 29 } else { 16 };
                let own = node[6..]
                    .chunks(17)
                    .take_while(|r| r[9..13] == [255, 255, 0, 0])
                    .count();
                assert!(
                    2 * (own + 1) > most,
                    "{own} of {most} in a node of {records}"
                );
            }
        }
    }

    // Their hash is 0x130F1B05: HDF5 compares the names then, and would not find the second one first.
    #[test]
    fn names_of_one_hash_go_by_their_bytes() {
        for names in [["note 85167", "note 96241"], ["note 96241", "note 85167"]] {
            let named = names.map(str::as_bytes).map(|name| Named {
                name,
                id: name[..8].try_into().unwrap(),
                order: Some(name[5].into()),
            });
            let index = NameIndex::new(&named);
            assert_eq!(index.records.len(), 2);
            for (record, first) in index.records.iter().zip(b"89") {
                assert_eq!(record[13..], 0x130F_1B05u32.to_le_bytes());
                assert_eq!(record[9], *first);
            }
        }
    }

    #[test]
    fn no_names_have_no_node() {
        let bytes = index(&[]).write(1000);
        assert_eq!(bytes.len() as u64, HEADER_LENGTH);
        assert_eq!(bytes[16..24], [0xFF; 8]);
    }
}
