//! The root group of a file of attributes: IV.A.1.b, 'Version 2 Object Header', with the three messages that such a
//! group needs.
use crate::superblock::{self, superblock};
use crate::{UNDEFINED, sealed};

/// As many attributes as can have their order tracked: HDF5 keeps the largest number of one in two bytes, and has 65,535
/// for one that is not tracked.
pub const MOST_IN_ORDER: u64 = 65_534;

/// The types of the messages.
pub const LINK_INFO: u8 = 0x02;
pub const GROUP_INFO: u8 = 0x0A;
pub const ATTRIBUTE_INFO: u8 = 0x15;

/// Where a file of attributes has its first parts.
#[derive(Debug, Clone, Copy, PartialEq, Eq)]
pub struct Places {
    /// The object header of the root group.
    pub root_group: u64,
    /// The header of the heap, or the end of a file without attributes.
    pub heap: u64,
}

impl Places {
    /// Whether attributes have their order tracked makes the object header longer.
    pub fn new(tracks_order: bool) -> Self {
        let none = RootGroup {
            newest: tracks_order.then_some(0),
            dense: None,
        };
        Places {
            root_group: superblock::LENGTH,
            heap: superblock::LENGTH + none.object_header().len() as u64,
        }
    }
}

/// Where the attributes of a group are kept.
#[derive(Debug, Clone, Copy, PartialEq, Eq)]
pub struct Dense {
    /// The header of the heap.
    pub heap: u64,
    /// The header of the index by name.
    pub names: u64,
}

/// What a root group says of its attributes.
#[derive(Debug, Clone, Copy, PartialEq, Eq)]
pub struct RootGroup {
    /// The Maximum Creation Index where order is tracked: how many attributes were made, at most [`MOST_IN_ORDER`].
    pub newest: Option<u16>,
    /// None where there are no attributes.
    pub dense: Option<Dense>,
}

impl RootGroup {
    /// The file up to the heap's header: superblock and root group, of a file that ends at `end`.
    pub fn front(&self, end: u64) -> Vec<u8> {
        let mut bytes = superblock(superblock::LENGTH, end);
        bytes.extend(self.object_header());
        bytes
    }

    fn object_header(&self) -> Vec<u8> {
        let messages: Vec<u8> = [
            self.message(LINK_INFO, &link_info()),
            self.message(GROUP_INFO, &group_info()),
            self.message(ATTRIBUTE_INFO, &self.attribute_info()),
        ]
        .concat();
        // Bits 0 and 1: the size of the messages has four bytes, where one would do, so that HDF5 can let it grow.
        // Bit 2: attributes have their order tracked.
        let flags = 2 | u8::from(self.newest.is_some()) << 2;
        let mut bytes = [b"OHDR", &[2, flags][..]].concat();
        bytes.extend((messages.len() as u32).to_le_bytes());
        bytes.extend(messages);
        sealed(bytes)
    }

    /// Type, size, flags, and where order is tracked the message's own number among those of its type: the first.
    fn message(&self, kind: u8, body: &[u8]) -> Vec<u8> {
        let mut bytes = vec![kind];
        bytes.extend((body.len() as u16).to_le_bytes());
        bytes.push(0);
        bytes.extend(self.newest.map_or(vec![], |_| vec![0, 0]));
        bytes.extend(body);
        bytes
    }

    /// IV.A.2.v, 'Attribute Info Message'. Flags: bit 0, order is tracked; bit 1, that it is indexed, is not set, since
    /// HDF5 1.10.8 breaks such an index: docs/DIFFERENCES.md.
    fn attribute_info(&self) -> Vec<u8> {
        let mut bytes = vec![0, self.newest.is_some().into()];
        bytes.extend(self.newest.iter().flat_map(|n| n.to_le_bytes()));
        let none = Dense {
            heap: UNDEFINED,
            names: UNDEFINED,
        };
        let Dense { heap, names } = self.dense.unwrap_or(none);
        bytes.extend([heap, names].map(u64::to_le_bytes).concat());
        bytes
    }
}

/// IV.A.2.c, 'Link Info': version, flags, and two addresses, of which a group without links has neither. It is what
/// makes the object a group.
fn link_info() -> Vec<u8> {
    let mut bytes = vec![0, 0];
    bytes.extend([UNDEFINED; 2].map(u64::to_le_bytes).concat());
    bytes
}

/// IV.A.2.k, 'Group Info Message': version and flags. HDF5 needs it to make a group in this one.
fn group_info() -> Vec<u8> {
    vec![0, 0]
}

#[cfg(test)]
mod tests {
    use super::*;

    const SOME: Dense = Dense {
        heap: 132,
        names: 5000,
    };

    #[test]
    fn the_heap_is_right_behind() {
        for newest in [None, Some(0), Some(65_534)] {
            for dense in [None, Some(SOME)] {
                let front = RootGroup { newest, dense }.front(9000);
                let places = Places::new(newest.is_some());
                assert_eq!(places.root_group, 48);
                assert_eq!(front.len() as u64, places.heap);
            }
        }
        let (plain, tracked) = (Places::new(false), Places::new(true));
        // Two bytes a message, and two for the Maximum Creation Index.
        assert_eq!(tracked.heap - plain.heap, 3 * 2 + 2);
    }

    // The places are those of the format's tables.
    #[test]
    fn fields_stand_where_the_format_has_them() {
        let root = RootGroup {
            newest: None,
            dense: Some(SOME),
        };
        let front = root.front(9000);
        let address = |at: usize| u64::from_le_bytes(front[at..at + 8].try_into().unwrap());
        assert_eq!([12, 20, 28, 36].map(address), [0, u64::MAX, 9000, 48]);
        assert_eq!(&front[48..58], b"OHDR\x02\x02\x32\0\0\0");
        assert_eq!(&front[58..64], [2, 18, 0, 0, 0, 0]);
        assert_eq!(&front[80..86], [10, 2, 0, 0, 0, 0]);
        assert_eq!(&front[86..92], [0x15, 18, 0, 0, 0, 0]);
        assert_eq!([92, 100].map(address), [132, 5000]);
        for (start, end) in [(0, 44), (48, 108)] {
            let due = fractal_heap::checksum(&front[start..end]).to_le_bytes();
            assert_eq!(front[end..end + 4], due);
        }
    }
}
