//! The HDF5 file around a fractal heap of attributes: all of such a file that the proved functions do not write. They
//! are those of the root group, in dense storage: the message of each is an object of the heap, found by its name
//! through a version 2 B-tree. The file has, one right behind the other, at an offset size and a length size of 8:
//!
//! | Part | Where | Section |
//! |---|---|---|
//! | superblock, version 2 | 0 | II.A |
//! | object header of the root group, version 2 | [`Places`] | IV.A.1.b |
//! | header of the heap, and its region | [`Places`] | III.G, not here |
//! | header and nodes of the index, [`NameIndex`] | behind the region | III.A.2 |
//!
//! Sections are those of the HDF5 File Format Specification, version 3.0. Checksums are lookup3, by the proved
//! function. Attributes of files that HDF5 made are read, too, [`Attributes`]; managed objects of the heap are read by
//! the proved reader.
#![warn(missing_docs)]

mod attribute;
mod attributes;
mod cursor;
mod fixed_text;
mod global_heap;
mod heap;
mod links;
mod message;
mod name_index;
mod object_counts;
mod object_header;
mod root_group;
mod superblock;
mod tree;
mod uncovered;
mod unreadable;

pub use attribute::{Kind, message_head};
pub use attributes::{Attributes, Found};
pub use fixed_text::VariableText;
pub use message::Attribute;
pub use name_index::{NameIndex, Named};
pub use object_counts::{Disagreement, ObjectCounts};
pub use root_group::{Dense, MOST_IN_ORDER, Places, RootGroup};
pub use uncovered::Uncovered;
pub use unreadable::Unreadable;

/// Bytes of an address and of a length in a file of attributes.
pub const OFFSET_SIZE: u8 = 8;
/// See [`OFFSET_SIZE`].
pub const LENGTH_SIZE: u8 = 8;

/// The undefined address: V, Appendix A.
const UNDEFINED: u64 = u64::MAX;

/// Metadata with the checksum behind it: I.A, lookup3 of all before it.
fn sealed(mut bytes: Vec<u8>) -> Vec<u8> {
    let checksum = fractal_heap::checksum(&bytes);
    bytes.extend(checksum.to_le_bytes());
    bytes
}
