//! Why a file's attributes cannot be read.
use fractal_heap::{count, grouped};
use std::fmt;

/// Why something of a file is not read. Places count from where the file's addresses do, its superblock.
#[derive(Debug, Clone, Copy, PartialEq, Eq)]
#[non_exhaustive]
#[allow(missing_docs)] // the values' names say what they are
pub enum Unreadable {
    /// No superblock is where one may be.
    NoSuperblock,
    /// None stands behind a user block of so many bytes; where one is found, if anywhere.
    NotBehind { user_block: u64, found: Option<u64> },
    /// A superblock behind the start of the file says that it is at another place than it is.
    OtherBase { at: u64, base: u64 },
    /// A structure ends behind the end of the file, or of what it is in.
    EndsEarly {
        what: &'static str,
        at: u64,
        needed: u64,
        there: u64,
    },
    /// The superblock says that the file is longer than it is.
    Cut { due: u64, there: u64 },
    /// The bytes that a structure begins with.
    Signature { what: &'static str, at: u64 },
    /// A version, or a width, that is not known here.
    Unknown { what: &'static str, number: u64 },
    /// A checksum is another one than that of the bytes.
    Checksum {
        what: &'static str,
        at: u64,
        stored: u32,
        computed: u32,
    },
    /// Two parts of one structure lie over each other: a loop, say.
    Overlaps { what: &'static str, at: u64 },
    /// A structure contradicts itself.
    Contradicts {
        what: &'static str,
        why: &'static str,
    },
    /// The value is somewhere else, or not of a kind whose bytes can be given.
    NotHere { why: &'static str },
    /// What the reader of the heap says, and the block where it stopped, if at one.
    Heap {
        why: fractal_heap::Error,
        block: Option<u64>,
    },
}

impl fmt::Display for Unreadable {
    fn fmt(&self, f: &mut fmt::Formatter<'_>) -> fmt::Result {
        match *self {
            Unreadable::NoSuperblock => f.write_str("it is no HDF5 file: no superblock is found"),
            Unreadable::NotBehind { user_block, found } => {
                let user_block = count(user_block, "byte");
                write!(
                    f,
                    "no superblock stands behind a user block of {user_block}"
                )?;
                match found {
                    Some(at) => write!(f, ": one is found at {}", grouped(at)),
                    None => f.write_str(": none is found at all"),
                }
            }
            Unreadable::OtherBase { at, base } => write!(
                f,
                "the superblock at {} is not sound: its base address is not its place, but {}: it may lie in a file whose \
                 own superblock is damaged",
                grouped(at),
                grouped(base)
            ),
            Unreadable::EndsEarly {
                what,
                at,
                needed,
                there,
            } => write!(
                f,
                "the {what} at {} ends early: it needs {}, and {} are there",
                grouped(at),
                count(needed, "byte"),
                grouped(there)
            ),
            Unreadable::Cut { due, there } => write!(
                f,
                "the file was cut: its superblock says {}, and {} are there",
                count(due, "byte"),
                grouped(there)
            ),
            Unreadable::Signature { what, at } => {
                write!(f, "no {what} is at {}, where one is to be", grouped(at))
            }
            Unreadable::Unknown { what, number } => {
                write!(
                    f,
                    "the {what} is {}, which is not known here",
                    grouped(number)
                )
            }
            Unreadable::Checksum {
                what,
                at,
                stored,
                computed,
            } => write!(
                f,
                "the {what} at {} is damaged: its checksum is {stored:08X}, and that of its bytes {computed:08X}",
                grouped(at)
            ),
            Unreadable::Overlaps { what, at } => write!(
                f,
                "the {what} at {} lies over another one, or leads to itself",
                grouped(at)
            ),
            Unreadable::Contradicts { what, why } => write!(f, "the {what} is not sound: {why}"),
            Unreadable::NotHere { why } => write!(f, "its bytes are not read: {why}"),
            Unreadable::Heap { why, block: None } => why.fmt(f),
            Unreadable::Heap {
                why,
                block: Some(at),
            } => write!(f, "{why}; the block is at {}", grouped(at)),
        }
    }
}

impl std::error::Error for Unreadable {}
