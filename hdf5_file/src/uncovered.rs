//! Values of which no checksum covers every byte.
use std::fmt;

/// Where a value, or a part of it, lies that no checksum covers: other bytes there are given as they are.
#[derive(Debug, Clone, Copy, PartialEq, Eq, PartialOrd, Ord)]
pub enum Uncovered {
    /// IV.A.1.a, 'Version 1 Object Header'.
    OldObjectHeader,
    /// III.G, 'Fractal Heap Header': the flag of value 2 is not set.
    BlocksWithoutChecksums,
    /// III.G, 'Fractal Heap ID for Huge Objects': its message is one.
    HugeObject,
    /// III.E, 'Global Heap': a text of variable length.
    GlobalHeap,
}

impl Uncovered {
    /// All of them.
    pub const ALL: [Uncovered; 4] = [
        Uncovered::OldObjectHeader,
        Uncovered::BlocksWithoutChecksums,
        Uncovered::HugeObject,
        Uncovered::GlobalHeap,
    ];
}

/// Where it lies, in words.
impl fmt::Display for Uncovered {
    fn fmt(&self, f: &mut fmt::Formatter<'_>) -> fmt::Result {
        f.write_str(match self {
            Uncovered::OldObjectHeader => "in an object header of version 1",
            Uncovered::BlocksWithoutChecksums => "in a heap whose blocks have no checksums",
            Uncovered::HugeObject => "outside of the heap's blocks, as a huge object",
            Uncovered::GlobalHeap => "in the global heap, as a text of variable length",
        })
    }
}
