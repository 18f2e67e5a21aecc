//! Managed objects of an HDF5 fractal heap, found by their IDs, through functions that are proved against the HDF5 File
//! Format Specification: on every input they end, read nothing outside of what they are lent, and answer or refuse by a
//! definition (`docs/PROOFS.md` in the repository). This crate makes the C functions of the library `fractal_heap_c` safe
//! to call. It also has the plan of a heap that is written, [`OpenPlan`]: it is advanced by one object at a time, and each
//! has its ID at once; and it writes a heap's header, [`Header::write`].
//!
//! ```
//! use fractal_heap::{Block, Error, Heap, Refusal};
//! # // A heap of one object: its header at 0, and behind it its one block by the format.
//! # let mut plan = fractal_heap::OpenPlan::open(8)?;
//! # plan.add(28)?;
//! # let mut file = vec![0; 146];
//! # plan.header(146).write(8, 8, &mut file)?;
//! # file.extend(b"FHDB");
//! # file.extend([0; 18]); // version, the header's address, the heap offset, and the checksum, 0 so far
//! # file.extend(b"gauge 7 was replaced at noon");
//! # file.resize(146 + 1024, 0);
//! # let sum = fractal_heap::checksum(&file[146..]);
//! # file[146 + 18..146 + 22].copy_from_slice(&sum.to_le_bytes());
//!
//! // The file's bytes from its superblock on, the address of a heap's header, and the two sizes of the superblock.
//! let heap = Heap { file: &file, header_at: 0, offset_size: 8, length_size: 8 };
//! let id = [0x00, 0x16, 0x00, 0x00, 0x00, 0x00, 0x1C, 0x00];
//!
//! // Each block on the way is tested, and says what header it belongs to: the one that is read here.
//! assert_eq!(heap.decode_managed_id(&id)?, (22, 28));
//! assert_eq!(heap.read_managed_object(&id, heap.header_at)?, b"gauge 7 was replaced at noon");
//!
//! // An ID that was cut short, which the C functions would take for another one.
//! assert_eq!(heap.heap_id_length()?, 8);
//! let short = heap.read_managed_object(&id[..3], heap.header_at);
//! assert_eq!(short, Err(Error::IdLength { length: 3, due: 8 }));
//!
//! // The same file, cut inside of the header.
//! let cut = Heap { file: &file[..100], ..heap };
//! let error = cut.read_managed_object(&id, cut.header_at).unwrap_err();
//! assert!(matches!(error, Error::Refused(Refusal::UnexpectedEof { available: 100, .. })));
//! println!("{error}"); // refused by 1: the bytes end too early: the end expected is ..
//!
//! // The same file with one bit changed behind the object: it is not handed out, but for who asks for untested bytes.
//! let mut damaged = file.clone();
//! damaged[1000] ^= 1;
//! let damaged = Heap { file: &damaged, ..heap };
//! let error = damaged.read_managed_object(&id, heap.header_at).unwrap_err();
//! assert!(matches!(error, Error::Refused(Refusal::BlockChecksumMismatch { .. })));
//! assert_eq!(damaged.stopping_block(&id, heap.header_at)?, Block { address: 146, heap_offset: 0 });
//! assert_eq!(damaged.read_managed_object_unchecked(&id)?, b"gauge 7 was replaced at noon");
//! # Ok::<(), Error>(())
//! ```
//!
//! The file that a [`Heap`] has begins at its superblock, since HDF5's addresses count from there. In a file with a user
//! block that is not the file's start, and a heap of the whole file would give other bytes. [`Superblock::find`] finds
//! it, and [`Superblock::heap`] makes the heap of an address as HDF5 and its tools tell it.
//!
//! The library is linked statically. In the repository it is looked for where `loader/static_libraries` puts it. A copy of
//! this crate's folder needs the variable `FRACTAL_HEAP_LIBRARIES` when it is built: the folder that has
//! `libfractal_heap_c.a`. A relative one counts from where cargo is called, by the shell's `PWD`; where that is missing
//! or another folder, as it may be in cron or an editor, the build ends and asks for an absolute one.
#![warn(missing_docs)]

mod header;
mod numbers;
mod open_plan;
mod refusal;
mod superblock;

pub use header::{Header, WrittenHeader};
pub use numbers::{count, grouped, little_endian};
pub use open_plan::{Added, OpenPlan, Totals};
pub use refusal::Refusal;
pub use superblock::Superblock;

use fractal_heap_sys::{
    fractal_heap_checksum, fractal_heap_decode_managed_id, fractal_heap_read_managed_object,
    fractal_heap_read_managed_object_unchecked, fractal_heap_stopping_block,
};
use std::fmt;

/// A C function that parses the header first and answers for an ID: see fractal_heap.h.
type Call = unsafe extern "C" fn(
    file: *const u8,
    file_len: usize,
    at: u64,
    offset_size: u8,
    length_size: u8,
    id: *const u8,
    id_len: usize,
    slot: *mut u8,
    slot_len: usize,
) -> u32;

/// One that also takes what each block has to say of where its header is.
type CheckedCall = unsafe extern "C" fn(
    file: *const u8,
    file_len: usize,
    at: u64,
    offset_size: u8,
    length_size: u8,
    heap_header_address: u64,
    id: *const u8,
    id_len: usize,
    slot: *mut u8,
    slot_len: usize,
) -> u32;

/// Jenkins' lookup3, the checksum of HDF5's metadata.
///
/// ```
/// assert_eq!(fractal_heap::checksum(b""), 0xDEAD_BEEF);
/// assert_eq!(fractal_heap::checksum(b"Four score and seven years ago"), 0x1777_0551);
/// ```
pub fn checksum(bytes: &[u8]) -> u32 {
    // SAFETY: pointer and length are those of a slice, which is only read.
    unsafe { fractal_heap_checksum(bytes.as_ptr(), bytes.len()) }
}

/// Why an object is not handed out.
#[derive(Debug, Clone, Copy, PartialEq, Eq)]
#[non_exhaustive]
pub enum Error {
    /// The library refused the call.
    Refused(Refusal),
    /// The ID has not as many bytes as the heap's IDs: one that was cut short would be read as another ID.
    IdLength {
        /// Bytes of the ID.
        length: usize,
        /// Bytes of each ID of the heap.
        due: u16,
    },
    /// The library answered with a place outside of the file. It is proved that it does not; this is said where the
    /// proof and what was linked should not be of one piece.
    Outside {
        /// Where the object is said to begin.
        position: u64,
        /// Its length.
        length: u64,
        /// Bytes of the file.
        available: u64,
    },
}

impl fmt::Display for Error {
    fn fmt(&self, f: &mut fmt::Formatter<'_>) -> fmt::Result {
        match *self {
            Error::Refused(refusal) => refusal.fmt(f),
            Error::IdLength { length, due } => write!(
                f,
                "the ID has {}, and the heap's IDs have {due}",
                count(length as u64, "byte")
            ),
            Error::Outside {
                position,
                length,
                available,
            } => write!(
                f,
                "the answer, {} at {}, is outside of the file, which has {}",
                count(length, "byte"),
                grouped(position),
                count(available, "byte")
            ),
        }
    }
}

impl std::error::Error for Error {}

impl From<Refusal> for Error {
    fn from(refusal: Refusal) -> Self {
        Error::Refused(refusal)
    }
}

/// A block of a heap: where it is in the file, and where what it holds begins in the heap.
#[derive(Debug, Clone, Copy, PartialEq, Eq)]
pub struct Block {
    /// Its address, which counts from where the heap's file begins.
    pub address: u64,
    /// The heap offset of its first byte.
    pub heap_offset: u64,
}

/// A heap in a file: where its header is, and the two sizes that the file's superblock gives.
/// [`Superblock::heap`] makes it of a whole file.
#[derive(Clone, Copy)]
pub struct Heap<'f> {
    /// The file's bytes from its superblock on, which is behind the user block where there is one.
    pub file: &'f [u8],
    /// Where the heap's header is in them: its address in HDF5.
    pub header_at: u64,
    /// Bytes of an address: 2, 4 or 8.
    pub offset_size: u8,
    /// Bytes of a length: 2, 4 or 8.
    pub length_size: u8,
}

/// Without the file's bytes, which may be many.
impl fmt::Debug for Heap<'_> {
    fn fmt(&self, f: &mut fmt::Formatter<'_>) -> fmt::Result {
        f.debug_struct("Heap")
            .field("file_length", &self.file.len())
            .field("header_at", &self.header_at)
            .field("offset_size", &self.offset_size)
            .field("length_size", &self.length_size)
            .finish()
    }
}

/// Where a header has the length of the heap's IDs, behind its signature and version.
const ID_LENGTH_AT: u64 = 5;

impl<'f> Heap<'f> {
    /// How many bytes each ID of the heap has, by a header that is sound.
    pub fn heap_id_length(&self) -> Result<u16, Refusal> {
        Ok(self.header()?.heap_id_length)
    }

    /// Offset in the heap and length that a managed ID gives, which must have the length of the heap's IDs.
    pub fn decode_managed_id(&self, id: &[u8]) -> Result<(u64, u64), Error> {
        self.check_length(id)?;
        Ok(self.decode_managed_id_of_any_length(id)?)
    }

    /// The bytes of a managed object, as they lie in the file, by its ID, which must have the length of the heap's IDs.
    /// Every block on the way is tested: that it lies in the file, its signature and version, that it belongs to the header
    /// at `heap_header_address` and to its place in the heap, and its checksum; and the object has to end in its block. Of
    /// direct blocks without checksums (the bit of value 2 of [`Header::flags`] is not set) a change behind their headers is
    /// not seen.
    ///
    /// Each block stores the address of its heap's header. That is [`header_at`](Heap::header_at), unless header and blocks
    /// were carried elsewhere since they were written. [`stopping_block`](Heap::stopping_block) says at which block a
    /// refusal is.
    pub fn read_managed_object(
        &self,
        id: &[u8],
        heap_header_address: u64,
    ) -> Result<&'f [u8], Error> {
        self.check_length(id)?;
        self.read_managed_object_of_any_length(id, heap_header_address)
    }

    /// The bytes of a managed object, as they lie in the file, by its ID, which must have the length of the heap's IDs. No
    /// block is tested, but for an indirect one's signature: of a damaged file these may be wrong bytes.
    pub fn read_managed_object_unchecked(&self, id: &[u8]) -> Result<&'f [u8], Error> {
        self.check_length(id)?;
        self.read_managed_object_of_any_length_unchecked(id)
    }

    /// The block at which [`read_managed_object`](Heap::read_managed_object) stops, by an ID of any length: the one that
    /// it refuses; the direct block, where it finds the object, or one that ends past that block; the indirect block that
    /// has no block at the ID's place. Refused, as the read is, where that is before any block.
    pub fn stopping_block(&self, id: &[u8], heap_header_address: u64) -> Result<Block, Refusal> {
        let (address, heap_offset) =
            self.checked_pair(fractal_heap_stopping_block, heap_header_address, id)?;
        Ok(Block {
            address,
            heap_offset,
        })
    }

    /// As [`decode_managed_id`](Heap::decode_managed_id), by an ID of any length, as the library takes it: what it lacks
    /// counts as zeros, and what stands behind the object's length is not looked at.
    pub fn decode_managed_id_of_any_length(&self, id: &[u8]) -> Result<(u64, u64), Refusal> {
        self.pair(fractal_heap_decode_managed_id, id)
    }

    /// As [`read_managed_object`](Heap::read_managed_object), by an ID of any length: one of three bytes may give an
    /// empty object.
    pub fn read_managed_object_of_any_length(
        &self,
        id: &[u8],
        heap_header_address: u64,
    ) -> Result<&'f [u8], Error> {
        self.object(self.checked_pair(fractal_heap_read_managed_object, heap_header_address, id)?)
    }

    /// As [`read_managed_object_unchecked`](Heap::read_managed_object_unchecked), by an ID of any length.
    pub fn read_managed_object_of_any_length_unchecked(
        &self,
        id: &[u8],
    ) -> Result<&'f [u8], Error> {
        self.object(self.pair(fractal_heap_read_managed_object_unchecked, id)?)
    }

    /// The bytes at a position, so many.
    fn object(&self, (position, length): (u64, u64)) -> Result<&'f [u8], Error> {
        part(self.file, position, length).ok_or(Error::Outside {
            position,
            length,
            available: self.file.len() as u64,
        })
    }

    /// What the header says of the IDs' length, if the file has these two bytes; it may not be sound.
    fn stored_id_length(&self) -> Option<u16> {
        let at = usize::try_from(self.header_at.checked_add(ID_LENGTH_AT)?).ok()?;
        let bytes = self.file.get(at..)?.first_chunk()?;
        Some(u16::from_le_bytes(*bytes))
    }

    /// Refuses an ID that has not the length of the heap's IDs. Where the header is not sound, it is refused and not the
    /// ID; where the length is as due, the library will look at the header.
    fn check_length(&self, id: &[u8]) -> Result<(), Error> {
        let is_due = |due| usize::from(due) == id.len();
        if self.stored_id_length().is_some_and(is_due) {
            return Ok(());
        }
        Err(Error::IdLength {
            length: id.len(),
            due: self.heap_id_length()?,
        })
    }

    /// The library's answer by an ID.
    fn pair(&self, call: Call, id: &[u8]) -> Result<(u64, u64), Refusal> {
        // SAFETY: pointers and lengths are those of slices, and the slot, which is lent for writing, overlaps no
        // other slice.
        with_slot(|slot, slot_len| unsafe {
            call(
                self.file.as_ptr(),
                self.file.len(),
                self.header_at,
                self.offset_size,
                self.length_size,
                id.as_ptr(),
                id.len(),
                slot,
                slot_len,
            )
        })
    }

    /// Likewise, where blocks are held to the address of their header.
    fn checked_pair(
        &self,
        call: CheckedCall,
        heap_header_address: u64,
        id: &[u8],
    ) -> Result<(u64, u64), Refusal> {
        // SAFETY: as above.
        with_slot(|slot, slot_len| unsafe {
            call(
                self.file.as_ptr(),
                self.file.len(),
                self.header_at,
                self.offset_size,
                self.length_size,
                heap_header_address,
                id.as_ptr(),
                id.len(),
                slot,
                slot_len,
            )
        })
    }
}

/// What a call answers: its number, and the two values that it puts into a slot of 16 bytes.
fn with_slot(call: impl FnOnce(*mut u8, usize) -> u32) -> Result<(u64, u64), Refusal> {
    let mut slot = [0; 16];
    let number = call(slot.as_mut_ptr(), slot.len());
    Refusal::answered(number, slot)
}

/// So many bytes from a position on, if the file has them.
fn part(file: &[u8], position: u64, length: u64) -> Option<&[u8]> {
    let start = usize::try_from(position).ok()?;
    let end = start.checked_add(usize::try_from(length).ok()?)?;
    file.get(start..end)
}

#[cfg(test)]
mod tests {
    use super::*;

    #[test]
    fn a_part_is_in_the_file_or_none() {
        assert_eq!(part(b"abc", 1, 2), Some(&b"bc"[..]));
        assert_eq!(part(b"abc", 3, 0), Some(&b""[..]));
        assert_eq!(part(b"abc", 1, 3), None);
        assert_eq!(part(b"abc", 4, 0), None);
        assert_eq!(part(b"abc", u64::MAX, 2), None);
        assert_eq!(part(b"abc", 1, u64::MAX), None);
    }

    #[test]
    fn an_answer_outside_is_said_with_its_numbers() {
        let error = Error::Outside {
            position: 4096,
            length: 1,
            available: 3,
        };
        assert_eq!(
            error.to_string(),
            "the answer, 1 byte at 4,096, is outside of the file, which has 3 bytes"
        );
    }
}
