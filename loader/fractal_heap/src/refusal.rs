//! Why a call is refused: the words for each number and its values. Which they are for a cause is defined in the crate
//! `refusals` alone, as `refusal`.
use crate::header::name_of;
use crate::numbers::{count, grouped};
use fractal_heap_sys as sys;
use std::fmt;

/// Why a call was refused. Every cause has a number and up to two values, as `fractal_heap.h` lists them for C;
/// `Display` puts them into words.
///
/// More causes join with later versions.
///
/// ```
/// use fractal_heap::Refusal;
///
/// let refusal = Refusal::new(7, 0xDEADBEEF, 0x17770551);
/// assert_eq!(refusal, Refusal::ChecksumMismatch { stored: 0xDEADBEEF, computed: 0x17770551 });
/// assert_eq!((refusal.number(), refusal.values()), (7, (0xDEADBEEF, 0x17770551)));
/// ```
#[derive(Debug, Clone, Copy, PartialEq, Eq)]
#[non_exhaustive]
#[allow(missing_docs)] // the values' names say what they are
pub enum Refusal {
    /// 1: the bytes end too early, or the heap has nothing at an ID's place.
    UnexpectedEof { expected: u64, available: u64 },
    /// 2: no file has addresses of so many bytes.
    InvalidOffsetSize { size: u64 },
    /// 3: no file has lengths of so many bytes.
    InvalidLengthSize { size: u64 },
    /// 4: the signature of a header or of a block.
    InvalidSignature,
    /// 5: the version of a header or of a block.
    InvalidVersion { version: u64 },
    /// 6: the ID is not a managed object's.
    InvalidHeapIdType { id_type: u64 },
    /// 7: the header's checksum.
    ChecksumMismatch { stored: u64, computed: u64 },
    /// 8: an object of a filtered heap, or the header of one that is to be written.
    UnsupportedFilteredHeapObject,
    /// 9: a block's address plus a distance is past 2^64 - 1.
    OffsetOverflow { address: u64, distance: u64 },
    /// 10: the walk's depth is used up.
    DepthExceeded { limit: u64 },
    /// 11: an object above the largest managed size.
    ObjectTooLarge { index: u64, size: u64 },
    /// 12: no slot is left for an object.
    HeapSpaceExhausted { index: u64 },
    /// 13: a lent list, region or slice is too short.
    SliceTooShort { needed: u64, lent: u64 },
    /// 14: the objects' bytes differ from the sum of their sizes.
    ObjectBytesMismatch { sum: u64, given: u64 },
    /// 15: the header's address is too large.
    HeaderAddressTooLarge { address: u64 },
    /// 15, too: the region ends past the largest address.
    RegionAddressTooLarge { address: u64, region_size: u64 },
    /// 16: the ID writer's offset or length is too large.
    HeapIdTooLarge { offset: u64, length: u64 },
    /// 17: a header's field, by its place in header order counted from 0, is too large for its width.
    HeaderFieldTooLarge { place: u64, value: u64 },
    /// 18: a block's checksum.
    BlockChecksumMismatch { stored: u64, computed: u64 },
    /// 19: a block of another header, whose address it stores, or of another place in the heap.
    ForeignBlock { stored: u64, wanted: u64 },
    /// 20: a heap offset or a number of rows that the heap does not have.
    OutsideHeap { number: u64 },
    /// A number that this version has no words for.
    Other {
        number: u32,
        first: u64,
        second: u64,
    },
}

/// Of all that begins with a signature.
const NO_SIGNATURE: &str = "no signature: FRHP has to begin the heap's header, FHIB an indirect block, FHDB a direct block";

impl Refusal {
    /// The numbers that this version has words for, upward.
    pub const NUMBERS: [u32; 20] = [
        1, 2, 3, 4, 5, 6, 7, 8, 9, 10, 11, 12, 13, 14, 15, 16, 17, 18, 19, 20,
    ];

    /// The cause with this number and these values; a value that the cause does not have is passed over.
    pub fn new(number: u32, first: u64, second: u64) -> Self {
        match number {
            sys::FRACTAL_HEAP_UNEXPECTED_EOF => Refusal::UnexpectedEof {
                expected: first,
                available: second,
            },
            sys::FRACTAL_HEAP_INVALID_OFFSET_SIZE => Refusal::InvalidOffsetSize { size: first },
            sys::FRACTAL_HEAP_INVALID_LENGTH_SIZE => Refusal::InvalidLengthSize { size: first },
            sys::FRACTAL_HEAP_INVALID_SIGNATURE => Refusal::InvalidSignature,
            sys::FRACTAL_HEAP_INVALID_VERSION => Refusal::InvalidVersion { version: first },
            sys::FRACTAL_HEAP_INVALID_HEAP_ID_TYPE => Refusal::InvalidHeapIdType { id_type: first },
            sys::FRACTAL_HEAP_CHECKSUM_MISMATCH => Refusal::ChecksumMismatch {
                stored: first,
                computed: second,
            },
            sys::FRACTAL_HEAP_UNSUPPORTED_FILTERED_HEAP_OBJECT => {
                Refusal::UnsupportedFilteredHeapObject
            }
            sys::FRACTAL_HEAP_OFFSET_OVERFLOW => Refusal::OffsetOverflow {
                address: first,
                distance: second,
            },
            sys::FRACTAL_HEAP_DEPTH_EXCEEDED => Refusal::DepthExceeded { limit: first },
            sys::FRACTAL_HEAP_BLOCK_CHECKSUM_MISMATCH => Refusal::BlockChecksumMismatch {
                stored: first,
                computed: second,
            },
            sys::FRACTAL_HEAP_FOREIGN_BLOCK => Refusal::ForeignBlock {
                stored: first,
                wanted: second,
            },
            _ => Refusal::of_writing(number, first, second),
        }
    }

    /// The causes of planning, writing and lent memory.
    fn of_writing(number: u32, first: u64, second: u64) -> Self {
        match (number, second) {
            (sys::FRACTAL_HEAP_OBJECT_TOO_LARGE, size) => {
                Refusal::ObjectTooLarge { index: first, size }
            }
            (sys::FRACTAL_HEAP_HEAP_SPACE_EXHAUSTED, _) => {
                Refusal::HeapSpaceExhausted { index: first }
            }
            (sys::FRACTAL_HEAP_SLICE_TOO_SHORT, lent) => Refusal::SliceTooShort {
                needed: first,
                lent,
            },
            (sys::FRACTAL_HEAP_OBJECT_BYTES_MISMATCH, given) => {
                Refusal::ObjectBytesMismatch { sum: first, given }
            }
            (sys::FRACTAL_HEAP_ADDRESS_TOO_LARGE, 0) => {
                Refusal::HeaderAddressTooLarge { address: first }
            }
            (sys::FRACTAL_HEAP_ADDRESS_TOO_LARGE, region_size) => Refusal::RegionAddressTooLarge {
                address: first,
                region_size,
            },
            (sys::FRACTAL_HEAP_HEAP_ID_TOO_LARGE, length) => Refusal::HeapIdTooLarge {
                offset: first,
                length,
            },
            (sys::FRACTAL_HEAP_HEADER_FIELD_TOO_LARGE, value) => Refusal::HeaderFieldTooLarge {
                place: first,
                value,
            },
            (sys::FRACTAL_HEAP_OUTSIDE_HEAP, _) => Refusal::OutsideHeap { number: first },
            _ => Refusal::Other {
                number,
                first,
                second,
            },
        }
    }

    /// What a C function answered: its number, and the slot with the two values, which are its answer where the
    /// number is 0.
    pub fn answered(number: u32, slot: [u8; 16]) -> Result<(u64, u64), Self> {
        let both = u128::from_le_bytes(slot);
        let (first, second) = (both as u64, (both >> 64) as u64);
        match number {
            sys::FRACTAL_HEAP_OK => Ok((first, second)),
            _ => Err(Refusal::new(number, first, second)),
        }
    }

    /// The cause's number.
    pub fn number(&self) -> u32 {
        match *self {
            Refusal::UnexpectedEof { .. } => sys::FRACTAL_HEAP_UNEXPECTED_EOF,
            Refusal::InvalidOffsetSize { .. } => sys::FRACTAL_HEAP_INVALID_OFFSET_SIZE,
            Refusal::InvalidLengthSize { .. } => sys::FRACTAL_HEAP_INVALID_LENGTH_SIZE,
            Refusal::InvalidSignature => sys::FRACTAL_HEAP_INVALID_SIGNATURE,
            Refusal::InvalidVersion { .. } => sys::FRACTAL_HEAP_INVALID_VERSION,
            Refusal::InvalidHeapIdType { .. } => sys::FRACTAL_HEAP_INVALID_HEAP_ID_TYPE,
            Refusal::ChecksumMismatch { .. } => sys::FRACTAL_HEAP_CHECKSUM_MISMATCH,
            Refusal::UnsupportedFilteredHeapObject => {
                sys::FRACTAL_HEAP_UNSUPPORTED_FILTERED_HEAP_OBJECT
            }
            Refusal::OffsetOverflow { .. } => sys::FRACTAL_HEAP_OFFSET_OVERFLOW,
            Refusal::DepthExceeded { .. } => sys::FRACTAL_HEAP_DEPTH_EXCEEDED,
            Refusal::ObjectTooLarge { .. } => sys::FRACTAL_HEAP_OBJECT_TOO_LARGE,
            Refusal::HeapSpaceExhausted { .. } => sys::FRACTAL_HEAP_HEAP_SPACE_EXHAUSTED,
            Refusal::SliceTooShort { .. } => sys::FRACTAL_HEAP_SLICE_TOO_SHORT,
            Refusal::ObjectBytesMismatch { .. } => sys::FRACTAL_HEAP_OBJECT_BYTES_MISMATCH,
            Refusal::HeaderAddressTooLarge { .. } | Refusal::RegionAddressTooLarge { .. } => {
                sys::FRACTAL_HEAP_ADDRESS_TOO_LARGE
            }
            Refusal::HeapIdTooLarge { .. } => sys::FRACTAL_HEAP_HEAP_ID_TOO_LARGE,
            Refusal::HeaderFieldTooLarge { .. } => sys::FRACTAL_HEAP_HEADER_FIELD_TOO_LARGE,
            Refusal::BlockChecksumMismatch { .. } => sys::FRACTAL_HEAP_BLOCK_CHECKSUM_MISMATCH,
            Refusal::ForeignBlock { .. } => sys::FRACTAL_HEAP_FOREIGN_BLOCK,
            Refusal::OutsideHeap { .. } => sys::FRACTAL_HEAP_OUTSIDE_HEAP,
            Refusal::Other { number, .. } => number,
        }
    }

    /// Its two values; 0 where it has none.
    pub fn values(&self) -> (u64, u64) {
        match *self {
            Refusal::InvalidSignature | Refusal::UnsupportedFilteredHeapObject => (0, 0),
            Refusal::InvalidOffsetSize { size: value }
            | Refusal::InvalidLengthSize { size: value }
            | Refusal::InvalidVersion { version: value }
            | Refusal::InvalidHeapIdType { id_type: value }
            | Refusal::DepthExceeded { limit: value }
            | Refusal::HeapSpaceExhausted { index: value }
            | Refusal::HeaderAddressTooLarge { address: value }
            | Refusal::OutsideHeap { number: value } => (value, 0),
            Refusal::UnexpectedEof {
                expected: a,
                available: b,
            }
            | Refusal::ChecksumMismatch {
                stored: a,
                computed: b,
            }
            | Refusal::OffsetOverflow {
                address: a,
                distance: b,
            }
            | Refusal::ObjectTooLarge { index: a, size: b }
            | Refusal::SliceTooShort { needed: a, lent: b }
            | Refusal::ObjectBytesMismatch { sum: a, given: b }
            | Refusal::RegionAddressTooLarge {
                address: a,
                region_size: b,
            }
            | Refusal::HeapIdTooLarge {
                offset: a,
                length: b,
            }
            | Refusal::HeaderFieldTooLarge { place: a, value: b }
            | Refusal::BlockChecksumMismatch {
                stored: a,
                computed: b,
            }
            | Refusal::ForeignBlock {
                stored: a,
                wanted: b,
            }
            | Refusal::Other {
                first: a,
                second: b,
                ..
            } => (a, b),
        }
    }

    /// What a number means whatever its values are; None where this version has no words for it.
    ///
    /// ```
    /// assert_eq!(fractal_heap::Refusal::cause(7), Some("the header's checksum differs"));
    /// ```
    pub fn cause(number: u32) -> Option<&'static str> {
        Some(match number {
            1 => "the bytes end too early, or the heap has nothing at the ID's place",
            2 => "the offset size is not 2, 4 or 8",
            3 => "the length size is not 2, 4 or 8",
            4 => NO_SIGNATURE,
            5 => "the version of the heap's header, or of a block, is not 0",
            6 => "the ID is not a managed object's",
            7 => "the header's checksum differs",
            8 => {
                "the heap is filtered, and objects of a filtered heap are not read, nor is its header written"
            }
            9 => "a block's address plus a distance is past 2^64 - 1",
            10 => "the depth is used up, and still no object",
            11 => "an object has more bytes than a managed object can have",
            12 => "the heap space ends at an object: no slot is left that holds it",
            13 => "a list, region or slice is too short",
            14 => "the objects' sizes add up to another number of bytes than were given",
            15 => {
                "the header's address is too large for the offset size, or the region ends past its largest"
            }
            16 => "no ID holds the offset and the length: they must be below 2^40 and below 2^16",
            17 => "a field of the header to be written is too large for its width",
            18 => "a block's checksum differs",
            19 => "a block belongs to another header, or to another place in the heap",
            20 => "no heap offset below the heap's end, or no number of rows that a root has",
            _ => return None,
        })
    }

    /// What the cause means, in words.
    fn words(&self) -> String {
        let (first, second) = self.values();
        let (a, b) = (grouped(first), grouped(second));
        match self {
            Refusal::UnexpectedEof { .. } => too_early(first, second),
            Refusal::InvalidOffsetSize { .. } => format!("the offset size is {a}, not 2, 4 or 8"),
            Refusal::InvalidLengthSize { .. } => format!("the length size is {a}, not 2, 4 or 8"),
            Refusal::InvalidSignature => NO_SIGNATURE.into(),
            Refusal::InvalidVersion { .. } => {
                format!("the version of the heap's header, or of a block, is {a}, not 0")
            }
            Refusal::InvalidHeapIdType { .. } => {
                format!("the ID is of type {a}, not a managed object's, which is 0")
            }
            Refusal::ChecksumMismatch { .. } => format!(
                "the header's checksum differs: {first:08X} is stored, {second:08X} computed"
            ),
            Refusal::UnsupportedFilteredHeapObject => {
                "the heap is filtered, and objects of a filtered heap are not read, nor is its header written"
                    .into()
            }
            Refusal::OffsetOverflow { .. } => {
                format!("a block's address {a} plus a distance of {b} is past 2^64 - 1")
            }
            Refusal::DepthExceeded { .. } => {
                format!("the depth is used up: {a} blocks down and still no object")
            }
            Refusal::BlockChecksumMismatch { .. } => format!(
                "a block's checksum differs: {first:08X} is stored, {second:08X} computed"
            ),
            Refusal::ForeignBlock { .. } => format!(
                "a block belongs to another header, or to another place in the heap: {a} is stored, {b} wanted"
            ),
            _ => self.words_of_writing(&a, &b),
        }
    }

    fn words_of_writing(&self, a: &str, b: &str) -> String {
        match self {
            Refusal::ObjectTooLarge { .. } => {
                format!("object {a} has {b} bytes, more than a managed object can have")
            }
            Refusal::HeapSpaceExhausted { .. } => {
                format!("the heap space ends at object {a}: no slot is left that holds it")
            }
            Refusal::SliceTooShort { .. } => {
                format!("a list, region or slice is too short: {a} needed, {b} lent")
            }
            Refusal::ObjectBytesMismatch { .. } => {
                format!("the objects' sizes add up to {a} bytes, and {b} were given")
            }
            Refusal::HeaderAddressTooLarge { .. } => {
                format!("the header's address {a} is too large for the offset size")
            }
            Refusal::RegionAddressTooLarge { .. } => {
                format!(
                    "the region at {a} of {b} bytes ends past the offset size's largest address"
                )
            }
            Refusal::HeapIdTooLarge { .. } => format!(
                "no ID holds offset {a} and length {b}: they must be below 2^40 and below 2^16"
            ),
            Refusal::HeaderFieldTooLarge { place, .. } => {
                let name = name_of(*place).map_or(String::new(), |name| format!(" {name},"));
                format!(
                    "the header's field at place {a}, counted from 0,{name} is {b}, too large for its width"
                )
            }
            Refusal::OutsideHeap { .. } => format!(
                "{a} is outside the heap: no heap offset below its end, or no number of rows that a root has"
            ),
            _ => format!("a number that no table has, with the values {a} and {b}"),
        }
    }
}

/// 1 is also the answer where the heap has nothing at the ID's place.
fn too_early(end: u64, available: u64) -> String {
    let (a, b) = (grouped(end), count(available, "byte"));
    let are = if available == 1 { "is" } else { "are" };
    match (end, available) {
        (1, 0) => "nothing to read: the end expected is 1, and 0 bytes are there; \
                   the ID is empty, or the heap has no root block"
            .into(),
        _ if end <= available => format!(
            "no block holds the ID's place, which ends at heap offset {a}; the file has {b}"
        ),
        _ => format!("the bytes end too early: the end expected is {a}, and {b} {are} there"),
    }
}

impl fmt::Display for Refusal {
    fn fmt(&self, f: &mut fmt::Formatter<'_>) -> fmt::Result {
        write!(f, "refused by {}: {}", self.number(), self.words())
    }
}

impl std::error::Error for Refusal {}

#[cfg(test)]
mod tests {
    use super::*;

    /// Numbers and values as the table in docs/RULES.md has them: 15 stands there twice.
    const TABLE: [(u32, u64, u64); 21] = [
        (1, 5120, 4096),
        (2, 3, 0),
        (3, 16, 0),
        (4, 0, 0),
        (5, 255, 0),
        (6, 2, 0),
        (7, 0xDEAD_BEEF, 0x1777_0551),
        (8, 0, 0),
        (9, u64::MAX, 22),
        (10, 64, 0),
        (11, 7, 65_515),
        (12, 1_234_567, 0),
        (13, 8, 7),
        (14, 1003, 1002),
        (15, 65_535, 0),
        (15, 65_000, 1024),
        (16, 1 << 40, 0),
        (17, 18, 65_536),
        (18, 0x1777_0551, 0xDEAD_BEEF),
        (19, 40, 4136),
        (20, 1 << 40, 0),
    ];

    #[test]
    fn number_and_values_come_back() {
        for (number, first, second) in TABLE {
            let refusal = Refusal::new(number, first, second);
            assert_eq!(
                (refusal.number(), refusal.values()),
                (number, (first, second))
            );
            assert!(!matches!(refusal, Refusal::Other { .. }), "{number}");
        }
    }

    #[test]
    fn every_number_has_a_cause() {
        for number in 0..=Refusal::NUMBERS[19] + 1 {
            let cause = Refusal::cause(number);
            assert_eq!(cause.is_some(), Refusal::NUMBERS.contains(&number));
        }
        for (number, first, second) in [(4, 0, 0), (8, 0, 0)] {
            let words = Refusal::new(number, first, second).words();
            assert_eq!(Refusal::cause(number), Some(&words[..]), "it has no values");
        }
    }

    #[test]
    fn every_number_has_words_of_its_own() {
        let words: std::collections::HashSet<String> =
            TABLE.map(|(n, a, b)| Refusal::new(n, a, b).words()).into();
        assert_eq!(words.len(), TABLE.len());
        assert_eq!(
            std::collections::HashSet::from(Refusal::NUMBERS),
            TABLE.map(|row| row.0).into()
        );
        assert!(Refusal::NUMBERS.is_sorted());
        for number in [0, Refusal::NUMBERS[19] + 1] {
            assert_eq!(
                Refusal::new(number, 1000, 2).to_string(),
                format!(
                    "refused by {number}: a number that no table has, with the values 1,000 and 2"
                )
            );
        }
    }

    #[test]
    fn an_answer_is_taken_from_the_slot() {
        let mut slot = [0; 16];
        slot[0] = 5;
        slot[8] = 7;
        assert_eq!(Refusal::answered(0, slot), Ok((5, 7)));
        assert_eq!(Refusal::answered(13, slot), Err(Refusal::new(13, 5, 7)));
    }

    #[test]
    fn one_byte_is_there_two_are() {
        assert_eq!(
            Refusal::new(1, 5, 1).to_string(),
            "refused by 1: the bytes end too early: the end expected is 5, and 1 byte is there"
        );
        assert_eq!(
            Refusal::new(1, 23, 100).to_string(),
            "refused by 1: no block holds the ID's place, which ends at heap offset 23; the file has 100 bytes"
        );
    }
}
