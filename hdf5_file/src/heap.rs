//! The messages of attributes in dense storage: objects of a fractal heap, III.G, managed or huge.
use crate::cursor::Bytes;
use crate::tree::{ByKey, Tree};
use crate::{Uncovered, Unreadable};
use fractal_heap::{Error, Header, Heap, Refusal};
use std::cell::Cell;

/// A heap, by the address of its header.
pub struct Messages<'f> {
    bytes: Bytes<'f>,
    heap: Heap<'f>,
    /// The direct block that was tested last, with all blocks on the way to it.
    tested: Cell<Option<Span>>,
    /// Whether checksums cover its direct blocks, when its header was asked for that.
    have_checksums: Cell<Option<bool>>,
}

/// Part of a heap, from one offset up to another.
#[derive(Debug, Clone, Copy, PartialEq, Eq)]
struct Span {
    start: u64,
    end: u64,
}

/// Table width, starting block and largest direct block of the heaps that HDF5 keeps attributes in.
const GEOMETRY: (u16, u64, u64) = (4, 1024, 65_536);

/// The direct block of a heap offset under a header of the usual geometry: a root without rows is one of the starting size;
/// else the doubling table has two rows with blocks of the starting size, and then in each row blocks of twice the size, and
/// a block above the largest direct one is indirect, and has such rows itself.
fn direct_block(header: &Header, offset: u64) -> Option<Span> {
    let (width, smallest, largest) = GEOMETRY;
    let sizes = (header.starting_block_size, header.max_direct_block_size);
    if (header.table_width, sizes) != (width, (smallest, largest)) {
        return None;
    }
    if header.current_rows_in_root_indirect_block == 0 {
        let (start, end) = (0, smallest);
        return (offset < end).then_some(Span { start, end });
    }
    let width = u64::from(width);
    let mut base = 0u64; // where the block begins whose rows are gone through
    loop {
        let (mut row_start, mut size) = (base, smallest);
        for row in 0.. {
            size = if row > 1 { size.checked_mul(2)? } else { size };
            let behind = row_start.checked_add(size.checked_mul(width)?)?;
            if offset < behind {
                break;
            }
            row_start = behind;
        }
        let start = row_start + (offset - row_start) / size * size;
        if size <= largest {
            let end = start.checked_add(size)?;
            return Some(Span { start, end });
        }
        base = start;
    }
}

/// Where a huge object is.
struct Extent {
    address: u64,
    length: u64,
}

/// Whether an ID is a huge object's: bits 4 and 5 of its first byte, 'Fractal Heap ID'.
pub fn is_huge(id: &[u8; 8]) -> bool {
    id[0] >> 4 & 3 == 1
}

impl<'f> Messages<'f> {
    pub fn new(bytes: Bytes<'f>, address: u64) -> Self {
        let heap = Heap {
            file: bytes.all,
            header_at: address,
            offset_size: bytes.offset_size,
            length_size: bytes.length_size,
        };
        Messages {
            bytes,
            heap,
            tested: Cell::new(None),
            have_checksums: Cell::new(None),
        }
    }

    /// What the heap's header says.
    pub fn header(&self) -> Result<Header, Unreadable> {
        let header = self.heap.header();
        header.map_err(|why| self.not_read(why.into()))
    }

    /// What is said where no block was looked at: the only signature so far is the header's.
    fn not_read(&self, why: fractal_heap::Error) -> Unreadable {
        match why {
            Error::Refused(Refusal::InvalidSignature) => Unreadable::Signature {
                what: "heap's header",
                at: self.heap.header_at,
            },
            why => Unreadable::Heap { why, block: None },
        }
    }

    /// Where a managed object begins in the heap, by its ID.
    pub fn offset(&self, id: &[u8; 8]) -> Option<u64> {
        let decoded = self.heap.decode_managed_id(id).ok();
        decoded.map(|(offset, _)| offset).filter(|_| !is_huge(id))
    }

    /// The message of an ID, and where it lies if no checksum covers it.
    pub fn read(&self, id: &[u8; 8]) -> Result<(&'f [u8], Option<Uncovered>), Unreadable> {
        match is_huge(id) {
            false => {
                let message = self.managed(id)?;
                let uncovered = match self.have_checksums()? {
                    true => None,
                    false => Some(Uncovered::BlocksWithoutChecksums),
                };
                Ok((message, uncovered))
            }
            true => Ok((self.huge(id)?, Some(Uncovered::HugeObject))),
        }
    }

    /// Whether checksums cover the direct blocks. III.G, 'Fractal Heap Header', Flags.
    fn have_checksums(&self) -> Result<bool, Unreadable> {
        if let Some(known) = self.have_checksums.get() {
            return Ok(known);
        }
        let known = self.header()?.flags & Header::BLOCKS_HAVE_CHECKSUMS != 0;
        self.have_checksums.set(Some(known));
        Ok(known)
    }

    /// A managed object, by the proved reader that tests every block on the way. One that lies in the direct block of the
    /// object before is read by the one that does not, since all these blocks were tested then: a large block has many
    /// small objects. That it comes to this block again stands on `direct_block`, which is not proved, but held to the proved
    /// function that finds a slot; so this is done at the usual geometry alone, which is that function's, and not of an
    /// object without bytes, which is in no block.
    fn managed(&self, id: &[u8; 8]) -> Result<&'f [u8], Unreadable> {
        let heap = &self.heap;
        let decoded = heap.decode_managed_id(id);
        let (offset, length) = decoded.map_err(|why| self.not_read(why))?;
        let end = offset.saturating_add(length);
        let is_in = |block: Span| length > 0 && block.start <= offset && end <= block.end;
        if self.tested.get().is_some_and(is_in) {
            let read = heap.read_managed_object_unchecked(id);
            return read.map_err(|why| Unreadable::Heap { why, block: None });
        }
        let read = heap.read_managed_object(id, heap.header_at);
        let object = read.map_err(|why| match heap.stopping_block(id, heap.header_at) {
            Ok(block) => Unreadable::Heap {
                why,
                block: Some(block.address),
            },
            Err(_) => self.not_read(why),
        })?;
        if length > 0 {
            self.tested.set(direct_block(&self.header()?, offset));
        }
        Ok(object)
    }

    /// A huge object, which has its own place in the file, and no checksum.
    fn huge(&self, id: &[u8; 8]) -> Result<&'f [u8], Unreadable> {
        let header = self.header()?;
        let why = match (header.heap_id_length, header.io_filter_encoded_length) {
            (8, 0) => None,
            (8, _) => Some("it is a huge object of a heap with filters"),
            _ => Some("the heap's IDs have not 8 bytes, as those of attributes have"),
        };
        if let Some(why) = why {
            return Err(Unreadable::NotHere { why });
        }
        let extent = self.extent(&header, id)?;
        self.bytes
            .at("huge object", extent.address)?
            .take(extent.length)
    }

    /// 'Fractal Heap ID for Huge Objects': sub-type 3 has address and length in the ID, where it has room for them, and
    /// sub-type 1 the key of a record in an index.
    fn extent(&self, header: &Header, id: &[u8; 8]) -> Result<Extent, Unreadable> {
        let place = &id[1..];
        let mut at = self.bytes.over("ID of a huge object", 0, place);
        if self.bytes.offset_size + self.bytes.length_size <= place.len() as u8 {
            let (address, length) = (at.defined()?, at.length()?);
            return Ok(Extent { address, length });
        }
        let key = at.number(place.len() as u64)?;
        let (what, why) = ("heap", "it has no huge object of this ID");
        let none = Unreadable::Contradicts { what, why };
        let index = self.heap.defined(header.btree_huge_objects_address);
        let index = Tree::<ByKey>::open(self.bytes, index.ok_or(none)?)?;
        let record = index.find(|record| Ok(key.cmp(&record.key)))?.ok_or(none)?;
        Ok(Extent {
            address: record.address,
            length: record.length,
        })
    }
}

#[cfg(test)]
mod tests {
    use super::*;
    use fractal_heap::OpenPlan;
    use fractal_heap_sys::tools_locate;

    /// Of a heap whose root has so many rows.
    fn header(rows: u16) -> Header {
        let mut header = OpenPlan::open(8).unwrap().header(0);
        header.current_rows_in_root_indirect_block = rows;
        header
    }

    // Rows 0 to 7 have direct blocks, and row 8 begins at 4,096 * 2^7; the heap space ends with a block of the largest
    // size, and 2,359,318 is in row 10, which begins at 4,096 * 2^9.
    #[test]
    fn the_direct_block_of_an_offset() {
        for (offset, start, size) in [
            (0, 0, 1024),
            (1023, 0, 1024),
            (4095, 3072, 1024),
            (4096, 4096, 1024),
            (8191, 7168, 1024),
            (8192, 8192, 2048),
            (327_679, 262_144, 65_536),
            (524_287, 458_752, 65_536),
            (524_288, 524_288, 1024),
            (2_359_318, 2_359_296, 65_536),
            ((1 << 40) - 1, (1 << 40) - 65_536, 65_536),
        ] {
            let end = start + size;
            assert_eq!(direct_block(&header(29), offset), Some(Span { start, end }));
        }
        assert_eq!(direct_block(&header(29), u64::MAX), None);
    }

    /// The slot of an offset by the proved descent.
    fn located(offset: u64) -> Span {
        let mut slot = [0; 16];
        // SAFETY: the slot is an array.
        let number = unsafe { tools_locate(offset, slot.as_mut_ptr(), slot.len()) };
        let [start, size] = [0, 8].map(|at| fractal_heap::little_endian(&slot[at..at + 8]));
        assert_eq!(number, 0, "{offset}");
        let end = start + size;
        Span { start, end }
    }

    // Row 16 begins at 4,096 * 2^15. Up to there are 14,192 slots, by hand: four in each of rows 0 to 7, and in each later row
    // four times those of two rows fewer, so that up to 16 rows have 24, 28, 32 (6 to 8), 128, 240, 368, 880, 1,840 (9 to 13),
    // 3,312, 6,832 and 14,192.
    #[test]
    fn the_direct_block_is_the_slot_that_the_proved_descent_finds() {
        let (header, end) = (header(16), 4096 << 15);
        let (mut offset, mut slots) = (0, 0);
        while offset < end {
            let slot = located(offset);
            assert_eq!(slot.start, offset);
            for inside in [offset, slot.end - 1] {
                assert_eq!(located(inside), slot);
                assert_eq!(direct_block(&header, inside), Some(slot), "{inside}");
            }
            (offset, slots) = (slot.end, slots + 1);
        }
        assert_eq!((offset, slots), (end, 14_192));
    }

    #[test]
    fn a_direct_root_is_one_block() {
        let root = Span {
            start: 0,
            end: 1024,
        };
        assert_eq!(direct_block(&header(0), 1023), Some(root));
        assert_eq!(direct_block(&header(0), 1024), None);
    }

    #[test]
    fn another_geometry_has_no_block_here() {
        for rows in [0, 3] {
            let (mut width, mut smallest, mut largest) = (header(rows), header(rows), header(rows));
            width.table_width = 8;
            smallest.starting_block_size = 512;
            largest.max_direct_block_size = 32_768;
            for header in [width, smallest, largest] {
                assert_eq!(direct_block(&header, 0), None);
            }
        }
    }
}
