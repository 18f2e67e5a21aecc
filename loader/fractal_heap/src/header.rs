//! What a heap's header says.
use crate::{Heap, Refusal, Totals, part};
use fractal_heap_sys as sys;

/// How many fields every header has between its version and its checksum.
const FIELDS: usize = sys::FRACTAL_HEAP_HEADER_FIELDS as usize;

/// How many numbers are told of a header.
const NUMBERS: usize = sys::FRACTAL_HEAP_HEADER_NUMBERS as usize;

/// The fields' names in the HDF5 File Format Specification, in header order.
const NAMES: [&str; FIELDS] = [
    "Heap ID Length",
    "I/O Filters' Encoded Length",
    "Flags",
    "Maximum Size of Managed Objects",
    "Next Huge Object ID",
    "v2 B-tree Address of Huge Objects",
    "Amount of Free Space in Managed Blocks",
    "Address of Managed Block Free Space Manager",
    "Amount of Managed Space in Heap",
    "Amount of Allocated Managed Space in Heap",
    "Offset of Direct Block Allocation Iterator in Managed Space",
    "Number of Managed Objects in Heap",
    "Size of Huge Objects in Heap",
    "Number of Huge Objects in Heap",
    "Size of Tiny Objects in Heap",
    "Number of Tiny Objects in Heap",
    "Table Width",
    "Starting Block Size",
    "Maximum Direct Block Size",
    "Maximum Heap Size",
    "Starting # of Rows in Root Indirect Block",
    "Address of Root Block",
    "Current # of Rows in Root Indirect Block",
];

/// The name of the field at a place in header order, counted from 0.
pub(crate) fn name_of(place: u64) -> Option<&'static str> {
    NAMES.get(usize::try_from(place).ok()?).copied()
}

/// The fields of a heap's header between its version and its checksum, in the order in which the header has them, but for
/// the position of the filters' information, which stands first of what a header with filters has more. After each is its
/// name in the HDF5 File Format Specification.
///
/// Addresses are as they are stored: they count from the superblock, and [`Heap::defined`] tells whether there is one. What
/// is counted in objects or bytes is not compared with what the file has: the header says it.
#[derive(Debug, Clone, Copy, PartialEq, Eq)]
#[non_exhaustive]
pub struct Header {
    /// How many bytes each ID of the heap has: Heap ID Length.
    pub heap_id_length: u16,
    /// How many bytes of the header the filters take; 0 where the heap has none: I/O Filters' Encoded Length.
    pub io_filter_encoded_length: u16,
    /// Bits: [`IDS_HAVE_WRAPPED`](Header::IDS_HAVE_WRAPPED) and [`BLOCKS_HAVE_CHECKSUMS`](Header::BLOCKS_HAVE_CHECKSUMS);
    /// the others are reserved: Flags.
    pub flags: u8,
    /// The most bytes that a managed object may have, a longer one being huge: Maximum Size of Managed Objects.
    pub max_managed_object_size: u32,
    /// The number that the next huge object gets: Next Huge Object ID.
    pub next_huge_object_id: u64,
    /// The address of the index of huge objects: v2 B-tree Address of Huge Objects.
    pub btree_huge_objects_address: u64,
    /// Free bytes in the managed blocks, those of the managed space that are not in the file, too: Amount of Free Space in
    /// Managed Blocks.
    pub free_space_managed_blocks: u64,
    /// The address of what keeps account of the free space: Address of Managed Block Free Space Manager.
    pub managed_block_free_space_manager_address: u64,
    /// Bytes of the heap space that the root spans: Amount of Managed Space in Heap.
    pub managed_space_in_heap: u64,
    /// Bytes of the direct blocks that are in the file: Amount of Allocated Managed Space in Heap.
    pub allocated_managed_space_in_heap: u64,
    /// The heap offset, in bytes, where the next direct block is to be: Offset of Direct Block Allocation Iterator in
    /// Managed Space.
    pub direct_block_allocation_iterator_offset: u64,
    /// How many managed objects there are: Number of Managed Objects in Heap.
    pub managed_objects_count: u64,
    /// Bytes of all huge objects: Size of Huge Objects in Heap.
    pub huge_objects_size: u64,
    /// How many huge objects there are: Number of Huge Objects in Heap.
    pub huge_objects_count: u64,
    /// Bytes of all tiny objects: Size of Tiny Objects in Heap.
    pub tiny_objects_size: u64,
    /// How many tiny objects there are: Number of Tiny Objects in Heap.
    pub tiny_objects_count: u64,
    /// How many blocks a row of the doubling table has: Table Width.
    pub table_width: u16,
    /// Bytes of a block in each of the first two rows: Starting Block Size.
    pub starting_block_size: u64,
    /// Bytes of the largest direct block: Maximum Direct Block Size.
    pub max_direct_block_size: u64,
    /// How many bits a heap offset has: Maximum Heap Size.
    pub max_heap_size: u16,
    /// How many rows a root indirect block has when it is made; 0 stands for as many as there can be: Starting # of Rows in
    /// Root Indirect Block.
    pub start_root_rows: u16,
    /// The address of the root block, direct or indirect: Address of Root Block.
    pub root_block_address: u64,
    /// How many rows the root indirect block has; 0 where the root is a direct block: Current # of Rows in Root Indirect
    /// Block.
    pub current_rows_in_root_indirect_block: u16,
    /// Where the filters' information begins, in bytes from the start of [`Heap::file`]; it has
    /// [`io_filter_encoded_length`](Header::io_filter_encoded_length) bytes, a Filter Pipeline message, which
    /// [`Heap::io_filter_information`] hands out, and is not read. 0 where the heap has no filters: I/O Filter Information.
    pub io_filter_information_position: u64,
    /// Bytes of the root block once it is filtered, where it is a direct block; 0 where the heap has no filters: Size of
    /// Filtered Root Direct Block.
    pub filtered_root_direct_block_size: u64,
    /// Bits: each stands for a filter, the lowest for the first, and is set where the root, a direct block, was not put
    /// through it; 0 where the heap has no filters: I/O Filter Mask.
    pub io_filter_mask: u32,
}

/// What was written of a header.
#[derive(Debug, Clone, Copy, PartialEq, Eq)]
pub struct WrittenHeader {
    /// How many bytes it has, from its signature to its checksum.
    pub length: usize,
    /// Its checksum, which stands in its last four bytes.
    pub checksum: u32,
}

impl Header {
    /// The flag that is set where the IDs of huge objects have wrapped round, so that a free one has to be searched for.
    pub const IDS_HAVE_WRAPPED: u8 = 1;
    /// The flag that is set where direct blocks have checksums.
    pub const BLOCKS_HAVE_CHECKSUMS: u8 = 2;

    /// How many bytes a header without filters has in a file with these two sizes, which are 2, 4 or 8.
    pub const fn length(offset_size: u8, length_size: u8) -> usize {
        26 + 12 * length_size as usize + 3 * offset_size as usize
    }

    /// How many bytes stand before the objects of a direct block, in a heap that is planned, at this offset size.
    pub const fn direct_block_front(offset_size: u8) -> u32 {
        14 + offset_size as u32
    }

    /// Writes the header of a heap without filters into the first [`length`](Header::length) bytes of `bytes`; those behind
    /// them keep their content. What is written is what [`Heap::header`] reads, and a header without filters that was read
    /// is written byte for byte as it was; both are proved of the function that is called for it. What only a header with
    /// filters has is neither tested nor written, and is read as 0.
    ///
    /// It is refused, and nothing is written, by 2 and 3 where a size is not 2, 4 or 8; by 8 where the length of the
    /// filters is not 0; by 17 where a field of an address or a length is above the largest number of its width, with the
    /// first such; by 13 where `bytes` are too few. An undefined address is all ones in `offset_size` bytes, so that 2^64 -
    /// 1 is refused at 2 and 4.
    ///
    /// ```
    /// use fractal_heap::{Header, Heap, OpenPlan, Refusal};
    ///
    /// let mut plan = OpenPlan::open(8)?;
    /// plan.add(28)?;
    /// let mut file = [0; 200];
    /// let header = plan.header(Header::length(8, 8) as u64); // of a region behind it
    /// let written = header.write(8, 8, &mut file)?;
    /// assert_eq!(written.length, 146);
    /// assert_eq!(written.checksum, fractal_heap::checksum(&file[..142]));
    ///
    /// let heap = Heap { file: &file, header_at: 0, offset_size: 8, length_size: 8 };
    /// assert_eq!(heap.header()?, header);
    ///
    /// // Lengths of two bytes hold no largest direct block of the fixed geometry.
    /// let refusal = header.write(8, 2, &mut file).unwrap_err();
    /// assert_eq!(refusal, Refusal::HeaderFieldTooLarge { place: 18, value: 65_536 });
    /// # Ok::<(), Refusal>(())
    /// ```
    pub fn write(
        &self,
        offset_size: u8,
        length_size: u8,
        bytes: &mut [u8],
    ) -> Result<WrittenHeader, Refusal> {
        let (fields, mut slot) = (self.numbers(), [0; 16]);
        // SAFETY: pointers and lengths are those of a list that is only read, of a slice that is lent for writing, and of a
        // slot of our own.
        let number = unsafe {
            sys::fractal_heap_write_header(
                fields.as_ptr(),
                fields.len(),
                offset_size,
                length_size,
                bytes.as_mut_ptr(),
                bytes.len(),
                slot.as_mut_ptr(),
                slot.len(),
            )
        };
        if number == sys::FRACTAL_HEAP_SLICE_TOO_SHORT {
            // List and slot have all places; the two values of this refusal are not put into the slot.
            return Err(Refusal::SliceTooShort {
                needed: Header::length(offset_size, length_size) as u64,
                lent: bytes.len() as u64,
            });
        }
        let (length, checksum) = Refusal::answered(number, slot)?;
        Ok(WrittenHeader {
            length: length as usize, // at most what was lent
            checksum: narrow(checksum),
        })
    }

    /// The fields in header order.
    fn numbers(&self) -> [u64; FIELDS] {
        [
            self.heap_id_length.into(),
            self.io_filter_encoded_length.into(),
            self.flags.into(),
            self.max_managed_object_size.into(),
            self.next_huge_object_id,
            self.btree_huge_objects_address,
            self.free_space_managed_blocks,
            self.managed_block_free_space_manager_address,
            self.managed_space_in_heap,
            self.allocated_managed_space_in_heap,
            self.direct_block_allocation_iterator_offset,
            self.managed_objects_count,
            self.huge_objects_size,
            self.huge_objects_count,
            self.tiny_objects_size,
            self.tiny_objects_count,
            self.table_width.into(),
            self.starting_block_size,
            self.max_direct_block_size,
            self.max_heap_size.into(),
            self.start_root_rows.into(),
            self.root_block_address,
            self.current_rows_in_root_indirect_block.into(),
        ]
    }
}

/// The fixed geometry, in which planning places objects.
const TABLE_WIDTH: u16 = 4;
const STARTING_BLOCK: u64 = 1024;
const LARGEST_DIRECT_BLOCK: u32 = 65_536;
const HEAP_BITS: u16 = 40;

impl Totals {
    /// The header of a heap that is planned so, with so many objects, whose region is written to `region_at`: without
    /// filters, of the fixed geometry, with IDs of eight bytes, direct blocks with checksums, no huge and no tiny objects,
    /// and no manager of free space.
    ///
    /// # Panics
    ///
    /// Where the root has more than 65,535 rows, which no plan has.
    pub fn header(&self, objects: u64, region_at: u64, offset_size: u8) -> Header {
        let undefined = undefined(offset_size).unwrap_or_default(); // 0 is the width of no file
        let block_header = Header::direct_block_front(offset_size);
        Header {
            heap_id_length: 8,
            io_filter_encoded_length: 0,
            flags: Header::BLOCKS_HAVE_CHECKSUMS,
            max_managed_object_size: LARGEST_DIRECT_BLOCK - block_header,
            next_huge_object_id: 0,
            btree_huge_objects_address: undefined,
            free_space_managed_blocks: self.free_space,
            managed_block_free_space_manager_address: undefined,
            managed_space_in_heap: self.managed_space,
            allocated_managed_space_in_heap: self.allocated_space,
            direct_block_allocation_iterator_offset: self.allocation_iterator,
            managed_objects_count: objects,
            huge_objects_size: 0,
            huge_objects_count: 0,
            tiny_objects_size: 0,
            tiny_objects_count: 0,
            table_width: TABLE_WIDTH,
            starting_block_size: STARTING_BLOCK,
            max_direct_block_size: LARGEST_DIRECT_BLOCK.into(),
            max_heap_size: HEAP_BITS,
            start_root_rows: 1,
            // Where that is past every address, it is none: the undefined one at an offset size of 8, and too large for
            // the header's writer at a smaller one.
            root_block_address: region_at.saturating_add(self.root_place),
            current_rows_in_root_indirect_block: narrow(self.root_rows),
            io_filter_information_position: 0,
            filtered_root_direct_block_size: 0,
            io_filter_mask: 0,
        }
    }
}

/// The undefined address of a file, all ones in its width, if its addresses have one.
fn undefined(offset_size: u8) -> Option<u64> {
    let unused = 64u32.saturating_sub(8 * u32::from(offset_size));
    u64::MAX.checked_shr(unused)
}

/// A field of one, two or four bytes. It is proved that its number fits.
fn narrow<T: TryFrom<u64>>(number: u64) -> T {
    let narrow = T::try_from(number).ok();
    narrow.expect("a field's number has no more bytes than the field")
}

impl<'f> Heap<'f> {
    /// What the heap's header says, if it is sound.
    ///
    /// ```
    /// # use fractal_heap::{Header, Heap, OpenPlan, Refusal};
    /// # // The header of a heap without objects, and so without a block.
    /// # let mut file = vec![0; Header::length(8, 8)];
    /// # let mut none = OpenPlan::open(8)?.header(0);
    /// # none.root_block_address = u64::MAX;
    /// # none.write(8, 8, &mut file)?;
    /// let heap = Heap { file: &file, header_at: 0, offset_size: 8, length_size: 8 };
    /// let header = heap.header()?;
    /// assert_eq!((header.heap_id_length, header.managed_objects_count), (8, 0));
    /// assert_eq!(heap.defined(header.root_block_address), None); // no objects, no block
    /// # Ok::<(), Refusal>(())
    /// ```
    pub fn header(&self) -> Result<Header, Refusal> {
        let (mut fields, mut slot) = ([0; NUMBERS], [0; 16]);
        // SAFETY: pointers and lengths are those of a slice that is only read, and of a list and a slot of our own.
        let number = unsafe {
            sys::fractal_heap_parse_header(
                self.file.as_ptr(),
                self.file.len(),
                self.header_at,
                self.offset_size,
                self.length_size,
                fields.as_mut_ptr(),
                fields.len(),
                slot.as_mut_ptr(),
                slot.len(),
            )
        };
        Refusal::answered(number, slot)?;
        let mut numbers = fields.into_iter();
        let mut next = || numbers.next().expect("as many numbers as fields");
        // Taken as they stand here, which is their order.
        Ok(Header {
            heap_id_length: narrow(next()),
            io_filter_encoded_length: narrow(next()),
            flags: narrow(next()),
            max_managed_object_size: narrow(next()),
            next_huge_object_id: next(),
            btree_huge_objects_address: next(),
            free_space_managed_blocks: next(),
            managed_block_free_space_manager_address: next(),
            managed_space_in_heap: next(),
            allocated_managed_space_in_heap: next(),
            direct_block_allocation_iterator_offset: next(),
            managed_objects_count: next(),
            huge_objects_size: next(),
            huge_objects_count: next(),
            tiny_objects_size: next(),
            tiny_objects_count: next(),
            table_width: narrow(next()),
            starting_block_size: next(),
            max_direct_block_size: next(),
            max_heap_size: narrow(next()),
            start_root_rows: narrow(next()),
            root_block_address: next(),
            current_rows_in_root_indirect_block: narrow(next()),
            io_filter_information_position: next(),
            filtered_root_direct_block_size: next(),
            io_filter_mask: narrow(next()),
        })
    }

    /// What the filters of a heap are, as its header has it: a Filter Pipeline message of the HDF5 File Format
    /// Specification. None where the heap has no filters. The header is the heap's own.
    pub fn io_filter_information(&self, header: &Header) -> Option<&'f [u8]> {
        let length = header.io_filter_encoded_length;
        let information = part(
            self.file,
            header.io_filter_information_position,
            length.into(),
        );
        information.filter(|_| length > 0)
    }

    /// An address as a field of the header has it; None where it is undefined, all its bytes being 0xFF.
    pub fn defined(&self, address: u64) -> Option<u64> {
        (address != undefined(self.offset_size)?).then_some(address)
    }
}

#[cfg(test)]
mod tests {
    use super::*;

    #[test]
    fn the_undefined_address_is_all_ones_in_its_width() {
        for (offset_size, undefined) in [(2, 0xFFFF), (4, 0xFFFF_FFFF), (8, u64::MAX)] {
            let heap = Heap {
                file: &[],
                header_at: 0,
                offset_size,
                length_size: 8,
            };
            assert_eq!(heap.defined(undefined), None);
            for address in [0, 1, undefined - 1] {
                assert_eq!(heap.defined(address), Some(address));
            }
        }
    }
}
