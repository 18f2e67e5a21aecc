// The original, taken in unchanged: `src` is a link to the folder that holds it, made by `build`. Its
// functions are private to their crate, so this root hands them on. Features: `checksum`, not `std`.
// Planner and reader are taken from copies that `build` makes, each text followed by one line:
// `private_plans!();`, since the heap offsets of the placed blocks have no accessor and the root's rows are
// private to their file, and `private_reads!();`, since tiny objects and ID types are. So is the module `mixes`: the
// checksum's file once more, followed by `private_mixes!();`; the module `checksum` stays as it is, since another caller
// of its mixes might change its times.
// For what is not at hand there are stand-ins of ours: this root for the crate `byteorder`, and the modules
// `btree_v2`, `source` and `file_writer`. Every region that is compared is written through the last.
#![allow(dead_code, unused_imports)]
extern crate alloc;
// The reader asks for the crate `byteorder`: this root stands in for it.
extern crate self as byteorder;

macro_rules! private_plans {
    () => {
        impl ManagedPlan {
            pub(crate) fn block_starts(&self) -> Vec<u64> {
                self.directs.iter().map(|b| b.heap_offset).collect()
            }
        }

        pub(crate) fn rows_covering(span: u64) -> Option<u64> {
            root_rows_covering(span).map(|rows| rows as u64)
        }

        pub(crate) fn slot(offset: u64) -> (u64, u64) {
            locate(offset)
        }

        pub(crate) fn rows_span(rows: usize) -> u64 {
            row_offset(rows)
        }

        /// Row, column and start of the table's own slot, and whether it is an indirect block.
        pub(crate) fn table_slot(offset: u64) -> ([u64; 3], bool) {
            let (row, col) = lookup(offset);
            let start = row_offset(row) + col * row_block_size(row);
            ([row as u64, col, start], row >= MAX_DIRECT_ROWS)
        }
    };
}

macro_rules! private_reads {
    () => {
        pub(crate) fn tiny(heap_id_length: u16, id: &[u8]) -> Result<Vec<u8>, FormatError> {
            read_tiny_object(heap_id_length, id)
        }

        pub(crate) fn id_type(id: &[u8]) -> Result<u64, FormatError> {
            FractalHeapHeader::heap_id_type(id).map(|kind| match kind {
                HeapIdType::Managed => 0,
                HeapIdType::Huge => 1,
                HeapIdType::Tiny => 2,
            })
        }
    };
}

macro_rules! private_mixes {
    () => {
        pub(crate) fn mixed([mut a, mut b, mut c]: [u32; 3]) -> [u32; 3] {
            mix(&mut a, &mut b, &mut c);
            [a, b, c]
        }

        pub(crate) fn final_mixed([mut a, mut b, mut c]: [u32; 3]) -> [u32; 3] {
            final_mix(&mut a, &mut b, &mut c);
            [a, b, c]
        }
    };
}

#[path = "src/bytes.rs"]
mod bytes;
#[path = "src/checksum.rs"]
mod checksum;
#[path = "src/convert.rs"]
mod convert;
#[path = "src/error.rs"]
mod error;
#[path = "fractal_heap.rs"]
mod fractal_heap;
#[path = "planner.rs"]
mod fractal_heap_write;
#[path = "mixes.rs"]
mod mixes;

/// What the reader takes of the crate `byteorder`.
pub trait ByteOrder {
    fn read_u32(bytes: &[u8]) -> u32;
}

pub struct LittleEndian;

impl ByteOrder for LittleEndian {
    fn read_u32(bytes: &[u8]) -> u32 {
        u32::from_le_bytes(bytes[..4].try_into().unwrap())
    }
}

/// Ours: only huge objects need it, and they are never read.
mod btree_v2 {
    use crate::{error::FormatError, source::Source};

    pub(crate) struct BTreeV2Header {
        pub tree_type: u8,
        pub record_size: u16,
    }

    pub(crate) struct BTreeV2Record {
        pub data: Vec<u8>,
    }

    type Records = Result<Vec<BTreeV2Record>, FormatError>;

    impl BTreeV2Header {
        pub fn parse(_: &[u8], _: usize, _: u8, _: u8) -> Result<Self, FormatError> {
            unreachable!("huge objects are not read")
        }

        pub fn parse_from_source<S>(_: &S, _: u64, _: u8, _: u8) -> Result<Self, FormatError>
        where
            S: Source + ?Sized,
        {
            unreachable!("huge objects are not read")
        }
    }

    pub(crate) fn collect_btree_v2_records(_: &[u8], _: &BTreeV2Header, _: u8, _: u8) -> Records {
        unreachable!("huge objects are not read")
    }

    pub(crate) fn collect_btree_v2_records_from_source<S>(
        _: &S,
        _: &BTreeV2Header,
        _: u8,
        _: u8,
    ) -> Records
    where
        S: Source + ?Sized,
    {
        unreachable!("huge objects are not read")
    }
}

/// Ours: nothing is read through a source.
mod source {
    pub(crate) trait Source {
        fn len(&self) -> u64;
        fn read_metadata_at(&self, at: u64, n: usize) -> Result<Vec<u8>, crate::FormatError>;
    }
}

/// Ours, by the rules' two facts: the original's file is not at hand.
mod file_writer {
    pub(crate) fn write_offset(buf: &mut Vec<u8>, value: u64, size: u8) {
        assert!(matches!(size, 2 | 4 | 8), "width {size}");
        buf.extend_from_slice(&value.to_le_bytes()[..size.into()]);
    }

    pub(crate) fn write_undef_offset(buf: &mut Vec<u8>, size: u8) {
        write_offset(buf, u64::MAX, size);
    }
}

pub use checksum::jenkins_lookup3;
pub use error::FormatError;
use fractal_heap::FractalHeapHeader;
use fractal_heap_write::{ManagedPlan, PlanRefusal};

/// An answer in numbers: the refusal's number, 0 where there is none, and two values.
pub type Answer = (u32, u64, u64);

fn refused(e: FormatError) -> Answer {
    match e {
        FormatError::UnexpectedEof {
            expected,
            available,
        } => (1, expected as u64, available as u64),
        FormatError::InvalidOffsetSize(size) => (2, size.into(), 0),
        FormatError::InvalidLengthSize(size) => (3, size.into(), 0),
        FormatError::InvalidFractalHeapSignature => (4, 0, 0),
        FormatError::InvalidFractalHeapVersion(version) => (5, version.into(), 0),
        FormatError::InvalidHeapIdType(kind) => (6, kind.into(), 0),
        FormatError::ChecksumMismatch { expected, computed } => {
            (7, expected.into(), computed.into())
        }
        FormatError::UnsupportedFilteredHeapObject => (8, 0, 0),
        FormatError::OffsetOverflow { offset, length } => (9, offset, length),
        FormatError::ChunkedReadError(why) if why.contains("recursion depth") => (10, 64, 0),
        other => panic!("no number for {other:?}"),
    }
}

/// The words a, b and c after the mix of a group.
pub fn mix(words: [u32; 3]) -> [u32; 3] {
    mixes::mixed(words)
}

/// The words after the final mix.
pub fn final_mix(words: [u32; 3]) -> [u32; 3] {
    mixes::final_mixed(words)
}

fn value(r: Result<u64, FormatError>) -> Answer {
    r.map_or_else(refused, |v| (0, v, 0))
}

pub fn ensure_len(data: &[u8], offset: usize, needed: usize) -> Answer {
    value(bytes::ensure_len(data, offset, needed).map(|()| 0))
}

pub fn read_offset(data: &[u8], pos: usize, size: u8) -> Answer {
    value(bytes::read_offset(data, pos, size))
}

pub fn read_length(data: &[u8], pos: usize, size: u8) -> Answer {
    value(bytes::read_length(data, pos, size))
}

pub fn is_undefined_addr(addr: u64, size: u8) -> bool {
    convert::is_undefined_addr(addr, size)
}

pub fn to_usize(value: u64) -> usize {
    convert::TryToUsize::to_usize(value).expect("64-bit host")
}

/// A plan: the objects' heap offsets, the placed blocks' heap offsets, and the totals in the order of
/// the rules: block count, region size, root rows, the root's place in the region, managed, allocated
/// and free space, iterator.
#[derive(Debug, PartialEq, Eq)]
pub struct Plan {
    pub offsets: Vec<u64>,
    pub starts: Vec<u64>,
    pub totals: [u64; 8],
}

/// A plan that the original can write.
pub struct Planned {
    plan: ManagedPlan,
    objects: usize,
}

/// Plans; none where the heap space ends: the original does not say at which object.
pub fn planned(sizes: &[u64], offset_size: u8) -> Option<Planned> {
    let objects = sizes.len();
    match ManagedPlan::new(sizes, offset_size) {
        Ok(plan) => Some(Planned { plan, objects }),
        Err(PlanRefusal::HeapSpace) => None,
        Err(other) => panic!("no number for {other:?}"),
    }
}

impl Planned {
    pub fn region_size(&self) -> u64 {
        self.plan.region_size()
    }

    /// The root's place is its address less that of the region.
    pub fn told(&self, region_at: u64) -> Plan {
        let p = &self.plan;
        let starts = p.block_starts();
        Plan {
            offsets: (0..self.objects).map(|i| p.heap_offset(i)).collect(),
            totals: [
                starts.len() as u64,
                p.region_size(),
                p.root_rows().into(),
                p.root_address(region_at) - region_at,
                p.managed_space(),
                p.allocated_space(),
                p.free_space(),
                p.allocation_iterator(),
            ],
            starts,
        }
    }

    pub fn serialize(&self, objects: &[&[u8]], region_at: u64, header_at: u64) -> Vec<u8> {
        self.plan.serialize(objects, region_at, header_at)
    }
}

/// The plan, or none where the heap space ends.
pub fn plan(sizes: &[u64], offset_size: u8) -> Option<Plan> {
    planned(sizes, offset_size).map(|p| p.told(0))
}

/// Plans, and hands back the region's size alone: for times, and for lists that are only accepted or not.
pub fn plans(sizes: &[u64], offset_size: u8) -> Option<u64> {
    planned(sizes, offset_size).map(|p| p.region_size())
}

/// The region that the original writes for these objects at a region and a header address.
pub fn region(objects: &[&[u8]], offset_size: u8, region_at: u64, header_at: u64) -> Vec<u8> {
    let sizes: Vec<u64> = objects.iter().map(|o| o.len() as u64).collect();
    let plan = planned(&sizes, offset_size).expect("within the heap space");
    plan.serialize(objects, region_at, header_at)
}

/// The rows of a root that spans so many bytes of heap space.
pub fn rows_covering(span: u64) -> Option<u64> {
    fractal_heap_write::rows_covering(span)
}

/// The direct slot of a heap offset below 2^40: where it begins, and its bytes.
pub fn slot(offset: u64) -> (u64, u64) {
    fractal_heap_write::slot(offset)
}

/// What so many rows span.
pub fn rows_span(rows: usize) -> u64 {
    fractal_heap_write::rows_span(rows)
}

/// Row, column and start of the table's own slot that holds an offset, and whether it is an indirect block.
pub fn table_slot(offset: u64) -> ([u64; 3], bool) {
    fractal_heap_write::table_slot(offset)
}

/// A header that was parsed.
pub struct Header(FractalHeapHeader);

pub fn parse(file: &[u8], at: u64, offset_size: u8, length_size: u8) -> Result<Header, Answer> {
    FractalHeapHeader::parse(file, to_usize(at), offset_size, length_size)
        .map(Header)
        .map_err(refused)
}

impl Header {
    /// The twelve fields in the struct's order.
    pub fn fields(&self) -> [u64; 12] {
        let h = &self.0;
        [
            h.heap_id_length.into(),
            h.io_filter_encoded_length.into(),
            h.max_managed_object_size.into(),
            h.btree_huge_objects_address,
            h.table_width.into(),
            h.starting_block_size,
            h.max_direct_block_size,
            h.max_heap_size.into(),
            h.start_root_rows.into(),
            h.root_block_address,
            h.current_rows_in_root_indirect_block.into(),
            h.managed_objects_count,
        ]
    }

    /// Accepted: the offset in the heap and the length.
    pub fn decode(&self, id: &[u8]) -> Answer {
        let decoded = self.0.decode_managed_id(id);
        decoded.map_or_else(refused, |(offset, length)| (0, offset, length))
    }

    /// The object's bytes: the original does not say where they lie.
    pub fn read(&self, file: &[u8], id: &[u8], offset_size: u8) -> Result<Vec<u8>, Answer> {
        let read = self.0.read_managed_object(file, id, offset_size);
        read.map_err(refused)
    }
}

/// The object's bytes out of its ID.
pub fn tiny(heap_id_length: u16, id: &[u8]) -> Result<Vec<u8>, Answer> {
    fractal_heap::tiny(heap_id_length, id).map_err(refused)
}

/// Accepted: 0 managed, 1 huge, 2 tiny.
pub fn id_type(id: &[u8]) -> Answer {
    value(fractal_heap::id_type(id))
}
