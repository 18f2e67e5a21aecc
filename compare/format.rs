//! Headers read by the format alone: the HDF5 File Format Specification 3.0, III.G, 'Fractal Heap Header', names their
//! fields in their order and gives the size of each. What the original steps over is held to this, and what it keeps has
//! to stand here, too. A header with filters, whose checksum the original seeks where it is not, is held to this alone.
use crate::made::Heap;
use crate::ours::{View, view_of};
use original::{Answer, Header, jenkins_lookup3};

/// How many bytes a field has: so many, or what the file's superblock says of its offsets or its lengths.
#[derive(Clone, Copy)]
enum Size {
    Bytes(usize),
    Offsets,
    Lengths,
}
use Size::{Bytes, Lengths, Offsets};

/// The fields between Version and Checksum of a header without filters.
const FIELDS: [(&str, Size); 23] = [
    ("Heap ID Length", Bytes(2)),
    ("I/O Filters' Encoded Length", Bytes(2)),
    ("Flags", Bytes(1)),
    ("Maximum Size of Managed Objects", Bytes(4)),
    ("Next Huge Object ID", Lengths),
    ("v2 B-tree Address of Huge Objects", Offsets),
    ("Amount of Free Space in Managed Blocks", Lengths),
    ("Address of Managed Block Free Space Manager", Offsets),
    ("Amount of Managed Space in Heap", Lengths),
    ("Amount of Allocated Managed Space in Heap", Lengths),
    (
        "Offset of Direct Block Allocation Iterator in Managed Space",
        Lengths,
    ),
    ("Number of Managed Objects in Heap", Lengths),
    ("Size of Huge Objects in Heap", Lengths),
    ("Number of Huge Objects in Heap", Lengths),
    ("Size of Tiny Objects in Heap", Lengths),
    ("Number of Tiny Objects in Heap", Lengths),
    ("Table Width", Bytes(2)),
    ("Starting Block Size", Lengths),
    ("Maximum Direct Block Size", Lengths),
    ("Maximum Heap Size", Bytes(2)),
    ("Starting # of Rows in Root Indirect Block", Bytes(2)),
    ("Address of Root Block", Offsets),
    ("Current # of Rows in Root Indirect Block", Bytes(2)),
];

/// How many fields every header has, and from how many numbers one is written.
pub const FIELD_COUNT: usize = FIELDS.len();

/// How many numbers are told of a header: behind these where its filter information begins, the size of a filtered root
/// and its mask, all 0 where there are no filters.
pub const COUNT: usize = FIELD_COUNT + 3;

/// Bytes of the signature and the version, of a filter mask, and of a checksum.
const FRONT: usize = b"FRHP\0".len();
const MASK: usize = 4;
const SUM: usize = 4;

/// The place of I/O Filters' Encoded Length in a header, and its bytes.
const FILTERS_LENGTH: std::ops::Range<usize> = FRONT + 2..FRONT + 4;

/// How many bytes each field has.
pub fn sizes(offset_size: u8, length_size: u8) -> [usize; FIELD_COUNT] {
    FIELDS.map(|(_, size)| match size {
        Bytes(n) => n,
        Offsets => offset_size.into(),
        Lengths => length_size.into(),
    })
}

/// How many bytes a header has before its checksum: the fields of every header and, where the filters' encoded length is
/// not 0, the size of a filtered root, its mask, and as many bytes as it says.
pub fn before_sum([w, l]: [u8; 2], filters: u16) -> usize {
    let fields = FRONT + sizes(w, l).iter().sum::<usize>();
    match usize::from(filters) {
        0 => fields,
        length => fields + usize::from(l) + MASK + length,
    }
}

/// The filters' encoded length of the header that begins these bytes, if they have it.
pub fn filters_length(header: &[u8]) -> Option<u16> {
    let field = header.get(FILTERS_LENGTH)?;
    Some(u16::from_le_bytes([field[0], field[1]]))
}

/// The number in so many bytes.
pub fn number(bytes: &[u8]) -> u64 {
    let highest_first = bytes.iter().rev();
    highest_first.fold(0, |number, &byte| number << 8 | u64::from(byte))
}

/// Which of the fields the original keeps, in the order of its struct.
const KEPT: [usize; 12] = [0, 1, 3, 5, 16, 17, 18, 19, 20, 21, 22, 11];

/// A header that is accepted: its numbers by the format, and what the original has of its fields.
pub struct Parsed {
    pub numbers: [u64; COUNT],
    pub header: Header,
}

impl Parsed {
    /// The fields that begin these bytes; what the original keeps of them has to be the same.
    fn new(header: Header, bytes: &[u8], [w, l]: [u8; 2]) -> Self {
        let mut numbers = [0; COUNT];
        let mut behind = &bytes[FRONT..];
        for (told, size) in numbers.iter_mut().zip(sizes(w, l)) {
            let (field, rest) = behind.split_at(size);
            (*told, behind) = (number(field), rest);
        }
        for (kept, place) in header.fields().into_iter().zip(KEPT) {
            assert_eq!(kept, numbers[place], "the original's {}", FIELDS[place].0);
        }
        Parsed { numbers, header }
    }

    pub fn has_filters(&self) -> bool {
        self.numbers[1] > 0
    }
}

/// The header with filters at a place, if all is there that the original tests before the end of its root's rows: its
/// bytes from its signature on, and the length of its filters.
fn with_filters(view: View<'_>) -> Option<(&[u8], u16)> {
    let widths = [view.offset_size, view.length_size];
    if widths.iter().any(|size| !matches!(size, 2 | 4 | 8)) {
        return None;
    }
    let bytes = view.file.get(usize::try_from(view.at).ok()?..)?;
    let is_whole = bytes.len() >= before_sum(widths, 0) && bytes.starts_with(b"FRHP\0");
    let filters = filters_length(bytes).filter(|&length| is_whole && length > 0)?;
    Some((bytes, filters))
}

/// What the original has of the fields of a header with filters: it accepts them where the checksum is right that it
/// seeks, behind length size and 4 further bytes.
fn of_original(bytes: &[u8], [w, l]: [u8; 2]) -> Header {
    let mut copy = bytes[..before_sum([w, l], 0)].to_vec();
    copy.resize(copy.len() + usize::from(l) + MASK, 0);
    let sum = jenkins_lookup3(&copy);
    copy.extend(sum.to_le_bytes());
    original::parse(&copy, 0, w, l).expect("the fields of a header with filters")
}

/// What parsing has to answer. A header without filters is the original's to answer for, and so is one with filters that
/// is refused up to its root's rows; what is behind these, the format's.
pub fn parsed(view: View) -> Result<Parsed, Answer> {
    let (at, widths) = (view.at, [view.offset_size, view.length_size]);
    let Some((bytes, filters)) = with_filters(view) else {
        let header = original::parse(view.file, at, widths[0], widths[1])?;
        let parsed = Parsed::new(header, &view.file[at as usize..], widths);
        assert!(
            !parsed.has_filters(),
            "a header with filters that ends before them"
        );
        return Ok(parsed);
    };
    let sum_at = before_sum(widths, filters);
    let Some(stored) = bytes.get(sum_at..sum_at + SUM) else {
        return Err((1, at + (sum_at + SUM) as u64, view.file.len() as u64));
    };
    let (stored, computed) = (number(stored), jenkins_lookup3(&bytes[..sum_at]).into());
    if stored != computed {
        return Err((7, stored, computed));
    }
    let mut parsed = Parsed::new(of_original(bytes, widths), bytes, widths);
    let root_at = before_sum(widths, 0);
    let mask_at = root_at + usize::from(widths[1]);
    parsed.numbers[FIELD_COUNT..].copy_from_slice(&[
        at + (mask_at + MASK) as u64,
        number(&bytes[root_at..mask_at]),
        number(&bytes[mask_at..mask_at + MASK]),
    ]);
    Ok(parsed)
}

/// Of a heap.
pub fn parsed_of(heap: &Heap) -> Result<Parsed, Answer> {
    parsed(view_of(heap))
}
