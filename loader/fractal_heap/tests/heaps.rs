//! Calls the library from Rust: heaps built in memory, with a direct and with an indirect root, read
//! back at each offset and length size, and the refusals. Expected values are the format's and docs/RULES.md's.
use fractal_heap::{Block, Error, Header, Heap, OpenPlan, Refusal, checksum};

/// The starting block size.
const START: usize = 1024;
/// Where the header lies, then the root block, then the second child of an indirect root.
const AT: usize = 40;
const ROOT: usize = 200;
const SECOND: usize = ROOT + START;
const OBJECT: &[u8] = b"the bytes of one managed object";
const UNDEFINED: u64 = u64::MAX;

/// Both widths of a file.
#[derive(Clone, Copy)]
struct Widths {
    offset: u8,
    length: u8,
}

impl Widths {
    /// Bytes of a header without filters.
    fn header(self) -> usize {
        Header::length(self.offset, self.length)
    }

    /// Bytes of a direct block before its objects.
    fn block_header(self) -> usize {
        14 + usize::from(self.offset)
    }
}

/// Bytes that are put together field by field.
struct Bytes(Vec<u8>);

impl Bytes {
    fn new(signature: &[u8]) -> Self {
        Bytes(signature.to_vec())
    }

    fn put(mut self, width: u8, numbers: &[u64]) -> Self {
        for number in numbers {
            self.0.extend(&number.to_le_bytes()[..width.into()]);
        }
        self
    }

    /// Ends a structure by the checksum of all before it.
    fn sealed(self) -> Vec<u8> {
        let sum = checksum(&self.0);
        self.put(4, &[sum.into()]).0
    }
}

/// The header of an empty heap of the fixed geometry, but for the root's place and rows, which are all that reading looks at.
fn header(w: Widths, root_rows: u16) -> Vec<u8> {
    let mut header = OpenPlan::open(w.offset).unwrap().header(ROOT as u64);
    header.current_rows_in_root_indirect_block = root_rows;
    written(&header, w)
}

fn written(header: &Header, w: Widths) -> Vec<u8> {
    let mut bytes = vec![0; w.header()];
    header.write(w.offset, w.length, &mut bytes).unwrap();
    bytes
}

/// A direct block of 1,024 bytes with one object after its header.
fn direct_block(w: Widths, heap_offset: u64) -> Vec<u8> {
    let mut block = Bytes::new(b"FHDB")
        .put(1, &[0])
        .put(w.offset, &[AT as u64])
        .put(5, &[heap_offset])
        .put(4, &[0])
        .0;
    block.extend(OBJECT);
    block.resize(START, 0);
    // Its checksum covers the whole block with its own field zero.
    let sum = checksum(&block).to_le_bytes();
    block[w.block_header() - 4..w.block_header()].copy_from_slice(&sum);
    block
}

/// An indirect block of one row, whose second child alone is there.
fn indirect_block(w: Widths) -> Vec<u8> {
    Bytes::new(b"FHIB")
        .put(1, &[0])
        .put(w.offset, &[AT as u64])
        .put(5, &[0])
        .put(w.offset, &[UNDEFINED, SECOND as u64, UNDEFINED, UNDEFINED])
        .sealed()
}

/// A file of the given parts, each at its place.
fn file(parts: &[(usize, Vec<u8>)]) -> Vec<u8> {
    let mut bytes = vec![0; SECOND + START];
    for (at, part) in parts {
        bytes[*at..at + part.len()].copy_from_slice(part);
    }
    bytes
}

fn direct_heap(w: Widths) -> Vec<u8> {
    file(&[(AT, header(w, 0)), (ROOT, direct_block(w, 0))])
}

fn indirect_heap(w: Widths) -> Vec<u8> {
    file(&[
        (AT, header(w, 1)),
        (ROOT, indirect_block(w)),
        (SECOND, direct_block(w, START as u64)),
    ])
}

/// The managed ID of OBJECT: 0, the offset in five bytes, the length in two.
fn id_at(offset: usize) -> Vec<u8> {
    Bytes::new(&[0])
        .put(5, &[offset as u64])
        .put(2, &[OBJECT.len() as u64])
        .0
}

fn heap(file: &[u8], w: Widths) -> Heap<'_> {
    Heap {
        file,
        header_at: AT as u64,
        offset_size: w.offset,
        length_size: w.length,
    }
}

/// By the checked reader.
fn read<'f>(file: &'f [u8], w: Widths, id: &[u8]) -> Result<&'f [u8], Error> {
    heap(file, w).read_managed_object(id, AT as u64)
}

fn unchecked<'f>(file: &'f [u8], w: Widths, id: &[u8]) -> Result<&'f [u8], Error> {
    heap(file, w).read_managed_object_unchecked(id)
}

/// The block at which the checked reader stops.
fn stopping_block(file: &[u8], w: Widths, id: &[u8]) -> Result<Block, Refusal> {
    heap(file, w).stopping_block(id, AT as u64)
}

fn block(address: usize, heap_offset: usize) -> Block {
    Block {
        address: address as u64,
        heap_offset: heap_offset as u64,
    }
}

fn refused(number: u32, first: usize, second: usize) -> Result<&'static [u8], Error> {
    Err(Refusal::new(number, first as u64, second as u64).into())
}

const EIGHT: Widths = Widths {
    offset: 8,
    length: 8,
};

/// A length of two bytes cannot hold the largest direct block's size.
fn each_width(check: impl Fn(Widths)) {
    for offset in [2, 4, 8] {
        for length in [4, 8] {
            check(Widths { offset, length });
        }
    }
}

#[test]
fn the_worked_id_is_decoded() {
    let worked = [0x00, 0x16, 0x20, 0x00, 0x00, 0x00, 0xEB, 0x03];
    each_width(|w| {
        let file = direct_heap(w);
        assert_eq!(heap(&file, w).decode_managed_id(&worked), Ok((8214, 1003)));
    });
}

#[test]
fn an_object_of_a_direct_root_comes_back() {
    each_width(|w| {
        let (file, id) = (direct_heap(w), id_at(w.block_header()));
        assert_eq!(read(&file, w, &id), Ok(OBJECT));
        assert_eq!(unchecked(&file, w, &id), Ok(OBJECT));
        assert_eq!(stopping_block(&file, w, &id), Ok(block(ROOT, 0)));
    });
}

#[test]
fn an_object_of_an_indirect_roots_second_child_comes_back() {
    each_width(|w| {
        let (file, id) = (indirect_heap(w), id_at(START + w.block_header()));
        assert_eq!(read(&file, w, &id), Ok(OBJECT));
        assert_eq!(unchecked(&file, w, &id), Ok(OBJECT));
        assert_eq!(stopping_block(&file, w, &id), Ok(block(SECOND, START)));
    });
}

#[test]
fn a_cut_file_is_refused_by_1() {
    let w = EIGHT;
    let file = direct_heap(w);
    let id = id_at(w.block_header());
    let end = ROOT + w.block_header() + OBJECT.len();
    let cut = &file[..end - 1];
    assert_eq!(read(cut, w, &id), refused(1, ROOT + START, end - 1));
    assert_eq!(unchecked(cut, w, &id), refused(1, end, end - 1));
    assert_eq!(read(&file[..ROOT + START], w, &id), Ok(OBJECT));
    assert_eq!(
        read(&file[..AT + 3], w, &id),
        refused(1, AT + 5, AT + 3),
        "cut in the signature"
    );
    let due = Err(Refusal::new(1, AT as u64 + 5, AT as u64 + 3));
    assert_eq!(
        stopping_block(&file[..AT + 3], w, &id),
        due,
        "before any block"
    );
}

#[test]
fn an_id_whose_child_block_is_not_there_is_refused_by_1() {
    let w = EIGHT;
    let file = indirect_heap(w);
    let end = w.block_header() + OBJECT.len();
    let id = id_at(w.block_header());
    assert_eq!(read(&file, w, &id), refused(1, end, file.len()));
    assert_eq!(unchecked(&file, w, &id), refused(1, end, file.len()));
    assert_eq!(stopping_block(&file, w, &id), Ok(block(ROOT, 0)));
}

#[test]
fn sizes_and_types_that_there_are_not_are_refused() {
    let file = direct_heap(EIGHT);
    let id = id_at(EIGHT.block_header());
    let offset = Widths { offset: 3, ..EIGHT };
    let length = Widths { length: 7, ..EIGHT };
    assert_eq!(read(&file, offset, &id), refused(2, 3, 0));
    assert_eq!(read(&file, length, &id), refused(3, 7, 0));
    let huge = [&[0x10], &id[1..]].concat();
    assert_eq!(read(&file, EIGHT, &huge), refused(6, 1, 0));
}

/// The file with a header that says another length of the heap's IDs.
fn with_id_length(mut file: Vec<u8>, w: Widths, length: u16) -> Vec<u8> {
    let mut header = heap(&file, w).header().unwrap();
    header.heap_id_length = length;
    file[AT..AT + w.header()].copy_from_slice(&written(&header, w));
    file
}

#[test]
fn the_length_of_a_heaps_ids_is_the_headers() {
    each_width(|w| {
        for length in [7, 8, 10, 17, 18, 65_535] {
            let file = with_id_length(direct_heap(w), w, length);
            assert_eq!(heap(&file, w).heap_id_length(), Ok(length));
        }
    });
}

#[test]
fn the_length_of_ids_is_refused_as_the_header_is() {
    let mut file = direct_heap(EIGHT);
    let length = |file: &[u8]| heap(file, EIGHT).heap_id_length();
    assert_eq!(
        length(&file[..AT + 6]),
        Err(Refusal::new(1, AT as u64 + 7, AT as u64 + 6))
    );
    assert_eq!(length(b""), Err(Refusal::new(1, AT as u64 + 5, 0)));
    file[AT + 5] = 9;
    let damaged = length(&file).unwrap_err();
    assert_eq!(damaged.number(), 7, "{damaged}");
    file[AT] ^= 1;
    assert_eq!(length(&file), Err(Refusal::InvalidSignature));
}

#[test]
fn an_id_of_another_length_is_refused_in_words() {
    let file = direct_heap(EIGHT);
    // The padding is all ones, and no part of the length.
    let id = [id_at(EIGHT.block_header()), vec![0xFF; 8]].concat();
    for length in (0..=16).filter(|&length| length != 8) {
        let due = Error::IdLength { length, due: 8 };
        let heap = heap(&file, EIGHT);
        let id = &id[..length];
        assert_eq!(heap.read_managed_object(id, AT as u64), Err(due));
        assert_eq!(heap.read_managed_object_unchecked(id), Err(due));
        assert_eq!(heap.decode_managed_id(id), Err(due));
    }
    let words = read(&file, EIGHT, &id[..3]).unwrap_err().to_string();
    assert_eq!(words, "the ID has 3 bytes, and the heap's IDs have 8");
    let longer = with_id_length(file, EIGHT, 10);
    assert_eq!(read(&longer, EIGHT, &id[..10]), Ok(OBJECT));
    let words = read(&longer, EIGHT, &id[..8]).unwrap_err().to_string();
    assert_eq!(words, "the ID has 8 bytes, and the heap's IDs have 10");
}

#[test]
fn a_header_that_is_not_sound_is_refused_before_the_ids_length() {
    let mut file = direct_heap(EIGHT);
    file[AT + 5] = 9;
    let id = id_at(EIGHT.block_header());
    for id in [&id[..3], &id[..], &[&id[..], &[0]].concat()] {
        let Err(Error::Refused(refusal)) = read(&file, EIGHT, id) else {
            panic!("an ID of {} bytes is not refused", id.len());
        };
        assert_eq!(refusal.number(), 7, "{refusal}");
    }
}

#[test]
fn an_id_of_any_length_is_taken_as_the_library_takes_it() {
    let file = direct_heap(EIGHT);
    let id = id_at(EIGHT.block_header());
    let heap = heap(&file, EIGHT);
    let offset = EIGHT.block_header() as u64;
    // Without the two bytes of the length there is none.
    for length in [3, 6] {
        let short = &id[..length];
        assert_eq!(heap.decode_managed_id_of_any_length(short), Ok((offset, 0)));
        let read = heap.read_managed_object_of_any_length(short, AT as u64);
        assert_eq!(read, Ok(&b""[..]));
        let read = heap.read_managed_object_of_any_length_unchecked(short);
        assert_eq!(read, Ok(&b""[..]));
    }
    let read = heap.read_managed_object_of_any_length(&id, AT as u64);
    assert_eq!(read, Ok(OBJECT));
    let read = heap.read_managed_object_of_any_length_unchecked(&id);
    assert_eq!(read, Ok(OBJECT));
    assert_eq!(
        heap.decode_managed_id_of_any_length(b""),
        Err(Refusal::new(1, 1, 0))
    );
}

#[test]
fn another_signature_is_refused_by_4() {
    let mut file = direct_heap(EIGHT);
    file[AT] ^= 1;
    let id = id_at(EIGHT.block_header());
    assert_eq!(read(&file, EIGHT, &id), refused(4, 0, 0));
}

#[test]
fn a_flipped_byte_in_the_header_is_refused_by_7_with_both_checksums() {
    let mut file = direct_heap(EIGHT);
    let field = AT + EIGHT.header() - 4;
    let stored = u32::from_le_bytes(file[field..field + 4].try_into().unwrap());
    file[AT + 20] ^= 1;
    let computed = checksum(&file[AT..field]);
    let got = read(&file, EIGHT, &id_at(EIGHT.block_header()));
    assert_eq!(got, refused(7, stored as usize, computed as usize));
    assert_eq!(
        got.unwrap_err().to_string(),
        format!(
            "refused by 7: the header's checksum differs: {stored:08X} is stored, {computed:08X} computed"
        )
    );
}

/// What the checked reader says of a block at this place in the file and in the heap with one bit of a byte changed, by
/// the byte's place in the block: its fields by the format's tables, the checksum's place in it, and its size.
fn refused_at(
    file: &[u8],
    w: Widths,
    (at, heap_offset): (usize, usize),
    place: usize,
    (sum, size): (usize, usize),
) -> Result<&'static [u8], Error> {
    let block = &file[at..at + size];
    let header_end = 5 + usize::from(w.offset);
    let number = |place: usize, size: usize| {
        let bytes = block[place..place + size].iter().rev();
        bytes.fold(0, |number, &byte| number << 8 | usize::from(byte))
    };
    match place {
        0..4 => refused(4, 0, 0),
        4 => refused(5, block[4].into(), 0),
        _ if place < header_end => refused(19, number(5, w.offset.into()), AT),
        _ if place < header_end + 5 => refused(19, number(header_end, 5), heap_offset),
        _ => {
            let mut covered = block.to_vec();
            covered[sum..sum + 4].fill(0);
            covered.truncate(if sum + 4 == size { sum } else { size });
            refused(18, number(sum, 4), checksum(&covered) as usize)
        }
    }
}

#[test]
fn every_changed_bit_of_a_block_on_the_way_is_refused_there() {
    each_width(|w| {
        let mut file = indirect_heap(w);
        let id = id_at(START + w.block_header());
        let indirect = 14 + 5 * usize::from(w.offset);
        let blocks = [
            (ROOT, 0, indirect - 4, indirect),
            (SECOND, START, w.block_header() - 4, START),
        ];
        for (at, heap_offset, sum, size) in blocks {
            for place in 0..size {
                file[at + place] ^= 1 << (place % 8);
                let due = refused_at(&file, w, (at, heap_offset), place, (sum, size));
                assert_eq!(read(&file, w, &id), due, "{place} of the block at {at}");
                let stopped = stopping_block(&file, w, &id);
                assert_eq!(stopped, Ok(block(at, heap_offset)), "{place}");
                file[at + place] ^= 1 << (place % 8);
            }
        }
        assert_eq!(read(&file, w, &id), Ok(OBJECT));
    });
}

#[test]
fn untested_bytes_are_handed_out_to_who_asks_for_them() {
    let w = EIGHT;
    let (mut file, id) = (direct_heap(w), id_at(w.block_header()));
    file[ROOT + w.block_header()] ^= 1;
    let changed = [&[OBJECT[0] ^ 1], &OBJECT[1..]].concat();
    assert_eq!(unchecked(&file, w, &id), Ok(&changed[..]));
    let words = read(&file, w, &id).unwrap_err().to_string();
    let stored = &file[ROOT + 18..ROOT + 22];
    let stored = u32::from_le_bytes(stored.try_into().unwrap());
    file[ROOT + 18..ROOT + 22].fill(0);
    let computed = checksum(&file[ROOT..ROOT + START]);
    assert_eq!(
        words,
        format!(
            "refused by 18: a block's checksum differs: {stored:08X} is stored, {computed:08X} computed"
        )
    );
}

/// Without the bit of value 2 in the header's flags a direct block has no checksum: the bytes of one are the object's.
#[test]
fn direct_blocks_have_checksums_where_the_flag_says_so() {
    let w = EIGHT;
    let (mut file, id) = (direct_heap(w), id_at(w.block_header()));
    file[ROOT + START - 1] ^= 1;
    for (flags, is_read) in [(0, true), (1, true), (2, false), (3, false), (254, false)] {
        let mut header = header(w, 0);
        header[9] = flags;
        let sum = checksum(&header[..w.header() - 4]).to_le_bytes();
        header[w.header() - 4..].copy_from_slice(&sum);
        file[AT..AT + w.header()].copy_from_slice(&header);
        assert_eq!(read(&file, w, &id).is_ok(), is_read, "flags {flags}");
    }
}

#[test]
fn a_block_of_another_header_or_place_is_refused_by_19() {
    let w = EIGHT;
    let (file, id) = (direct_heap(w), id_at(w.block_header()));
    let elsewhere = heap(&file, w).read_managed_object(&id, 4136);
    assert_eq!(elsewhere, refused(19, AT, 4136));
    assert_eq!(
        elsewhere.unwrap_err().to_string(),
        "refused by 19: a block belongs to another header, or to another place in the heap: 40 is stored, 4,136 wanted"
    );
    // Carried as a whole to another place, header and blocks have the address of the one before.
    let carried = [&[0x55; 64][..], &file].concat();
    let carried = Heap {
        header_at: AT as u64 + 64,
        ..heap(&carried, w)
    };
    // All but the header's own root address still holds.
    let mut header = carried.header().unwrap();
    header.root_block_address += 64;
    let mut file = carried.file.to_vec();
    let place = AT + 64..AT + 64 + w.header();
    file[place].copy_from_slice(&written(&header, w));
    let carried = Heap {
        file: &file,
        ..carried
    };
    let moved = carried.header_at;
    assert_eq!(
        carried.read_managed_object(&id, moved),
        refused(19, AT, AT + 64)
    );
    assert_eq!(carried.read_managed_object(&id, AT as u64), Ok(OBJECT));
}

#[test]
fn an_object_that_ends_past_its_block_is_refused_by_1() {
    let w = EIGHT;
    let file = [direct_heap(w), vec![7; 2000]].concat();
    let last = START - OBJECT.len();
    assert!(read(&file, w, &id_at(last)).is_ok());
    let id = id_at(last + 1);
    assert_eq!(read(&file, w, &id), refused(1, START + 1, START));
    assert!(unchecked(&file, w, &id).is_ok());
    assert_eq!(stopping_block(&file, w, &id), Ok(block(ROOT, 0)));
}
