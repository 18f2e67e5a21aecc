//! What a heap's header says, from Rust: headers that are made field by field, at every pair of widths, and refusals.
//! Expected values are the numbers that were put, and those of docs/RULES.md.
use fractal_heap::{Error, Header, Heap, OpenPlan, Refusal, WrittenHeader, checksum};

/// Where the header lies.
const AT: usize = 7;

/// The width of each field in header order, by the format; L stands for a length's, O for an address's.
const WIDTHS: &[u8; 23] = b"2214LOLOLLLLLLLL2LL22O2";

fn widths(offset_size: u8, length_size: u8) -> [usize; 23] {
    WIDTHS.map(|width| match width {
        b'L' => length_size.into(),
        b'O' => offset_size.into(),
        digit => (digit - b'0').into(),
    })
}

/// A sound header with these numbers, behind some bytes.
fn file(widths: &[usize; 23], numbers: &[u64; 23]) -> Vec<u8> {
    let mut file = vec![0x55; AT];
    file.extend(b"FRHP\0");
    for (width, number) in widths.iter().zip(numbers) {
        file.extend(&number.to_le_bytes()[..*width]);
    }
    let sum = checksum(&file[AT..]);
    file.extend(sum.to_le_bytes());
    file
}

fn heap(file: &[u8], offset_size: u8, length_size: u8) -> Heap<'_> {
    Heap {
        file,
        header_at: AT as u64,
        offset_size,
        length_size,
    }
}

/// In each field another number, with all bytes of its width; there are no filters.
fn numbers(widths: &[usize; 23]) -> [u64; 23] {
    let mut place = 0;
    let mut numbers = widths.map(|width| {
        place += 1;
        (0xF1E2_D3C4_B5A6_9788 >> (64 - 8 * width)) - place
    });
    numbers[1] = 0;
    numbers
}

/// The fields in header order, as it is in the format, of a header without filters.
fn listed(header: &Header) -> [u64; 23] {
    assert_eq!(filtered(header), (0, 0, 0));
    every(header)
}

/// What a header has for its filters alone.
fn filtered(header: &Header) -> (u64, u64, u32) {
    (
        header.io_filter_information_position,
        header.filtered_root_direct_block_size,
        header.io_filter_mask,
    )
}

/// The fields that every header has.
fn every(header: &Header) -> [u64; 23] {
    [
        header.heap_id_length.into(),
        header.io_filter_encoded_length.into(),
        header.flags.into(),
        header.max_managed_object_size.into(),
        header.next_huge_object_id,
        header.btree_huge_objects_address,
        header.free_space_managed_blocks,
        header.managed_block_free_space_manager_address,
        header.managed_space_in_heap,
        header.allocated_managed_space_in_heap,
        header.direct_block_allocation_iterator_offset,
        header.managed_objects_count,
        header.huge_objects_size,
        header.huge_objects_count,
        header.tiny_objects_size,
        header.tiny_objects_count,
        header.table_width.into(),
        header.starting_block_size,
        header.max_direct_block_size,
        header.max_heap_size.into(),
        header.start_root_rows.into(),
        header.root_block_address,
        header.current_rows_in_root_indirect_block.into(),
    ]
}

#[test]
fn every_field_is_read_at_its_place_at_every_pair_of_widths() {
    for offset_size in [2, 4, 8] {
        for length_size in [2, 4, 8] {
            let widths = widths(offset_size, length_size);
            let due = numbers(&widths);
            let file = file(&widths, &due);
            let heap = heap(&file, offset_size, length_size);
            let header = heap.header().unwrap();
            assert_eq!(listed(&header), due, "{offset_size}, {length_size}");
            assert_eq!(u64::from(heap.heap_id_length().unwrap()), due[0]);
        }
    }
}

#[test]
fn all_ones_are_numbers_and_no_address() {
    for offset_size in [2, 4, 8] {
        let widths = widths(offset_size, 8);
        let mut due = widths.map(|width| u64::MAX >> (64 - 8 * width));
        due[1] = 0;
        let file = file(&widths, &due);
        let heap = heap(&file, offset_size, 8);
        let header = heap.header().unwrap();
        assert_eq!(listed(&header), due);
        for address in [
            header.btree_huge_objects_address,
            header.managed_block_free_space_manager_address,
            header.root_block_address,
        ] {
            assert_eq!(heap.defined(address), None);
        }
        assert_eq!(header.free_space_managed_blocks, u64::MAX);
        assert_eq!(header.flags & Header::IDS_HAVE_WRAPPED, 1);
        assert_eq!(header.flags & Header::BLOCKS_HAVE_CHECKSUMS, 2);
    }
}

/// A sound header of a heap with filters, by the format: the size of a direct root, its mask, and this information, as long
/// as the second field says.
fn filtered_file(
    widths: &[usize; 23],
    numbers: &mut [u64; 23],
    (root_size, mask): (u64, u32),
    (length_size, information): (u8, &[u8]),
) -> Vec<u8> {
    numbers[1] = information.len() as u64;
    let mut file = file(widths, numbers);
    file.truncate(file.len() - 4);
    file.extend(&root_size.to_le_bytes()[..length_size.into()]);
    file.extend(mask.to_le_bytes());
    file.extend(information);
    let sum = checksum(&file[AT..]);
    file.extend(sum.to_le_bytes());
    file
}

#[test]
fn a_filtered_header_says_where_its_filters_are() {
    for offset_size in [2, 4, 8] {
        for length_size in [2, 4, 8] {
            for n in [1, 2, 255, 256, 65_535] {
                let widths = widths(offset_size, length_size);
                let mut due = numbers(&widths);
                let root_size = 0x1234_5678_9ABC_DEF0 >> (64 - 8 * u32::from(length_size));
                let information: Vec<u8> = (0..n).map(|i| (i * 7 + i / 256) as u8).collect();
                let sealed = (length_size, &information[..]);
                let file = filtered_file(&widths, &mut due, (root_size, 0x89AB_CDEF), sealed);
                let heap = heap(&file, offset_size, length_size);
                let header = heap.header().unwrap();
                assert_eq!(every(&header), due, "{offset_size}, {length_size}, {n}");
                let place = (file.len() - 4 - n) as u64;
                let wide = [26, 13 * u64::from(length_size), 3 * u64::from(offset_size)];
                assert_eq!(place, AT as u64 + wide.iter().sum::<u64>());
                assert_eq!(filtered(&header), (place, root_size, 0x89AB_CDEF));
                assert_eq!(heap.io_filter_information(&header), Some(&information[..]));
            }
        }
    }
}

#[test]
fn a_filtered_header_that_is_cut_ends_with_its_checksum() {
    let widths = widths(8, 4);
    let file = filtered_file(&widths, &mut numbers(&widths), (9, 1), (4, b"filters"));
    let fields = AT + Header::length(8, 4) - 4;
    for available in fields..file.len() {
        let due = Refusal::UnexpectedEof {
            expected: file.len() as u64,
            available: available as u64,
        };
        assert_eq!(heap(&file[..available], 8, 4).header(), Err(due));
    }
    for place in fields..file.len() {
        let mut damaged = file.clone();
        damaged[place] ^= 0x10;
        let refusal = heap(&damaged, 8, 4).header().unwrap_err();
        assert_eq!(refusal.number(), 7, "byte {place}");
    }
}

// Worked case 17 of docs/RULES.md.
#[test]
fn a_lone_header_that_says_it_has_filters_ends_too_early() {
    let mut bytes = [0; 146];
    planned(8, 1003).write(8, 8, &mut bytes).unwrap();
    bytes[7] = 1;
    let lone = Heap {
        file: &bytes,
        header_at: 0,
        offset_size: 8,
        length_size: 8,
    };
    let due = Refusal::UnexpectedEof {
        expected: 159,
        available: 146,
    };
    assert_eq!(lone.header(), Err(due));
}

#[test]
fn objects_of_a_filtered_heap_are_not_read_but_their_ids_are_decoded() {
    let widths = widths(8, 8);
    let mut numbers = numbers(&widths);
    (numbers[0], numbers[19]) = (8, 40);
    let file = filtered_file(&widths, &mut numbers, (9, 1), (8, b"filters"));
    let heap = heap(&file, 8, 8);
    let id = [0x00, 0x16, 0x00, 0x00, 0x00, 0x00, 0x1C, 0x00];
    assert_eq!(heap.decode_managed_id(&id), Ok((22, 28)));
    let due = Error::Refused(Refusal::UnsupportedFilteredHeapObject);
    assert_eq!(heap.read_managed_object(&id, heap.header_at), Err(due));
    assert_eq!(heap.read_managed_object_unchecked(&id), Err(due));
    let due = Refusal::UnsupportedFilteredHeapObject;
    let header = heap.header().unwrap();
    assert_eq!(header.write(8, 8, &mut [0; 200]), Err(due));
}

#[test]
fn a_writer_passes_over_what_filters_have() {
    let sound = planned(8, 28);
    let mut other = sound;
    other.io_filter_information_position = 154;
    other.filtered_root_direct_block_size = u64::MAX;
    other.io_filter_mask = 1;
    let (mut due, mut bytes) = ([0; 146], [0; 146]);
    sound.write(8, 8, &mut due).unwrap();
    other.write(8, 8, &mut bytes).unwrap();
    assert_eq!(bytes, due);
}

#[test]
fn a_header_that_is_not_sound_is_refused() {
    let widths = widths(8, 8);
    let sound = file(&widths, &numbers(&widths));
    let eof = |expected, available| Refusal::UnexpectedEof {
        expected,
        available,
    };
    let refused = |file: &[u8], offset_size, length_size| {
        heap(file, offset_size, length_size).header().unwrap_err()
    };
    let at = AT as u64;
    for (length, end) in [(0, 5), (40, 70), (80, 112), (145, 146)] {
        let cut = &sound[..AT + length];
        assert_eq!(refused(cut, 8, 8), eof(at + end, at + length as u64));
    }
    assert_eq!(refused(&sound[..AT + 40], 8, 3), eof(at + 45, at + 40));
    let size = 3;
    assert_eq!(refused(&sound, 3, 3), Refusal::InvalidOffsetSize { size });
    assert_eq!(refused(&sound, 8, 3), Refusal::InvalidLengthSize { size });
    for (place, number) in [(0, 4), (4, 5), (9, 7), (145, 7)] {
        let mut damaged = sound.clone();
        damaged[AT + place] ^= 1;
        assert_eq!(refused(&damaged, 8, 8).number(), number, "byte {place}");
    }
}

#[test]
fn what_is_read_is_written_as_it_stands() {
    for offset_size in [2, 4, 8] {
        for length_size in [2, 4, 8] {
            let widths = widths(offset_size, length_size);
            let file = file(&widths, &numbers(&widths));
            let header = heap(&file, offset_size, length_size).header().unwrap();
            let length = Header::length(offset_size, length_size);
            let due = [&file[AT..], &[0xA5; 3]].concat();
            assert_eq!(due.len(), length + 3);
            let mut bytes = vec![0xA5; length + 3];
            let written = header.write(offset_size, length_size, &mut bytes);
            let checksum = checksum(&due[..length - 4]);
            assert_eq!(written, Ok(WrittenHeader { length, checksum }));
            assert_eq!(bytes, due, "{offset_size}, {length_size}");
        }
    }
}

/// The header of the heap of one object of this size, whose region is at 146.
fn planned(offset_size: u8, size: u64) -> Header {
    let mut plan = OpenPlan::open(offset_size).unwrap();
    plan.add(size).unwrap();
    plan.header(146)
}

// Worked heap 6 of docs/RULES.md, and the fields that the format has.
#[test]
fn a_plans_header_says_what_is_planned() {
    for (offset_size, undefined) in [(2, 0xFFFF), (4, 0xFFFF_FFFF), (8, u64::MAX)] {
        let largest = 65_522 - u64::from(offset_size);
        let due = [
            8, 0, 2, largest, 0, undefined, 0, undefined, 524_288, 65_536, 327_680, 1, 0, 0, 0, 0,
            4, 1024, 65_536, 40, 1, 146, 8,
        ];
        let header = planned(offset_size, largest);
        let free = header.free_space_managed_blocks;
        let mut got = listed(&header);
        got[6] = 0;
        assert_eq!(got, due);
        if offset_size == 8 {
            assert_eq!(free, 458_070);
        }
    }
}

// Worked heap 7: a root behind the blocks of the rows below it, and five objects. The managed space is what 11 rows span,
// 4,096 × 2^10 bytes, the allocated one five blocks.
#[test]
fn a_plans_header_has_the_roots_place_and_all_objects() {
    let mut plan = OpenPlan::open(8).unwrap();
    for _ in 0..5 {
        plan.add(65_514).unwrap();
    }
    let due = [
        8,
        0,
        2,
        65_514,
        0,
        u64::MAX,
        3_858_638,
        u64::MAX,
        4_194_304,
        327_680,
        2_424_832,
        5,
        0,
        0,
        0,
        0,
        4,
        1024,
        65_536,
        40,
        1,
        146 + 278,
        11,
    ];
    assert_eq!(listed(&plan.header(146)), due);
}

#[test]
fn a_header_that_cannot_be_written_is_refused_and_nothing_is_written() {
    let header = planned(8, 65_514);
    let refused = |header: &Header, offset_size, length_size, lent: usize| {
        let mut bytes = vec![0xA5; lent];
        let refusal = header.write(offset_size, length_size, &mut bytes);
        assert_eq!(bytes, vec![0xA5; lent]);
        refusal.unwrap_err()
    };
    let mut filtered = header;
    filtered.io_filter_encoded_length = 1;
    let field = |place, value| Refusal::HeaderFieldTooLarge { place, value };
    let size = 3;
    assert_eq!(
        refused(&filtered, 3, 3, 0),
        Refusal::InvalidOffsetSize { size }
    );
    assert_eq!(
        refused(&filtered, 2, 3, 0),
        Refusal::InvalidLengthSize { size }
    );
    let due = Refusal::UnsupportedFilteredHeapObject;
    assert_eq!(refused(&filtered, 2, 2, 0), due);
    assert_eq!(refused(&header, 4, 8, 0), field(5, u64::MAX));
    assert_eq!(refused(&header, 8, 2, 0), field(6, 458_070));
    assert_eq!(refused(&planned(8, 1), 8, 2, 0), field(18, 65_536));
    for lent in [0, 1, 145] {
        let due = Refusal::SliceTooShort {
            needed: 146,
            lent: lent as u64,
        };
        assert_eq!(refused(&header, 8, 8, lent), due);
    }
}

// By docs/RULES.md row 20 of the root begins at 2^31, and the space of 21 rows is 2^32.
#[test]
fn a_heap_of_four_gigabytes_has_no_header_of_lengths_of_four_bytes() {
    let mut plan = OpenPlan::open(8).unwrap();
    while plan.add(65_514).unwrap().offset < 1 << 31 {}
    let (header, mut bytes) = (plan.header(200), [0; 146]);
    let (place, value) = (8, 1 << 32);
    let refusal = header.write(8, 4, &mut bytes).unwrap_err();
    assert_eq!(refusal, Refusal::HeaderFieldTooLarge { place, value });
    assert_eq!(bytes, [0; 146]);
    assert_eq!(header.write(8, 8, &mut bytes).unwrap().length, 146);
}

#[test]
fn the_front_of_a_direct_block_leaves_room_for_the_largest_object() {
    for offset_size in [2, 4, 8] {
        let largest = 65_536 - u64::from(Header::direct_block_front(offset_size));
        let mut plan = OpenPlan::open(offset_size).unwrap();
        assert!(plan.add(largest).is_ok());
        assert!(plan.add(largest + 1).is_err());
    }
}
