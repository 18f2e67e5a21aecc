//! The cases of docs/DIFFERENCES.md, each at its smallest input: what the original does, and what ours does. Cases
//! 6 and 10, whose inputs are long, are kept in `heap.rs` and `plan.rs`. What is expected is the original's, or that
//! of a paper; the comments say where the format has another answer.
use crate::back::by_rule;
use crate::format;
use crate::ids::{Sizes, by_format};
use crate::made::{self, Head, Heap, Written};
use crate::ours::{self, Writing};
use crate::panics::{self, caught};
use crate::plan;
use crate::random::Random;
use crate::summary::{Row, row};
use original::{Answer, Header, Plan};

/// Where the flags of a header stand, which differ here alone.
const FLAGS: usize = 9;

/// A file with a header at 0, of widths 2 and 4, and then these bytes.
fn file_of(head: &Head, rest: &[u8]) -> Heap {
    let (offset_size, length_size) = (2, 4);
    let mut file = made::header(&mut Random::new(1), head, offset_size, length_size);
    file.extend_from_slice(rest);
    Heap {
        file,
        at: 0,
        offset_size,
        length_size,
    }
}

/// The fixed geometry with this largest managed size, and a root that is still to come.
fn with_largest(size: u32) -> Head {
    Head {
        largest_managed: Some(size),
        ..made::fixed(0, 0)
    }
}

/// A header alone, of the fixed geometry but for the largest managed size and the heap bits.
fn largest_with(size: u32, bits: u16) -> Heap {
    let mut head = with_largest(size);
    head.bits = bits;
    file_of(&head, &[])
}

/// A header alone, of the fixed geometry but for two fields.
fn file_with(filter: u16, bits: u16) -> Heap {
    let mut head = made::fixed(0, 0);
    (head.filter, head.bits) = (filter, bits);
    file_of(&head, &[])
}

/// A file whose root block, or what is there of it, stands right behind the header; and its place.
fn rooted(mut head: Head, block: &[u8]) -> (Heap, u64) {
    head.root = file_of(&head, &[]).file.len() as u64;
    (file_of(&head, block), head.root)
}

/// The original's header of a heap.
fn parsed(heap: &Heap) -> Header {
    original::parse(&heap.file, heap.at, heap.offset_size, heap.length_size)
        .expect("a right header")
}

/// Both decode an ID to this offset and length.
fn both_decode(heap: &Heap, id: &[u8], offset: u64, length: u64) {
    let due = (0, offset, length);
    assert_eq!([parsed(heap).decode(id), ours::decode(heap, id)], [due; 2]);
}

/// Both read these bytes by an ID, ours at this place.
fn both_read(heap: &Heap, id: &[u8], bytes: &[u8], at: u64) {
    let read = parsed(heap).read(&heap.file, id, heap.offset_size);
    assert_eq!(read, Ok(bytes.to_vec()));
    assert_eq!(ours::read(heap, id), (0, at, bytes.len() as u64));
}

/// What the checked reader answers; the blocks are to have the header's place as its address.
fn checked(heap: &Heap, id: &[u8]) -> Answer {
    ours::checked(ours::view_of(heap), heap.at, id)
}

/// A file whose header says that direct blocks have checksums or not.
fn with_flags(mut heap: Heap, flags: u8) -> Heap {
    heap.file[FLAGS] = flags;
    heap.mend();
    heap
}

/// The root block of a heap without objects at offset size 2, as the original writes it for a header at 0.
fn empty_root() -> Vec<u8> {
    original::region(&[], 2, 0, 0)
}

/// Both refuse to read by an ID.
fn both_refuse(heap: &Heap, id: &[u8], refusal: Answer) {
    let read = parsed(heap).read(&heap.file, id, heap.offset_size);
    assert_eq!((read, ours::read(heap, id)), (Err(refusal), refusal));
}

/// Both find a tiny object of these bytes right after the first byte of its ID.
fn both_tiny(heap_id_length: u16, id: &[u8], bytes: &[u8]) {
    assert_eq!(original::tiny(heap_id_length, id), Ok(bytes.to_vec()));
    let due = (0, 1, bytes.len() as u64);
    assert_eq!(ours::tiny(heap_id_length, id), due);
}

/// What both plan for these sizes at offset size 8.
fn both_plan(sizes: &[u64]) -> Plan {
    plan::accepted(sizes, plan::enough(sizes, [0; 3]), 8)
}

/// What both write for these objects, at offset size 8 and region address 100.
fn both_write(objects: &[&[u8]]) -> Vec<u8> {
    let region = original::region(objects, 8, 100, 0);
    assert_eq!(ours::region(objects, 8, 100, 0), region);
    region
}

/// Objects of these sizes in a file, at widths 8, as each of the two writes them.
fn written(sizes: &[u64]) -> [Written; 2] {
    let write = |writer| made::written_by(writer, &mut Random::new(1), sizes, [8, 8], 0);
    [write(original::region), write(ours::region)]
}

/// 1. A filtered header with its checksum where the format has it: after one byte of filter information. The original takes
/// this byte and the first three of the checksum for the checksum, and gives 7 with these.
fn filtered_checksum() {
    let heap = file_with(1, 40);
    let (w, l) = (heap.offset_size, heap.length_size);
    let sought = heap.file.len() - 5;
    let stored = u32::from_le_bytes(
        heap.file[sought..sought + 4]
            .try_into()
            .expect("four bytes"),
    );
    let computed = original::jenkins_lookup3(&heap.file[..sought]);
    let refusal = original::parse(&heap.file, 0, w, l).err();
    assert_eq!(refusal, Some((7, stored.into(), computed.into())));
    let mut numbers = [0; format::COUNT];
    assert_eq!(ours::parse(&heap, &mut numbers), 0);
    let due = format::parsed_of(&heap).unwrap_or_else(|refusal| panic!("{refusal:?}"));
    assert_eq!(numbers, due.numbers);
    // Offset size 2, length size 4: 26 + 13 × 4 + 3 × 2.
    assert_eq!((numbers[1], numbers[format::FIELD_COUNT]), (1, 84));
    assert_eq!(ours::decode(&heap, &[0]), (0, 0, 0));
}

/// 2. The version bits of an ID are no part of its type.
fn version_bits() {
    both_decode(&file_with(0, 40), &[0xC0], 0, 0);
}

/// Ours decodes an ID as the format has it, with the first length; the original with the second.
fn decoded_apart(heap: &Heap, id: &[u8], offset: u64, [length, originals]: [u64; 2]) {
    let header = parsed(heap);
    assert_eq!(header.decode(id), (0, offset, originals));
    assert_eq!(ours::decode(heap, id), (0, offset, length));
    assert_eq!(by_format(Sizes::of(&header), id), (offset, length));
}

/// 3. What stands behind an ID's length is no part of it; the original takes it for length. Only bytes that count: the
/// tenth does not.
fn leftover_bits() {
    let heap = file_with(0, 40);
    let id = [0, 1, 0, 0, 0, 0, 2, 0, 1];
    decoded_apart(&heap, &id, 1, [2, 0x1_0002]);
    both_decode(&heap, &[0, 1, 0, 0, 0, 0, 2, 0, 0, 9], 1, 2);
    // a length of one byte, and one that ends inside a byte of the ID
    let short = [0, 1, 0, 0, 0, 0, 2, 3];
    decoded_apart(&largest_with(255, 40), &short, 1, [2, 0x302]);
    let heap = largest_with(15, 12);
    decoded_apart(&heap, &[0, 1, 0x32, 0xF4], 0x201, [0x43, 0xF43]);
}

/// 39. A largest direct block of 65,536 that is not above the largest managed object: by the format's words the length
/// has three bytes, in HDF5 two.
fn power_of_256() {
    let heap = largest_with(65_536, 40);
    let id = [0, 0, 0, 0, 0, 0, 1, 0, 1];
    both_decode(&heap, &id, 0, 0x1_0001);
    assert_eq!(by_format(Sizes::of(&parsed(&heap)), &id), (0, 0x1_0001));
}

/// 40. No object may be managed: the length has no bytes; in HDF5 one.
fn none_managed() {
    let heap = largest_with(0, 40);
    decoded_apart(&heap, &[0, 1, 0, 0, 0, 0, 2], 1, [0, 2]);
}

/// 4. A direct block that is none: neither its checksum nor anything else is tested, but by the checked reader.
fn block_not_tested() {
    let (heap, root) = rooted(made::fixed(0, 0), &[0x5A]);
    let id = by_rule(0, 1);
    both_read(&heap, &id, &[0x5A], root);
    assert_eq!(checked(&heap, &id), (1, root + 1024, root + 1));
}

/// 5. At 64 heap bits the original shifts by 64 where bits are left; by the format the length is 9.
fn wide_shift() {
    let heap = file_with(0, 64);
    let header = parsed(&heap);
    let id = [0, 1, 2, 3, 4, 5, 6, 7, 8, 9];
    caught(|| header.decode(&id)).expect_err("a shift by 64 bits");
    let offset = 0x0807_0605_0403_0201;
    assert_eq!(ours::decode(&heap, &id), (0, offset, 0));
    both_decode(&heap, &id[..9], offset, 0);
}

/// 7. The largest number is an index.
fn host() {
    assert_eq!(original::to_usize(u64::MAX) as u64, u64::MAX);
    assert_eq!(ours::to_usize(u64::MAX), u64::MAX);
}

/// What planning refuses.
fn refused(sizes: &[u64], offset_size: u8) -> Answer {
    let (mut offsets, mut blocks, mut totals) = ([0; 1], [0; 1], [0; 8]);
    let number = ours::plan(sizes, &mut offsets, &mut blocks, offset_size, &mut totals);
    assert_eq!((offsets, blocks), ([0], [0]), "lent memory of a refusal");
    (number, totals[0], totals[1])
}

/// 8. The original plans at offset size 0.
fn no_width() {
    assert_eq!(original::plans(&[], 0), Some(1024));
    assert_eq!(refused(&[], 0), (2, 0, 0));
}

/// 9. An object above the largest managed size.
fn too_large() {
    caught(|| original::plans(&[65_515], 8)).expect_err("a debug assertion");
    assert_eq!(refused(&[65_515], 8), (11, 0, 65_515));
}

/// 11. The empty ID in the short form of a tiny object.
fn empty_tiny() {
    caught(|| original::tiny(0, &[])).expect_err("the first of no bytes");
    assert_eq!(ours::tiny(0, &[]), (1, 1, 0));
}

/// 12. At a heap ID length of 18 a tiny object has the long form; by the format the short one, of ten bytes here.
fn long_form() {
    let mut id = vec![0x29, 0x57];
    id.resize(18, 0);
    assert_eq!(original::tiny(18, &id), Err((1, 2_394, 18)));
    assert_eq!(ours::tiny(18, &id), (1, 2_394, 18));
}

/// What writing refuses, of sizes without bytes.
fn unwritten(sizes: &[u64], region_at: u64, header_at: u64) -> Answer {
    let writing = Writing {
        sizes,
        objects: &[],
        offset_size: 2,
        region_at,
        header_at,
    };
    let (mut lists, mut region, mut totals) = ([[0; 1]; 2], [0; 1024], [0; 8]);
    let [offsets, blocks] = &mut lists;
    let number = ours::serialize(&writing, offsets, blocks, &mut region, &mut totals);
    assert_eq!(
        (lists, region),
        ([[0]; 2], [0; 1024]),
        "memory of a refusal"
    );
    (number, totals[0], totals[1])
}

/// 13. A planned byte that is not handed in: the original writes a zero for it, and an object behind it is displaced.
fn other_bytes() {
    let plan = original::planned(&[1], 2).expect("room");
    assert_eq!(plan.serialize(&[&[]], 0, 0)[16..], [0; 1008]);
    let plan = original::planned(&[1, 1], 2).expect("room");
    caught(|| plan.serialize(&[&[], &[7]], 0, 0)).expect_err("a debug assertion");
    assert_eq!(unwritten(&[1], 0, 0), (14, 1, 0));
}

/// 14. The undefined address as the header's: the original writes it. It stands after signature and version.
fn undefined_header() {
    let region = original::region(&[], 2, 0, 65_535);
    assert_eq!(region[5..7], [0xFF; 2]);
    assert_eq!(unwritten(&[], 0, 65_535), (15, 65_535, 0));
}

/// 15. A region whose end has no address.
fn past_the_end() {
    assert_eq!(original::region(&[], 2, 64_512, 0).len(), 1024);
    assert_eq!(unwritten(&[], 64_512, 0), (15, 64_512, 1024));
}

/// 16. An object that is longer than its block.
fn past_the_block() {
    let (heap, root) = rooted(made::fixed(0, 0), &[0x5A; 1025]);
    both_read(&heap, &by_rule(0, 1025), &[0x5A; 1025], root);
    let block = [empty_root(), vec![0x5A]].concat();
    let (heap, root) = rooted(made::fixed(0, 0), &block);
    let heap = with_flags(heap, 2);
    both_read(&heap, &by_rule(0, 1025), &block, root);
    assert_eq!(checked(&heap, &by_rule(0, 1025)), (1, 1025, 1024));
    assert_eq!(checked(&heap, &by_rule(0, 1024)), (0, root, 1024));
}

/// 17. A doubling table of no columns.
fn no_columns() {
    let mut head = made::fixed(0, 0);
    head.width = 0;
    let (heap, root) = rooted(head, &[0x5A]);
    both_read(&heap, &by_rule(0, 1), &[0x5A], root);
}

/// 18. At 12 heap bits the offset ends within a byte; by the format it has two bytes, and the length is 3.
fn offset_bits() {
    both_decode(&file_with(0, 12), &[0, 1, 2, 3], 513, 48);
}

/// 19. IDs of one byte under a heap ID length of 8, and of two bytes under one of 1.
fn id_length() {
    both_decode(&file_with(0, 40), &[0], 0, 0);
    both_tiny(1, &[0x20, 0x5A], &[0x5A]);
}

/// 20. A root of 29 rows spans the whole heap space; what ours plans there is in `plan.rs`.
fn rows_to_the_end() {
    assert_eq!(original::rows_covering(1 << 40), Some(29));
    assert_eq!(original::rows_covering((1 << 40) + 1), None);
}

/// Four objects that fill row 7, and one in the first slot of row 8.
const NESTED: [u64; 5] = [65_514, 65_514, 65_514, 65_514, 1];

/// 21. The nested block has 6 rows, 22 and 24 times 8 bytes; by the format's formula 8 rows, 278 bytes.
fn nested_rows() {
    let plan = both_plan(&NESTED);
    assert_eq!((plan.offsets[4], plan.totals[3]), (524_310, 214));
    for Written {
        heap,
        region,
        objects,
        ..
    } in written(&NESTED)
    {
        let place = region.end as u64 - 1024 + 22;
        both_read(&heap, &objects[4].id, &objects[4].bytes, place);
    }
}

/// 22. The root of 9 rows has 36 entries, 22 and 36 times 8 bytes; by the format's formulas 32, and none for row 8.
fn indirect_entries() {
    assert_eq!(both_plan(&NESTED).totals[2], 9);
    let objects = NESTED.map(|size| vec![7; size as usize]);
    let region = both_write(&objects.each_ref().map(|bytes| &bytes[..]));
    let (root, directs) = region[214..].split_at(310);
    assert_eq!((&root[..4], &directs[..4]), (&b"FHIB"[..], &b"FHDB"[..]));
    let (direct, indirect) = root[18..306].split_at(32 * 8);
    // The nested block stands first in the region; the other slots of row 8 have none.
    let places = [100, u64::MAX, u64::MAX, u64::MAX];
    assert_eq!(indirect, places.map(u64::to_le_bytes).concat());
    // Row 7: the four blocks, behind the root.
    let places = [0, 1, 2, 3].map(|i: u64| (624 + 65_536 * i).to_le_bytes());
    assert_eq!(direct[28 * 8..], places.concat());
}

/// An ID that ours writes into so many bytes: the answer, and the bytes.
fn id_written<const N: usize>(offset: u64, length: u64) -> (Answer, [u8; N]) {
    let (mut id, mut slot) = ([0xA5; N], [0; 16]);
    let number = ours::write_managed_id(offset, length, &mut id, &mut slot);
    let both = u128::from_le_bytes(slot);
    ((number, both as u64, (both >> 64) as u64), id)
}

/// 23. The offset in five bytes; by the format's words in six, since 2^40 needs as many.
fn offset_field() {
    let heap = file_with(0, 40);
    let id = [0, 22, 0, 0, 0, 0, 1, 0];
    assert_eq!(id_written(22, 1), ((0, 0, 0), id));
    both_decode(&heap, &id, 22, 1);
    both_decode(&heap, &[0, 22, 0, 0, 0, 0, 0, 1, 0], 22, 256);
}

/// 24. The length in two bytes; by the format in one where no managed object has more than 255.
fn length_field() {
    let heap = largest_with(255, 40);
    both_decode(&heap, &[0, 22, 0, 0, 0, 0, 1], 22, 1);
    both_decode(&heap, &[0, 22, 0, 0, 0, 0, 1, 0], 22, 1);
    assert_eq!(id_written(22, 1), ((13, 8, 7), [0xA5; 7]));
}

/// 25. An empty object, which the format does not allow: planned, and found at its offset. In an indirect heap it may
/// lie at the end of a block, where no block need be.
fn empty_objects() {
    assert_eq!(both_plan(&[0]).offsets, [22]);
    for Written { heap, region, .. } in written(&[0]) {
        let place = region.start as u64 + 22;
        both_read(&heap, &by_rule(22, 0), &[], place);
        assert_eq!(checked(&heap, &by_rule(22, 0)), (0, place, 0));
    }
    assert_eq!(both_plan(&[1002, 1002, 0]).offsets, [22, 1046, 2048]);
    for Written { heap, .. } in written(&[1002, 1002, 0]) {
        let len = heap.file.len() as u64;
        both_refuse(&heap, &by_rule(2048, 0), (1, 2048, len));
        assert_eq!(checked(&heap, &by_rule(2048, 0)), (1, 2048, len));
    }
}

/// 26. The iterator of one direct block; by the format 1,024, where the next block would be.
fn iterator_at_0() {
    assert_eq!(both_plan(&[]).totals[7], 0);
}

/// 27. The free space of all slots; by the format that of the direct blocks, of which one is there, with 1,023 left.
fn free_slots() {
    assert_eq!(both_plan(&[1003]).totals[6], 15_117);
}

/// 28. Widths that the format does not exclude: 1, and 16, which HDF5's own library has.
fn other_widths() {
    let bytes = [0; 16];
    for size in [1, 16] {
        let read = original::read_offset(&bytes, 0, size);
        assert_eq!(read, (2, size.into(), 0));
        assert_eq!(ours::read_offset(&bytes, 0, size), read);
        let read = original::read_length(&bytes, 0, size);
        assert_eq!(read, (3, size.into(), 0));
        assert_eq!(ours::read_length(&bytes, 0, size), read);
    }
}

/// 29. An object that an ID of eight bytes would hold; by the format a tiny one.
fn small_managed() {
    assert_eq!(both_plan(&[1]).offsets, [22]);
}

/// 30. An object in the header of its block.
fn in_the_header() {
    let (heap, root) = rooted(made::fixed(0, 0), &empty_root());
    let heap = with_flags(heap, 2);
    both_read(&heap, &by_rule(0, 4), b"FHDB", root);
    assert_eq!(checked(&heap, &by_rule(0, 4)), (0, root, 4));
}

/// 31. An object behind the heap's one block.
fn behind_the_block() {
    let (heap, root) = rooted(made::fixed(0, 0), &[empty_root(), vec![0x5A]].concat());
    let heap = with_flags(heap, 2);
    both_read(&heap, &by_rule(1024, 1), &[0x5A], root + 1024);
    assert_eq!(checked(&heap, &by_rule(1024, 1)), (1, 1025, 1024));
}

/// 32. An object above the header's largest managed size; by the format a huge one. The length has one byte then.
fn above_the_largest() {
    let (heap, root) = rooted(with_largest(1), &[0x5A; 2]);
    both_read(&heap, &by_rule(0, 2), &[0x5A; 2], root);
}

/// 33. A tiny object by IDs of another type, and of another version.
fn tiny_type() {
    both_tiny(2, &[0x00, 0x5A], &[0x5A]);
    both_tiny(2, &[0xE0, 0x5A], &[0x5A]);
}

/// An indirect block at offset size 2 and 8 heap bits. What no reader looks at is 0.
fn indirect_block(entries: &[u64]) -> Vec<u8> {
    let bytes = entries.iter().map(|entry| (*entry as u16).to_le_bytes());
    b"FHIB\0\0\0\0"
        .iter()
        .copied()
        .chain(bytes.flatten())
        .collect()
}

/// 34. An indirect slot that is smaller than a row of starting blocks. Row 2 begins at 8, its slots have 2 bytes; the
/// blocks in them have one row of 4 bytes. By the format 10 is the first byte of the second slot.
fn small_slots() {
    let head = Head {
        width: 4,
        starting: 1,
        largest: 1,
        bits: 8,
        ..made::fixed(0, 3)
    };
    let (_, root) = rooted(head.clone(), &[]);
    // The root, the nested blocks of the first two slots of row 2, and the four direct blocks of each.
    let nested = [root + 32, root + 48];
    let directs = [0, 1].map(|i| [0, 1, 2, 3].map(|k| root + 64 + 4 * i + k));
    let mut entries = [u64::MAX; 12];
    entries[8..10].copy_from_slice(&nested);
    let blocks = [&entries[..], &directs[0], &directs[1]].map(indirect_block);
    let (heap, _) = rooted(head, &[&blocks.concat()[..], b"abcdABCD"].concat());
    both_read(&heap, &[0, 10, 1], b"c", directs[0][2]);
}

/// 35. A largest direct block below the starting block: rows 0 and 1 are direct all the same.
fn small_directs() {
    let head = Head {
        width: 1,
        starting: 2,
        largest: 1,
        bits: 8,
        ..made::fixed(0, 1)
    };
    let (_, root) = rooted(head.clone(), &[]);
    let (heap, _) = rooted(head, &[&indirect_block(&[root + 10])[..], b"a"].concat());
    both_read(&heap, &[0, 0, 1], b"a", root + 10);
}

/// 36. A filtered heap. So that both accept its header, the filter information is the checksum that the original seeks
/// there; the format's is behind it.
fn filtered_heap() {
    let mut heap = file_with(4, 40);
    let sought = heap.file.len() - 8;
    let sum = original::jenkins_lookup3(&heap.file[..sought]);
    heap.file[sought..sought + 4].copy_from_slice(&sum.to_le_bytes());
    heap.mend();
    both_refuse(&heap, &[0], (8, 0, 0));
}

/// 37. The ID of a huge object.
fn huge_object() {
    both_refuse(&file_with(0, 40), &[0x10], (6, 1, 0));
}

/// 38. Direct blocks have a checksum; by the format only where bit 1 of the header's flags is set, and without it
/// the object would lie at 18. The unchecked reader does not look at the flags, and the checked one does.
fn sums_always() {
    assert_eq!(both_plan(&[1]).offsets, [22]);
    let mut block = both_write(&[&[7]]);
    let stored: [u8; 4] = block[18..22].try_into().expect("four bytes");
    block[18..22].fill(0);
    assert_eq!(stored, original::jenkins_lookup3(&block).to_le_bytes());
    let (heap, root) = rooted(made::fixed(0, 0), &[0x5A]);
    for flags in [0, 2] {
        let heap = with_flags(heap.clone(), flags);
        both_read(&heap, &by_rule(0, 1), &[0x5A], root);
    }
    let mut block = empty_root();
    block[1023] = 0x5A;
    let stored = format::number(&block[12..16]);
    block[12..16].fill(0);
    let computed = original::jenkins_lookup3(&block).into();
    block[12..16].copy_from_slice(&stored.to_le_bytes()[..4]);
    let (heap, root) = rooted(made::fixed(0, 0), &block);
    let id = by_rule(1023, 1);
    for (flags, due) in [(0, (0, root + 1023, 1)), (2, (18, stored, computed))] {
        let heap = with_flags(heap.clone(), flags);
        both_read(&heap, &id, &[0x5A], root + 1023);
        assert_eq!(checked(&heap, &id), due, "flags {flags}");
    }
}

/// 42. A block that says that it begins at another heap offset, under a checksum that holds. HDF5 reckons with what it
/// says: by offset 16 it has the last byte of the checksum, which stands before.
fn block_offset() {
    let mut block = empty_root();
    (block[7], block[16]) = (1, 0x5A);
    block[12..16].fill(0);
    let sum = original::jenkins_lookup3(&block);
    block[12..16].copy_from_slice(&sum.to_le_bytes());
    let (heap, root) = rooted(made::fixed(0, 0), &block);
    let (heap, id) = (with_flags(heap, 2), by_rule(16, 1));
    both_read(&heap, &id, &[0x5A], root + 16);
    assert_eq!(checked(&heap, &id), (19, 1, 0));
}

/// Tests by the number of their case, with their names.
macro_rules! named {
    ($($number:literal $case:ident),* $(,)?) => { [$(($number, stringify!($case), $case as fn())),*] };
}

const CASES: [(u64, &str, fn()); 39] = named![
    1 filtered_checksum,
    2 version_bits,
    3 leftover_bits,
    4 block_not_tested,
    5 wide_shift,
    7 host,
    8 no_width,
    9 too_large,
    11 empty_tiny,
    12 long_form,
    13 other_bytes,
    14 undefined_header,
    15 past_the_end,
    16 past_the_block,
    17 no_columns,
    18 offset_bits,
    19 id_length,
    20 rows_to_the_end,
    21 nested_rows,
    22 indirect_entries,
    23 offset_field,
    24 length_field,
    25 empty_objects,
    26 iterator_at_0,
    27 free_slots,
    28 other_widths,
    29 small_managed,
    30 in_the_header,
    31 behind_the_block,
    32 above_the_largest,
    33 tiny_type,
    34 small_slots,
    35 small_directs,
    36 filtered_heap,
    37 huge_object,
    38 sums_always,
    39 power_of_256,
    40 none_managed,
    42 block_offset,
];

/// Kept in `heap.rs` and `plan.rs`, since their inputs are long; and by `loader/`, which has HDF5.
const ELSEWHERE: [u64; 5] = [6, 10, 41, 43, 44];

/// The document's row of a case.
fn documented(number: u64) -> &'static str {
    let begins = format!("| {number} |");
    let rows = include_str!("../docs/DIFFERENCES.md").lines();
    let mut rows = rows.filter(|line| line.starts_with(&begins));
    let row = rows
        .next()
        .unwrap_or_else(|| panic!("case {number} is not in DIFFERENCES.md"));
    assert_eq!(rows.next(), None, "case {number} twice in DIFFERENCES.md");
    row
}

/// Every case; the document has a row for each, which names its test, and no other rows.
pub fn compare() -> Vec<Row> {
    panics::quiet();
    let rows = include_str!("../docs/DIFFERENCES.md").lines();
    let rows =
        rows.filter(|line| line.starts_with("| ") && line[2..].starts_with(char::is_numeric));
    assert_eq!(
        rows.count(),
        CASES.len() + ELSEWHERE.len(),
        "rows of DIFFERENCES.md"
    );
    for (number, name, case) in CASES {
        let cited = documented(number).contains(&format!("`{name}`"));
        assert!(cited, "the row of case {number} does not name {name}");
        case();
    }
    for number in ELSEWHERE {
        documented(number);
    }
    let what = "cases of DIFFERENCES.md, as it says";
    vec![row(what, CASES.len() as u64)]
}
