//! Files of attributes, made here by the format around one direct block, then read: as they are, cut, with each bit
//! changed, and with bytes changed under checksums that hold.
use fractal_heap::{Heap, OpenPlan, Superblock, checksum};
use hdf5_file::{
    Attribute, Attributes, Dense, Disagreement, Found, Kind, NameIndex, Named, ObjectCounts,
    Places, RootGroup, Uncovered, Unreadable, message_head,
};
use std::ops::Range;

const HEADER: u64 = 146;
const BLOCK: usize = 1024;
/// What a direct block has before its objects.
const BLOCK_HEADER: usize = 22;

struct Made {
    bytes: Vec<u8>,
    attributes: Vec<(String, Vec<u8>)>,
    /// What each checksum covers; it stands right behind.
    sealed: Vec<Range<usize>>,
}

/// The heap's blocks, of objects at these heap offsets: one, or behind an indirect root those of its first two rows, which
/// have one size.
fn blocks(plan: &OpenPlan, heap: u64, region: u64, objects: &[(u64, Vec<u8>)]) -> Vec<u8> {
    let totals = plan.totals();
    let (rows, count) = (totals.root_rows as usize, totals.block_count as usize);
    assert!(rows <= 2, "blocks of one size");
    let mut bytes = Vec::new();
    if rows > 0 {
        bytes.extend(b"FHIB\0");
        bytes.extend(heap.to_le_bytes());
        bytes.extend([0; 5]);
        let first = region + 18 + 32 * rows as u64 + 4;
        let address = |i: usize| {
            if i < count {
                first + (i * BLOCK) as u64
            } else {
                u64::MAX
            }
        };
        bytes.extend((0..4 * rows).flat_map(|i| address(i).to_le_bytes()));
        let sum = checksum(&bytes).to_le_bytes();
        bytes.extend(sum);
    }
    for start in (0..count * BLOCK).step_by(BLOCK) {
        let mut block = b"FHDB\0".to_vec();
        block.extend(heap.to_le_bytes());
        block.extend(&start.to_le_bytes()[..5]);
        block.extend([0; 4]);
        block.resize(BLOCK, 0);
        for (offset, object) in objects {
            if let Some(at) = (*offset as usize)
                .checked_sub(start)
                .filter(|&at| at < BLOCK)
            {
                block[at..at + object.len()].copy_from_slice(object);
            }
        }
        let sum = checksum(&block).to_le_bytes();
        block[18..22].copy_from_slice(&sum);
        bytes.extend(block);
    }
    assert_eq!(bytes.len() as u64, totals.region_size);
    bytes
}

/// A file of short attributes, which fit into one block.
fn made(count: usize, tracks_order: bool) -> Made {
    let attribute = |i| (format!("n{i}"), vec![b'a' + i as u8; i % 3]);
    made_of((0..count).map(attribute).collect(), tracks_order)
}

fn made_of(attributes: Vec<(String, Vec<u8>)>, tracks_order: bool) -> Made {
    let count = attributes.len();
    let places = Places::new(tracks_order);
    let region = places.heap + HEADER;
    let (mut plan, mut objects, mut ids) = (OpenPlan::open(8).unwrap(), vec![], vec![]);
    for (name, value) in &attributes {
        let mut message = message_head(name, Kind::Bytes, value.len() as u64).unwrap();
        message.extend(value);
        let added = plan.add(message.len() as u64).unwrap();
        ids.push(added.id().unwrap());
        objects.push((added.offset, message));
    }
    let index_at = region + plan.totals().region_size;
    let named: Vec<Named> = attributes
        .iter()
        .zip(&ids)
        .zip(0..)
        .map(|(((name, _), &id), i)| Named {
            name: name.as_bytes(),
            id,
            order: tracks_order.then_some(i),
        })
        .collect();
    let index = NameIndex::new(&named).write(index_at);
    let end = index_at + index.len() as u64;
    let root = RootGroup {
        newest: tracks_order.then_some(count as u16),
        dense: Some(Dense {
            heap: places.heap,
            names: index_at,
        }),
    };
    let mut bytes = root.front(end);
    let mut header = vec![0; HEADER as usize];
    plan.header(region).write(8, 8, &mut header).unwrap();
    bytes.extend(header);
    bytes.extend(blocks(&plan, places.heap, region, &objects));
    bytes.extend(index);
    let (heap, index_at) = (places.heap as usize, index_at as usize);
    let mut sealed = vec![
        0..44,
        48..heap - 4,
        heap..heap + HEADER as usize - 4,
        index_at..index_at + 34,
    ];
    for node in (index_at + 38..bytes.len()).step_by(512) {
        let written = bytes[node..node + 512]
            .iter()
            .rposition(|&byte| byte != 0)
            .unwrap();
        sealed.push(node..node + written - 3);
    }
    Made {
        bytes,
        attributes,
        sealed,
    }
}

type Read<'f> = Vec<Found<'f>>;

/// All attributes. Each is asked for once more by its name and by its ID, and a managed message is held to the reader that
/// tests every block of it.
fn read(bytes: &[u8]) -> Result<Read<'_>, Unreadable> {
    let attributes = Attributes::open(bytes)?;
    let all = attributes.all()?;
    let header_at = attributes.dense().map(|dense| dense.heap);
    let heap = header_at.and_then(|at| Superblock::find(bytes)?.heap(bytes, at));
    for found in &all {
        if let Ok(attribute) = &found.attribute {
            attributes.find(attribute.name)?;
        }
        if let Some(id) = &found.id {
            attributes.find_id(id)?;
            held_to_the_tested(&found.attribute, &heap.unwrap(), id);
        }
    }
    attributes.heap()?;
    Ok(all)
}

/// What comes of an ID is what comes where every block is tested, as far as that is the attribute's message.
fn held_to_the_tested(attribute: &Result<Attribute, Unreadable>, heap: &Heap, id: &[u8; 8]) {
    match (attribute, heap.read_managed_object(id, heap.header_at)) {
        (Ok(attribute), tested) => {
            let tested = tested.expect("what is refused where every block is tested is not read");
            assert!(
                attribute
                    .message
                    .is_none_or(|message| tested.starts_with(message))
            );
        }
        (Err(Unreadable::Heap { .. }), tested) => assert!(tested.is_err()),
        (Err(_), _) => {}
    }
}

/// As `read`, of a file in which nothing was sealed anew: name and ID lead to the same attribute.
fn read_alike(bytes: &[u8]) -> Result<Read<'_>, Unreadable> {
    let (attributes, all) = (Attributes::open(bytes)?, read(bytes)?);
    for found in &all {
        if let Ok(attribute) = &found.attribute {
            let by_name = attributes.find(attribute.name)?;
            assert_eq!(by_name.as_ref(), Some(found));
            let id = found.id.expect("it is in the heap, or has none");
            assert_eq!(attributes.find_id(&id)?.as_ref(), Some(found));
        }
    }
    Ok(all)
}

fn given(read: &Read) -> Vec<(String, Vec<u8>)> {
    let value = |found: &Found| {
        let attribute = found.attribute.as_ref().ok()?;
        let name = String::from_utf8_lossy(attribute.name).into_owned();
        Some((name, attribute.value.ok()?.to_vec()))
    };
    read.iter().filter_map(value).collect()
}

#[test]
fn every_attribute_comes_back_in_its_order() {
    for count in [1, 2, 23] {
        for tracks_order in [false, true] {
            let made = made(count, tracks_order);
            let read = read(&made.bytes).unwrap();
            assert_eq!(given(&read), made.attributes);
            let orders: Vec<_> = read.iter().filter_map(|found| found.order).collect();
            let due = if tracks_order {
                (0..count as u16).collect()
            } else {
                vec![]
            };
            assert_eq!(orders, due);
        }
    }
}

#[test]
fn a_user_block_is_passed_over() {
    let made = made(5, false);
    for size in [512, 1024, 4096] {
        let bytes = behind(size, &made.bytes);
        assert_eq!(given(&read_alike(&bytes).unwrap()), made.attributes);
        // As it was, it may also be one that lies in another file.
        let copied = [&vec![0x55; size][..], &made.bytes].concat();
        assert!(read(&copied).is_err());
    }
}

/// A file behind a user block, as HDF5 has it: its base address is its place, and its end as much further.
fn behind(size: usize, file: &[u8]) -> Vec<u8> {
    let mut bytes = [&vec![0x55; size][..], file].concat();
    let base = size as u64;
    bytes[size + 12..size + 20].copy_from_slice(&base.to_le_bytes());
    let end = base + file.len() as u64;
    bytes[size + 28..size + 36].copy_from_slice(&end.to_le_bytes());
    let sum = checksum(&bytes[size..size + 44]).to_le_bytes();
    bytes[size + 44..size + 48].copy_from_slice(&sum);
    bytes
}

#[test]
fn a_user_block_that_is_named_is_passed_over() {
    let made = made(5, false);
    let read = |bytes: &[u8], size| {
        let attributes = Attributes::open_behind(bytes, size)?;
        assert_eq!(attributes.bytes_behind(), 0);
        Ok::<_, Unreadable>(given(&attributes.all().unwrap()))
    };
    for size in [512, 1024, 4096] {
        let copied = [&vec![0x55; size][..], &made.bytes].concat();
        let (at, base) = (size as u64, 0);
        let refused = Attributes::open(&copied).err();
        assert_eq!(refused, Some(Unreadable::OtherBase { at, base }));
        assert_eq!(read(&copied, at).as_ref(), Ok(&made.attributes));
        let due = behind(size, &made.bytes);
        assert_eq!(read(&due, at).as_ref(), Ok(&made.attributes));
        for user_block in [0, at - 1, at + 1, 2 * at, 1 << 20, u64::MAX] {
            let found = Some(at);
            let none = Err(Unreadable::NotBehind { user_block, found });
            assert_eq!(read(&copied, user_block), none);
        }
    }
    assert_eq!(read(&made.bytes, 0), Ok(made.attributes));
    let (user_block, found) = (512, None);
    let none = Unreadable::NotBehind { user_block, found };
    assert_eq!(read(b"no file", 512), Err(none));
}

#[test]
fn a_name_that_is_not_there_is_none() {
    let made = made(23, false);
    let attributes = Attributes::open(&made.bytes).unwrap();
    for name in [&b""[..], b"n", b"n99", b"\xff"] {
        assert_eq!(attributes.find(name), Ok(None), "{name:?}");
    }
}

#[test]
fn an_attribute_is_found_by_its_id_while_it_is_there() {
    let made = made(5, false);
    let attributes = Attributes::open(&made.bytes).unwrap();
    for found in attributes.all().unwrap() {
        assert_eq!(attributes.find_id(&found.id.unwrap()), Ok(Some(found)));
    }
    // Of another file with its object, and not in the index.
    let id = attributes.all().unwrap()[4].id.unwrap();
    let mut bytes = made.bytes.clone();
    let (node, at) = (made.sealed[4].clone(), made.sealed[4].start + 6);
    let record = |i: usize| at + 17 * i..at + 17 * (i + 1);
    let own = (0..5).find(|&i| bytes[record(i)].starts_with(&id)).unwrap();
    let other = (own + 1) % 5;
    let other = bytes[record(other)].to_vec();
    bytes[record(own)].copy_from_slice(&other);
    let sum = checksum(&bytes[node.clone()]).to_le_bytes();
    bytes[node.end..node.end + 4].copy_from_slice(&sum);
    let attributes = Attributes::open(&bytes).unwrap();
    assert_eq!(attributes.find_id(&id), Ok(None));
}

#[test]
fn a_file_that_is_cut_is_refused() {
    for made in [made(23, true), one_in_another()] {
        for length in 0..made.bytes.len() {
            assert!(read(&made.bytes[..length]).is_err(), "{length}");
        }
    }
}

/// What `deposit --add` asks before it puts a file of attributes in another one's place.
fn other_content(bytes: &[u8]) -> Option<&'static str> {
    Attributes::open(bytes).unwrap().other_content()
}

#[test]
fn what_a_file_of_attributes_would_not_have_is_told() {
    let made = made(3, false);
    assert_eq!(other_content(&made.bytes), None);
    for length in [1, 4096] {
        let longer = [&made.bytes[..], &vec![0; length]].concat();
        let due = "bytes behind its end, which its superblock tells";
        assert_eq!(other_content(&longer), Some(due));
        assert_eq!(given(&read_alike(&longer).unwrap()), made.attributes);
    }
    let mut extended = made.bytes.clone();
    extended[20..28].copy_from_slice(&48u64.to_le_bytes());
    let sum = checksum(&extended[..44]).to_le_bytes();
    extended[44..48].copy_from_slice(&sum);
    assert_eq!(other_content(&extended), Some("a superblock extension"));
    assert_eq!(
        other_content(&behind(512, &made.bytes)),
        Some("a user block")
    );
}

/// The same file with a superblock of version 0, whose bytes come before the object header's: II.A. Of its addresses the
/// second is that of the index of free space, and the fourth that of the driver's information block.
#[test]
fn what_a_superblock_of_version_0_leads_to_is_told() {
    let none = u64::MAX;
    for (free_space, driver, due) in [
        (none, none, None),
        (96, none, Some("an index of free space")),
        (none, 96, Some("a driver's information block")),
    ] {
        let mut header = b"OHDR\x02\0\0".to_vec();
        let sum = checksum(&header).to_le_bytes();
        header.extend(sum);
        let mut bytes = b"\x89HDF\r\n\x1a\n\0\0\0\0\0\x08\x08\0\x04\0\x10\0\0\0\0\0".to_vec();
        let end = 96 + header.len() as u64;
        let (base, name, root) = (0, 0, 96);
        for address in [base, free_space, end, driver, name, root] {
            bytes.extend(u64::to_le_bytes(address));
        }
        bytes.resize(96, 0);
        bytes.extend(header);
        assert_eq!(other_content(&bytes), due);
    }
}

/// An HDF5 file with one attribute in its object header.
fn compact_file(name: &str, value: &[u8]) -> Vec<u8> {
    let mut message = message_head(name, Kind::Bytes, value.len() as u64).unwrap();
    message.extend(value);
    let mut header = b"OHDR\x02\0".to_vec();
    header.push(4 + message.len() as u8);
    header.extend([0x0C, message.len() as u8, 0, 0]);
    header.extend(message);
    let sum = checksum(&header).to_le_bytes();
    header.extend(sum);
    let end = 48 + header.len() as u64;
    let mut bytes = b"\x89HDF\r\n\x1a\n\x02\x08\x08\0".to_vec();
    for address in [0, u64::MAX, end, 48] {
        bytes.extend(address.to_le_bytes());
    }
    let sum = checksum(&bytes).to_le_bytes();
    bytes.extend(sum);
    bytes.extend(header);
    bytes
}

/// An HDF5 file of old, with one attribute in its object header: II.A, 'Superblock (Versions 0 and 1)', IV.A.1.a, 'Version
/// 1 Object Header'. No part of it has a checksum.
fn old_file(name: &str, value: &[u8]) -> Vec<u8> {
    let mut message = message_head(name, Kind::Bytes, value.len() as u64).unwrap();
    message.extend(value);
    message.resize(message.len().next_multiple_of(8), 0);
    let mut bytes = b"\x89HDF\r\n\x1a\n\0\0\0\0\0\x08\x08\0\x04\0\x10\0\0\0\0\0".to_vec();
    let end = 96 + 16 + 8 + message.len() as u64;
    for address in [0, u64::MAX, end, u64::MAX, 0, 96] {
        bytes.extend(u64::to_le_bytes(address));
    }
    bytes.resize(96, 0);
    bytes.extend([1, 0, 1, 0, 1, 0, 0, 0]);
    bytes.extend((8 + message.len() as u32).to_le_bytes());
    bytes.extend([0; 4]);
    bytes.extend([0x0C, 0]);
    bytes.extend((message.len() as u16).to_le_bytes());
    bytes.extend([0; 4]);
    bytes.extend(message);
    bytes
}

/// Of each attribute where it lies that no checksum covers it.
fn uncovered(bytes: &[u8]) -> Vec<Option<Uncovered>> {
    let all = read(bytes).unwrap();
    all.into_iter()
        .map(|found| found.attribute.unwrap().uncovered)
        .collect()
}

/// Makes the checksum of a part right again.
fn seal(bytes: &mut [u8], part: &Range<usize>) {
    let sum = checksum(&bytes[part.clone()]).to_le_bytes();
    bytes[part.end..part.end + 4].copy_from_slice(&sum);
}

#[test]
fn each_value_tells_whether_a_checksum_covers_it() {
    let made = made(3, false);
    assert_eq!(uncovered(&made.bytes), [None; 3]);
    assert_eq!(uncovered(&compact_file("n", b"value")), [None]);
    let old = old_file("n", b"value");
    assert_eq!(uncovered(&old), [Some(Uncovered::OldObjectHeader)]);
    // The flags are behind signature, version and two lengths of two bytes.
    let (mut bare, header) = (made.bytes.clone(), made.sealed[2].clone());
    bare[header.start + 9] = 0;
    seal(&mut bare, &header);
    let due = [Some(Uncovered::BlocksWithoutChecksums); 3];
    assert_eq!(uncovered(&bare), due);
    assert_eq!(given(&read(&bare).unwrap()), made.attributes);
}

// By a bit that is changed comes the value as it was, or one that is told as not covered, or none.
#[test]
fn no_other_value_comes_as_a_covered_one() {
    let whole = old_file("n", b"a value");
    let due = [("n".into(), b"a value".to_vec())];
    assert_eq!(given(&read(&whole).unwrap()), due);
    let mut others = 0;
    for bit in 0..8 * whole.len() {
        let mut bytes = whole.clone();
        bytes[bit / 8] ^= 1 << (bit % 8);
        let Ok(all) = read(&bytes) else { continue };
        for attribute in all.iter().filter_map(|found| found.attribute.as_ref().ok()) {
            if attribute.value.is_ok_and(|value| value != b"a value") {
                assert!(attribute.uncovered.is_some(), "{bit}");
                others += 1;
            }
        }
    }
    assert!(others >= 8 * 7, "each bit of the value");
}

/// How index and heap disagree.
fn disagreement(bytes: &[u8]) -> Option<Disagreement> {
    let attributes = Attributes::open(bytes).unwrap();
    let all = attributes.all().unwrap();
    attributes.disagreement(&all).unwrap()
}

fn managed(managed: u64) -> ObjectCounts {
    ObjectCounts {
        managed,
        ..ObjectCounts::default()
    }
}

#[test]
fn an_index_without_records_disagrees_with_its_heap() {
    for tracks_order in [false, true] {
        let Made {
            mut bytes, sealed, ..
        } = made(12, tracks_order);
        assert_eq!(disagreement(&bytes), None);
        // Root, its own records and all of them, behind signature, version, type, four numbers of 4, 2, 2 and 2 bytes.
        let index = sealed[3].clone();
        bytes[index.start + 16..index.start + 24].fill(0xFF);
        bytes[index.start + 24..index.end].fill(0);
        seal(&mut bytes, &index);
        assert_eq!(given(&read(&bytes).unwrap()), []);
        let due = Disagreement {
            index: managed(0),
            heap: managed(12),
            repeated: 0,
        };
        assert_eq!(disagreement(&bytes), Some(due));
    }
}

// Their numbers are behind 70 bytes of the header: 14 up to the flags with the largest size, and seven numbers of eight.
#[test]
fn an_index_disagrees_with_a_heap_of_another_number_of_objects() {
    let made = made(12, false);
    let (header, heap) = (made.sealed[2].clone(), made.sealed[2].start);
    for (at, number, due) in [
        (70, 14, managed(14)),
        (
            86,
            3,
            ObjectCounts {
                huge: 3,
                ..managed(12)
            },
        ),
        (
            102,
            1,
            ObjectCounts {
                tiny: 1,
                ..managed(12)
            },
        ),
    ] {
        let mut bytes = made.bytes.clone();
        bytes[heap + at] = number;
        seal(&mut bytes, &header);
        assert_eq!(given(&read(&bytes).unwrap()), made.attributes);
        let due = Disagreement {
            index: managed(12),
            heap: due,
            repeated: 0,
        };
        assert_eq!(disagreement(&bytes), Some(due), "{at}");
    }
    assert_eq!(disagreement(&compact_file("n", b"value")), None, "no heap");
}

#[test]
fn two_records_of_one_object_are_told() {
    let made = made(5, false);
    let node = made.sealed[4].clone();
    let (mut bytes, first) = (made.bytes.clone(), node.start + 6);
    bytes.copy_within(first..first + 17, first + 17);
    seal(&mut bytes, &node);
    let due = Disagreement {
        index: managed(4),
        heap: managed(5),
        repeated: 1,
    };
    assert_eq!(disagreement(&bytes), Some(due));
}

#[test]
fn bytes_behind_the_end_are_counted() {
    let behind_of = |bytes: &[u8]| Attributes::open(bytes).unwrap().bytes_behind();
    let (small, large) = (made(2, false).bytes, made(23, false).bytes);
    assert_eq!(behind_of(&small), 0);
    let laid_over = [&small[..], &large[small.len()..]].concat();
    assert_eq!(behind_of(&laid_over), (large.len() - small.len()) as u64);
    let block = behind(512, &small);
    assert_eq!(behind_of(&block), 0);
    assert_eq!(behind_of(&[&block[..], b"more"].concat()), 4);
    let old = old_file("n", b"value");
    assert_eq!(behind_of(&old), 0);
    assert_eq!(behind_of(&[&old[..], b"more"].concat()), 4);
}

/// A file of which a value is an HDF5 file with an attribute of the same name, where a superblock is sought.
fn one_in_another() -> Made {
    let inner = compact_file("n1", b"other bytes");
    let head = |name| message_head(name, Kind::Bytes, 0).unwrap().len();
    let before = Places::new(false).heap + HEADER + 22;
    let filler = 512 - before as usize - head("n0") - head("n1");
    let made = made_of(
        vec![("n0".into(), vec![7; filler]), ("n1".into(), inner.clone())],
        false,
    );
    assert_eq!(made.bytes[512..512 + inner.len()], inner);
    made
}

#[test]
fn a_file_in_another_is_not_taken_for_it() {
    let mut made = one_in_another();
    let inner = made.attributes[1].1.clone();
    let due = [("n1".into(), b"other bytes".to_vec())];
    assert_eq!(given(&read(&inner).unwrap()), due, "alone it is one");
    let moved = behind(512, &inner);
    assert_eq!(
        given(&read(&moved).unwrap()),
        due,
        "behind a user block, too"
    );
    assert_eq!(given(&read_alike(&made.bytes).unwrap()), made.attributes);
    made.bytes[..48].fill(0);
    assert!(read(&made.bytes).is_err());
}

/// The file inside ends with the file, as one may that HDF5 has put into a place of its own.
#[test]
fn a_file_at_the_end_of_another_is_not_taken_for_it() {
    let mut inner = compact_file("n1", b"other bytes");
    let outer = made(3, false).bytes;
    let mut bytes = outer.clone();
    bytes.resize(4096, 0);
    for base in [0u64, 4096] {
        if base > 0 {
            inner = behind(4096, &inner)[4096..].to_vec();
        }
        let mut bytes = [&bytes[..], &inner].concat();
        let end = bytes.len() as u64;
        bytes[28..36].copy_from_slice(&end.to_le_bytes());
        let sum = checksum(&bytes[..44]).to_le_bytes();
        bytes[44..48].copy_from_slice(&sum);
        assert_eq!(
            given(&read_alike(&bytes).unwrap()),
            made(3, false).attributes
        );
        for bit in 0..64 {
            bytes[bit / 8] ^= 1 << (bit % 8);
            assert!(read(&bytes).is_err(), "{bit} of a base of {base}");
            bytes[bit / 8] ^= 1 << (bit % 8);
        }
    }
}

/// Each of these bits alone is changed, and then the file is read.
fn flip_each(made: Made, bits: impl Iterator<Item = usize>) {
    let Made {
        mut bytes,
        attributes,
        ..
    } = made;
    assert_eq!(given(&read_alike(&bytes).unwrap()), attributes);
    for bit in bits {
        bytes[bit / 8] ^= 1 << (bit % 8);
        if let Ok(read) = read_alike(&bytes) {
            let given = given(&read);
            let is_right = |value| attributes.contains(value);
            assert!(given.iter().all(is_right), "bit {bit}");
            let are_all = read.iter().all(|found| found.attribute.is_ok());
            assert!(!are_all || given.len() == attributes.len(), "bit {bit}");
        }
        bytes[bit / 8] ^= 1 << (bit % 8);
    }
}

#[test]
fn a_bit_that_is_changed_is_refused_or_changes_nothing() {
    for made in [made(23, true), one_in_another()] {
        let bits = 0..8 * made.bytes.len();
        flip_each(made, bits);
    }
}

/// A file of seven blocks under an indirect root of two rows: all of what the root has, of the heads of its blocks with
/// their checksums, and each 101st bit of the rest.
#[test]
fn a_bit_of_several_blocks_is_refused_or_changes_nothing() {
    let attribute = |i: usize| (format!("n{i}"), vec![b'a' + i as u8; 300 + i]);
    let made = made_of((0..14).map(attribute).collect(), false);
    let region = (Places::new(false).heap + HEADER) as usize;
    let first = region + 18 + 8 * 8 + 4;
    let has_head = |at: usize| (0..7).any(|i| at.wrapping_sub(first + i * BLOCK) < BLOCK_HEADER);
    assert!(made.bytes[region..].starts_with(b"FHIB"));
    assert!((0..7).all(|i| made.bytes[first + i * BLOCK..].starts_with(b"FHDB")));
    let bits = 0..8 * made.bytes.len();
    flip_each(
        made,
        bits.filter(|bit| bit / 8 < first || has_head(bit / 8) || bit % 101 == 0),
    );
}

/// Numbers that look drawn: a multiplication and its upper bits.
struct Draw(u64);

impl Draw {
    fn below(&mut self, limit: usize) -> usize {
        self.0 = self
            .0
            .wrapping_mul(6_364_136_223_846_793_005)
            .wrapping_add(1_442_695_040_888_963_407);
        ((self.0 >> 33) as usize) % limit
    }
}

// What is asked for is an end without a panic, and soon.
#[test]
fn what_is_sealed_may_say_anything() {
    let mut draw = Draw(7);
    let rounds = if cfg!(debug_assertions) {
        20_000
    } else {
        50_000
    };
    let (mut answered, mut refused) = (0, 0);
    for made in [made(1, false), made(23, true)] {
        let mut bytes = made.bytes.clone();
        for _ in 0..rounds {
            let part = made.sealed[draw.below(made.sealed.len())].clone();
            for _ in 0..1 + draw.below(4) {
                let at = part.start + draw.below(part.len());
                bytes[at] = match draw.below(4) {
                    0 => draw.below(256) as u8,
                    1 => bytes[at] ^ 1 << draw.below(8),
                    2 => 0xFF,
                    _ => bytes[draw.below(bytes.len())],
                };
            }
            let sum = checksum(&bytes[part.clone()]).to_le_bytes();
            bytes[part.end..part.end + 4].copy_from_slice(&sum);
            match read(&bytes) {
                Ok(_) => answered += 1,
                Err(_) => refused += 1,
            }
            let whole = part.start..part.end + 4;
            bytes[whole.clone()].copy_from_slice(&made.bytes[whole]);
        }
    }
    assert!(answered > 0 && refused > 0, "{answered}, {refused}");
}

/// A node that has itself below it, in a tree that says it is deep: every count holds.
#[test]
fn a_node_below_itself_ends() {
    let mut made = made(1, false);
    let (header, node) = (made.sealed[3].clone(), made.sealed[4].start);
    let at = node as u64;
    let mut bytes = b"BTIN\0\x08".to_vec();
    bytes.extend([0; 17]);
    for _ in 0..2 {
        bytes.extend(at.to_le_bytes());
        bytes.extend([1, 0, 0, 0, 0]);
    }
    let sum = checksum(&bytes).to_le_bytes();
    bytes.extend(sum);
    made.bytes[node..node + bytes.len()].copy_from_slice(&bytes);
    for (all, depth) in [
        (3u64, 1u16),
        (u64::MAX, 1),
        (1 << 40, 40),
        (u64::MAX, 63),
        (u64::MAX, 0xFFFF),
    ] {
        let start = header.start;
        made.bytes[start + 12..start + 14].copy_from_slice(&depth.to_le_bytes());
        made.bytes[start + 26..start + 34].copy_from_slice(&all.to_le_bytes());
        let sum = checksum(&made.bytes[header.clone()]).to_le_bytes();
        made.bytes[header.end..header.end + 4].copy_from_slice(&sum);
        assert!(read(&made.bytes).is_err(), "{all} in {depth}");
    }
}

/// A continuation that leads to itself, and one that leads to the header.
#[test]
fn object_headers_do_not_go_round() {
    let made = made(1, false);
    let places = Places::new(false);
    for to in [places.root_group, made.bytes.len() as u64] {
        let mut bytes = made.bytes.clone();
        let mut block = b"OCHK\x10\x10\0\0".to_vec();
        block.extend(to.to_le_bytes());
        block.extend(28u64.to_le_bytes());
        let sum = checksum(&block).to_le_bytes();
        block.extend(sum);
        let at = bytes.len() as u64;
        bytes.extend(&block);
        // The header's first message, of 18 bytes, becomes a continuation to the block.
        let message = places.root_group as usize + 10;
        bytes[message..message + 4].copy_from_slice(&[0x10, 18, 0, 0]);
        bytes[message + 4..message + 12].copy_from_slice(&at.to_le_bytes());
        bytes[message + 12..message + 20].copy_from_slice(&28u64.to_le_bytes());
        let part = made.sealed[1].clone();
        let sum = checksum(&bytes[part.clone()]).to_le_bytes();
        bytes[part.end..part.end + 4].copy_from_slice(&sum);
        assert!(read(&bytes).is_err(), "{to}");
    }
}
