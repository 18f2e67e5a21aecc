//! The list that the program `run_reads` replays: headers, IDs and files with the original's answers.
//!
//! A case, all numbers little-endian: kind (1 byte), offset size, length size, offset size of the read (1
//! each), heap ID length (2), bytes of the file (4), bytes of the ID (4), the header's place (8), number of
//! the answer (4), how many words it has (1); then these words (8 each), the file, the ID. An accepted parse
//! has 26 words, the fields as the format gives them (format.rs), any other answer two. Of a header with filters the
//! original's answer counts up to the root's rows, and the format's behind them. Decoding and reading
//! parse first, so that a refusal of the parse is their answer. The last cases are recorded otherwise than the
//! original answers, each in one thing, so that a program that compares nothing, or leaves that out, prints
//! something else.
use crate::format;
use crate::ids::unpadded;
use crate::made::{self, Head, Heap, Tree, Written};
use crate::random::Random;

const KINDS: [&str; 5] = ["parse", "decode", "read", "tiny", "id type"];

/// What makes another answer of a number and its words.
type Wrong = fn(&mut u32, &mut Vec<u64>);

/// Each changes one thing: the number in its lowest bit or its highest, the first word in its lowest, the last in its
/// highest, how many words there are (two for 26, 26 for two).
const WRONG: [Wrong; 5] = [
    |number, _| *number ^= 1,
    |number, _| *number ^= 1 << 31,
    |_, words| words[0] ^= 1,
    |_, words| *words.last_mut().expect("a word") ^= 1 << 63,
    |_, words| words.resize(format::COUNT + 2 - words.len(), 0),
];

#[derive(Default)]
struct List {
    bytes: Vec<u8>,
    cases: [u64; 5],
    numbers: [u64; 11],
    /// What each answer is changed by before it is recorded, if by anything, and how many were.
    wrong: Option<Wrong>,
    differ: [u64; 5],
}

/// What a case is asked with.
struct Asked<'a> {
    heap: &'a Heap,
    read_size: u8,
    heap_id_length: u16,
    id: &'a [u8],
}

/// Where the bytes lie, if they are enough to tell and lie nowhere else.
fn only_place(file: &[u8], bytes: &[u8]) -> Option<u64> {
    if bytes.len() < 4 {
        return None;
    }
    let mut places = (0..)
        .zip(file.windows(bytes.len()))
        .filter(|(_, w)| *w == bytes);
    let (place, _) = places.next()?;
    places.next().is_none().then_some(place)
}

impl List {
    fn case(&mut self, kind: usize, asked: &Asked, number: u32, words: &[u64]) {
        let (mut number, mut words) = (number, words.to_vec());
        match self.wrong {
            None => self.numbers[number as usize] += 1,
            Some(change) => {
                change(&mut number, &mut words);
                self.differ[kind] += 1;
            }
        }
        let Asked { heap, id, .. } = asked;
        let widths = [heap.offset_size, heap.length_size, asked.read_size];
        let out = &mut self.bytes;
        out.push(kind as u8);
        out.extend(widths);
        out.extend(asked.heap_id_length.to_le_bytes());
        out.extend((heap.file.len() as u32).to_le_bytes());
        out.extend((id.len() as u32).to_le_bytes());
        out.extend(heap.at.to_le_bytes());
        out.extend(number.to_le_bytes());
        out.push(words.len() as u8);
        out.extend(words.iter().flat_map(|word| word.to_le_bytes()));
        out.extend(&heap.file);
        out.extend(*id);
        self.cases[kind] += 1;
    }

    fn parse(&mut self, heap: &Heap) {
        let asked = Asked {
            heap,
            read_size: 0,
            heap_id_length: 0,
            id: &[],
        };
        match format::parsed_of(heap) {
            Ok(parsed) => self.case(0, &asked, 0, &parsed.numbers),
            Err((number, x, y)) => self.case(0, &asked, number, &[x, y]),
        }
    }

    /// The original answers by the ID without its padding.
    fn decode(&mut self, heap: &Heap, id: &[u8]) {
        let parsed = format::parsed_of(heap);
        let (number, x, y) = parsed.map_or_else(
            |refusal| refusal,
            |p| p.header.decode(&unpadded(&p.header, id)),
        );
        let asked = Asked {
            heap,
            read_size: 0,
            heap_id_length: 0,
            id,
        };
        self.case(1, &asked, number, &[x, y]);
    }

    /// The original answers by the ID without its padding. An accepted read is recorded only where its bytes tell their
    /// place.
    fn read(&mut self, heap: &Heap, read_size: u8, id: &[u8]) {
        let parsed = format::parsed_of(heap);
        let read = parsed.and_then(|p| {
            let id = unpadded(&p.header, id);
            p.header.read(&heap.file, &id, read_size)
        });
        let (number, x, y) = match read {
            Err(refusal) => refusal,
            Ok(bytes) => match only_place(&heap.file, &bytes) {
                Some(place) => (0, place, bytes.len() as u64),
                None => return,
            },
        };
        let asked = Asked {
            heap,
            read_size,
            heap_id_length: 0,
            id,
        };
        self.case(2, &asked, number, &[x, y]);
    }
}

/// No file.
const NONE: Heap = Heap {
    file: Vec::new(),
    at: 0,
    offset_size: 0,
    length_size: 0,
};

impl List {
    /// The object begins behind the two bytes of a long length, or behind one byte. An empty ID in the short
    /// form is answered by the rules' words: the original panics.
    fn tiny(&mut self, heap_id_length: u16, id: &[u8]) {
        let long = heap_id_length > 17;
        let (number, x, y) = match id {
            [] if !long => (1, 1, 0),
            _ => match original::tiny(heap_id_length, id) {
                Err(refusal) => refusal,
                Ok(bytes) => {
                    let place = 1 + usize::from(long);
                    assert_eq!(id[place..place + bytes.len()], bytes, "tiny {id:?}");
                    (0, place as u64, bytes.len() as u64)
                }
            },
        };
        let asked = Asked {
            heap: &NONE,
            read_size: 0,
            heap_id_length,
            id,
        };
        self.case(3, &asked, number, &[x, y]);
    }

    fn id_type(&mut self, id: &[u8]) {
        let (number, x, y) = original::id_type(id);
        let asked = Asked {
            heap: &NONE,
            read_size: 0,
            heap_id_length: 0,
            id,
        };
        self.case(4, &asked, number, &[x, y]);
    }
}

/// A file that is a header between `around` other bytes on each side.
fn headed(random: &mut Random, head: &Head, w: u8, l: u8, around: usize) -> Heap {
    let mut file = vec![0; around];
    random.fill(&mut file);
    file.extend(made::header(random, head, w, l));
    file.extend((0..around).map(|_| random.byte()));
    Heap {
        file,
        at: around as u64,
        offset_size: w,
        length_size: l,
    }
}

/// Headers at every width, filtered ones, wrong widths, places past the file.
fn headers(list: &mut List, random: &mut Random) {
    for w in [2, 4, 8] {
        for l in [2, 4, 8] {
            let mut head = made::fixed(random.number(), random.below(30) as u16);
            list.parse(&headed(random, &head, w, l, 0));
            list.parse(&headed(random, &head, w, l, 9));
            head.filter = random.one(&[1, 12, 300]);
            list.parse(&headed(random, &head, w, l, 3));
        }
    }
    let wrong = [0, 1, 3, 5, 7, 9, 16, 255];
    let pairs = wrong.map(|size| [(size, 8), (4, size), (size, size)]);
    for (w, l) in pairs.into_iter().flatten() {
        let head = made::fixed(20, 1);
        list.parse(&headed(random, &head, w, l, 1));
    }
    // what is stepped over is tested as bytes that are there, several fields together, and no width with them
    let whole = headed(random, &made::fixed(20, 1), 8, 8, 0);
    for (len, w, l) in [(146, 3, 3), (40, 8, 3), (40, 8, 8), (80, 8, 8)] {
        let mut heap = whole.clone();
        heap.file.truncate(len);
        (heap.offset_size, heap.length_size) = (w, l);
        list.parse(&heap);
    }
    let mut heap = headed(random, &made::fixed(20, 1), 4, 4, 7);
    let len = heap.file.len() as u64;
    for at in [
        0,
        6,
        8,
        len - 5,
        len - 4,
        len,
        len + 1,
        u64::MAX - 5,
        u64::MAX - 4,
        u64::MAX,
    ] {
        heap.at = at;
        list.parse(&heap);
    }
}

/// Headers cut at every byte, and with every byte changed: as they are and with the checksum mended.
fn damaged_headers(list: &mut List, random: &mut Random) {
    let whole = headed(random, &made::fixed(300, 2), 2, 2, 0);
    for len in 0..whole.file.len() {
        let mut heap = whole.clone();
        heap.file.truncate(len);
        list.parse(&heap);
    }
    for at in 0..whole.file.len() {
        let mut heap = whole.clone();
        heap.file[at] ^= 1 << random.below(8);
        list.parse(&heap);
        heap.mend();
        list.parse(&heap);
    }
    let filtered = Head {
        filter: 6,
        ..made::fixed(300, 2)
    };
    let mut heap = headed(random, &filtered, 4, 2, 0);
    while heap.file.len() > 40 {
        heap.file.truncate(heap.file.len() - 3);
        list.parse(&heap);
    }
}

/// What is behind the root's rows of a header with filters: cut at every byte, with every byte changed, as it is and with
/// the checksum mended, and under other lengths of the filters; and the longest, whole and cut. Their random numbers are
/// their own.
fn filtered_headers(list: &mut List) {
    let random = &mut Random::new(15);
    for widths @ [w, l] in [[4, 2], [8, 8]] {
        let head = Head {
            filter: 6,
            ..made::fixed(300, 2)
        };
        let whole = headed(random, &head, w, l, 3);
        let header = 3 + format::before_sum(widths, 0)..whole.file.len() - 3;
        list.parse(&whole);
        for len in header.clone() {
            let mut heap = whole.clone();
            heap.file.truncate(len);
            list.parse(&heap);
        }
        for at in header {
            let mut heap = whole.clone();
            heap.file[at] ^= 1 << random.below(8);
            list.parse(&heap);
            heap.mend();
            list.parse(&heap);
        }
        for filters in [1u16, 5, 7, 65_535] {
            let mut heap = whole.clone();
            heap.file[10..12].copy_from_slice(&filters.to_le_bytes());
            list.parse(&heap);
            heap.mend();
            list.parse(&heap);
        }
        list.decode(&whole, &made::packed(0, 40, 22, 1003)[..8]);
        list.read(&whole, w, &made::packed(0, 40, 22, 1003)[..8]);
    }
    let mut head = made::fixed(20, 1);
    head.filter = 65_535;
    let mut heap = headed(random, &head, 4, 8, 5);
    list.parse(&heap);
    for len in [heap.file.len() - 6, 400, 149] {
        heap.file.truncate(len);
        list.parse(&heap);
    }
}

/// Worked case 8 of docs/RULES.md; IDs of every short length at several numbers of heap bits, of every type, and
/// long ones, with padding at several largest managed objects. At 64 bits and more the original answers IDs of up to nine bytes.
fn decoded(list: &mut List, random: &mut Random) {
    let heap = headed(random, &made::fixed(22, 0), 8, 8, 0);
    list.decode(&heap, &[0x00, 0x16, 0x20, 0x00, 0x00, 0x00, 0xEB, 0x03]);
    for bits in [0, 1, 8, 32, 40, 63, 64, 65, 300] {
        let head = Head {
            bits,
            ..made::fixed(22, 0)
        };
        let heap = headed(random, &head, 2, 2, 1);
        for len in (0..=9).chain([10, 30, 300]) {
            let mut id = made::packed(0xC5, bits, random.next(), random.next());
            id.resize_with(len, || random.byte());
            if bits < 64 || len < 10 {
                list.decode(&heap, &id);
            }
        }
    }
    for largest_managed in [0, 255, 256, 65_536, u32::MAX] {
        let head = Head {
            largest_managed: Some(largest_managed),
            ..made::fixed(22, 0)
        };
        let heap = headed(random, &head, 8, 8, 1);
        for len in [7, 8, 9, 12, 17, 40] {
            let mut id = made::packed(0, 40, random.next(), random.next());
            id.resize_with(len, || random.byte());
            list.decode(&heap, &id);
        }
    }
    for first in [0x10, 0x20, 0x30, 0x7F, 0xC0] {
        list.decode(&heap, &made::packed(first, 40, 99, 9));
    }
    for place in [0, 4, 11, 40] {
        let mut heap = heap.clone();
        heap.file[place] ^= 8;
        list.decode(&heap, &[0; 8]);
    }
}

/// Heaps that the original wrote: a root direct block, and roots of one to four rows.
fn written(list: &mut List, random: &mut Random) {
    let many: Vec<u64> = (0..24).map(|_| 20 + random.below(180)).collect();
    let lists: [&[u64]; 6] = [
        &[],
        &[200, 4, 0, 300, 60],
        &[1002, 17],
        &[1003, 40],
        &[900, 900, 100, 8, 0, 700],
        &many,
    ];
    for w in [2, 4, 8] {
        for sizes in lists {
            let l = random.one(&[4, 8]);
            let heap = made::written(random, sizes, [w, l], 30);
            let step = 1 + sizes.len() / 3;
            let objects = heap.objects.iter();
            objects
                .step_by(step)
                .for_each(|o| list.read(&heap.heap, w, &o.id));
            list.read(&heap.heap, w, &made::packed(0, 40, 1 << 30, 5)[..8]);
        }
    }
}

/// The same with the widths, the root, the header or the file's end wrong.
fn spoiled(list: &mut List, random: &mut Random) {
    for (w, sizes) in [(2, &[50, 300][..]), (8, &[500, 600])] {
        let Written {
            heap,
            objects,
            header,
            region,
        } = made::written(random, sizes, [w, 4], 9);
        let id = &objects[1].id;
        for size in [0, 1, 2, 3, 4, 8, 16, 255] {
            list.read(&heap, size, id);
        }
        for len in [
            header.end - 1,
            header.end,
            region.end - 1,
            region.start + 40,
        ] {
            let mut heap = heap.clone();
            heap.file.truncate(len);
            list.read(&heap, w, id);
        }
        for place in [
            header.start + 1,
            header.start + 4,
            header.start + 20,
            region.start,
        ] {
            let mut heap = heap.clone();
            heap.file[place] ^= 2;
            list.read(&heap, w, id);
            heap.mend();
            list.read(&heap, w, id);
        }
    }
}

/// Roots that lead nowhere: undefined, near the largest address, past the file; filtered heaps; wrong types.
fn nowhere(list: &mut List, random: &mut Random) {
    for w in [2, 4, 8] {
        let top = u64::MAX >> (64 - 8 * u32::from(w));
        for (root, rows) in [
            (top, 0),
            (top, 3),
            (top - 1, 0),
            (top - 20, 0),
            (top - 2, 1),
            (70, 1),
        ] {
            let heap = headed(random, &made::fixed(root, rows), w, 4, 4);
            for (offset, length) in [(0, 0), (19, 4), (21, 300), ((1 << 40) - 1, 65_535)] {
                list.read(&heap, w, &made::packed(0, 40, offset, length)[..8]);
            }
            list.read(&heap, 5, &made::packed(0, 40, 22, 4)[..8]);
        }
        let filtered = Head {
            filter: 1,
            ..made::fixed(22, 0)
        };
        let heap = headed(random, &filtered, w, 8, 2);
        for id in [&[][..], &[0; 8], &[0x30; 8]] {
            list.read(&heap, w, id);
        }
        let heap = headed(random, &made::fixed(22, 0), w, 8, 2);
        for id in [&[][..], &[0x10; 8], &[0x20; 8], &[0x30; 8]] {
            list.read(&heap, w, id);
        }
    }
}

/// An ID for some bytes in a direct block of the tree.
fn inside(random: &mut Random, tree: &Tree) -> Vec<u8> {
    let (start, size) = random.one(&tree.directs);
    let offset = start + random.below(size);
    let length = 4 + random.below(9);
    let mut id = made::packed(random.one(&[0, 0, 0x4F]), tree.head.bits, offset, length);
    id.truncate(8 + random.below(2) as usize);
    id
}

/// Small tables of several levels, whole and with a changed byte or cut; blocks one in the other.
fn trees(list: &mut List, random: &mut Random) {
    for i in 0..40 {
        let (w, l) = (random.one(&[2, 4, 8]), random.one(&[2, 4, 8]));
        let head = Head {
            width: 2,
            starting: 16,
            largest: 32,
            bits: 16,
            rows: 3 + i % 4,
            ..made::fixed(0, 0)
        };
        let mut tree = made::tree(random, w, l, head, 7);
        for _ in 0..3 {
            let id = inside(random, &tree);
            list.read(&tree.heap, w, &id);
        }
        let id = inside(random, &tree);
        let place = tree.head.root as usize;
        tree.heap.file[place + random.below(70) as usize] ^= 1 << random.below(8);
        list.read(&tree.heap, w, &id);
    }
    for (w, bits) in [(2, 20), (4, 30), (2, 58)] {
        let (mut heap, offset) = made::chain(random, w, bits);
        for (offset, length) in [(offset, 7), (offset - 1, 7), (offset / 2, 9)] {
            list.read(&heap, w, &made::packed(0, bits, offset, length));
        }
        let middle = heap.file.len() / 2;
        let broken = (middle..).find(|&i| heap.file[i..].starts_with(b"FHIB"));
        heap.file[broken.expect("a block")] ^= 1;
        list.read(&heap, w, &made::packed(0, bits, offset, 7));
    }
}

/// Tiny objects: the rules' two cases, both forms, lengths around the ID's end.
fn tiny(list: &mut List, random: &mut Random) {
    list.tiny(8, &[]);
    let long = [
        0x29, 0x57, 0xbf, 0x2a, 0xbe, 0x47, 0xd2, 0x9d, 0x81, 0xab, 0xfa,
    ];
    list.tiny(18, &[&long[..], &[0; 7]].concat());
    for heap_id_length in [0, 1, 8, 17, 18, 19, 65_535] {
        for len in [0, 1, 2, 3, 9, 16, 17, 18, 30] {
            let mut id = vec![0; len];
            random.fill(&mut id);
            // A length at the ID's end, one less or one more; the type's bits are any.
            let whole = (len + random.below(3) as usize).saturating_sub(3);
            for (at, b) in id.iter_mut().enumerate().take(2) {
                *b = match (heap_id_length > 17, at) {
                    (true, 1) => whole as u8,
                    (true, _) => *b & 0xF0,
                    (false, 0) => *b & 0xF0 | whole.min(15) as u8,
                    _ => *b,
                };
            }
            list.tiny(heap_id_length, &id);
        }
    }
}

fn types(list: &mut List) {
    list.id_type(&[]);
    for first in (0..=255).step_by(15) {
        list.id_type(&[first]);
        list.id_type(&[first, 0x30, 0xFF]);
    }
}

/// Recorded wrongly: accepted and refused cases of each kind, each in every way.
fn misrecorded(list: &mut List, random: &mut Random) {
    let whole = headed(random, &made::fixed(22, 0), 8, 8, 5);
    let filtered = Head {
        filter: 2,
        ..made::fixed(300, 2)
    };
    let filtered = headed(random, &filtered, 4, 2, 0);
    let mut cut = whole.clone();
    cut.file.truncate(30);
    let Written { heap, objects, .. } = made::written(random, &[50, 300, 7], [4, 8], 9);
    let id = &objects[1].id;
    for wrong in WRONG {
        list.wrong = Some(wrong);
        for heap in [&whole, &filtered, &cut] {
            list.parse(heap);
        }
        list.decode(&whole, id);
        list.decode(&filtered, id);
        list.decode(&whole, &[]);
        list.decode(&cut, id);
        list.read(&heap, 4, id);
        list.read(&heap, 4, &objects[0].id);
        list.read(&heap, 3, id);
        list.read(&filtered, 4, id);
        list.read(&cut, 4, id);
        list.tiny(8, &[0x23, 5, 6, 7, 8]);
        list.tiny(18, &[0x20]);
        for first in [0x00, 0x10, 0x20, 0x30, 0xE0] {
            list.id_type(&[first, 9]);
        }
        list.id_type(&[]);
    }
    list.wrong = None;
    // every one was recorded: a read may tell no place
    let each = [3, 4, 5, 2, 6].map(|cases| cases * WRONG.len() as u64);
    assert_eq!(list.differ, each);
}

fn all() -> List {
    let (mut list, mut random) = (List::default(), Random::new(7));
    headers(&mut list, &mut random);
    damaged_headers(&mut list, &mut random);
    decoded(&mut list, &mut random);
    written(&mut list, &mut random);
    spoiled(&mut list, &mut random);
    nowhere(&mut list, &mut random);
    trees(&mut list, &mut random);
    tiny(&mut list, &mut random);
    types(&mut list);
    filtered_headers(&mut list);
    misrecorded(&mut list, &mut random);
    // No file gives 10 (see heap.rs).
    let [met @ .., ten] = list.numbers;
    assert!(met.iter().all(|&cases| cases > 0) && ten == 0, "{met:?}");
    list
}

/// The list.
pub fn reads() -> Vec<u8> {
    all().bytes
}

/// What the program prints.
pub fn reads_summary() -> String {
    let list = all();
    let line = |(i, kind)| {
        format!(
            "{kind} {} cases, {} differ\n",
            list.cases[i], list.differ[i]
        )
    };
    let lines = KINDS.into_iter().enumerate().map(line);
    lines.collect::<String>() + "end of the list\n"
}
