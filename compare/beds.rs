//! Sound heaps that are to be damaged: files, IDs for them, and the places at which damage matters.
use crate::format;
use crate::made::{self, Heap, Written};
use crate::ours;
use crate::random::Random;

/// The kinds of heaps: those that ours wrote, in the fixed geometry, then those under other tables.
pub const KINDS: [&str; 7] = [
    "written, direct root",
    "written, indirect root",
    "written, nested",
    "of small tables",
    "of any table",
    "as deep as can be",
    "a header alone",
];

/// How often a kind is drawn.
const WEIGHTS: [u64; 7] = [5, 6, 1, 4, 4, 1, 1];

/// A place in the file and its size.
pub type Spot = (usize, usize);

pub struct Bed {
    pub kind: usize,
    pub heap: Heap,
    pub ids: Vec<Vec<u8>>,
    /// The header's fields; those that reading depends on stand more than once.
    pub fields: Vec<Spot>,
    /// Signatures, versions and entries of indirect blocks.
    pub entries: Vec<Spot>,
    /// Where blocks begin.
    pub blocks: Vec<u64>,
}

/// As many sizes up to `most`.
fn sizes(random: &mut Random, n: u64, most: u64) -> Vec<u64> {
    (0..n).map(|_| random.below(most + 1)).collect()
}

/// Written by ours, with a header of the fixed geometry; of each object its ID, and one next to it.
fn written(random: &mut Random, sizes: &[u64], w: u8) -> (Heap, Vec<Vec<u8>>) {
    let l = random.one(&[4, 8]);
    let gap = random.one(&[0, 5, 90]);
    let Written { heap, objects, .. } = made::written_by(ours::region, random, sizes, [w, l], gap);
    let mut ids = Vec::new();
    for object in objects {
        let near = object.offset + random.below(40);
        ids.push(object.id);
        ids.push(made::id(random, 40, near));
    }
    ids.push(made::id(random, 40, 22));
    (heap, ids)
}

/// Blocks that lead to each other, or as many as can be one in the other.
fn deep(random: &mut Random) -> (Heap, Vec<Vec<u8>>) {
    let w = random.one(&[2, 4, 8]);
    if random.below(2) == 0 {
        let (heap, head) = made::ring(random, w);
        let offset = |random: &mut Random| random.next() | u64::MAX << random.below(64);
        let ids = [0; 6].map(|_| {
            let offset = offset(random);
            made::id(random, head.bits, offset)
        });
        return (heap, ids.to_vec());
    }
    let bits = 2 + random.below(63) as u16;
    let (heap, offset) = made::chain(random, w, bits);
    (heap, vec![made::packed(0, bits, offset, 1)])
}

fn any_table(random: &mut Random) -> (Heap, Vec<Vec<u8>>) {
    let (w, l) = (random.one(&[2, 4, 8]), random.one(&[2, 4, 8]));
    let head = made::table(random);
    let (heap, head) = made::web(random, w, l, head);
    let ids = [0; 8].map(|_| {
        let offset = made::offset(random, &head);
        made::id(random, head.bits, offset)
    });
    (heap, ids.to_vec())
}

fn header_alone(random: &mut Random) -> (Heap, Vec<Vec<u8>>) {
    let (w, l) = (random.one(&[2, 4, 8]), random.one(&[4, 8]));
    let mut head = made::fixed(random.below(140), random.one(&[0, 0, 3]));
    head.filter = random.one(&[0, 0, 0, 0, 1, 40]);
    let heap = made::behind(random, Vec::new(), &head, [w, l]);
    let ids = [0; 4].map(|_| {
        let offset = random.below(80);
        made::id(random, 40, offset)
    });
    (heap, ids.to_vec())
}

/// A file and IDs of a kind. At width 2 no block of 65,536 has an address, so nested heaps are wider.
fn sound(random: &mut Random, kind: usize) -> (Heap, Vec<Vec<u8>>) {
    let w = random.one(&[2, 4, 8]);
    match kind {
        0 => {
            let n = random.below(8);
            let list = sizes(random, n, 120);
            written(random, &list, w)
        }
        1 => {
            let (n, most) = (2 + random.below(8), random.one(&[900, 2000, 4000]));
            let mut list = sizes(random, n, most);
            list.push(1003);
            written(random, &list, w)
        }
        2 => {
            let (large, small) = (random.below(3), random.below(6));
            let mut list = vec![65_514; 4 + large as usize];
            list.extend(sizes(random, 1 + small, 1500));
            let w = random.one(&[4, 8]);
            written(random, &list, w)
        }
        3 => {
            let (l, tenths) = (random.one(&[2, 4, 8]), 6 + random.below(5));
            let head = made::small_table(random);
            let tree = made::tree(random, w, l, head, tenths);
            let ids = [0; 8].map(|_| tree.id(random));
            (tree.heap, ids.to_vec())
        }
        4 => any_table(random),
        5 => deep(random),
        _ => header_alone(random),
    }
}

/// The header's fields in the format's order: size in bytes, and how often the field stands in the list.
fn fields(heap: &Heap) -> Vec<Spot> {
    let (w, l) = (heap.offset_size.into(), heap.length_size.into());
    let mut sizes = vec![
        (4, 1),
        (1, 1),
        (2, 1),
        (2, 2),
        (1, 1),
        (4, 1),
        (l, 1),
        (w, 1),
    ];
    sizes.extend([(l, 1), (w, 1)]);
    sizes.extend([(l, 1); 8]);
    sizes.extend([(2, 3), (l, 3), (l, 3), (2, 4), (2, 1), (w, 6), (2, 4)]);
    let header = heap.file.get(heap.at as usize..).unwrap_or(&[]);
    match format::filters_length(header).unwrap_or(0) {
        0 => {}
        filters => sizes.extend([(l, 2), (4, 2), (filters.into(), 2)]),
    }
    sizes.push((4, 2));
    let (mut at, mut spots) = (heap.at as usize, Vec::new());
    for (size, times) in sizes {
        if at + size <= heap.file.len() {
            spots.extend(std::iter::repeat_n((at, size), times));
        }
        at += size;
    }
    spots
}

/// Every place in the file where these bytes stand.
fn places(file: &[u8], signature: &[u8; 4]) -> Vec<usize> {
    let windows = file.windows(4).enumerate();
    let found = windows.filter(|(_, bytes)| bytes == signature);
    found.map(|(at, _)| at).collect()
}

impl Bed {
    pub fn new(random: &mut Random) -> Self {
        let mut drawn = random.below(WEIGHTS.iter().sum());
        let mut kind = 0;
        while drawn >= WEIGHTS[kind] {
            drawn -= WEIGHTS[kind];
            kind += 1;
        }
        let (heap, ids) = sound(random, kind);
        let w = heap.offset_size;
        let bits = match format::parsed_of(&heap) {
            Ok(parsed) => parsed.header.fields()[7],
            Err(_) => 40,
        };
        let indirect = places(&heap.file, b"FHIB");
        let mut entries = Vec::new();
        for &at in &indirect {
            entries.extend([(at, 4), (at + 4, 1)]);
            let first = at + 5 + usize::from(w) + bits.div_ceil(8) as usize;
            entries.extend((0..40).map(|i| (first + i * usize::from(w), w.into())));
        }
        entries.retain(|&(at, size)| at + size <= heap.file.len());
        let mut blocks: Vec<u64> = indirect.iter().map(|&at| at as u64).collect();
        blocks.extend(places(&heap.file, b"FHDB").iter().map(|&at| at as u64));
        blocks.push(heap.at);
        Bed {
            kind,
            fields: fields(&heap),
            entries,
            blocks,
            heap,
            ids,
        }
    }
}
