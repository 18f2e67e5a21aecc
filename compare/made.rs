//! Heaps for the comparison: headers, files and IDs, by the format's layout and by the original's writer.
use crate::format;
use crate::random::Random;
use std::ops::Range;

/// A file with a header in it, and the two widths.
#[derive(Clone)]
pub struct Heap {
    pub file: Vec<u8>,
    pub at: u64,
    pub offset_size: u8,
    pub length_size: u8,
}

/// The numbers of a header that reading depends on.
#[derive(Clone)]
pub struct Head {
    pub id_length: u16,
    pub filter: u16,
    pub width: u16,
    pub starting: u64,
    pub largest: u64,
    pub bits: u16,
    pub root: u64,
    pub rows: u16,
    /// The largest size of a managed object, if it is not to be any number.
    pub largest_managed: Option<u32>,
}

/// The fixed geometry, and objects of at most as many bytes as a block holds at offset size 2.
pub fn fixed(root: u64, rows: u16) -> Head {
    Head {
        id_length: 8,
        filter: 0,
        width: 4,
        starting: 1024,
        largest: 65_536,
        bits: 40,
        root,
        rows,
        largest_managed: Some(65_520),
    }
}

/// The low bytes of a number; any bytes after its eighth.
fn put(bytes: &mut Vec<u8>, random: &mut Random, value: u64, size: u8) {
    let size = usize::from(size);
    bytes.extend_from_slice(&value.to_le_bytes()[..size.min(8)]);
    bytes.extend((8..size).map(|_| random.byte()));
}

/// So many bytes of filter information, from numbers of their own, so that a header with filters takes no more from the
/// others than one without.
fn information(before: &[u8], length: u16) -> Vec<u8> {
    let mut random = Random::new(original::jenkins_lookup3(before).into());
    (0..length).map(|_| random.byte()).collect()
}

/// A header with a right checksum, by the format: behind the fields of every header one with filters has the size of a
/// filtered root, its mask, and as many bytes of filter information as it says. The fields that reading does not depend
/// on are random.
pub fn header(random: &mut Random, head: &Head, offset_size: u8, length_size: u8) -> Vec<u8> {
    let (w, l) = (offset_size, length_size);
    let before = [2, 2, 1, 4, l, w, l, w, l, l, l, l, l, l, l, l];
    let after = [2, l, l, 2, 2, w, 2];
    let managed = head.largest_managed.map(u64::from);
    let known = [
        Some(head.id_length.into()),
        Some(head.filter.into()),
        None,
        managed,
    ];
    let mut bytes = b"FRHP\0".to_vec();
    for (i, size) in before.into_iter().enumerate() {
        let any = random.number();
        let known = known.get(i).copied().flatten();
        put(&mut bytes, random, known.unwrap_or(any), size);
    }
    let (width, rows) = (head.width.into(), head.rows.into());
    let (bits, start_rows) = (head.bits.into(), random.number());
    let (starting, largest) = (head.starting, head.largest);
    let known = [width, starting, largest, bits, start_rows, head.root, rows];
    for (value, size) in known.into_iter().zip(after) {
        put(&mut bytes, random, value, size);
    }
    if head.filter > 0 {
        bytes.extend((0..usize::from(l) + 4).map(|_| random.byte()));
        bytes.extend(information(&bytes, head.filter));
    }
    let sum = original::jenkins_lookup3(&bytes);
    bytes.extend(sum.to_le_bytes());
    bytes
}

/// Where the format has the checksum of a header, and what it must be there, if there is room for it.
pub fn right_checksum(file: &[u8], at: u64, widths: [u8; 2]) -> Option<(usize, [u8; 4])> {
    let start = usize::try_from(at).ok()?;
    let header = file.get(start..)?;
    let size = format::before_sum(widths, format::filters_length(header)?);
    header.get(size..size + 4)?;
    let sum = original::jenkins_lookup3(&header[..size]);
    Some((start + size, sum.to_le_bytes()))
}

impl Heap {
    /// Lays the right checksum over the header, where there is room for it.
    pub fn mend(&mut self) {
        let widths = [self.offset_size, self.length_size];
        if let Some((place, sum)) = right_checksum(&self.file, self.at, widths) {
            self.file[place..place + 4].copy_from_slice(&sum);
        }
    }

    /// Lays bytes over the file from a place in it on, as many as fit.
    fn lay(&mut self, at: u64, bytes: &[u8]) {
        let start = at as usize;
        let n = bytes.len().min(self.file.len() - start);
        self.file[start..start + n].copy_from_slice(&bytes[..n]);
    }
}

/// An ID's first nine bytes: the first, the offset in as many bits as the heap has, the length.
pub fn packed(first: u8, bits: u16, offset: u64, length: u64) -> Vec<u8> {
    let number = match bits {
        0..64 => offset & ((1 << bits) - 1) | length << bits,
        _ => offset,
    };
    let mut id = vec![first];
    id.extend(number.to_le_bytes());
    id
}

/// A heap that was written into a file of random bytes.
pub struct Written {
    pub heap: Heap,
    pub header: Range<usize>,
    pub region: Range<usize>,
    pub objects: Vec<Object>,
}

pub struct Object {
    pub offset: u64,
    /// Eight bytes.
    pub id: Vec<u8>,
    pub bytes: Vec<u8>,
}

impl Object {
    fn new(offset: u64, bytes: Vec<u8>) -> Self {
        Object {
            offset,
            id: packed(0, 40, offset, bytes.len() as u64)[..8].to_vec(),
            bytes,
        }
    }
}

/// Random bytes for each size.
fn contents(random: &mut Random, sizes: &[u64]) -> Vec<Vec<u8>> {
    let mut content = |&size: &u64| {
        let mut bytes = vec![0; size as usize];
        random.fill(&mut bytes);
        bytes
    };
    sizes.iter().map(&mut content).collect()
}

/// Writes the region of these objects: offset size, region address, header address.
type Writer = fn(&[&[u8]], u8, u64, u64) -> Vec<u8>;

/// Objects of these sizes, written by the original.
pub fn written(random: &mut Random, sizes: &[u64], widths: [u8; 2], gap: u64) -> Written {
    written_by(original::region, random, sizes, widths, gap)
}

/// The header before the region or after it, up to `gap` bytes around both.
pub fn written_by(
    writer: Writer,
    random: &mut Random,
    sizes: &[u64],
    [w, l]: [u8; 2],
    gap: u64,
) -> Written {
    let plan = original::plan(sizes, w).expect("within the heap space");
    let [_, region_size, rows, root_place, ..] = plan.totals;
    let header_size = 26 + 12 * u64::from(l) + 3 * u64::from(w);
    let gaps = [0; 3].map(|_| random.below(gap + 1));
    let (at, region_at) = match random.below(2) {
        0 => (gaps[0], gaps[0] + header_size + gaps[1]),
        _ => (gaps[0] + region_size + gaps[1], gaps[0]),
    };
    let mut file = vec![0; (gaps.iter().sum::<u64>() + header_size + region_size) as usize];
    random.fill(&mut file);
    let head = fixed(region_at + root_place, rows as u16);
    let objects = contents(random, sizes);
    let parts: Vec<&[u8]> = objects.iter().map(Vec::as_slice).collect();
    let mut heap = Heap {
        file,
        at,
        offset_size: w,
        length_size: l,
    };
    heap.lay(at, &header(random, &head, w, l));
    heap.lay(region_at, &writer(&parts, w, region_at, at));
    let range = |at: u64, n: u64| at as usize..(at + n) as usize;
    let object = |(offset, bytes)| Object::new(offset, bytes);
    Written {
        heap,
        header: range(at, header_size),
        region: range(region_at, region_size),
        objects: plan.offsets.into_iter().zip(objects).map(object).collect(),
    }
}

/// All ones in a width, the undefined address; at another width any number.
fn ones(size: u8) -> u64 {
    match size {
        1..8 => (1 << (8 * size)) - 1,
        _ => u64::MAX,
    }
}

/// Any table: small ones that nest in few rows, and sizes and rows of every magnitude.
pub fn table(random: &mut Random) -> Head {
    let starting = match random.below(8) {
        0 => random.number(),
        1 => 1 << random.below(64),
        2 => random.one(&[0, 0, 3, 100, 1023]),
        _ => 1 << random.below(8),
    };
    let largest = match random.below(8) {
        0 => random.number(),
        1 => random.one(&[0, u64::MAX]),
        _ => starting.saturating_mul(1 << random.below(4)),
    };
    let bits = match random.below(16) {
        0 => random.number() as u16,
        1..4 => 60 + random.below(10) as u16,
        _ => 8 + random.below(50) as u16,
    };
    Head {
        id_length: random.below(40) as u16,
        filter: u16::from(random.below(40) == 0),
        width: match random.below(16) {
            0 => random.one(&[0, 5, 7, 100, 255, 65_535]),
            1 => random.number() as u16,
            _ => random.one(&[1, 1, 2, 2, 3, 4]),
        },
        starting,
        largest,
        bits,
        root: 0,
        rows: rows(random),
        largest_managed: None,
    }
}

/// The root's rows: mostly few, so that an indirect row is near.
fn rows(random: &mut Random) -> u16 {
    match random.below(32) {
        0 => random.number() as u16,
        1 => 60 + random.below(12) as u16,
        2..5 => 0,
        _ => 1 + random.below(12) as u16,
    }
}

/// An offset in the table, level by level: around the start of a slot, and of a slot in that one.
pub fn offset(random: &mut Random, head: &Head) -> u64 {
    if random.below(4) == 0 {
        return random.number();
    }
    let (mut at, mut rows) = (0u64, u64::from(head.rows));
    for _ in 0..3 {
        let row = random.below(rows.clamp(1, 66));
        let size = u128::from(head.starting) << (row.max(1) - 1);
        let before = if row == 0 { 0 } else { head.width.into() };
        let column = before + random.below(u64::from(head.width).max(1));
        at = at.wrapping_add(size.saturating_mul(column.into()) as u64);
        rows = row.saturating_sub(u64::from(head.width.max(1).ilog2()));
    }
    at.wrapping_add(random.below(12)).wrapping_sub(4)
}

/// An ID for an offset, of 0 to 30 bytes and now and then of several hundred, mostly a managed one.
pub fn id(random: &mut Random, bits: u16, offset: u64) -> Vec<u8> {
    let length = match random.below(4) {
        0 => 0,
        1 => random.number(),
        _ => random.below(40),
    };
    let first = match random.below(12) {
        0 => random.byte(),
        1 => random.one(&[0x0F, 0x40, 0x80, 0xC0, 0x10, 0x20, 0x30]),
        _ => 0,
    };
    let mut id = packed(first, bits, offset, length);
    let len = match random.below(40) {
        0 => 31 + random.below(600),
        1..4 => 10 + random.below(21),
        4 => random.below(10),
        5..15 => 8,
        _ => 9,
    } as usize;
    id.resize_with(len, || random.byte());
    id
}

/// An entry of an indirect block: undefined, one of the blocks, a place in the file or around its end, near
/// the largest address, any.
fn entry(random: &mut Random, w: u8, blocks: &[u64], len: u64) -> u64 {
    match random.below(32) {
        0..4 => u64::MAX,
        4..22 => random.one(blocks),
        22..28 => random.below(len),
        28 => (len + 8).saturating_sub(random.below(40)),
        29 | 30 => ones(w).saturating_sub(random.below(300)),
        _ => random.number(),
    }
}

/// A file of random bytes with indirect blocks whose entries lead to each other, to themselves, and astray;
/// a header of any table with one of them, or some other place, as its root.
pub fn web(random: &mut Random, w: u8, l: u8, mut head: Head) -> (Heap, Head) {
    let mut file = vec![0; 120 + random.below(900) as usize];
    random.fill(&mut file);
    let len = file.len() as u64;
    let blocks = [0; 3].map(|_| random.below(len));
    let mut heap = Heap {
        file,
        at: random.below(len),
        offset_size: w,
        length_size: l,
    };
    // The root last, so that it is whole.
    for at in blocks.into_iter().rev() {
        let skipped = usize::from(w) + usize::from(head.bits.div_ceil(8)).min(40);
        let mut block = b"FHIB\0".to_vec();
        block.resize_with(5 + skipped, || random.byte());
        for _ in 0..4 + random.below(40) {
            let to = entry(random, w, &blocks, len);
            put(&mut block, random, to, w);
        }
        heap.lay(at, &block);
    }
    head.root = match random.below(8) {
        0 => entry(random, w, &blocks, len),
        _ => blocks[0],
    };
    let bytes = header(random, &head, w, l);
    if random.below(20) > 0 {
        // Mostly at the end, so that no block is overwritten.
        heap.at = len;
        heap.file.extend(&bytes);
    } else {
        heap.lay(heap.at, &bytes);
    }
    (heap, head)
}

/// The front of an indirect block, up to its entries; what no reader looks at is random.
fn open_block(file: &mut Vec<u8>, random: &mut Random, w: u8, bits: u16) {
    file.extend(b"FHIB\0");
    file.extend((0..u16::from(w) + bits.div_ceil(8)).map(|_| random.byte()));
}

/// A file with a header behind it.
pub fn behind(random: &mut Random, mut file: Vec<u8>, head: &Head, [w, l]: [u8; 2]) -> Heap {
    let at = file.len() as u64;
    file.extend(header(random, head, w, l));
    Heap {
        file,
        at,
        offset_size: w,
        length_size: l,
    }
}

/// Indirect blocks one in the other, as deep as a path can be: starting block and width are 1, the root has
/// one row more than the heap has bits, and each block's last row holds the next block, down to one of two
/// rows with a direct child. All other entries are undefined. The offset is the deepest block's.
pub fn chain(random: &mut Random, w: u8, bits: u16) -> (Heap, u64) {
    let mut head = table(random);
    (head.width, head.starting, head.largest) = (1, 1, random.below(2));
    (head.filter, head.bits, head.root) = (0, bits, random.below(100));
    head.rows = bits + 1;
    let mut file = vec![0; head.root as usize];
    random.fill(&mut file);
    for rows in (2..=bits + 1).rev() {
        let start = file.len();
        open_block(&mut file, random, w, bits);
        let entries = file.len();
        file.resize(entries + usize::from(rows * u16::from(w)), 0xFF);
        let next = match rows {
            2 => random.below(start as u64),
            _ => file.len() as u64,
        };
        let last = entries + usize::from(if rows == 2 { 0 } else { rows - 1 }) * usize::from(w);
        file[last..last + usize::from(w)].copy_from_slice(&next.to_le_bytes()[..usize::from(w)]);
    }
    let heap = behind(random, file, &head, [w, 8]);
    (heap, ((1u128 << bits) - 2) as u64)
}

/// One indirect block whose entries are its own address, but for the two direct ones, under a table that goes
/// down row by row.
pub fn ring(random: &mut Random, w: u8) -> (Heap, Head) {
    let mut head = table(random);
    (head.width, head.starting, head.largest) = (1, 1 + random.below(2), random.below(2));
    (head.filter, head.bits, head.root) = (0, 50 + random.below(15) as u16, random.below(100));
    head.rows = random.one(&[64, 65, 66, 70, 65_535]);
    let mut file = vec![0; head.root as usize];
    random.fill(&mut file);
    open_block(&mut file, random, w, head.bits);
    for entry in 0..70 {
        let to = if entry < 2 {
            random.below(90)
        } else {
            head.root
        };
        put(&mut file, random, to, w);
    }
    (behind(random, file, &head, [w, 8]), head)
}

/// A root with as many rows as the field holds, or nearly, and all its entries in the file.
pub fn tall(random: &mut Random) -> (Heap, Head) {
    let starting = random.one(&[0, 0, 1, 3, 1 << 20, u64::MAX]);
    let mut head = table(random);
    (head.width, head.starting) = (1 + random.below(2) as u16, starting);
    head.largest = random.one(&[0, starting, u64::MAX]);
    (head.filter, head.rows) = (0, 65_535 - random.below(40_000) as u16);
    head.root = 130 + random.below(60);
    let mut file = header(random, &head, 2, 8);
    file.resize_with(head.root as usize, || random.byte());
    open_block(&mut file, random, 2, head.bits);
    for _ in 0..u32::from(head.rows) * u32::from(head.width) {
        let to = random.one(&[u64::MAX, head.root, 9, 60_000]);
        put(&mut file, random, to, 2);
    }
    let heap = Heap {
        file,
        at: 0,
        offset_size: 2,
        length_size: 8,
    };
    (heap, head)
}

/// A table of powers of two with few small blocks, and rows of every kind. The first indirect slot is no
/// smaller than a row of starting blocks, so that it is filled by whole rows.
pub fn small_table(random: &mut Random) -> Head {
    let (starting, width) = (4 + random.below(3), random.below(3));
    let largest = starting + random.below(3).max(width.saturating_sub(1));
    Head {
        id_length: 1 + random.below(20) as u16,
        filter: 0,
        width: 1 << width,
        starting: 1 << starting,
        largest: 1 << largest,
        bits: 12 + random.below(20) as u16,
        root: 0,
        rows: 1 + random.below(7) as u16,
        largest_managed: None,
    }
}

/// A heap with every block of its table but some, each with its heap offset in the format's place, and the
/// heap offsets of its direct blocks with their sizes.
pub struct Tree {
    pub heap: Heap,
    pub head: Head,
    pub directs: Vec<(u64, u64)>,
    undefined: u64,
}

/// A tree of so many tenths of its blocks.
pub fn tree(random: &mut Random, w: u8, l: u8, head: Head, tenths: u64) -> Tree {
    let mut file = vec![0; random.below(60) as usize];
    random.fill(&mut file);
    let heap = Heap {
        file,
        at: 0,
        offset_size: w,
        length_size: l,
    };
    let mut tree = Tree {
        heap,
        head,
        directs: Vec::new(),
        undefined: 10 - tenths,
    };
    tree.head.root = tree.block(random, 0, u32::from(tree.head.rows));
    tree.heap.at = tree.heap.file.len() as u64;
    let bytes = header(random, &tree.head, w, l);
    tree.heap.file.extend(bytes);
    tree
}

impl Tree {
    /// An ID of an offset in one of the direct blocks or around its ends.
    pub fn id(&self, random: &mut Random) -> Vec<u8> {
        let (start, size) = match &self.directs[..] {
            [] => (0, 1),
            directs => random.one(directs),
        };
        let offset = start + random.below(size + 1) - random.below(2).min(start);
        let mut id = packed(0, self.head.bits, offset, random.below(24));
        id.truncate(8 + random.below(2) as usize);
        id
    }

    /// Appends the blocks below an indirect one, then itself: its address.
    fn block(&mut self, random: &mut Random, start: u64, rows: u32) -> u64 {
        let (w, table) = (self.heap.offset_size, self.head.clone());
        let direct_rows = table.largest.ilog2() - table.starting.ilog2() + 2;
        let (mut offset, mut entries) = (start, Vec::new());
        for row in 0..rows {
            let size = table.starting << (row.max(1) - 1);
            for _ in 0..table.width {
                let child = match random.below(10) < self.undefined {
                    true => u64::MAX,
                    false if row < direct_rows => self.direct(random, offset, size),
                    false => self.block(random, offset, row - table.width.ilog2()),
                };
                put(&mut entries, random, child, w);
                offset += size;
            }
        }
        let at = self.front(random, b"FHIB\0", start);
        self.heap.file.extend(entries);
        at
    }

    /// Appends a direct block: its address.
    fn direct(&mut self, random: &mut Random, start: u64, size: u64) -> u64 {
        self.directs.push((start, size));
        let at = self.front(random, b"FHDB\0", start);
        let end = at + size;
        self.heap.file.resize_with(end as usize, || random.byte());
        at
    }

    /// Appends what both kinds of block begin with: signature, version, some address, heap offset.
    fn front(&mut self, random: &mut Random, signature: &[u8], start: u64) -> u64 {
        let (at, bytes) = (
            self.heap.file.len() as u64,
            self.head.bits.div_ceil(8) as u8,
        );
        self.heap.file.extend(signature);
        let header_at = random.next();
        put(
            &mut self.heap.file,
            random,
            header_at,
            self.heap.offset_size,
        );
        put(&mut self.heap.file, random, start, bytes);
        at
    }
}
