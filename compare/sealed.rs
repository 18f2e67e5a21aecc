//! Heaps whose blocks hold what the format says of them: laid out along the way to one heap offset, under any table, each
//! block with its signature, version, header's address, heap offset, entries and checksum; and what may be wrong with
//! them.
use crate::checked_reader::{Block, Kind, Layout, Table, computed};
use crate::format;
use crate::made::{self, Head, Heap};
use crate::random::Random;

/// More bytes than are laid out of one block: a larger one ends past its file.
const MOST: u64 = 70_000;

/// Entries of an indirect block, at most, unless a row alone has more.
const MOST_ENTRIES: u64 = 1_500;

/// Where the flags of a header stand.
const FLAGS: usize = 9;

/// A heap, and what its blocks say of where its header is.
#[derive(Clone)]
pub struct Sealed {
    pub heap: Heap,
    pub header_address: u64,
    /// What is handed in as that.
    pub handed_in: u64,
    /// The blocks that were laid out, the root first; of an indirect one the entry that leads on.
    pub blocks: Vec<Block>,
    entries: Vec<Option<u128>>,
    /// Offset and length of objects, most of them in the last block.
    pub objects: Vec<(u64, u64)>,
    pub bits: u16,
    pub flags: u8,
    table: Table,
}

/// What may be wrong.
pub const DAMAGES: [&str; 12] = [
    "sound",
    "a bit of a block",
    "a field of a block, sealed",
    "an entry, sealed",
    "a checksum",
    "a byte anywhere",
    "cut",
    "extended",
    "another address handed in",
    "a number of the header, sealed",
    "a byte of the header",
    "a place or size of the header",
];

/// A block a row, each twice the one before: the last slot of an indirect block has one row fewer than the block. From a
/// starting block of one byte on 64 of them stand one in the other, up to the largest heap offset.
fn chain(random: &mut Random) -> Head {
    let starting_bits = random.one(&[0, 0, 1, 4, 5, 5, 6, 7]);
    let deepest = 65 - starting_bits;
    let rows = match random.below(4) {
        0..2 => deepest + random.below(2) as u16,
        _ => 2 + random.below(u64::from(deepest) - 1) as u16,
    };
    let starting = 1 << starting_bits;
    Head {
        width: 1,
        starting,
        largest: starting,
        // An ID has a length only behind fewer bits than 64.
        bits: match random.below(2) {
            0 => starting_bits + rows - 1,
            _ => 64 + random.below(9) as u16,
        },
        rows,
        ..made::fixed(0, 0)
    }
}

/// Any table: the fixed one, small ones of powers of two, those whose blocks go as deep as can be, sizes that are no
/// powers, any numbers at all.
fn head(random: &mut Random) -> Head {
    let mut head = match random.below(16) {
        0..3 => made::fixed(0, random.below(12) as u16),
        3..8 => made::small_table(random),
        8 => chain(random),
        9..13 => {
            let starting = 1 + random.below(300);
            Head {
                width: 1 + random.below(7) as u16,
                starting,
                largest: starting << random.below(4),
                bits: random.below(90) as u16,
                rows: random.below(9) as u16,
                ..made::fixed(0, 0)
            }
        }
        _ => made::table(random),
    };
    if random.below(8) == 0 {
        head.rows = 0;
    }
    if u64::from(head.rows) * u64::from(head.width) > MOST_ENTRIES {
        head.rows = 1 + random.below(4) as u16;
    }
    if random.below(40) > 0 {
        head.filter = 0;
    }
    let any = random.number() as u32;
    head.largest_managed = Some(random.one(&[u32::MAX, u32::MAX, 65_520, 255, any]));
    head
}

/// Where a heap of one block a row ends.
fn ends_at(head: &Head) -> u64 {
    told(u128::from(head.starting) << (head.rows - 1).min(64))
}

/// Blocks on the longest way: 64 indirect ones and a direct one, since a child has fewer rows than its parent
/// (docs/DIFFERENCES.md).
pub const LONGEST: usize = 65;

/// The blocks on the way to a heap offset by the table alone, without their places; of each indirect one the entry that
/// leads on.
fn way(table: &Table, root_rows: u16, sought: u64) -> Vec<(Block, Option<u128>)> {
    let kind = match root_rows {
        0 => Kind::Direct {
            size: table.starting,
        },
        rows => Kind::Indirect { rows: rows.into() },
    };
    let mut next = Some(Block {
        address: 0,
        offset: 0,
        kind,
    });
    let mut way = Vec::new();
    while let Some(block) = next {
        let slot = match block.kind {
            Kind::Indirect { rows } => table.slot(block.offset, rows, sought),
            Kind::Direct { .. } => None,
        };
        way.push((block, slot.as_ref().map(|slot| slot.entry)));
        next = slot.map(|slot| Block {
            address: 0,
            offset: slot.offset,
            kind: slot.kind,
        });
    }
    assert!(way.len() <= LONGEST, "{table:?}, {root_rows} rows");
    way
}

impl Sealed {
    fn layout(&self, kind: Kind) -> Layout {
        Layout::new(&self.table, self.heap.offset_size, self.flags.into(), kind)
    }

    /// The bytes of a block that are in the file.
    fn bytes_of(&mut self, block: &Block) -> &mut [u8] {
        let length = self.layout(block.kind).length.min(MOST.into()) as usize;
        let at = (block.address as usize).min(self.heap.file.len());
        let end = (at + length).min(self.heap.file.len());
        &mut self.heap.file[at..end]
    }

    /// Puts a number into a field of a block, if the field is in the file; bytes behind its eighth are any.
    fn put(&mut self, random: &mut Random, block: &Block, field: (u64, u64), value: u64) {
        let (at, end) = (field.0 as usize, (field.0 + field.1) as usize);
        if let Some(bytes) = self.bytes_of(block).get_mut(at..end) {
            let counted = bytes.len().min(8);
            let (front, behind) = bytes.split_at_mut(counted);
            front.copy_from_slice(&value.to_le_bytes()[..counted]);
            random.fill(behind);
        }
    }

    /// The checksum that a block must have, if it has one and all its bytes.
    fn seal(&mut self, block: &Block) {
        let layout = self.layout(block.kind);
        let bytes = self.bytes_of(block);
        let is_whole = bytes.len() as u128 == layout.length && layout.length >= layout.header;
        if let Some(sum) = layout.sum.filter(|_| is_whole) {
            let sum = sum as usize;
            let computed = computed(bytes, block.kind, sum).to_le_bytes();
            bytes[sum..sum + 4].copy_from_slice(&computed);
        }
    }

    /// Where an entry of an indirect block stands in it, and its size.
    fn entry(&self, block: &Block, entry: u128) -> (u64, u64) {
        let w = u64::from(self.heap.offset_size);
        (self.layout(block.kind).front + entry as u64 * w, w)
    }

    /// Address and heap offset of a block, as fields of it.
    fn address_field(&self) -> (u64, u64) {
        (5, self.heap.offset_size.into())
    }

    fn offset_field(&self) -> (u64, u64) {
        let (at, size) = self.address_field();
        (at + size, self.table.offset_bytes())
    }

    /// Makes room for blocks at the end of the file.
    fn place(&mut self, random: &mut Random, way: Vec<(Block, Option<u128>)>) {
        let mut end = self.heap.file.len() as u64;
        for (mut block, entry) in way {
            block.address = end + random.below(9);
            end = block.address + told(self.layout(block.kind).length).min(MOST);
            self.blocks.push(block);
            self.entries.push(entry);
        }
        self.heap.file.resize(end as usize, 0x5A);
    }

    /// Fills the blocks, each sealed. In some heaps an entry leads elsewhere.
    fn lay(&mut self, random: &mut Random) {
        let n = self.blocks.len();
        let astray = random.below(12 * n as u64) as usize;
        for i in 0..n {
            let (block, entry) = (self.blocks[i], self.entries[i]);
            let bytes = self.bytes_of(&block);
            match (block.kind, random.below(4)) {
                (Kind::Indirect { .. }, 1..) => bytes.fill(0xFF),
                _ => random.fill(bytes),
            }
            let signature = match block.kind {
                Kind::Direct { .. } => *b"FHDB",
                Kind::Indirect { .. } => *b"FHIB",
            };
            let signature = u32::from_le_bytes(signature).into();
            self.put(random, &block, (0, 5), signature);
            self.put(random, &block, self.address_field(), self.header_address);
            self.put(random, &block, self.offset_field(), block.offset);
            if let Some(entry) = entry {
                let child = match self.blocks.get(i + 1) {
                    _ if i == astray => match random.below(2) {
                        0 => random.one(&self.blocks).address,
                        _ => u64::MAX,
                    },
                    Some(child) => child.address,
                    None => random.number(),
                };
                self.put(random, &block, self.entry(&block, entry), child);
            }
            self.seal(&block);
        }
    }

    /// An object in the last block: anywhere in it, up to its end, one byte past it, in its header, without bytes; or one
    /// at another offset of the heap.
    fn object(&self, random: &mut Random, head: &Head, sought: u64) -> (u64, u64) {
        let last = self.blocks.last();
        let Some((begin, size)) = last.and_then(|block| match block.kind {
            Kind::Direct { size } => Some((block.offset, size)),
            Kind::Indirect { .. } => None,
        }) else {
            return (sought, random.below(40));
        };
        let header = told(self.layout(Kind::Direct { size }).header);
        let distance = match random.below(8) {
            0 => sought.wrapping_sub(begin),
            1 => random.below(header + 1),
            2 => size.wrapping_sub(random.below(3)),
            _ => random.below(size.max(1)),
        };
        let rest = size.wrapping_sub(distance);
        let length = match random.below(8) {
            0 => 0,
            1 => rest,
            2 => rest.wrapping_add(1),
            3 => random.number(),
            _ => random.below(rest.clamp(1, 1 << 16)),
        };
        match random.below(16) {
            0 => (made::offset(random, head), length),
            _ => (begin.wrapping_add(distance), length),
        }
    }

    /// The IDs of the objects, as the heap's bits have them.
    pub fn ids(&self) -> Vec<Vec<u8>> {
        let id = |&(offset, length)| made::packed(0, self.bits, offset, length);
        self.objects.iter().map(id).collect()
    }

    /// The header's flags, and its checksum after them.
    fn set_flags(&mut self, flags: u8) {
        self.flags = flags;
        if let Some(byte) = self.heap.file.get_mut(self.heap.at as usize + FLAGS) {
            *byte = flags;
        }
        self.heap.mend();
    }
}

fn told(sum: u128) -> u64 {
    sum.min(u64::MAX.into()) as u64
}

/// A heap with these flags, laid out along the way to one offset, and some objects of it. The header stands before the
/// blocks or behind them; what blocks say of its address may be any number, which their field may not hold.
pub fn sealed(random: &mut Random, flags: u8) -> Sealed {
    let (w, l) = (random.one(&[2, 4, 8]), random.one(&[2, 4, 8, 8]));
    let mut head = head(random);
    let sought = match (head.width, random.below(8)) {
        // In the last slot, and the last of that.
        (1, 1..) if head.rows > 0 => {
            ends_at(&head).wrapping_sub(1 + random.below(9) * random.below(2))
        }
        _ => made::offset(random, &head),
    };
    let header_length = made::header(&mut Random::new(0), &head, w, l).len();
    let front = random.below(40) as usize;
    let is_before = random.below(2) == 0;
    let mut made = Sealed {
        heap: Heap {
            file: vec![0xA5; front + if is_before { header_length } else { 0 }],
            at: front as u64,
            offset_size: w,
            length_size: l,
        },
        header_address: 0,
        handed_in: 0,
        blocks: Vec::new(),
        entries: Vec::new(),
        objects: Vec::new(),
        bits: head.bits,
        flags,
        table: Table {
            width: head.width.into(),
            starting: low_bytes(head.starting, l),
            largest: low_bytes(head.largest, l),
            bits: head.bits.into(),
        },
    };
    let way = way(&made.table, head.rows, sought);
    made.place(random, way);
    if !is_before {
        made.heap.at = made.heap.file.len() as u64;
    }
    made.header_address = match random.below(12) {
        0 => random.number(),
        _ => made.heap.at,
    };
    made.handed_in = made.header_address;
    made.lay(random);
    head.root = made.blocks[0].address;
    let header = made::header(random, &head, w, l);
    match is_before {
        true => made.heap.file[front..front + header_length].copy_from_slice(&header),
        false => made.heap.file.extend(header),
    }
    made.set_flags(flags);
    made.objects = (0..3).map(|_| made.object(random, &head, sought)).collect();
    made.objects.push((sought, random.below(30)));
    made
}

/// A number as a field of so many bytes holds it.
fn low_bytes(number: u64, size: u8) -> u64 {
    match size {
        8 => number,
        _ => number & ((1 << (8 * size)) - 1),
    }
}

impl Sealed {
    /// A place around the end of a block, in it, or anywhere.
    fn length(&self, random: &mut Random) -> usize {
        let len = self.heap.file.len() as u64;
        let block = random.one(&self.blocks);
        let end = told(u128::from(block.address) + self.layout(block.kind).length);
        let length = match random.below(5) {
            0 => random.below(len + 1),
            1 => block.address.wrapping_add(random.below(60)),
            2 => random.one(&[0, 1, len.wrapping_sub(1)]),
            _ => end.wrapping_add(random.below(3)).wrapping_sub(1),
        };
        length.min(len) as usize
    }

    /// A number that tells: small, near the largest, a power of two, one of the blocks' addresses, any.
    fn telling(&self, random: &mut Random) -> u64 {
        let len = self.heap.file.len() as u64;
        match random.below(10) {
            0 => random.below(4),
            1 => u64::MAX - random.below(40),
            2 => 1 << random.below(64),
            3 => (1 << random.below(64)) - 1,
            4 => random.one(&self.blocks).address,
            5 => (len + 4).saturating_sub(random.below(90)),
            6 => random.below(len + 1),
            7 => random.below(70),
            _ => random.number(),
        }
    }

    /// A field of the header, by its place in header order.
    fn set_number(&mut self, random: &mut Random, place: usize, value: u64) {
        let sizes = format::sizes(self.heap.offset_size, self.heap.length_size);
        let at = self.heap.at as usize + 5 + sizes[..place].iter().sum::<usize>();
        let size = sizes[place].min(8);
        if let Some(bytes) = self.heap.file.get_mut(at..at + size) {
            bytes.copy_from_slice(&value.to_le_bytes()[..size]);
        }
        if random.below(16) > 0 {
            self.heap.mend();
        }
    }

    /// One of the damages, by its place in the list.
    pub fn damage(&mut self, random: &mut Random, kind: usize) {
        let i = random.below(self.blocks.len() as u64) as usize;
        let block = self.blocks[i];
        let size = self.bytes_of(&block).len() as u64;
        match kind {
            1 if size > 0 => {
                let most = if random.below(2) == 0 {
                    size.min(40)
                } else {
                    size
                };
                let place = random.below(most) as usize;
                self.bytes_of(&block)[place] ^= 1 << random.below(8);
            }
            2 => self.spoil_field(random, &block),
            3 => self.spoil_entry(random, i),
            4 => self.spoil_sum(random, &block),
            5 => {
                let place = random.below(self.heap.file.len() as u64) as usize;
                self.heap.file[place] ^= 1 + random.below(255) as u8;
            }
            6 => {
                let length = self.length(random);
                self.heap.file.truncate(length);
            }
            7 => self
                .heap
                .file
                .extend((0..random.below(90)).map(|i| i as u8)),
            8 => {
                let w = u32::from(self.heap.offset_size);
                let low_bytes_alike = self.header_address.wrapping_add(1 << (8 * w % 64));
                let telling = self.telling(random);
                let near = self.header_address.wrapping_add(random.one(&[1, u64::MAX]));
                self.handed_in = random.one(&[low_bytes_alike, telling, near, 0, u64::MAX]);
            }
            9 => {
                let place = random.one(&[1, 2, 3, 16, 17, 18, 19, 21, 22, 17, 18, 21, 22]);
                let value = self.telling(random);
                self.set_number(random, place, value);
            }
            10 => {
                let length = format::before_sum([self.heap.offset_size, self.heap.length_size], 0);
                let place = self.heap.at + random.below(length as u64 + 4);
                if let Some(byte) = self.heap.file.get_mut(place as usize) {
                    *byte ^= 1 << random.below(8);
                }
            }
            11 => match random.below(3) {
                0 => self.heap.at = random.place(self.heap.file.len() as u64),
                1 => self.heap.offset_size = random.width(),
                _ => self.heap.length_size = random.width(),
            },
            _ => {}
        }
    }

    /// Signature, version, address or heap offset of a block, which is sealed again: as that of another heap.
    fn spoil_field(&mut self, random: &mut Random, block: &Block) {
        let value = match random.below(3) {
            0 => self
                .header_address
                .wrapping_add(random.one(&[1, 1 << 8, 1 << 32, u64::MAX])),
            1 => block
                .offset
                .wrapping_add(random.one(&[1, 1 << 8, 1 << 32, u64::MAX])),
            _ => self.telling(random),
        };
        let field = match random.below(4) {
            0 => (random.below(4), 1),
            1 => (4, 1),
            2 => self.address_field(),
            _ => self.offset_field(),
        };
        self.put(random, block, field, value);
        self.seal(block);
    }

    /// The entry that leads on leads elsewhere.
    fn spoil_entry(&mut self, random: &mut Random, i: usize) {
        let block = self.blocks[i];
        if let Some(entry) = self.entries[i] {
            let value = random.one(&[u64::MAX, self.telling(&mut random.clone())]);
            self.put(random, &block, self.entry(&block, entry), value);
            self.seal(&block);
        }
    }

    /// A block's checksum is 0, any number, or that of the block as it stands.
    fn spoil_sum(&mut self, random: &mut Random, block: &Block) {
        let Some(sum) = self.layout(block.kind).sum else {
            return;
        };
        let as_it_stands = original::jenkins_lookup3(self.bytes_of(block)).into();
        let value = random.one(&[0, u64::MAX, as_it_stands, random.clone().next()]);
        self.put(random, block, (told(sum), 4), value);
    }
}
