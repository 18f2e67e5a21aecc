//! Checked reading by the format alone: the HDF5 File Format Specification 3.0, III.G, 'Fractal Heap Direct Block' and
//! 'Fractal Heap Indirect Block', names the fields of a block in their order; docs/RULES.md says in which order they are
//! tested, and what a header's numbers make of rows and slots. It shares no line with what is proved. Sums are exact here,
//! in twice as many bits, and cut where they are told; a slot is found by a division in its row.
use original::{Answer, jenkins_lookup3};

/// Where a number stands among those of a header.
const FILTERS_LENGTH: usize = 1;
const FLAGS: usize = 2;
const TABLE_WIDTH: usize = 16;
const STARTING_BLOCK: usize = 17;
const LARGEST_BLOCK: usize = 18;
pub const HEAP_BITS: usize = 19;
const ROOT: usize = 21;
const ROOT_ROWS: usize = 22;

/// 'Fractal Heap Header', Flags: bit 1, whose value is 2, says that direct blocks have checksums.
const HAS_SUMS: u64 = 2;

/// Indirect blocks on a way, at most; a direct one below them is not counted.
const DEPTH: usize = 64;

/// The largest number that is told of a sum.
const MOST: u128 = u64::MAX as u128;

fn told(sum: u128) -> u64 {
    sum.min(MOST) as u64
}

/// The number in so many bytes, of which the first eight count.
fn number(bytes: &[u8]) -> u64 {
    let counted = &bytes[..bytes.len().min(8)];
    let highest_first = counted.iter().rev();
    highest_first.fold(0, |number, &byte| number << 8 | u64::from(byte))
}

/// A block's kind, and what says how large it is.
#[derive(Clone, Copy, Debug, PartialEq, Eq)]
pub enum Kind {
    Direct { size: u64 },
    Indirect { rows: u64 },
}

/// A block on the way: its place in the file, where it begins in the heap, its kind.
#[derive(Clone, Copy, Debug, PartialEq, Eq)]
pub struct Block {
    pub address: u64,
    pub offset: u64,
    pub kind: Kind,
}

/// The doubling table of a header.
#[derive(Clone, Copy, Debug)]
pub struct Table {
    pub width: u64,
    pub starting: u64,
    pub largest: u64,
    pub bits: u64,
}

/// A slot that holds a heap offset: its number in the block, where it begins in the heap, what kind of block it is for.
pub struct Slot {
    pub entry: u128,
    pub offset: u64,
    pub kind: Kind,
}

/// The whole binary digits of a number, less one; 0 of 0.
fn log(number: u64) -> u32 {
    number.checked_ilog2().unwrap_or(0)
}

impl Table {
    pub fn of(numbers: &[u64]) -> Self {
        Table {
            width: numbers[TABLE_WIDTH],
            starting: numbers[STARTING_BLOCK],
            largest: numbers[LARGEST_BLOCK],
            bits: numbers[HEAP_BITS],
        }
    }

    /// Rows 0 and 1 have blocks of the starting size, each row behind them blocks of twice the size.
    fn block_size(&self, row: u64) -> u64 {
        match row.max(1) - 1 {
            doubled @ 0..64 => told(u128::from(self.starting) << doubled),
            _ => u64::MAX,
        }
    }

    /// Rows 0 and 1 have direct blocks, and one more for each time that the largest direct block has the starting one
    /// doubled.
    fn is_direct(&self, row: u64) -> bool {
        let doubled = log(self.largest).saturating_sub(log(self.starting));
        row < 2 + u64::from(doubled)
    }

    /// What the slots of a row are for.
    fn kind(&self, row: u64) -> Kind {
        let size = self.block_size(row);
        if self.is_direct(row) {
            return Kind::Direct { size };
        }
        let first_row = log(self.starting) + log(self.width);
        let rows = u64::from(log(size).saturating_sub(first_row)) + 1;
        Kind::Indirect { rows }
    }

    /// How much of the heap a block spans.
    fn span(&self, kind: Kind) -> u128 {
        match kind {
            Kind::Direct { size } => size.into(),
            Kind::Indirect { rows } => {
                let row = |row| u128::from(self.block_size(row)) * u128::from(self.width);
                (0..rows).map(row).sum::<u128>().min(MOST)
            }
        }
    }

    /// The slot that holds a heap offset, in an indirect block of so many rows that begins at one. None holds the largest
    /// number, behind which no block can end.
    pub fn slot(&self, begin: u64, rows: u64, sought: u64) -> Option<Slot> {
        let (mut row_begin, width) = (u128::from(begin), u128::from(self.width));
        let sought = u128::from(sought);
        if sought == MOST {
            return None;
        }
        for row in 0..rows {
            let kind = self.kind(row);
            let span = self.span(kind);
            let row_end = row_begin + span * width;
            if (row_begin..row_end).contains(&sought) {
                let column = (sought - row_begin) / span;
                return Some(Slot {
                    entry: u128::from(row) * width + column,
                    offset: (row_begin + column * span) as u64,
                    kind,
                });
            }
            row_begin = row_end;
        }
        None
    }

    /// How many bytes a block has of Block Offset.
    pub fn offset_bytes(&self) -> u64 {
        self.bits.div_ceil(8)
    }
}

/// What the fields of a block add up to.
#[derive(Clone, Copy)]
pub struct Layout {
    /// Signature, Version, Heap Header Address and Block Offset together, behind which come a direct block's Checksum, if
    /// there is one, or an indirect block's entries.
    pub front: u64,
    /// Bytes of a block before its objects or, of an indirect one, all of them.
    pub header: u128,
    pub length: u128,
    /// Where Checksum stands.
    pub sum: Option<u128>,
}

impl Layout {
    pub fn new(table: &Table, w: u8, flags: u64, kind: Kind) -> Self {
        let front = 4 + 1 + u64::from(w) + table.offset_bytes();
        match kind {
            Kind::Direct { size } => {
                let sum = (flags & HAS_SUMS != 0).then_some(u128::from(front));
                Layout {
                    front,
                    header: u128::from(front) + if sum.is_some() { 4 } else { 0 },
                    length: size.into(),
                    sum,
                }
            }
            Kind::Indirect { rows } => {
                let entries = u128::from(rows) * u128::from(table.width) * u128::from(w);
                let sum = u128::from(front) + entries;
                Layout {
                    front,
                    header: sum + 4,
                    length: sum + 4,
                    sum: Some(sum),
                }
            }
        }
    }
}

/// The checksum of a whole block: of an indirect one it covers what is before it, of a direct one all, with itself as 0.
pub fn computed(bytes: &[u8], kind: Kind, sum: usize) -> u32 {
    match kind {
        Kind::Indirect { .. } => jenkins_lookup3(&bytes[..sum]),
        Kind::Direct { .. } => {
            let mut copy = bytes.to_vec();
            copy[sum..sum + 4].fill(0);
            jenkins_lookup3(&copy)
        }
    }
}

/// A file, the numbers of a header in it, and how it is read.
#[derive(Clone, Copy)]
pub struct Reader<'a> {
    pub file: &'a [u8],
    pub numbers: &'a [u64],
    pub w: u8,
    pub header_address: u64,
}

/// How a read ends, and the blocks that it came to, the root first.
#[derive(Debug)]
pub struct Ended {
    pub answer: Answer,
    pub blocks: Vec<Block>,
}

impl Ended {
    /// What is to be told of the block at which it ends, or the refusal that is before any block.
    pub fn last(&self) -> Answer {
        let last = self.blocks.last();
        last.map_or(self.answer, |block| (0, block.address, block.offset))
    }
}

impl Reader<'_> {
    fn table(&self) -> Table {
        Table::of(self.numbers)
    }

    pub fn layout(&self, kind: Kind) -> Layout {
        Layout::new(&self.table(), self.w, self.numbers[FLAGS], kind)
    }

    /// Whether these bytes are all ones, as where there is no block.
    fn is_undefined(&self, address: u64) -> bool {
        match self.w {
            2 => address == 0xFFFF,
            4 => address == 0xFFFF_FFFF,
            8 => address == u64::MAX,
            _ => false,
        }
    }

    /// The root block, if there is one.
    fn root(&self) -> Option<Block> {
        let address = self.numbers[ROOT];
        let kind = match self.numbers[ROOT_ROWS] {
            0 => Kind::Direct {
                size: self.numbers[STARTING_BLOCK],
            },
            rows => Kind::Indirect { rows },
        };
        (!self.is_undefined(address)).then_some(Block {
            address,
            offset: 0,
            kind,
        })
    }

    /// The bytes of a block all of whose fields are as they should be.
    fn tested(&self, block: &Block) -> Result<&[u8], Answer> {
        let (layout, len) = (self.layout(block.kind), self.file.len() as u64);
        if layout.length < layout.header {
            return Err((1, told(layout.header), told(layout.length)));
        }
        let end = u128::from(block.address) + layout.length;
        if end > u128::from(len) {
            return Err((1, told(end), len));
        }
        let bytes = &self.file[block.address as usize..end as usize];
        let signature = match block.kind {
            Kind::Direct { .. } => b"FHDB",
            Kind::Indirect { .. } => b"FHIB",
        };
        if &bytes[..4] != signature {
            return Err((4, 0, 0));
        }
        if bytes[4] != 0 {
            return Err((5, bytes[4].into(), 0));
        }
        let (address, offset) = bytes[5..layout.front as usize].split_at(self.w.into());
        for (stored, wanted) in [
            (number(address), self.header_address),
            (number(offset), block.offset),
        ] {
            if stored != wanted {
                return Err((19, stored, wanted));
            }
        }
        if let Some(sum) = layout.sum {
            let sum = sum as usize;
            let stored = number(&bytes[sum..sum + 4]);
            let computed = u64::from(computed(bytes, block.kind, sum));
            if stored != computed {
                return Err((18, stored, computed));
            }
        }
        Ok(bytes)
    }

    /// The child of an indirect block that holds a heap offset, if there is one.
    fn child(&self, bytes: &[u8], begin: u64, rows: u64, sought: u64) -> Option<Block> {
        let slot = self.table().slot(begin, rows, sought)?;
        let w = usize::from(self.w);
        let entries = self.layout(Kind::Indirect { rows }).front as usize;
        let entry = entries + slot.entry as usize * w;
        let address = number(&bytes[entry..entry + w]);
        (!self.is_undefined(address)).then_some(Block {
            address,
            offset: slot.offset,
            kind: slot.kind,
        })
    }

    /// So many bytes at a heap offset, or why the ID of them is none.
    pub fn read(&self, sought: Result<(u64, u64), Answer>) -> Ended {
        let mut blocks = Vec::new();
        let answer = match self.before_blocks(sought) {
            Err(refusal) => refusal,
            Ok((root, offset, length)) => self.walk(root, offset, length, &mut blocks),
        };
        Ended { answer, blocks }
    }

    /// Filters, the ID, the root, the offset size.
    fn before_blocks(
        &self,
        sought: Result<(u64, u64), Answer>,
    ) -> Result<(Block, u64, u64), Answer> {
        if self.numbers[FILTERS_LENGTH] != 0 {
            return Err((8, 0, 0));
        }
        let (offset, length) = sought?;
        let root = self.root().ok_or((1, 1, 0))?;
        match self.w {
            2 | 4 | 8 => Ok((root, offset, length)),
            w => Err((2, w.into(), 0)),
        }
    }

    fn walk(&self, root: Block, offset: u64, length: u64, blocks: &mut Vec<Block>) -> Answer {
        let mut next = root;
        loop {
            // What is above a block is indirect.
            if matches!(next.kind, Kind::Indirect { .. }) && blocks.len() == DEPTH {
                return (10, DEPTH as u64, 0);
            }
            blocks.push(next);
            let bytes = match self.tested(&next) {
                Ok(bytes) => bytes,
                Err(refusal) => return refusal,
            };
            match next.kind {
                Kind::Direct { size } => {
                    let distance = offset - next.offset;
                    let end = told(u128::from(distance) + u128::from(length));
                    if end > size {
                        return (1, end, size);
                    }
                    return (0, next.address + distance, length);
                }
                Kind::Indirect { rows } => match self.child(bytes, next.offset, rows, offset) {
                    Some(child) => next = child,
                    None => {
                        let end = told(u128::from(offset) + u128::from(length));
                        return (1, end, self.file.len() as u64);
                    }
                },
            }
        }
    }
}
