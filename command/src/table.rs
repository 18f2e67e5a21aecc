//! A planned heap as a tree: the rows and slots of its root, and those of every opened indirect block in them.
use crate::image::{LARGEST_DIRECT, STARTING, WIDTH, block_header};
use std::ops::Range;

/// Bytes of objects, and of the bodies that hold them.
#[derive(Clone, Copy, Default, PartialEq, Eq)]
pub struct Fill {
    pub used: u64,
    pub body: u64,
}

impl Fill {
    pub fn and(self, other: Fill) -> Fill {
        Fill {
            used: self.used + other.used,
            body: self.body + other.body,
        }
    }
}

#[derive(Clone)]
pub enum Slot {
    /// Neither a block nor an indirect block: its entry is the undefined address.
    Unplaced,
    Direct(Fill),
    Indirect(Table),
}

#[derive(Clone)]
pub struct Row {
    pub number: u64,
    pub start: u64,
    pub slot_size: u64,
    pub slots: Vec<Slot>,
}

#[derive(Clone)]
pub struct Table {
    pub start: u64,
    pub rows: Vec<Row>,
}

/// The placed blocks of a plan: their heap offsets, upward, and the bytes of objects in each.
pub struct Fullness<'a> {
    starts: &'a [u64],
    used: Vec<u64>,
    block_header: u64,
}

impl<'a> Fullness<'a> {
    pub fn new(starts: &'a [u64], offsets: &[u64], sizes: &[u64], offset_size: u8) -> Self {
        let mut used = vec![0; starts.len()];
        let mut block = 0;
        // Objects lie in the order of their blocks; an empty one adds nothing wherever it is.
        for (&offset, &size) in offsets.iter().zip(sizes).filter(|&(_, &size)| size > 0) {
            while starts.get(block + 1).is_some_and(|&next| next <= offset) {
                block += 1;
            }
            used[block] += size;
        }
        Fullness {
            starts,
            used,
            block_header: block_header(offset_size),
        }
    }

    /// Whether a block is placed in this part of the heap.
    fn any(&self, part: Range<u64>) -> bool {
        let first = self.starts.partition_point(|&start| start < part.start);
        self.starts.get(first).is_some_and(|&s| s < part.end)
    }

    /// The block at this offset, if one is placed there.
    pub fn block(&self, start: u64, size: u64) -> Option<Fill> {
        let block = self.starts.binary_search(&start).ok()?;
        Some(Fill {
            used: self.used[block],
            body: size - self.block_header,
        })
    }
}

fn slot_size(row: u64) -> u64 {
    STARTING << (row.max(1) - 1)
}

fn row_start(row: u64) -> u64 {
    match row {
        0 => 0,
        _ => (WIDTH * STARTING) << (row - 1),
    }
}

/// The rows of an indirect block that fills a slot of this row.
fn nested_rows(row: u64) -> u64 {
    row - 2
}

impl Table {
    pub fn new(fullness: &Fullness, start: u64, rows: u64) -> Self {
        let row = |number| {
            let (start, size) = (start + row_start(number), slot_size(number));
            let slot = |i| slot(fullness, start + i * size, number);
            Row {
                number,
                start,
                slot_size: size,
                slots: (0..WIDTH).map(slot).collect(),
            }
        };
        Table {
            start,
            rows: (0..rows).map(row).collect(),
        }
    }

    pub fn slots(&self) -> impl Iterator<Item = &Slot> {
        self.rows.iter().flat_map(|row| &row.slots)
    }

    pub fn fill(&self) -> Fill {
        self.slots()
            .map(Slot::fill)
            .fold(Fill::default(), Fill::and)
    }

    /// How many direct blocks are placed.
    pub fn placed(&self) -> u64 {
        self.slots().map(Slot::placed).sum()
    }

    /// Whether the same slots are placed.
    pub fn is_like(&self, other: &Table) -> bool {
        self.rows.len() == other.rows.len()
            && self.slots().zip(other.slots()).all(|(a, b)| a.is_like(b))
    }

    /// Adds what is in the blocks of a table that is alike.
    pub fn add(&mut self, other: &Table) {
        let slots = self.rows.iter_mut().flat_map(|row| &mut row.slots);
        for (slot, more) in slots.zip(other.slots()) {
            match (slot, more) {
                (Slot::Direct(fill), Slot::Direct(more)) => *fill = fill.and(*more),
                (Slot::Indirect(table), Slot::Indirect(more)) => table.add(more),
                _ => {}
            }
        }
    }
}

fn slot(fullness: &Fullness, start: u64, row: u64) -> Slot {
    let size = slot_size(row);
    if size <= LARGEST_DIRECT {
        return fullness
            .block(start, size)
            .map_or(Slot::Unplaced, Slot::Direct);
    }
    match fullness.any(start..start + size) {
        true => Slot::Indirect(Table::new(fullness, start, nested_rows(row))),
        false => Slot::Unplaced,
    }
}

impl Slot {
    pub fn fill(&self) -> Fill {
        match self {
            Slot::Unplaced => Fill::default(),
            Slot::Direct(fill) => *fill,
            Slot::Indirect(table) => table.fill(),
        }
    }

    fn placed(&self) -> u64 {
        match self {
            Slot::Unplaced => 0,
            Slot::Direct(_) => 1,
            Slot::Indirect(table) => table.placed(),
        }
    }

    fn is_like(&self, other: &Slot) -> bool {
        match (self, other) {
            (Slot::Unplaced, Slot::Unplaced) | (Slot::Direct(_), Slot::Direct(_)) => true,
            (Slot::Indirect(a), Slot::Indirect(b)) => a.is_like(b),
            _ => false,
        }
    }
}

impl Row {
    pub fn fill(&self) -> Fill {
        let fills = self.slots.iter().map(Slot::fill);
        fills.fold(Fill::default(), Fill::and)
    }
}
