//! Why the checked reader refuses, in words that name the block: where it is in the file and in the heap, what was found
//! there and what was wanted. HDF5 File Format Specification, III.G, 'Fractal Heap Direct Block' and 'Fractal Heap Indirect
//! Block'; the doubling table under any header is that of docs/RULES.md.
use fractal_heap::{Block, Header, Heap, Refusal, count, grouped};

/// Blocks on the longest way: 64 indirect ones, and a direct one below them.
const LONGEST: usize = 65;

#[derive(Clone, Copy)]
enum Kind {
    Direct { size: u64 },
    Indirect { rows: u64 },
}

impl Kind {
    fn name(self) -> &'static str {
        match self {
            Kind::Direct { .. } => "direct block",
            Kind::Indirect { .. } => "indirect block",
        }
    }

    fn signature(self) -> &'static str {
        match self {
            Kind::Direct { .. } => "FHDB",
            Kind::Indirect { .. } => "FHIB",
        }
    }
}

/// A block on the way.
#[derive(Clone, Copy)]
struct Step {
    block: Block,
    kind: Kind,
}

/// The number in so many bytes, of which the first eight count.
fn number(bytes: &[u8]) -> u64 {
    let highest_first = bytes.iter().take(8).rev();
    highest_first.fold(0, |number, &byte| number << 8 | u64::from(byte))
}

/// The whole binary logarithm; 0 of 0.
fn log(number: u64) -> u64 {
    number.checked_ilog2().unwrap_or(0).into()
}

/// A heap whose blocks are held to the address of their header.
pub struct Checked<'a> {
    pub heap: &'a Heap<'a>,
    pub header: &'a Header,
    pub header_address: u64,
    /// Where in the file addresses count from.
    pub base: u64,
}

impl Checked<'_> {
    fn block_size(&self, row: u64) -> u64 {
        let doubled = row.max(1) - 1;
        let size = u128::from(self.header.starting_block_size) << doubled.min(64);
        size.try_into().unwrap_or(u64::MAX)
    }

    /// What a slot of a row is for.
    fn kind(&self, row: u64) -> Kind {
        let (h, size) = (self.header, self.block_size(row));
        let (largest, starting) = (log(h.max_direct_block_size), log(h.starting_block_size));
        if row < largest.saturating_sub(starting) + 2 {
            return Kind::Direct { size };
        }
        let row_size = starting + log(h.table_width.into());
        Kind::Indirect {
            rows: log(size).saturating_sub(row_size) + 1,
        }
    }

    fn span(&self, kind: Kind) -> u64 {
        let row = |row| u128::from(self.block_size(row)) * u128::from(self.header.table_width);
        match kind {
            Kind::Direct { size } => size,
            Kind::Indirect { rows } => {
                let span: u128 = (0..rows).map(row).sum();
                span.try_into().unwrap_or(u64::MAX)
            }
        }
    }

    /// Bytes of a block before its checksum or its entries.
    fn front(&self) -> u64 {
        let offset_bytes = u64::from(self.header.max_heap_size.div_ceil(8));
        5 + u64::from(self.heap.offset_size) + offset_bytes
    }

    /// Bytes of a direct block before its objects.
    fn header_length(&self) -> u64 {
        let sum = if self.header.flags & 2 == 0 { 0 } else { 4 };
        self.front() + sum
    }

    fn length(&self, kind: Kind) -> u64 {
        match kind {
            Kind::Direct { size } => size,
            Kind::Indirect { rows } => {
                let entry = u64::from(self.header.table_width) * u64::from(self.heap.offset_size);
                self.front() + 4 + rows * entry
            }
        }
    }

    /// Bytes of the file; none past its end.
    fn bytes(&self, at: u64, length: u64) -> &[u8] {
        let end = at.saturating_add(length).min(self.heap.file.len() as u64);
        let start = at.min(end);
        &self.heap.file[start as usize..end as usize]
    }

    /// The block in the slot of an indirect block that holds a heap offset.
    fn child(&self, of: &Step, offset: u64) -> Option<Step> {
        let Kind::Indirect { rows } = of.kind else {
            return None;
        };
        let width = u128::from(self.header.table_width);
        let (mut start, offset) = (u128::from(of.block.heap_offset), u128::from(offset));
        for row in 0..rows {
            let kind = self.kind(row);
            let span = u128::from(self.span(kind));
            if (start..start + span * width).contains(&offset) {
                let column = (offset - start) / span;
                let w = u64::from(self.heap.offset_size);
                let entry = u128::from(row) * width + column;
                let at = of.block.address + self.front() + entry as u64 * w;
                let block = Block {
                    address: number(self.bytes(at, w)),
                    heap_offset: (start + column * span) as u64,
                };
                return Some(Step { block, kind });
            }
            start += span * width;
        }
        None
    }

    fn root(&self) -> Step {
        let kind = match u64::from(self.header.current_rows_in_root_indirect_block) {
            0 => Kind::Direct {
                size: self.header.starting_block_size,
            },
            rows => Kind::Indirect { rows },
        };
        let block = Block {
            address: self.header.root_block_address,
            heap_offset: 0,
        };
        Step { block, kind }
    }

    /// The block at which a read stops, with its kind: all before it have passed. An indirect block whose first entry is its
    /// own address is its own child, a direct one at the same heap offset, which is refused if the block itself passes.
    fn last(&self, block: Block, offset: u64, refusal: Refusal) -> Option<Step> {
        let mut step = self.root();
        for _ in 0..LONGEST {
            let is_here = step.block == block;
            if is_here && !self.passes(&step, refusal) {
                return Some(step);
            }
            match self.child(&step, offset) {
                Some(child) if !is_here || child.block == block => step = child,
                _ => return is_here.then_some(step),
            }
        }
        None
    }

    /// Whether a block passes the test that such a refusal comes from. A block that is not the kind that its parent says is
    /// refused by one of these two.
    fn passes(&self, step: &Step, refusal: Refusal) -> bool {
        match refusal {
            Refusal::UnexpectedEof { .. } => self.is_whole(step),
            Refusal::InvalidSignature => {
                self.bytes(step.block.address, 4) == step.kind.signature().as_bytes()
            }
            _ => false,
        }
    }

    /// Whether no block is at the heap offset, and nothing else is wrong.
    pub fn is_in_no_block(&self, refusal: Refusal, block: Block, offset: u64) -> bool {
        let is_eof = matches!(refusal, Refusal::UnexpectedEof { .. });
        let is_whole_indirect =
            |step: Step| matches!(step.kind, Kind::Indirect { .. }) && self.is_whole(&step);
        is_eof
            && self
                .last(block, offset, refusal)
                .is_some_and(is_whole_indirect)
    }

    fn is_whole(&self, step: &Step) -> bool {
        let length = self.length(step.kind);
        self.bytes(step.block.address, length).len() as u64 == length
    }

    /// The refusal of an object at a heap offset, at this block.
    pub fn sentence(&self, refusal: Refusal, block: Block, offset: u64) -> String {
        let step = self.last(block, offset, refusal);
        let words = step.and_then(|step| self.words(refusal, &step, offset));
        if let Some(words) = words {
            return format!("refused by {}: {words}", refusal.number());
        }
        let name = step.map_or("block", |step| step.kind.name());
        format!("{refusal}; the read stops at {}", self.place(block, name))
    }

    /// A block's name, with where it is.
    fn place(&self, block: Block, name: &str) -> String {
        let (position, offset) = (self.in_file(block.address), grouped(block.heap_offset));
        format!("the {name} at {position} in the file, heap offset {offset}")
    }

    /// The position that an address or an end has in the file, as it is printed.
    fn in_file(&self, address: u64) -> String {
        grouped(address.saturating_add(self.base))
    }

    /// What is said of a refusal that comes from the tests of a block.
    fn words(&self, refusal: Refusal, step: &Step, offset: u64) -> Option<String> {
        let named = self.place(step.block, step.kind.name()) + ",";
        let (first, second) = refusal.values();
        Some(match refusal {
            Refusal::UnexpectedEof { .. } => self.too_early(&named, step, offset, (first, second)),
            Refusal::InvalidSignature => {
                let found = self.bytes(step.block.address, 4);
                let found: Vec<String> = found.iter().map(|b| format!("{b:02X}")).collect();
                let due = step.kind.signature();
                let digits: Vec<String> = due.bytes().map(|b| format!("{b:02X}")).collect();
                format!(
                    "{named} begins with {}, and not with {due}, {}",
                    found.join(" "),
                    digits.join(" ")
                )
            }
            Refusal::InvalidVersion { .. } => {
                format!("{named} has version {}, and not 0", grouped(first))
            }
            Refusal::ForeignBlock { .. } => self.foreign(&named, step, first, second),
            Refusal::BlockChecksumMismatch { .. } => format!(
                "{named} has the checksum {first:08X}, and its {} make {second:08X}",
                count(self.length(step.kind), "byte")
            ),
            _ => return None,
        })
    }

    /// Of two numbers the first that differs is told: the header's address, then the heap offset.
    fn foreign(&self, named: &str, step: &Step, stored: u64, wanted: u64) -> String {
        let w = self.heap.offset_size.into();
        let address = number(self.bytes(step.block.address + 5, w));
        let (stored, wanted) = (grouped(stored), grouped(wanted));
        if address == self.header_address {
            return format!("{named} says that it is at heap offset {stored}, and not at {wanted}");
        }
        let base = match self.base {
            0 => String::new(),
            base => format!(", counted from {}", grouped(base)),
        };
        format!("{named} has {stored} as its header's address, and not {wanted}{base}")
    }

    /// What the two numbers are: the end of a block's header, of a block, of an object in its block or of one in no block,
    /// and where the bytes end that it has to be in.
    fn too_early(&self, named: &str, step: &Step, offset: u64, (end, there): (u64, u64)) -> String {
        let of_file = || count(there.saturating_add(self.base), "byte");
        match step.kind {
            Kind::Direct { size } if size < self.header_length() => format!(
                "{named} has {}, fewer than the {} of its header",
                count(there, "byte"),
                grouped(end)
            ),
            _ if !self.is_whole(step) => format!(
                "{named} ends at {}, and the file has {}",
                self.in_file(end),
                of_file()
            ),
            Kind::Direct { .. } => format!(
                "{named} has {}, and the object ends at {} in it",
                count(there, "byte"),
                grouped(end)
            ),
            Kind::Indirect { .. } => format!(
                "{named} has no block at the ID's place, heap offset {}, up to {}; the file has {}",
                grouped(offset),
                grouped(end),
                of_file()
            ),
        }
    }
}

#[cfg(test)]
mod tests {
    use super::*;
    use fractal_heap::OpenPlan;

    const ROOT: Block = Block {
        address: 146,
        heap_offset: 0,
    };

    /// What is said at a block of a heap whose root is a direct one of 1,024 bytes, in a file that has only 512 bytes before
    /// what addresses count from.
    fn said(refusal: Refusal, block: Block) -> String {
        let heap = Heap {
            file: &[],
            header_at: 0,
            offset_size: 8,
            length_size: 8,
        };
        let checked = Checked {
            heap: &heap,
            header: &OpenPlan::open(8).unwrap().header(ROOT.address),
            header_address: 0,
            base: 512,
        };
        checked.sentence(refusal, block, 0)
    }

    #[test]
    fn the_numbers_are_those_of_the_refusal() {
        assert_eq!(
            said(Refusal::new(1, 7, 5), ROOT),
            "refused by 1: the direct block at 658 in the file, heap offset 0, ends at 519, and the file has 517 bytes"
        );
    }

    #[test]
    fn a_refusal_that_comes_from_no_test_of_a_block_is_said_once() {
        assert_eq!(
            said(Refusal::new(10, 64, 0), ROOT),
            "refused by 10: the depth is used up: 64 blocks down and still no object; the read stops at the direct block at \
             658 in the file, heap offset 0"
        );
    }

    #[test]
    fn a_block_that_is_not_on_the_way_has_a_place() {
        let other = Block {
            heap_offset: 1024,
            ..ROOT
        };
        assert_eq!(
            said(Refusal::new(18, 10, 11), other),
            "refused by 18: a block's checksum differs: 0000000A is stored, 0000000B computed; the read stops at the block \
             at 658 in the file, heap offset 1,024"
        );
    }
}
