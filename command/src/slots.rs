//! `poilures locate` and `poilures slots`: the direct block of a heap offset, and how many slots a heap has.
use crate::arguments;
use crate::failure::Failure;
use crate::image::{STARTING, block_header};
use crate::library::{self, Asked, Entered, Slot};
use crate::talk::{Talk, Volume};
use fractal_heap::{Refusal, count, grouped};
use serde_json::json;

/// A direct block and the way to it.
struct Located {
    offset: u64,
    way: Vec<Entered>,
    block: Slot,
    /// Whether counting names the same block.
    agree: bool,
    offset_size: u8,
}

/// The block that the descent names. Where it refuses alone, the engines differ.
fn named(asked: Asked) -> Result<Slot, Failure> {
    match (asked.located, asked.counted) {
        (Ok(block), _) => Ok(block),
        (Err(refusal), Err(_)) => Err(refusal.into()),
        (Err(refusal), Ok(Slot { start, size })) => Err(Failure::Not(format!(
            "the engines differ: counting names the block of {} at heap offset {}, and by descent it is {refusal}",
            count(size, "byte"),
            grouped(start)
        ))),
    }
}

impl Located {
    fn new(offset: u64, offset_size: u8) -> Result<Self, Failure> {
        if !matches!(offset_size, 2 | 4 | 8) {
            let size = offset_size.into();
            return Err(Refusal::InvalidOffsetSize { size }.into());
        }
        let asked = library::ask_both(offset)?;
        let agree = asked.agree;
        let block = named(asked)?;
        Ok(Located {
            offset,
            way: library::way(offset)?,
            block,
            agree,
            offset_size,
        })
    }

    fn header_end(&self) -> u64 {
        self.block.start + block_header(self.offset_size)
    }

    fn is_in_header(&self) -> bool {
        self.offset < self.header_end()
    }

    /// For a person.
    fn lines(&self) -> Vec<String> {
        let entered = |block: &Entered| {
            format!(
                "  indirect block  row {}, column {}, at heap offset {}",
                block.row,
                block.column,
                grouped(block.start)
            )
        };
        let Slot { start, size } = self.block;
        let side = match self.is_in_header() {
            true => "in it",
            false => "behind it",
        };
        let agree = match self.agree {
            true => "both engines name this block, by descent and by counting",
            false => "the engines differ: counting does not name this block",
        };
        let mut lines = vec![format!("heap offset {}", grouped(self.offset))];
        lines.extend(self.way.iter().map(entered));
        lines.extend([
            format!(
                "  direct block    {}, at heap offset {}",
                count(size, "byte"),
                grouped(start)
            ),
            format!(
                "  its header      ends at {}, at offset size {}; the offset is {side}",
                grouped(self.header_end()),
                self.offset_size
            ),
            format!("  {agree}"),
        ]);
        lines
    }

    /// The command fails where the engines differ.
    fn verdict(&self) -> Result<(), Failure> {
        match self.agree {
            true => Ok(()),
            false => Err(Failure::Not("the engines differ".into())),
        }
    }

    fn json(&self) -> String {
        let way = self
            .way
            .iter()
            .map(|block| json!({"row": block.row, "column": block.column, "start": block.start}));
        json!({
            "offset": self.offset,
            "way": way.collect::<Vec<_>>(),
            "block_start": self.block.start,
            "block_size": self.block.size,
            "header_end": self.header_end(),
            "in_header": self.is_in_header(),
            "engines_agree": self.agree,
            "offset_size": self.offset_size,
        })
        .to_string()
    }
}

pub fn locate(arguments: &arguments::Locate) -> Result<(), Failure> {
    let located = Located::new(arguments.offset, arguments.offset_size)?;
    let mut talk = Talk::new(false, Volume::Results);
    match arguments.json {
        true => talk.give(&located.json()),
        false => located.lines().iter().for_each(|line| talk.give(line)),
    }
    talk.end()?;
    located.verdict()
}

/// Slots of one size: the size, how many there are, and their bytes together.
struct OfSize {
    size: u64,
    slots: u64,
    bytes: u64,
}

/// Those of each size, smallest first, and the sum of slots and of bytes.
fn sized(counts: [u64; 7]) -> (Vec<OfSize>, u64, u64) {
    let sizes = std::iter::successors(Some(STARTING), |size| Some(size + size));
    let all: Vec<OfSize> = sizes
        .zip(counts)
        .map(|(size, slots)| OfSize {
            size,
            slots,
            bytes: size * slots,
        })
        .collect();
    let slots = all.iter().map(|one| one.slots).sum();
    let bytes = all.iter().map(|one| one.bytes).sum();
    (all, slots, bytes)
}

/// The table for a person, the sum at its end.
fn table(rows: u64, counts: [u64; 7]) -> Vec<String> {
    let (all, slots, bytes) = sized(counts);
    let (slots, bytes) = (grouped(slots), grouped(bytes));
    let (wide, wider) = (slots.len().max(5), bytes.len().max(8));
    let line = |size: &str, slots: &str, bytes: &str| {
        format!("  {size:>6}  {slots:>wide$}  {bytes:>wider$}")
    };
    let mut lines = vec![
        format!("direct slots of {}", count(rows, "row")),
        line("size", "slots", "together"),
    ];
    lines.extend(
        all.iter()
            .map(|one| line(&grouped(one.size), &grouped(one.slots), &grouped(one.bytes))),
    );
    lines.push(line("sum", &slots, &bytes));
    lines
}

fn table_json(rows: u64, counts: [u64; 7]) -> String {
    let (all, slots, bytes) = sized(counts);
    let of_size = |one: &OfSize| json!({"size": one.size, "slots": one.slots, "bytes": one.bytes});
    json!({
        "rows": rows,
        "counts": all.iter().map(of_size).collect::<Vec<_>>(),
        "slots": slots,
        "bytes": bytes,
    })
    .to_string()
}

pub fn slots(arguments: &arguments::Slots) -> Result<(), Failure> {
    let counts = library::count_slots(arguments.rows)?;
    let mut talk = Talk::new(false, Volume::Results);
    match arguments.json {
        true => talk.give(&table_json(arguments.rows, counts)),
        false => {
            let lines = table(arguments.rows, counts);
            lines.iter().for_each(|line| talk.give(line));
        }
    }
    talk.end()
}

#[cfg(test)]
mod tests {
    use super::*;

    // By the rules: row 10 begins at 4,096 * 2^9 and its slots have 2^19 bytes; of the block there, which holds the
    // offset 1,024 past its start, row 0 has slots of 1,024 bytes.
    fn located(agree: bool) -> Located {
        let (row, column, start) = (10, 1, 2_621_440);
        Located {
            offset: 2_622_464,
            way: vec![Entered { row, column, start }],
            block: Slot {
                start: 2_622_464,
                size: 1_024,
            },
            agree,
            offset_size: 8,
        }
    }

    #[test]
    fn engines_that_agree() {
        let due = [
            "heap offset 2,622,464",
            "  indirect block  row 10, column 1, at heap offset 2,621,440",
            "  direct block    1,024 bytes, at heap offset 2,622,464",
            "  its header      ends at 2,622,486, at offset size 8; the offset is in it",
            "  both engines name this block, by descent and by counting",
        ];
        assert_eq!(located(true).lines(), due);
        assert!(located(true).json().contains(r#""engines_agree":true"#));
        assert!(located(true).verdict().is_ok());
    }

    #[test]
    fn engines_that_differ() {
        let differing = located(false);
        let last = differing.lines().pop();
        let due = "  the engines differ: counting does not name this block";
        assert_eq!(last.as_deref(), Some(due));
        assert!(differing.json().contains(r#""engines_agree":false"#));
        let told = differing.verdict();
        assert!(matches!(told, Err(Failure::Not(why)) if why == "the engines differ"));
    }

    #[test]
    fn where_one_engine_refuses_they_differ() {
        let slot = || Slot {
            start: 0,
            size: 1_024,
        };
        let refusal = || Refusal::new(15, 1 << 40, 1 << 40);
        let asked = |located, counted| {
            let agree = false;
            named(Asked {
                located,
                counted,
                agree,
            })
        };
        assert!(asked(Ok(slot()), Err(refusal())).is_ok_and(|block| block.size == 1_024));
        let words = |asked| match asked {
            Err(Failure::Not(words)) => words,
            _ => panic!("it is not refused, or called wrong use"),
        };
        let due = "the engines differ: counting names the block of 1,024 bytes at heap offset 0, and by descent it is ";
        assert!(words(asked(Err(refusal()), Ok(slot()))).starts_with(due));
        let refused = words(asked(Err(refusal()), Err(refusal())));
        assert!(refused.starts_with("refused by 15"));
    }

    // By the rules: rows 0 and 1 have four slots of 1,024 bytes each, row 2 four of 2,048.
    #[test]
    fn three_rows_in_a_table() {
        let due = [
            "direct slots of 3 rows",
            "    size  slots  together",
            "   1,024      8     8,192",
            "   2,048      4     8,192",
            "   4,096      0         0",
            "   8,192      0         0",
            "  16,384      0         0",
            "  32,768      0         0",
            "  65,536      0         0",
            "     sum     12    16,384",
        ];
        assert_eq!(table(3, [8, 4, 0, 0, 0, 0, 0]), due);
    }
}
