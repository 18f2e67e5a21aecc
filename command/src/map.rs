//! The picture of a heap for a terminal: a line for each row, a cell for each slot, and below a row the indirect
//! blocks that are open in it. What is alike is drawn once.
use crate::image::STARTING;
use crate::library;
use crate::table::{Fill, Fullness, Row, Slot, Table};
use fractal_heap::{Refusal, count, grouped};

/// A longer picture is drawn with fewer levels of indirect blocks.
const MOST_LINES: usize = 100;
/// Levels of indirect blocks below the root of the largest heap.
const LEVELS: usize = 8;
/// Columns of a slot's cell, and of the one block of a direct root.
const CELL: u64 = 8;
const WIDE: u64 = 40;

/// How things are drawn: in which characters, offsets in how many columns, and how many levels down.
struct Look {
    ascii: bool,
    columns: usize,
    levels: usize,
}

/// The whole picture.
pub fn lines(fullness: &Fullness, root_rows: u64, ascii: bool) -> Result<Vec<String>, Refusal> {
    if root_rows == 0 {
        return Ok(direct_root(fullness, ascii));
    }
    let root = Table::new(fullness, 0, root_rows);
    let columns = root
        .rows
        .last()
        .map_or(0, |row| grouped(2 * row.start).len());
    let mut look = Look {
        ascii,
        columns: columns.max(6),
        levels: LEVELS,
    };
    let mut lines = look.picture(&root)?;
    while lines.len() > MOST_LINES && look.levels > 0 {
        look.levels -= 1;
        lines = look.picture(&root)?;
    }
    Ok(lines)
}

/// The picture of a root that is one block.
fn direct_root(fullness: &Fullness, ascii: bool) -> Vec<String> {
    let fill = fullness.block(0, STARTING).unwrap_or_default();
    let edge = edge(ascii);
    let (used, body) = (grouped(fill.used), grouped(fill.body));
    vec![
        "map: the root is one direct block".into(),
        format!(
            "  {} bytes {edge}{}{edge} {used} of {body} used, {}",
            grouped(STARTING),
            bar(fill, WIDE, ascii),
            full(fill)
        ),
    ]
}

fn edge(ascii: bool) -> &'static str {
    match ascii {
        true => "|",
        false => "│",
    }
}

/// How full a block is, in eighths of a column, or plainly: only a full one has no blank.
fn bar(fill: Fill, columns: u64, ascii: bool) -> String {
    let eighths = match fill {
        Fill { used: 0, .. } => 0,
        Fill { used, body } => (8 * columns * used / body).max(1),
    };
    let (whole, part) = match ascii {
        true => ("#", ["", ":", ":", ":", ":", ":", ":", ":"]),
        false => ("█", ["", "▏", "▎", "▍", "▌", "▋", "▊", "▉"]),
    };
    let text = whole.repeat(eighths as usize / 8) + part[eighths as usize % 8];
    format!("{text:<0$}", columns as usize)
}

/// How much of the whole, in percent: 100 only where that is all, 0 only where it is nothing. Of nothing it is none.
pub fn percent(part: u64, whole: u64) -> Option<String> {
    let hundredths = (100 * u128::from(part)).checked_div(whole.into())?;
    Some(match hundredths {
        0 if part > 0 => "<1%".into(),
        hundredths => format!("{hundredths}%"),
    })
}

/// How full.
fn full(fill: Fill) -> String {
    percent(fill.used, fill.body).unwrap_or_default()
}

/// A power of two: 1K, 64K, 2M, 1G.
fn short_size(size: u64) -> String {
    let units = [(30, "G"), (20, "M"), (10, "K")];
    let unit = units.into_iter().find(|(bits, _)| size >> bits > 0);
    let (bits, letter) = unit.unwrap_or((0, ""));
    format!("{}{letter}", size >> bits)
}

/// One text, or the first and the last of several.
fn ends(first: String, last: String) -> String {
    match first == last {
        true => first,
        false => format!("{first}-{last}"),
    }
}

/// Open indirect blocks in neighbouring slots of a row, drawn as one.
struct Group<'t> {
    first: usize,
    tables: Vec<&'t Table>,
}

impl Group<'_> {
    fn heading(&self, drawn: bool) -> Result<String, Refusal> {
        let n = self.tables.len() as u64;
        let rows = self.tables[0].rows.len() as u64;
        let (mut placed, mut fill) = (0, Fill::default());
        for table in &self.tables {
            placed += table.placed();
            fill = fill.and(table.fill());
        }
        let full = format!("placed, {} full", full(fill));
        let slots = library::count_slots(rows)?.iter().sum();
        let last = self.first as u64 + n - 1;
        let of = |placed, slots| format!("{} of {} slots {full}", grouped(placed), grouped(slots));
        Ok(match (n, drawn) {
            (1, _) => {
                let start = grouped(self.tables[0].start);
                format!("slot {last}: {rows} rows at {start}, {}", of(placed, slots))
            }
            (_, true) => {
                let each = of(placed / n, slots);
                format!(
                    "slots {}-{last} alike, drawn as one: {rows} rows, {each}",
                    self.first
                )
            }
            (_, false) => {
                let all = of(placed, n * slots);
                format!("slots {}-{last}: {rows} rows each, {all}", self.first)
            }
        })
    }

    /// All of them as one, for they are alike.
    fn merged(&self) -> Table {
        let mut merged = self.tables[0].clone();
        for table in &self.tables[1..] {
            merged.add(table);
        }
        merged
    }
}

/// The open indirect blocks of a row: those that are alike together or, where they are not drawn, all of them.
fn groups(row: &Row, drawn: bool) -> Vec<Group<'_>> {
    let mut groups: Vec<Group> = Vec::new();
    for (i, slot) in row.slots.iter().enumerate() {
        let Slot::Indirect(table) = slot else {
            continue;
        };
        match groups.last_mut() {
            Some(g) if g.first + g.tables.len() == i && (!drawn || g.tables[0].is_like(table)) => {
                g.tables.push(table)
            }
            _ => groups.push(Group {
                first: i,
                tables: vec![table],
            }),
        }
    }
    groups
}

impl Look {
    fn picture(&self, root: &Table) -> Result<Vec<String>, Refusal> {
        let rows = count(root.rows.len() as u64, "row");
        let blocks = count(root.placed(), "block");
        let mut lines = vec![
            format!(
                "map: the root has {rows}; {blocks} placed, {} full",
                full(root.fill())
            ),
            format!(
                "{:>5} {:>2$} slot size   slot 0   slot 1   slot 2   slot 3  full",
                "row", "offset", self.columns
            ),
        ];
        let cut = self.draw(root, 0, &mut lines)?;
        let (whole, unplaced) = match self.ascii {
            true => ("#", "."),
            false => ("█", "·"),
        };
        let nested = match root.slots().any(|slot| matches!(slot, Slot::Indirect(_))) {
            true => ", rows: an indirect block",
            false => "",
        };
        lines.push(format!(
            "  {whole} bytes of objects, blank: free, {unplaced} not placed{nested}"
        ));
        if cut {
            lines.push("  indirect blocks farther down are summed up, not drawn".into());
        }
        Ok(lines)
    }

    fn cell(&self, slot: &Slot) -> String {
        match slot {
            Slot::Unplaced if self.ascii => ".".repeat(CELL as usize),
            Slot::Unplaced => "·".repeat(CELL as usize),
            Slot::Direct(fill) => bar(*fill, CELL, self.ascii),
            Slot::Indirect(table) => format!("{:^8}", format!("{} rows", table.rows.len())),
        }
    }

    fn cells(&self, row: &Row) -> String {
        let edge = edge(self.ascii);
        let cell = |slot| self.cell(slot) + edge;
        let cells: String = row.slots.iter().map(cell).collect();
        format!("{edge}{cells}")
    }

    /// Rows that look alike, in one line.
    fn line(&self, rows: &[Row], cells: &str, level: usize) -> String {
        let (first, last) = (&rows[0], &rows[rows.len() - 1]);
        let numbers = ends(first.number.to_string(), last.number.to_string());
        let sizes = ends(short_size(first.slot_size), short_size(last.slot_size));
        let fill = rows.iter().map(Row::fill).fold(Fill::default(), Fill::and);
        let (indent, columns) = ("  ".repeat(level), self.columns);
        let (start, full) = (grouped(first.start), full(fill));
        let line = format!("{indent}{numbers:>5} {start:>columns$} {sizes:>9} {cells} {full:>4}");
        line.trim_end().into()
    }

    /// Draws the rows, and below each the indirect blocks that are open in it. Whether some are not drawn.
    fn draw(&self, table: &Table, level: usize, lines: &mut Vec<String>) -> Result<bool, Refusal> {
        let (rows, mut at, mut cut) = (&table.rows, 0, false);
        let branch = if self.ascii { "+" } else { "└" };
        while at < rows.len() {
            let cells = self.cells(&rows[at]);
            let like = rows[at..].iter().take_while(|row| self.cells(row) == cells);
            let end = at + like.count();
            lines.push(self.line(&rows[at..end], &cells, level));
            let drawn = level < self.levels;
            for group in groups(&rows[at], drawn) {
                let heading = group.heading(drawn)?;
                lines.push(format!("{}{branch} {heading}", "  ".repeat(level + 2)));
                cut |= !drawn || self.draw(&group.merged(), level + 1, lines)?;
            }
            at = end;
        }
        Ok(cut)
    }
}

#[cfg(test)]
mod tests {
    use super::*;

    #[test]
    fn a_share_in_percent() {
        let largest = u64::MAX;
        for (part, whole, due) in [
            (0, 7, "0%"),
            (1, 1000, "<1%"),
            (10, 1000, "1%"),
            (999, 1000, "99%"),
            (1000, 1000, "100%"),
            (largest, largest, "100%"),
            (largest - 1, largest, "99%"),
            (1, largest, "<1%"),
        ] {
            assert_eq!(percent(part, whole).as_deref(), Some(due));
        }
        assert_eq!(percent(0, 0), None);
        assert_eq!(percent(5, 0), None);
    }
}
