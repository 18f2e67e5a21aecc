//! Direct slots: the first engine against the original, the one that counts against both, and the counts of slots against
//! a count over the original's slots.
use crate::ours;
use crate::plan::Lent;
use crate::random::Random;
use crate::summary::{Row, row};

/// Where the heap ends.
const END: u64 = 1 << 40;

/// The most rows of a root.
const ROWS: usize = 29;

/// The original's slot, as ours answers.
fn due(offset: u64) -> original::Answer {
    let (start, size) = original::slot(offset);
    (0, start, size)
}

/// Every slot of so many rows, in their order, as the original's descent finds them one behind the other.
fn slots(rows: usize) -> impl Iterator<Item = (u64, u64)> {
    let end = original::rows_span(rows);
    let first = Some(original::slot(0));
    let next = move |&(start, size): &(u64, u64)| match start + size {
        next if next < end => Some(original::slot(next)),
        _ => None,
    };
    std::iter::successors(first, next)
}

/// The heap's ends, and both sides of each row's start.
fn edges() -> Vec<u64> {
    let starts = (0..ROWS).map(original::rows_span);
    let sides = starts.flat_map(|start| [start, start.saturating_sub(1), start + 1]);
    sides
        .chain([END - 1, END - 2, END - 65_536, END - 65_537])
        .collect()
}

fn located(offset: u64) {
    assert_eq!(ours::locate(offset), due(offset), "offset {offset}");
}

/// The indirect blocks on the way, by the original's rows and columns, and that ours names no more.
fn same_way(offset: u64) -> u64 {
    let (mut base, mut past, mut place) = (0, offset, 0);
    loop {
        let ([row, col, start], indirect) = original::table_slot(past);
        let due = match indirect {
            true => [1, row, col, base + start],
            false => [0; 4],
        };
        let mut block = Lent::new(5);
        let number = ours::entered(offset, place, block.places());
        assert_eq!(number, 0, "offset {offset}, block {place}");
        block.holds(&due, || format!("offset {offset}, block {place}"));
        if !indirect {
            return place;
        }
        (base, past, place) = (base + start, past - start, place + 1);
    }
}

/// What is refused, and that nothing but the answer is written.
fn refused(engines: &[fn(u64) -> original::Answer]) -> u64 {
    let offsets = [
        END,
        END + 1,
        END + 1_024,
        1 << 41,
        1 << 63,
        u64::MAX - 1,
        u64::MAX,
    ];
    for offset in offsets {
        for engine in engines {
            assert_eq!(engine(offset), (20, offset, 0), "offset {offset}");
        }
        let mut block = Lent::new(5);
        let number = ours::entered(offset, 0, block.places());
        assert_eq!(number, 20, "offset {offset}");
        block.holds(&[offset, 0], || format!("offset {offset}"));
        both_answer(offset, (20, offset, 0), 0);
    }
    for places in 0..7 {
        let mut answers = Lent::new(places);
        assert_eq!(ours::ask_both(0, answers.places()), 13, "{places} places");
        answers.holds(&[], || format!("{places} places"));
    }
    for places in 0..4 {
        let mut block = Lent::new(places);
        assert_eq!(ours::entered(0, 0, block.places()), 13, "{places} places");
        block.holds(&[], || format!("{places} places"));
    }
    offsets.len() as u64
}

/// The first engine, and the way that it goes.
pub fn compare(n: u64) -> Vec<Row> {
    let mut ends = 0;
    for (start, size) in slots(20) {
        for offset in [start, start + size - 1] {
            assert_eq!(ours::locate(offset), (0, start, size), "offset {offset}");
            ends += 1;
        }
    }
    let edges = edges();
    edges.iter().for_each(|&offset| located(offset));
    let mut random = Random::new(71);
    let any = |random: &mut Random| match random.below(2) {
        0 => random.below(END),
        _ => random.next() >> (24 + random.below(40)),
    };
    (0..n).for_each(|_| located(any(&mut random)));
    let ways = n / 20;
    let mut deepest = 0;
    for _ in 0..ways {
        deepest = deepest.max(same_way(any(&mut random)));
    }
    edges
        .iter()
        .for_each(|&offset| deepest = deepest.max(same_way(offset)));
    assert_eq!(deepest, 7, "blocks below the root");
    vec![
        row("first and last bytes of the slots of 20 rows", ends),
        row(
            "offsets at the ends of rows and of the heap",
            edges.len() as u64,
        ),
        row("any offsets below 2^40", n),
        row(
            "ways to an offset, block by block",
            ways + edges.len() as u64,
        ),
        row(
            "offsets at or above 2^40, refused by 20",
            refused(&[ours::locate]),
        ),
    ]
}

/// Both engines asked at once, each answering so, and whether that is agreement.
fn both_answer(offset: u64, (number, first, second): original::Answer, agree: u64) {
    let mut answers = Lent::new(9);
    let told = ours::ask_both(offset, answers.places());
    assert_eq!(told, 0, "offset {offset}");
    let number = u64::from(number);
    let due = [number, first, second, number, first, second, agree];
    answers.holds(&due, || format!("offset {offset}"));
}

/// Both name the original's slot.
fn asked_together(offset: u64) {
    both_answer(offset, due(offset), 1);
}

/// Each by itself names it, too.
fn asked_alone(offset: u64) {
    assert_eq!(ours::count_to(offset), due(offset), "offset {offset}");
    assert_eq!(ours::locate(offset), due(offset), "offset {offset}");
}

/// The engine that counts, against both; and the counts.
pub fn counted(n: u64) -> Vec<Row> {
    let mut ends = 0;
    for (start, size) in slots(16) {
        for offset in [start, start + size - 1] {
            asked_together(offset);
            asked_alone(offset);
        }
        ends += 1;
    }
    assert_eq!(ends, 14_192, "slots of 16 rows");
    let mut random = Random::new(72);
    for i in 0..n {
        let offset = random.below(1 << 26);
        asked_alone(offset);
        // Both at once count as far again.
        if i % 100 == 0 {
            asked_together(offset);
        }
    }
    let far = (0..100).map(|_| random.below(END));
    for offset in far.chain([END - 1, END - 65_536, END - 65_537]) {
        asked_together(offset);
        asked_alone(offset);
    }
    vec![
        row("slots of 16 rows, first and last byte counted to", ends),
        row("any offsets below 2^26 counted to", n),
        row("any offsets below 2^40 counted to", 100),
        row("offsets at the heap's end counted to", 3),
        row(
            "offsets at or above 2^40, refused by 20 by both",
            refused(&[ours::locate, ours::count_to]),
        ),
        counts(),
        row("row counts refused by 20", refused_rows()),
    ]
}

/// Counts of every number of rows: those of the original's slots, one behind the other through the whole heap.
fn counts() -> Row {
    let mut due = [0; 7];
    let mut rows = 0;
    let mut told = 0;
    for (start, size) in slots(ROWS) {
        while start == original::rows_span(rows) {
            if rows > 0 {
                told += same_counts(rows as u64, &due);
            }
            rows += 1;
        }
        due[size.ilog2() as usize - 10] += 1;
    }
    told += same_counts(ROWS as u64, &due);
    assert_eq!(
        (told, due.iter().sum()),
        (29, 113_279_536_u64),
        "slots of 29 rows"
    );
    row("numbers of rows, slots counted by size", told)
}

fn same_counts(rows: u64, due: &[u64; 7]) -> u64 {
    let mut counts = Lent::new(9);
    assert_eq!(ours::count_slots(rows, counts.places()), 0, "{rows} rows");
    counts.holds(due, || format!("{rows} rows"));
    let bytes = (0..).zip(due).map(|(k, count)| count << (10 + k));
    let span = original::rows_span(rows as usize);
    assert_eq!(
        bytes.sum::<u64>(),
        span,
        "bytes of the slots of {rows} rows"
    );
    1
}

fn refused_rows() -> u64 {
    let all = [
        0,
        30,
        31,
        40,
        64,
        256,
        1 << 16,
        1 << 32,
        1 << 63,
        u64::MAX - 1,
        u64::MAX,
    ];
    for rows in all {
        let mut counts = Lent::new(9);
        assert_eq!(ours::count_slots(rows, counts.places()), 20, "{rows} rows");
        counts.holds(&[rows, 0], || format!("{rows} rows"));
    }
    for places in 0..7 {
        let mut counts = Lent::new(places);
        assert_eq!(ours::count_slots(3, counts.places()), 13, "{places} places");
        counts.holds(&[], || format!("{places} places"));
    }
    all.len() as u64
}
