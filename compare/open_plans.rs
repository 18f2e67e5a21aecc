//! Plans that stay open, ours against the original: every heap offset and all totals after each addition.
use crate::ours::Open;
use crate::plan::{FULL, any_list, limit};
use crate::random::Random;
use crate::summary::{Row, row};
use original::Plan;

/// How many additions were compared, and how many sizes were refused between them.
#[derive(Default)]
struct Counts {
    lists: u64,
    added: u64,
    refused: u64,
}

impl Counts {
    /// Adds sizes one by one. Whatever 11 lets pass is accepted, with the heap offset and the totals that the original
    /// gives the accepted sizes in one list.
    fn same(&mut self, sizes: &[u64], w: u8) {
        let mut plan = Open::of(w);
        let mut accepted: Vec<u64> = Vec::new();
        let mut totals = original::plan(&[], w).expect("no objects").totals;
        assert_eq!(plan.totals(), totals, "width {w}, no objects");
        for &size in sizes {
            let index = accepted.len() as u64;
            let at = || format!("width {w}, {accepted:?}, then {size}");
            if size > limit(w) {
                assert_eq!(plan.add(size), (11, index, size), "{}", at());
                self.refused += 1;
            } else {
                let answer = plan.add(size);
                accepted.push(size);
                let due = original::plan(&accepted, w).expect("within the heap space");
                assert_eq!(
                    answer,
                    (0, *due.offsets.last().unwrap(), 0),
                    "width {w}, {accepted:?}"
                );
                totals = due.totals;
                self.added += 1;
            }
            assert_eq!(plan.totals(), totals, "width {w}, {accepted:?}, {size}");
        }
        self.lists += 1;
    }
}

/// Any list, with some sizes that are refused.
fn list(random: &mut Random, w: u8) -> Vec<u64> {
    let len = match random.below(50) {
        0 => random.below(200),
        _ => random.below(30),
    };
    let mut sizes = any_list(random, len, w);
    for size in &mut sizes {
        if random.below(8) == 0 {
            *size = match random.below(3) {
                0 => limit(w) + 1 + random.below(3),
                1 => limit(w) + 1 + (random.next() >> (1 + random.below(63))),
                _ => u64::MAX - random.below(3),
            };
        }
    }
    sizes
}

/// Every width: a plan, or 2.
fn widths() -> Row {
    for w in 0..=255 {
        let due = if matches!(w, 2 | 4 | 8) {
            (0, 0, 0)
        } else {
            (2, w.into(), 0)
        };
        assert_eq!(Open::answer(w), due, "width {w}");
    }
    row("widths at which a plan is opened, or refused by 2", 256)
}

/// Up to the last block of the heap space, an object at a time: every heap offset, and all totals at each power of two
/// and in front of the last block. There a size that finds no slot is followed by smaller ones that still fit: what is
/// accepted has offset and totals of the original, what is refused changes nothing. In the end an empty object is at 2^40.
pub fn heap_space(w: u8) -> Vec<Row> {
    let original = |sizes: &[u64]| original::plan(sizes, w).expect("within the heap space");
    let mut sizes = vec![limit(w); FULL - 1];
    let Plan {
        offsets,
        mut totals,
        ..
    } = original(&sizes);
    let mut plan = Open::of(w);
    for (i, (&size, &offset)) in sizes.iter().zip(&offsets).enumerate() {
        assert_eq!(plan.add(size), (0, offset, 0), "width {w}, object {i}");
        let added = i + 1;
        if added.is_power_of_two() {
            let due = original(&sizes[..added]).totals;
            assert_eq!(plan.totals(), due, "width {w}, {added} objects");
        }
    }
    assert_eq!(plan.totals(), totals, "width {w}, to the last block");
    let (mut added, mut refused) = (0, 0);
    for (size, number) in [
        (limit(w) - 1_000, 0),
        (limit(w), 12),
        (1_001, 12), // the original's, too
        (limit(w) + 1, 11),
        (999, 0),
        (u64::MAX, 11),
        (limit(w), 12),
        (2, 12), // the original's, too
        (1, 0),
        (limit(w), 12),
        (1, 12),
        (0, 0),
        (1, 12),
        (limit(w) + 1, 11),
    ] {
        let index = sizes.len() as u64;
        let at = format!("width {w}, {size} behind {index} objects");
        let answer = plan.add(size);
        if number == 0 {
            sizes.push(size);
            let due = original(&sizes);
            assert_eq!(answer, (0, *due.offsets.last().unwrap(), 0), "{at}");
            totals = due.totals;
            added += 1;
        } else {
            let second = if number == 11 { size } else { 0 };
            assert_eq!(answer, (number, index, second), "{at}");
            if matches!(size, 2 | 1_001) {
                let longer = [&sizes[..], &[size]].concat();
                assert_eq!(original::plans(&longer, w), None, "{at}");
            }
            refused += 1;
        }
        assert_eq!(plan.totals(), totals, "{at}");
    }
    assert_eq!(totals[0], FULL as u64, "width {w}");
    vec![
        row(
            format!("objects added up to the heap's last block, width {w}"),
            FULL as u64 - 1,
        ),
        row(format!("objects added in it, width {w}"), added),
        row(format!("sizes refused between them, width {w}"), refused),
    ]
}

/// A plan that counts as many objects as a 64-bit number holds. Its count is set here, no plan comes to it otherwise.
fn full_count() -> Row {
    for w in [2, 4, 8] {
        let mut plan = Open::of(w);
        plan.set_objects(u64::MAX - 1);
        assert_eq!(plan.add(0).0, 0);
        for size in [0, 1, limit(w)] {
            assert_eq!(plan.add(size), (12, u64::MAX, 0), "width {w}, {size}");
        }
        let large = limit(w) + 1;
        assert_eq!(plan.add(large), (11, u64::MAX, large), "width {w}");
    }
    row("plans that count to their end, then 12, by the rules", 3)
}

/// `n` random lists at each width.
pub fn compare(n: u64) -> Vec<Row> {
    let (mut random, mut counts) = (Random::new(9), Counts::default());
    for w in [2, 4, 8] {
        counts.same(&[], w);
        for _ in 0..n {
            counts.same(&list(&mut random, w), w);
        }
    }
    let Counts {
        lists,
        added,
        refused,
    } = counts;
    vec![
        row("lists added one by one, each front part a plan", lists),
        row("objects in them, with all totals after each", added),
        row("sizes refused by 11 between them, by the rules", refused),
        widths(),
        full_count(),
    ]
}
