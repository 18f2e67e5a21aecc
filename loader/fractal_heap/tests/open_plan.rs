//! A plan that is advanced by one object at a time. Expected values are those of docs/RULES.md, above all of its worked
//! heaps, at addresses of eight bytes.
use fractal_heap::{Added, OpenPlan, Refusal, Totals};

/// A worked heap: the sizes, the heap offsets that they get, and the totals after all of them.
struct Worked {
    sizes: &'static [u64],
    offsets: &'static [u64],
    totals: Totals,
}

/// The heap whose root is one block of 1,024 bytes, of which so many are free.
const fn direct(free_space: u64) -> Totals {
    Totals {
        block_count: 1,
        region_size: 1024,
        root_rows: 0,
        root_place: 0,
        managed_space: 1024,
        allocated_space: 1024,
        free_space,
        allocation_iterator: 0,
    }
}

/// What docs/RULES.md does not list of these heaps follows from it: a root of r rows spans 4,096 * 2^(r - 1) bytes, and
/// the last block's end is the iterator.
const WORKED: [Worked; 8] = [
    Worked {
        sizes: &[],
        offsets: &[],
        totals: direct(1002),
    },
    Worked {
        sizes: &[1002],
        offsets: &[22],
        totals: direct(0),
    },
    Worked {
        sizes: &[1003],
        offsets: &[8214],
        totals: Totals {
            block_count: 1,
            region_size: 2166,
            root_rows: 3,
            root_place: 0,
            managed_space: 16_384,
            allocated_space: 2048,
            free_space: 15_117,
            allocation_iterator: 10_240,
        },
    },
    Worked {
        sizes: &[1002, 1],
        offsets: &[22, 1046],
        totals: Totals {
            block_count: 2,
            region_size: 2102,
            root_rows: 1,
            root_place: 0,
            managed_space: 4096,
            allocated_space: 2048,
            free_space: 3005,
            allocation_iterator: 2048,
        },
    },
    Worked {
        sizes: &[1002, 0],
        offsets: &[22, 1024],
        totals: direct(0),
    },
    Worked {
        sizes: &[1002, 1002, 0],
        offsets: &[22, 1046, 2048],
        totals: Totals {
            block_count: 2,
            region_size: 2102,
            root_rows: 1,
            root_place: 0,
            managed_space: 4096,
            allocated_space: 2048,
            free_space: 2004,
            allocation_iterator: 2048,
        },
    },
    Worked {
        sizes: &[65_514],
        offsets: &[262_166],
        totals: Totals {
            block_count: 1,
            region_size: 65_814,
            root_rows: 8,
            root_place: 0,
            managed_space: 524_288,
            allocated_space: 65_536,
            free_space: 458_070,
            allocation_iterator: 327_680,
        },
    },
    Worked {
        sizes: &[65_514; 5],
        offsets: &[262_166, 327_702, 393_238, 458_774, 2_359_318],
        totals: Totals {
            block_count: 5,
            region_size: 328_332,
            root_rows: 11,
            root_place: 278,
            managed_space: 4_194_304,
            allocated_space: 327_680,
            free_space: 3_858_638,
            allocation_iterator: 2_424_832,
        },
    },
];

/// All that a plan is, to be compared: it is not `Clone`.
fn state(plan: &OpenPlan) -> (String, u64, Totals) {
    (format!("{plan:?}"), plan.objects(), plan.totals())
}

/// Sizes that no plan accepts change nothing of this one; the index is the count of accepted objects.
fn refuses(plan: &mut OpenPlan, too_large: u64) {
    let before = state(plan);
    for size in [too_large, 65_536, u64::MAX] {
        let index = plan.objects();
        assert_eq!(plan.add(size), Err(Refusal::ObjectTooLarge { index, size }));
    }
    assert_eq!(state(plan), before);
}

/// Adds all, and meets refusals between them if that is wanted.
fn planned(worked: &Worked, mut between: impl FnMut(&mut OpenPlan)) -> Totals {
    let mut plan = OpenPlan::open(8).unwrap();
    between(&mut plan);
    for (i, (&size, &offset)) in worked.sizes.iter().zip(worked.offsets).enumerate() {
        let added = plan.add(size);
        assert_eq!(
            added,
            Ok(Added { offset, size }),
            "object {i} of {:?}",
            worked.sizes
        );
        assert_eq!(plan.objects(), i as u64 + 1);
        between(&mut plan);
    }
    plan.totals()
}

#[test]
fn the_worked_heaps_are_planned_one_by_one() {
    for worked in &WORKED {
        assert_eq!(worked.sizes.len(), worked.offsets.len());
        assert_eq!(planned(worked, |_| ()), worked.totals, "{:?}", worked.sizes);
    }
}

#[test]
fn refused_sizes_between_them_change_nothing() {
    for worked in &WORKED {
        let totals = planned(worked, |plan| refuses(plan, 65_515));
        assert_eq!(totals, worked.totals, "{:?}", worked.sizes);
    }
}

#[test]
fn totals_are_those_of_the_objects_so_far() {
    let mut plan = OpenPlan::open(8).unwrap();
    assert_eq!(plan.totals(), direct(1002));
    plan.add(1000).unwrap();
    assert_eq!(plan.totals(), direct(2));
    plan.add(2).unwrap();
    assert_eq!(plan.totals(), direct(0));
    plan.add(1).unwrap();
    assert_eq!(plan.totals(), WORKED[3].totals);
    // Asking twice changes nothing.
    assert_eq!(plan.totals(), WORKED[3].totals);
}

/// A direct block begins with 14 bytes and an address.
#[test]
fn each_offset_size_has_its_first_offset_and_its_largest_size() {
    for width in [2, 4, 8] {
        let header = 14 + u64::from(width);
        let mut plan = OpenPlan::open(width).unwrap();
        assert_eq!(plan.totals(), direct(1024 - header));
        refuses(&mut plan, 65_536 - header + 1);
        assert_eq!(plan.add(1).unwrap().offset, header);
        assert_eq!(plan.add(65_536 - header).unwrap().offset, 262_144 + header);
    }
}

#[test]
fn an_offset_size_that_there_is_not_is_refused_by_2() {
    for width in (0..=u8::MAX).filter(|width| ![2, 4, 8].contains(width)) {
        let refusal = OpenPlan::open(width).unwrap_err();
        let size = width.into();
        assert_eq!(refusal, Refusal::InvalidOffsetSize { size });
    }
    let words = OpenPlan::open(3).unwrap_err().to_string();
    assert_eq!(words, "refused by 2: the offset size is 3, not 2, 4 or 8");
}

#[test]
fn a_refused_size_is_said_with_its_index() {
    let mut plan = OpenPlan::open(8).unwrap();
    plan.add(7).unwrap();
    assert_eq!(
        plan.add(65_515).unwrap_err().to_string(),
        "refused by 11: object 1 has 65,515 bytes, more than a managed object can have"
    );
}

#[test]
fn an_object_that_was_added_has_its_id() {
    let mut plan = OpenPlan::open(8).unwrap();
    let worked = [0x00, 0x16, 0x20, 0x00, 0x00, 0x00, 0xEB, 0x03];
    assert_eq!(plan.add(1003).unwrap().id(), Ok(worked));
    // At 8,214 + 1,003 = 9,217, without bytes.
    assert_eq!(
        plan.add(0).unwrap().id(),
        Ok([0, 0x01, 0x24, 0, 0, 0, 0, 0])
    );
    // At 262,166, the largest there is.
    let largest = [0, 0x16, 0x00, 0x04, 0, 0, 0xEA, 0xFF];
    assert_eq!(plan.add(65_514).unwrap().id(), Ok(largest));
}

#[test]
fn offsets_from_2_to_the_40_and_sizes_from_2_to_the_16_have_no_id() {
    let id = |offset, size| Added { offset, size }.id();
    let all = [0, 0xFF, 0xFF, 0xFF, 0xFF, 0xFF, 0xFF, 0xFF];
    assert_eq!(id((1 << 40) - 1, (1 << 16) - 1), Ok(all));
    for (offset, length) in [(1 << 40, 0), (22, 1 << 16), (u64::MAX, u64::MAX)] {
        let refusal = id(offset, length).unwrap_err();
        assert_eq!(refusal, Refusal::HeapIdTooLarge { offset, length });
        assert_eq!(refusal.number(), 16);
    }
}

/// How many direct blocks of 65,536 bytes so many rows have: four in row 7, the others in the slots of the rows behind
/// it, that of row r being an indirect block of r - 2 rows.
fn largest_blocks(rows: u32) -> u64 {
    (7..rows)
        .map(|row| {
            if row == 7 {
                4
            } else {
                4 * largest_blocks(row - 2)
            }
        })
        .sum()
}

/// The largest objects fill a block each. The last block of the heap space is one of theirs, since the last slot of row
/// 28 has rows to 25, that one's last slot rows to 22, and so on to row 7.
#[test]
fn the_heap_space_ends_by_12_and_an_object_at_its_end_has_no_id() {
    const END: u64 = 1 << 40;
    let mut plan = OpenPlan::open(8).unwrap();
    let count = largest_blocks(29);
    let last = (0..count).map(|_| plan.add(65_514).unwrap()).last();
    assert_eq!(last.unwrap().offset, END - 65_514);
    let before = state(&plan);
    for size in [65_514, 1] {
        let refusal = plan.add(size).unwrap_err();
        assert_eq!(refusal, Refusal::HeapSpaceExhausted { index: count });
        assert_eq!(refusal.number(), 12);
    }
    refuses(&mut plan, 65_515); // 11 goes before 12
    assert_eq!(state(&plan), before);

    // One without bytes may follow, and is counted.
    let (offset, length) = (END, 0);
    let added = plan.add(0).unwrap();
    assert_eq!(added, Added { offset, size: 0 });
    assert_eq!(added.id(), Err(Refusal::HeapIdTooLarge { offset, length }));
    let index = count + 1;
    assert_eq!(plan.add(1), Err(Refusal::HeapSpaceExhausted { index }));
    let totals = plan.totals();
    assert_eq!(totals.block_count, count);
    assert_eq!((totals.root_rows, totals.managed_space), (29, END));
    assert_eq!(totals.allocation_iterator, END);
}
