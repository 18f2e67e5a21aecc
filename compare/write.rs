//! Writing, ours against the original: the plan, every byte of the region, and all lent memory. What the
//! original cannot refuse is held to the rules' table.
use crate::ours::{self, Writing};
use crate::plan::{self, Lent, Places, any_list, enough, limit, news, short_lists};
use crate::random::Random;
use crate::summary::{Row, row};
use original::{Answer, Plan, planned};

/// The undefined address: a region may end there, a header address is below it.
pub fn most(w: u8) -> u64 {
    u64::MAX >> (64 - 8 * u32::from(w))
}

/// The refusals by the rules' table and in its order: those of planning, 14, 13 region, 15 header, 15 region.
pub fn by_table(writing: &Writing, offsets: usize, blocks: usize, bytes: usize) -> Option<Answer> {
    let (sizes, w) = (writing.sizes, writing.offset_size);
    if let Some(answer) = plan::by_table(sizes, offsets, blocks, w) {
        return Some(answer);
    }
    let (sum, given) = (sizes.iter().sum(), writing.objects.len() as u64);
    if sum != given {
        return Some((14, sum, given));
    }
    let size = original::plans(sizes, w).expect("the heap space is far");
    if (bytes as u64) < size {
        return Some((13, size, bytes as u64));
    }
    if writing.header_at >= most(w) {
        return Some((15, writing.header_at, 0));
    }
    let end = u128::from(writing.region_at) + u128::from(size);
    (end > most(w).into()).then_some((15, writing.region_at, size))
}

/// The objects' own bytes, out of the joined ones.
pub fn parts<'a>(sizes: &[u64], mut joined: &'a [u8]) -> Vec<&'a [u8]> {
    let mut part = |&size: &u64| {
        let (front, rest) = joined.split_at(size as usize);
        joined = rest;
        front
    };
    sizes.iter().map(&mut part).collect()
}

/// The longest front part of at most so many bytes; at width 2 the longest whose region has an address.
fn fitting(mut sizes: Vec<u64>, bytes: u64, w: u8) -> Vec<u64> {
    let mut sum = 0;
    let fits = |size: &&u64| {
        sum += *size;
        sum <= bytes
    };
    sizes.truncate(sizes.iter().take_while(fits).count());
    while w == 2 && original::plans(&sizes, 2) > Some(most(2)) {
        sizes.pop();
    }
    sizes
}

/// A list of up to so many sizes and bytes. No block of 65,536 has an address at width 2: what needs one is
/// made smaller by half of it.
pub fn list(random: &mut Random, len: u64, bytes: u64, w: u8) -> Vec<u64> {
    let mut sizes = any_list(random, len, w);
    let large = sizes.iter_mut().filter(|size| **size > limit(w) - 32_768);
    large
        .filter(|_| w == 2)
        .for_each(|size| *size = size.saturating_sub(32_768));
    fitting(sizes, bytes, w)
}

/// A list as most comparisons have them: short mostly, now and then long.
pub fn mixed_list(random: &mut Random, w: u8) -> Vec<u64> {
    let (len, bytes) = match random.below(100) {
        0 => (3000, 1 << 20),
        1..10 => (100, 1 << 18),
        _ => (10, 1 << 17),
    };
    let len = random.below(len);
    list(random, len, bytes, w)
}

/// An address up to the last one: often that, or 0.
pub fn address(random: &mut Random, last: u64) -> u64 {
    match random.below(6) {
        0 => 0,
        1 => last,
        2 | 3 => random.next() % last,
        _ => random.number() % last,
    }
}

/// Addresses that pass 15, of the region and of the header.
fn addresses(random: &mut Random, w: u8, size: u64) -> (u64, u64) {
    let region_at = address(random, most(w) - size);
    (region_at, address(random, most(w) - 1))
}

/// The indirect blocks from the one at a place on down: how many, and how many one in the other.
fn indirects(writing: &Writing, region: &[u8], at: u64, rows: usize) -> (u64, usize) {
    let w = usize::from(writing.offset_size);
    let (mut blocks, mut depth) = (1, 1);
    let entries = region[at as usize + 10 + w..].chunks_exact(w);
    for (slot, entry) in entries.enumerate().take(4 * rows).skip(4 * 8) {
        let mut address = [0; 8];
        address[..w].copy_from_slice(entry);
        let address = u64::from_le_bytes(address);
        if address != most(writing.offset_size) {
            let place = address - writing.region_at;
            let below = indirects(writing, region, place, slot / 4 - 2);
            (blocks, depth) = (blocks + below.0, depth.max(1 + below.1));
        }
    }
    (blocks, depth)
}

/// What was compared at a width.
#[derive(Default)]
struct Counts {
    lists: u64,
    objects: u64,
    bytes: u64,
    indirects: u64,
    /// The most rows of a root.
    rows: u64,
    /// How many lists have so many indirect blocks one in the other.
    depths: [u64; 8],
    /// How many regions end at the undefined address, and how many header addresses are one less than it.
    ends: u64,
    headers: u64,
}

struct Comparison<'a> {
    random: Random,
    /// Random bytes, from which objects and marks are taken.
    pool: &'a [u8],
    region: Vec<u8>,
    counts: Counts,
}

/// A call in words, for a difference.
pub fn what(writing: &Writing, places: Places, bytes: usize) -> String {
    let sizes = writing.sizes;
    format!(
        "width {}, region at {}, header at {}, {} object bytes, {places:?} places, {bytes} bytes, {} sizes {:?}",
        writing.offset_size,
        writing.region_at,
        writing.header_at,
        writing.objects.len(),
        sizes.len(),
        &sizes[..sizes.len().min(40)]
    )
}

pub fn same_bytes(got: &[u8], due: &[u8], what: impl Fn() -> String) {
    if got != due {
        let at = got.iter().zip(due).position(|(x, y)| x != y);
        let at = at.expect("bytes of one length");
        panic!("byte {at}, {} for {}: {}", got[at], due[at], what());
    }
}

/// So many random bytes. They begin near the pool's front, so that most are in the cache.
pub fn drawn<'a>(pool: &'a [u8], random: &mut Random, len: usize) -> &'a [u8] {
    let last = (pool.len() - len).min(1 << 20);
    let at = random.below(last as u64 + 1) as usize;
    &pool[at..at + len]
}

/// Calls ours with lists of so many places, and holds all but the region to what is due.
pub fn call(writing: &Writing, places: Places, region: &mut [u8], number: u32, news: [&[u64]; 3]) {
    let bytes = region.len();
    let at = || what(writing, places, bytes);
    let mut own = Lent::new(writing.sizes.len());
    own.places().copy_from_slice(writing.sizes);
    let [mut offsets, mut blocks, mut totals] = places.map(Lent::new);
    let got = ours::serialize(
        &Writing {
            sizes: own.places(),
            ..*writing
        },
        offsets.places(),
        blocks.places(),
        region,
        totals.places(),
    );
    assert_eq!(got, number, "number: {}", at());
    totals.holds(news[2], || format!("totals: {}", at()));
    offsets.holds(news[0], || format!("offsets: {}", at()));
    blocks.holds(news[1], || format!("blocks: {}", at()));
    own.holds(writing.sizes, || format!("sizes: {}", at()));
}

impl<'a> Comparison<'a> {
    fn new(seed: u64, pool: &'a [u8]) -> Self {
        Comparison {
            random: Random::new(seed),
            pool,
            region: Vec::new(),
            counts: Counts::default(),
        }
    }

    fn bytes(&mut self, len: usize) -> &'a [u8] {
        drawn(self.pool, &mut self.random, len)
    }

    /// Calls ours with so many places and bytes, and holds all that was lent to what is due.
    fn expect(
        &mut self,
        writing: &Writing,
        places: Places,
        bytes: usize,
        number: u32,
        news: [&[u64]; 3],
        due: &[u8],
    ) {
        let at = || what(writing, places, bytes);
        let before = self.random.below(20) as usize;
        let marks = self.bytes(before + bytes + 20);
        self.region.clear();
        self.region.extend_from_slice(marks);
        let lent = &mut self.region[before..before + bytes];
        call(writing, places, lent, number, news);
        let end = before + due.len();
        let region = &self.region;
        same_bytes(&region[before..end], due, || format!("region: {}", at()));
        same_bytes(&region[..before], &marks[..before], || {
            format!("before the region: {}", at())
        });
        same_bytes(&region[end..], &marks[end..], || {
            format!("past the region: {}", at())
        });
    }

    fn count(&mut self, writing: &Writing, plan: &Plan, region: &[u8]) {
        let counts = &mut self.counts;
        let [_, size, rows, root, ..] = plan.totals;
        let (blocks, depth) = match rows {
            0 => (0, 0),
            _ => indirects(writing, region, root, rows as usize),
        };
        counts.lists += 1;
        counts.objects += writing.sizes.len() as u64;
        counts.bytes += size;
        counts.indirects += blocks;
        counts.rows = counts.rows.max(rows);
        counts.depths[depth] += 1;
        let most = most(writing.offset_size);
        counts.ends += u64::from(writing.region_at + size == most);
        counts.headers += u64::from(writing.header_at == most - 1);
    }

    /// The original's plan and region, and ours equal to them.
    fn accepted(&mut self, writing: &Writing, places: Places, bytes: usize) -> (Plan, Vec<u8>) {
        let (sizes, at) = (writing.sizes, writing.region_at);
        let planned = planned(sizes, writing.offset_size).expect("within the heap space");
        let (plan, objects) = (planned.told(at), parts(sizes, writing.objects));
        let region = planned.serialize(&objects, at, writing.header_at);
        self.expect(writing, places, bytes, 0, news(&plan), &region);
        (plan, region)
    }

    /// At addresses that pass, in just enough memory and in more.
    fn same(&mut self, sizes: &[u64], w: u8) {
        let size = original::plans(sizes, w).expect("within the heap space");
        let (region_at, header_at) = addresses(&mut self.random, w, size);
        let writing = Writing {
            sizes,
            objects: self.bytes(sizes.iter().sum::<u64>() as usize),
            offset_size: w,
            region_at,
            header_at,
        };
        let exact = enough(sizes, [0; 3]);
        let (plan, region) = self.accepted(&writing, exact, size as usize);
        let more = enough(sizes, [9; 3].map(|most| self.random.below(most) as usize));
        let bytes = region.len() + 1 + self.random.below(2000) as usize;
        self.expect(&writing, more, bytes, 0, news(&plan), &region);
        self.count(&writing, &plan, &region);
    }
}

/// The heap offset of the first block that is so many indirect blocks deep: row 8 is the first of indirect
/// blocks, row 11 the first of indirect blocks with a row 8, and so on.
fn first_at(depth: u64) -> u64 {
    (0..depth - 1).map(|above| 4096 << (7 + 3 * above)).sum()
}

/// The largest objects up to the first block of a depth, then smaller ones from that block on, mostly in its
/// indirect block, then any.
pub fn deep_list(random: &mut Random, depth: u64, w: u8) -> Vec<u64> {
    let all = original::plan(&[limit(w); 1200], w).expect("within the heap space");
    let before = all.offsets.partition_point(|&at| at < first_at(depth));
    let mut sizes = vec![limit(w); before];
    let (small, any) = (1 + random.below(40), random.below(12));
    let small = any_list(random, small, w);
    sizes.extend(small.iter().map(|&size| size.min(16_384 - plan::header(w))));
    sizes.extend(list(random, any, 1 << 18, w));
    sizes
}

impl Comparison<'_> {
    /// The short lists that have an address, and `n` random ones.
    fn lists(&mut self, n: u64, w: u8) {
        short_lists(w, |sizes| {
            if original::plans(sizes, w) <= Some(most(w)) {
                self.same(sizes, w);
            }
        });
        for _ in 0..n {
            let sizes = mixed_list(&mut self.random, w);
            self.same(&sizes, w);
        }
    }

    /// Lists of some MiB without a gap, and lists with blocks two and more indirect blocks deep.
    fn nested(&mut self, n: u64, w: u8) {
        for _ in 0..n {
            let bytes = 1 << (20 + self.random.below(3));
            let sizes = list(&mut self.random, 60_000, bytes + bytes / 4, w);
            self.same(&sizes, w);
        }
        for (depth, lists) in [(2, 20 * n), (3, 4 * n), (4, n), (5, 1)] {
            for _ in 0..lists {
                let sizes = deep_list(&mut self.random, depth, w);
                self.same(&sizes, w);
            }
        }
    }

    /// Every depth up to 5 is met, at width 2, where no block of 65,536 has an address, up to 1.
    fn print(&self, w: u8) {
        let c = &self.counts;
        let deepest = if w == 2 { 1 } else { 5 };
        assert!(c.depths[..=deepest].iter().all(|&lists| lists > 0));
        assert!(c.ends.min(c.headers) > 1000);
        println!(
            "compare: serialize of {} lists at width {w}, {} objects, {} region bytes; {} indirect blocks, roots of up to {} rows, lists by their depth {:?}; {} regions and {} header addresses at the limit: equal",
            c.lists, c.objects, c.bytes, c.indirects, c.rows, c.depths, c.ends, c.headers
        );
    }
}

/// What can be wrong with a call, in the order in which it is refused, and the numbers.
const FAULTS: [(&str, u32); 9] = [
    ("short totals", 13),
    ("the width", 2),
    ("short offsets", 13),
    ("short blocks", 13),
    ("a size", 11),
    ("the object bytes", 14),
    ("a short region", 13),
    ("the header's address", 15),
    ("the region's address", 15),
];

/// A number from the least on, often the least or the largest.
fn at_least(random: &mut Random, least: u64) -> u64 {
    let more = u64::MAX - least;
    match random.below(4) {
        0 => least,
        1 => u64::MAX,
        _ if more == 0 => least,
        _ => least + random.number() % more,
    }
}

/// A number below n, often the least or the largest.
fn less_than(random: &mut Random, n: usize) -> usize {
    match random.below(4) {
        0 => 0,
        1 => n - 1,
        _ => random.below(n as u64) as usize,
    }
}

/// Another number than that.
fn other(random: &mut Random, x: usize) -> usize {
    let y = match random.below(4) {
        0 => 0,
        1 => x.max(1) - 1,
        2 => x + 1,
        _ => random.below(2 * x as u64 + 2) as usize,
    };
    if x == y { x + 1 } else { y }
}

/// A call of which something may be wrong. The size is the region's, `given` counts object bytes, `bytes`
/// those that are lent.
struct Case {
    sizes: Vec<u64>,
    size: u64,
    given: usize,
    w: u8,
    region_at: u64,
    header_at: u64,
    places: Places,
    bytes: usize,
}

impl Case {
    /// Nothing is wrong; some objects, or any.
    fn right(random: &mut Random, some: bool) -> Self {
        let (w, len) = (random.one(&[2, 4, 8]), random.below(9));
        let mut sizes = list(random, len, 1 << 16, w);
        if some && sizes.is_empty() {
            sizes.push(0);
        }
        let size = original::plans(&sizes, w).expect("within the heap space");
        let (region_at, header_at) = addresses(random, w, size);
        Case {
            size,
            given: sizes.iter().sum::<u64>() as usize,
            w,
            region_at,
            header_at,
            places: enough(&sizes, [3; 3].map(|most| random.below(most) as usize)),
            bytes: size as usize + random.one(&[0, 0, 1, 7, 3000]),
            sizes,
        }
    }

    /// One fault more. The width comes after those that are drawn by it.
    fn spoil(&mut self, random: &mut Random, fault: usize) {
        let (n, w) = (self.sizes.len(), self.w);
        match fault {
            0 => self.places[2] = less_than(random, 8),
            1 => {
                self.w = random.next() as u8;
                self.w += u8::from(matches!(self.w, 2 | 4 | 8));
            }
            2 => self.places[0] = less_than(random, n),
            3 => self.places[1] = less_than(random, n.max(1)),
            4 => {
                for _ in 0..1 + random.below(2) {
                    self.sizes[random.below(n as u64) as usize] = at_least(random, limit(w) + 1);
                }
            }
            5 => self.given = other(random, self.given),
            6 => self.bytes = less_than(random, self.size as usize),
            7 => self.header_at = at_least(random, most(w)),
            _ => self.region_at = at_least(random, most(w) - self.size + 1),
        }
    }
}

impl Comparison<'_> {
    /// A call with these faults: the first is the answer, and all memory is as it was.
    fn refused(&mut self, faults: [bool; 9]) {
        let mut case = Case::right(&mut self.random, faults[2] || faults[4]);
        for fault in (0..9).rev().filter(|&i| faults[i]) {
            case.spoil(&mut self.random, fault);
        }
        let writing = Writing {
            sizes: &case.sizes,
            objects: self.bytes(case.given),
            offset_size: case.w,
            region_at: case.region_at,
            header_at: case.header_at,
        };
        let (places, bytes) = (case.places, case.bytes);
        let answer = by_table(&writing, places[0], places[1], bytes);
        let first = faults.iter().position(|&fault| fault);
        let number = first.map_or(0, |fault| FAULTS[fault].1);
        let at = || format!("{faults:?}: {}", what(&writing, places, bytes));
        match answer {
            _ if first == Some(0) => self.expect(&writing, places, bytes, 13, [&[]; 3], &[]),
            Some(answer @ (_, x, y)) => {
                assert_eq!(answer.0, number, "{}", at());
                self.expect(&writing, places, bytes, number, [&[], &[], &[x, y]], &[]);
            }
            None => {
                assert_eq!(first, None, "{}", at());
                self.accepted(&writing, places, bytes);
            }
        }
    }
}

/// `n` calls: every fault is the first in about as many, with any later ones.
fn refusals(comparison: &mut Comparison, n: u64) -> Row {
    let mut times = [0; 10];
    for _ in 0..n {
        let first = comparison.random.below(10) as usize;
        let random = &mut comparison.random;
        let faults = std::array::from_fn(|i| i == first || i > first && random.below(2) == 0);
        comparison.refused(faults);
        times[first] += 1;
    }
    let [by @ .., accepted] = times;
    let by = FAULTS.iter().zip(by);
    let by: Vec<String> = by
        .map(|((name, number), n)| format!("{number} for {name} {n}"))
        .collect();
    println!(
        "compare: serialize refused by {}, with any later causes: by the rules' table, all memory as it was; {accepted} accepted between them: equal",
        by.join(", ")
    );
    row("regions refused and some between them, by the rules", n)
}

/// At each width `n` random lists and more; five times as many calls with something wrong.
pub fn compare(n: u64) -> Vec<Row> {
    let mut pool = vec![0; 80 << 20];
    Random::new(10).fill(&mut pool);
    let (before, mut rows) = (pool.clone(), Vec::new());
    for w in [2, 4, 8] {
        let mut comparison = Comparison::new(10 + u64::from(w), &pool);
        comparison.lists(n, w);
        if w > 2 {
            comparison.nested(20, w);
        }
        comparison.print(w);
        let c = comparison.counts;
        rows.push(row(format!("regions written at width {w}"), c.lists));
        rows.push(row("bytes in them", c.bytes));
    }
    rows.push(refusals(&mut Comparison::new(20, &pool), 5 * n));
    assert!(pool == before, "the objects' bytes");
    rows
}
