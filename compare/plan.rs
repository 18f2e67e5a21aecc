//! Planning, ours against the original: every number of the answer, both lists, and all lent memory.
use crate::ours;
use crate::random::Random;
use crate::summary::{Row, row};
use original::{Answer, Plan};

/// The bytes of a direct block before its objects.
pub fn header(w: u8) -> u64 {
    14 + u64::from(w)
}

/// The largest managed object.
pub fn limit(w: u8) -> u64 {
    65_536 - header(w)
}

/// The refusals before any planning, by the rules' table and in its order: 2, 13 offsets, 13 blocks, 11.
pub fn by_table(sizes: &[u64], offsets: usize, blocks: usize, w: u8) -> Option<Answer> {
    let n = sizes.len();
    if !matches!(w, 2 | 4 | 8) {
        return Some((2, w.into(), 0));
    }
    if offsets < n {
        return Some((13, n as u64, offsets as u64));
    }
    if blocks < n.max(1) {
        return Some((13, n.max(1) as u64, blocks as u64));
    }
    let at = sizes.iter().position(|&size| size > limit(w))?;
    Some((11, at as u64, sizes[at]))
}

/// Places around a list that is lent: nothing outside of it may be written.
const AROUND: usize = 2;

/// What a lent place holds before a call.
fn mark(i: usize) -> u64 {
    0xA5A5_5A5A_0000_0000 ^ i as u64
}

/// A list that is lent.
pub struct Lent(Vec<u64>);

impl Lent {
    pub fn new(places: usize) -> Self {
        Lent((0..places + 2 * AROUND).map(mark).collect())
    }

    pub fn places(&mut self) -> &mut [u64] {
        let end = self.0.len() - AROUND;
        &mut self.0[AROUND..end]
    }

    /// Panics unless the first places hold the new numbers, and everything else what was there.
    pub fn holds(&self, new: &[u64], what: impl Fn() -> String) {
        let due = |i: usize| match i.checked_sub(AROUND).and_then(|k| new.get(k)) {
            Some(&x) => x,
            None => mark(i),
        };
        for (i, &x) in self.0.iter().enumerate() {
            assert_eq!(x, due(i), "{} at {}", what(), i as i64 - AROUND as i64);
        }
    }
}

/// How many places are lent: for offsets, for blocks, for totals.
pub type Places = [usize; 3];

/// Calls ours with lists of so many places, and holds all that was lent to the expected numbers.
fn expect(sizes: &[u64], places: Places, w: u8, number: u32, news: [&[u64]; 3]) {
    let at = || {
        let front = &sizes[..sizes.len().min(40)];
        format!(
            "width {w}, {places:?} places, {} sizes {front:?}",
            sizes.len()
        )
    };
    let mut own = Lent::new(sizes.len());
    own.places().copy_from_slice(sizes);
    let [mut offsets, mut blocks, mut totals] = places.map(Lent::new);
    let got = ours::plan(
        own.places(),
        offsets.places(),
        blocks.places(),
        w,
        totals.places(),
    );
    assert_eq!(got, number, "number: {}", at());
    totals.holds(news[2], || format!("totals: {}", at()));
    offsets.holds(news[0], || format!("offsets: {}", at()));
    blocks.holds(news[1], || format!("blocks: {}", at()));
    own.holds(sizes, || format!("sizes: {}", at()));
}

/// A refusal: the pair in the first two totals, and all else as it was.
fn refused(sizes: &[u64], places: Places, w: u8, (number, x, y): Answer) {
    expect(sizes, places, w, number, [&[], &[], &[x, y]]);
}

/// What the lists hold after a plan.
pub fn news(plan: &Plan) -> [&[u64]; 3] {
    [&plan.offsets, &plan.starts, &plan.totals]
}

/// The original's plan, and ours equal to it.
pub fn accepted(sizes: &[u64], places: Places, w: u8) -> Plan {
    let plan = original::plan(sizes, w).expect("within the heap space");
    expect(sizes, places, w, 0, news(&plan));
    plan
}

/// As many places as are needed and so many more.
pub fn enough(sizes: &[u64], more: Places) -> Places {
    let n = sizes.len();
    [n + more[0], n.max(1) + more[1], 8 + more[2]]
}

/// Numbers by their index.
type Values = &'static [(usize, u64)];

/// The worked heaps 1 to 7 of the rules (w = 8), its wrong turn and an empty object after two full blocks: the sizes,
/// offsets, totals.
const WORKED: [(&[u64], Values, Values); 9] = [
    (&[], &[], &[(1, 1024), (6, 1002), (2, 0), (7, 0)]),
    (&[1002], &[(0, 22)], &[(6, 0), (7, 0)]),
    (
        &[1003],
        &[(0, 8214)],
        &[(2, 3), (7, 10_240), (4, 16_384), (6, 15_117), (1, 2166)],
    ),
    (
        &[1002, 1],
        &[(0, 22), (1, 1046)],
        &[(2, 1), (6, 3005), (1, 2102)],
    ),
    (&[1002, 0], &[(0, 22), (1, 1024)], &[]),
    (
        &[65_514],
        &[(0, 262_166)],
        &[(2, 8), (6, 458_070), (1, 65_814)],
    ),
    (
        &[65_514; 5],
        &[(4, 2_359_318)],
        &[
            (2, 11),
            (7, 2_424_832),
            (6, 3_858_638),
            (1, 328_332),
            (3, 278),
        ],
    ),
    (&[1003, 1], &[(1, 9217)], &[]),
    (
        &[1002, 1002, 0],
        &[(0, 22), (1, 1046), (2, 2048)],
        &[
            (0, 2),
            (1, 2102),
            (2, 1),
            (3, 0),
            (4, 4096),
            (5, 2048),
            (6, 2004),
            (7, 2048),
        ],
    ),
];

fn worked() -> Row {
    for (sizes, offsets, totals) in WORKED {
        let plan = accepted(sizes, enough(sizes, [3; 3]), 8);
        let hold = |list: &[u64], values: Values| values.iter().all(|&(i, x)| list[i] == x);
        assert!(hold(&plan.offsets, offsets), "{sizes:?}: {plan:?}");
        assert!(hold(&plan.totals, totals), "{sizes:?}: {plan:?}");
    }
    refused(&[65_515], [1, 1, 8], 8, (11, 0, 65_515));
    row(
        "plans of worked heaps 1 to 7, the wrong turn and an empty object",
        WORKED.len() as u64,
    )
}

/// A size of one of seven kinds, within the limit. Kind 3 is what is left beside the size before in the
/// smallest block for that, one less to one more.
fn size(random: &mut Random, kind: u64, before: u64, w: u8) -> u64 {
    let block = (before + header(w)).next_power_of_two().max(1024);
    let drawn = match kind {
        0 => random.below(2),
        1 => random.below(200),
        2 => (1 << (10 + random.below(7))) - header(w) - 2 + random.below(5),
        3 => (block - header(w) - before + random.below(3)).saturating_sub(1),
        4 => limit(w) - random.below(3),
        5 => random.below(limit(w) + 1),
        _ => random.next() >> (48 + random.below(16)),
    };
    drawn.min(limit(w))
}

/// A list of one kind, mixed with all kinds once in so many.
fn list(random: &mut Random, len: u64, kind: u64, once_in: u64, w: u8) -> Vec<u64> {
    let mut before = 0;
    let mut draw = |_| {
        let kind = match random.below(once_in) {
            0 => random.below(7),
            _ => kind,
        };
        before = size(random, kind, before, w);
        before
    };
    (0..len).map(&mut draw).collect()
}

/// A list of any kind.
pub fn any_list(random: &mut Random, len: u64, w: u8) -> Vec<u64> {
    let (kind, once_in) = (random.below(7), 1 + random.below(30));
    list(random, len, kind, once_in, w)
}

/// How many lists and objects were compared, and how many lists had a root of so many rows.
#[derive(Default)]
struct Counts {
    lists: u64,
    objects: u64,
    rows: [u64; 30],
}

impl Counts {
    /// In lists of exactly as many places as are needed, and of more.
    fn same(&mut self, sizes: &[u64], more: Places, w: u8) {
        let plan = accepted(sizes, enough(sizes, [0; 3]), w);
        expect(sizes, enough(sizes, more), w, 0, news(&plan));
        self.lists += 1;
        self.objects += sizes.len() as u64;
        self.rows[plan.totals[2] as usize] += 1;
    }
}

/// Every list of up to three sizes that fill a block, or are one less or one more, or are 0 or 1.
pub fn short_lists(w: u8, mut each: impl FnMut(&[u64])) {
    let bodies = (10..17).map(|bits| (1 << bits) - header(w));
    let mut edges: Vec<u64> = bodies.flat_map(|x| [x - 1, x, x + 1]).collect();
    edges.extend([0, 1]);
    edges.retain(|&x| x <= limit(w));
    each(&[]);
    for &x in &edges {
        each(&[x]);
        for &y in &edges {
            each(&[x, y]);
            for &z in &edges {
                each(&[x, y, z]);
            }
        }
    }
}

/// At each width the short lists, `n` random ones, most of them short too, and some long ones of large
/// objects.
fn lists(random: &mut Random, n: u64) -> Vec<Row> {
    let mut counts = Counts::default();
    for w in [2, 4, 8] {
        short_lists(w, |sizes| counts.same(sizes, [1; 3], w));
        for _ in 0..n {
            let len = match random.below(200) {
                0 => random.below(4000),
                1..=20 => random.below(300),
                _ => random.below(24),
            };
            let sizes = any_list(random, len, w);
            let more = [9, 9, 9].map(|most| random.below(most) as usize);
            counts.same(&sizes, more, w);
        }
        for bits in 10..17 {
            let sizes = list(random, 1 << bits, 4, 40, w);
            counts.same(&sizes, [5, 0, 7], w);
        }
    }
    let (n, objects, rows) = (counts.lists, counts.objects, counts.rows);
    let most = rows.iter().rposition(|&lists| lists > 0).unwrap();
    assert!(rows[..most].iter().all(|&lists| lists > 0), "{rows:?}");
    vec![
        row(format!("plans, roots of 0 to {most} rows"), n),
        row("objects in them", objects),
    ]
}

/// How many calls were refused by which number, and accepted between them (0).
#[derive(Default)]
struct Refusals {
    by_number: [u64; 14],
    short_totals: u64,
}

impl Refusals {
    /// Totals of fewer than 8 places give 13 before all else, and nothing is written.
    fn same(&mut self, sizes: &[u64], places: Places, w: u8) {
        let [offsets, blocks, totals] = places;
        if totals < 8 {
            expect(sizes, places, w, 13, [&[]; 3]);
            self.short_totals += 1;
        } else if let Some(answer) = by_table(sizes, offsets, blocks, w) {
            refused(sizes, places, w, answer);
            self.by_number[answer.0 as usize] += 1;
        } else {
            accepted(sizes, places, w);
            self.by_number[0] += 1;
        }
    }

    /// Every width, with lists and totals that are too short by one, empty, exact and longer.
    fn widths(&mut self) {
        for w in 0..=255u8 {
            for sizes in [&[][..], &[0], &[1002, 65_514, u64::MAX], &[7; 9]] {
                let (n, b) = (sizes.len(), sizes.len().max(1));
                for offsets in [0, n.saturating_sub(1), n, 12] {
                    for blocks in [0, b - 1, b, 12] {
                        for totals in (0..=9).chain([20]) {
                            self.same(sizes, [offsets, blocks, totals], w);
                        }
                    }
                }
            }
        }
    }

    /// A size above the limit, first, in the middle and last, alone, with a later one and with short lists.
    fn sizes(&mut self, random: &mut Random) {
        for w in [2, 4, 8] {
            let over = [1, 2, header(w) - 1, header(w), header(w) + 1].map(|d| limit(w) + d);
            let far = [32, 40, 63].map(|bits| 1 << bits);
            let most = [u64::MAX - 1, u64::MAX];
            for n in [1, 2, 3, 9, 200] {
                for &large in over.iter().chain(&far).chain(&most) {
                    for at in [0, n / 2, n - 1] {
                        let mut sizes = any_list(random, n as u64, w);
                        sizes[at] = large;
                        self.same(&sizes, [n, n, 8], w);
                        sizes[n - 1] = limit(w) + 1;
                        self.same(&sizes, [n + 3, n, 11], w);
                        self.same(&sizes, [n - 1, n, 8], w);
                        self.same(&sizes, [n, n - 1, 8], w);
                    }
                }
            }
        }
    }

    /// Any width, list and places.
    fn random(&mut self, random: &mut Random) {
        let (w, len) = (random.width(), random.below(12));
        let mut sizes = any_list(random, len, w);
        for _ in 0..random.below(3).min(len) {
            sizes[random.below(len) as usize] = match random.below(3) {
                0 => limit(w) + random.below(3),
                1 => random.next() >> random.below(64),
                _ => u64::MAX - random.below(3),
            };
        }
        let places = enough(&sizes, [0; 3]).map(|needed| match random.below(4) {
            0 => random.below(needed as u64 + 1) as usize,
            _ => needed + random.below(3) as usize,
        });
        self.same(&sizes, places, w);
    }
}

/// The refusals before any planning; `n` random cases.
fn refusals(random: &mut Random, n: u64) -> Row {
    let mut all = Refusals::default();
    all.widths();
    all.sizes(random);
    for _ in 0..n {
        all.random(random);
    }
    let [accepted, two, eleven, thirteen] = [0, 2, 11, 13].map(|i| all.by_number[i]);
    println!(
        "compare: plan refused by 2 {two}, by 11 {eleven}, by 13 {thirteen} and for short totals {}: by the rules' table, all memory as it was; {accepted} accepted between them: equal",
        all.short_totals
    );
    let calls = all.by_number.iter().sum::<u64>() + all.short_totals;
    row("plans refused and some between them, by the rules", calls)
}

/// The index of the object at which the heap space ends, by bisection: the length of the longest front
/// part that the original accepts. It accepts the first `fits` sizes, and not all of them.
fn heap_ends_at(sizes: &[u64], w: u8, mut fits: usize) -> u64 {
    let mut ends = sizes.len();
    while ends - fits > 1 {
        let middle = fits + (ends - fits) / 2;
        match original::plans(&sizes[..middle], w) {
            Some(_) => fits = middle,
            None => ends = middle,
        }
    }
    fits as u64
}

/// 12, at the index that the original's refusals show.
fn heap_ends(sizes: &[u64], w: u8, fits: usize) {
    assert_eq!(original::plans(sizes, w), None, "width {w}");
    let at = heap_ends_at(sizes, w, fits);
    refused(sizes, enough(sizes, [0; 3]), w, (12, at, 0));
}

/// How many blocks of 65,536 the heap has: so many of the largest objects fill it, at every width.
pub const FULL: usize = 4_191_796;

/// Largest objects with `last` in the last block, which they fill, and an empty one at 2^40; the root has 29 rows.
fn heap_filled(w: u8, last: &[u64]) -> Vec<u64> {
    let mut sizes = vec![limit(w); FULL - 1];
    sizes.extend(last);
    sizes.push(0);
    let plan = accepted(&sizes, enough(&sizes, [1, 2, 3]), w);
    assert_eq!(plan.totals[0], FULL as u64, "width {w}");
    assert_eq!(plan.totals[2], 29, "width {w}");
    assert_eq!(plan.offsets.last(), Some(&(1 << 40)), "width {w}");
    sizes
}

/// A later size that is too large, and a list that is too short, come before 12.
fn before_heap_ends(mut sizes: Vec<u64>, w: u8) {
    sizes.push(limit(w) + 1);
    let [n, ..] = enough(&sizes, [0; 3]);
    refused(&sizes, [n, n, 8], w, (11, n as u64 - 1, limit(w) + 1));
    refused(&sizes, [n, n - 1, 8], w, (13, n as u64, n as u64 - 1));
}

/// The end of the heap space: a byte in place of the empty object is refused, and at width 2, without the
/// empty one, a byte more in the last block. The original takes seconds for each of these lists.
pub fn heap_space(w: u8) -> Vec<Row> {
    let mut sizes = match w {
        2 => heap_filled(w, &[40_000, limit(w) - 40_000]),
        _ => heap_filled(w, &[limit(w)]),
    };
    if w == 2 {
        sizes.pop();
    }
    sizes[FULL] += 1;
    heap_ends(&sizes, w, FULL);
    if w == 8 {
        accepted(&sizes[..FULL], [FULL, FULL, 8], w);
    }
    before_heap_ends(sizes, w);
    let blocks = "blocks planned to the heap's end, then 12";
    vec![row(format!("{blocks}, width {w}"), FULL as u64)]
}

pub fn compare(n: u64) -> Vec<Row> {
    let mut random = Random::new(4);
    let mut rows = vec![worked()];
    rows.extend(lists(&mut random, n));
    rows.push(refusals(&mut random, n));
    rows
}
