//! Times, ours against the original: one process, the same input, the two in turn, the best of many rounds. A table
//! at the end; what each line measures is said in docs/BENCHMARKS.md.
use crate::back::{by_rule, by_table};
use crate::checked;
use crate::checked_reader::{Ended, Kind, Layout, Table, computed};
use crate::format;
use crate::made::{self, Heap, Written};
use crate::ours::{self, View, Writing, view_of};
use crate::random::Random;
use crate::write;
use std::hint::black_box;
use std::time::{Duration, Instant};

/// A line is measured for so long, and in at least so many rounds.
const LONG_ENOUGH: Duration = Duration::from_millis(400);
const ROUNDS: usize = 9;

/// The best time of all rounds of each, and how many there were.
fn best(mut a: impl FnMut(), mut b: impl FnMut()) -> (f64, f64, usize) {
    let time = |f: &mut dyn FnMut()| {
        let start = Instant::now();
        f();
        start.elapsed().as_secs_f64()
    };
    let (start, mut times, mut rounds) = (Instant::now(), (f64::MAX, f64::MAX), 0);
    while rounds < ROUNDS || start.elapsed() < LONG_ENOUGH {
        times = (times.0.min(time(&mut a)), times.1.min(time(&mut b)));
        rounds += 1;
    }
    (times.0, times.1, rounds)
}

/// A line of the table: nanoseconds of a call.
struct Line {
    what: String,
    ours: f64,
    original: f64,
    rounds: usize,
}

impl Line {
    /// In hundredths, as it is printed.
    fn ratio(&self) -> f64 {
        (100.0 * self.ours / self.original).round() / 100.0
    }
}

#[derive(Default)]
pub struct Times(Vec<Line>);

impl Times {
    /// Measures what a round of `calls` calls takes.
    fn line(
        &mut self,
        what: impl Into<String>,
        calls: usize,
        ours: impl FnMut(),
        original: impl FnMut(),
    ) {
        let (ours, original, rounds) = best(ours, original);
        let each = 1e9 / calls as f64;
        let (what, ours, original) = (what.into(), ours * each, original * each);
        self.0.push(Line {
            what,
            ours,
            original,
            rounds,
        });
    }

    /// The table; every line in which ours takes longer is marked.
    pub fn print(&self) {
        let head = ["ours, ns", "original, ns", "ratio", "rounds"];
        let [ours, original, ratio, rounds] = head;
        println!(
            "{:<44} {ours:>14} {original:>14} {ratio:>7} {rounds:>7}",
            "bench"
        );
        for line in &self.0 {
            let Line {
                what,
                ours,
                original,
                rounds,
            } = line;
            let ratio = line.ratio();
            let mark = if ratio > 1.0 { "  slower" } else { "" };
            println!("{what:<44} {ours:>14.1} {original:>14.1} {ratio:>7.2} {rounds:>7}{mark}");
        }
        let slower = self.0.iter().filter(|line| line.ratio() > 1.0);
        let (slower, all) = (slower.count(), self.0.len());
        println!("bench: {all} lines, {slower} of them with a ratio above 1.00");
    }
}

/// A part by its name.
pub type Part = (&'static str, fn(&mut Times));

pub const PARTS: [Part; 10] = [
    ("checksum", checksum),
    ("slots", slots),
    ("plan", plan),
    ("header", header),
    ("decode", decode),
    ("tiny", tiny),
    ("read", read),
    ("checked", checked_reads),
    ("ids", ids),
    ("write", write),
];

/// `f` once for each of the parts, each call's answer kept from being dropped by the compiler.
fn each<'a>(parts: impl Iterator<Item = &'a [u8]>, f: impl Fn(&[u8]) -> u32) {
    parts.for_each(|part| {
        black_box(f(black_box(part)));
    });
}

/// As many steps as wait for each other in one group of 12 bytes: the word is added to c, then in each of
/// the mix's six lines a rotation or a difference and an exclusive or. Within one call lookup3, in this
/// order of steps, takes at least that long; calls that follow each other may overlap.
fn chain(groups: usize) -> u32 {
    let (mut x, y) = black_box((1u32, 2u32));
    for _ in 0..groups {
        x = x.wrapping_add(y);
        for k in [4, 6, 8, 16, 19, 4] {
            x = x.rotate_left(k) ^ y;
        }
    }
    x
}

/// What the waiting steps of so many bytes alone take, for the eye.
fn floor(len: usize, calls: usize) {
    let groups = (len - 1) / 12 * calls;
    let alone = || {
        black_box(chain(groups));
    };
    let (floor, ..) = best(alone, || ());
    println!(
        "bench: lookup3 of {len} bytes, its waiting steps alone {:.1} ns",
        floor * 1e9 / calls as f64
    );
}

/// Every length to 64, that of a header's checksum (142), larger ones; then random lengths.
fn checksum(times: &mut Times) {
    let mut random = Random::new(3);
    let mut bytes = vec![0u8; 16 << 20];
    random.fill(&mut bytes);
    let large = [142, 1 << 10, 1 << 16, 1 << 20, 16 << 20];
    for len in (0..=64).chain(large) {
        let calls = ((1 << 20) / len.max(32)).max(1);
        let parts = || std::iter::repeat_n(&bytes[..len], calls);
        times.line(
            format!("checksum of {len} bytes"),
            calls,
            || each(parts(), ours::jenkins_lookup3),
            || each(parts(), original::jenkins_lookup3),
        );
        if len > 64 {
            floor(len, calls);
        }
    }
    for most in [12, 40, 200] {
        let len = |_| random.below(most + 1) as usize;
        let lens: Vec<usize> = (0..1 << 15).map(len).collect();
        let parts = || lens.iter().map(|&n| &bytes[..n]);
        times.line(
            format!("checksum of 0 to {most} bytes, random"),
            lens.len(),
            || each(parts(), ours::jenkins_lookup3),
            || each(parts(), original::jenkins_lookup3),
        );
    }
}

/// Sizes at w = 8, none above `most`.
fn sizes(random: &mut Random, kind: &str, n: usize, most: u64) -> Vec<u64> {
    let draw = |_| match kind {
        "small" => 1 + random.below(200),
        "mixed" => (random.next() >> (48 + random.below(16))).min(most),
        _ => most,
    };
    (0..n).map(draw).collect()
}

fn plan_in(sizes: &[u64], offsets: &mut [u64], blocks: &mut [u64]) {
    let mut totals = [0; 8];
    let number = ours::plan(black_box(sizes), offsets, blocks, 8, &mut totals);
    black_box((number, totals));
}

/// Planning, of one list after the other. The original allocates its lists in every call and frees them. Ours
/// writes into lists that are allocated once, outside of the time; in the second line in every call.
fn plan(times: &mut Times) {
    let mut random = Random::new(5);
    for n in [10, 1000, 1_000_000] {
        for kind in ["small", "mixed", "largest"] {
            let all = sizes(&mut random, kind, n.max(20_000), 65_514);
            let lists = || all.chunks_exact(n);
            let calls = lists().count();
            let original = || {
                lists().for_each(|sizes| {
                    black_box(original::plans(black_box(sizes), 8));
                })
            };
            let (mut offsets, mut blocks) = (vec![0; n], vec![0; n]);
            let lent = || lists().for_each(|sizes| plan_in(sizes, &mut offsets, &mut blocks));
            times.line(format!("plan of {n} {kind}"), calls, lent, original);
            let allocated =
                || lists().for_each(|sizes| plan_in(sizes, &mut vec![0; n], &mut vec![0; n]));
            times.line("  ours allocating too", calls, allocated, original);
            let one_by_one = || {
                lists().for_each(|sizes| {
                    let (mut plan, mut slot) = (ours::Open::of(8), [0; 16]);
                    for &size in sizes {
                        black_box(plan.add_in(black_box(size), &mut slot));
                    }
                })
            };
            times.line("  ours one by one", calls, one_by_one, original);
        }
    }
}

/// A header of the fixed geometry and nothing else, at w = 8.
fn header_alone() -> Heap {
    made::behind(&mut Random::new(8), Vec::new(), &made::fixed(22, 0), [8, 8])
}

/// The original's header of a heap.
fn parsed(view: View) -> original::Header {
    let View { file, at, .. } = view;
    original::parse(file, at, 8, 8).expect("a right header")
}

/// Parsing of one header, again and again: all its fields from ours, from the original the twelve that it keeps.
fn header(times: &mut Times) {
    let (heap, calls) = (header_alone(), 1 << 14);
    let ours = || {
        for _ in 0..calls {
            let mut fields = [0; format::COUNT];
            let number = ours::parse(black_box(&heap), &mut fields);
            black_box((number, fields));
        }
    };
    let original = || {
        for _ in 0..calls {
            black_box(parsed(view_of(black_box(&heap))).fields());
        }
    };
    times.line("header parsed", calls, ours, original);
    header_written(times);
}

/// A number of 1, 2, 4 or 8 bytes; the place behind it.
#[inline(always)]
fn put(bytes: &mut [u8], at: usize, value: u64, size: u8) -> usize {
    let value = value.to_le_bytes();
    match size {
        1 => bytes[at] = value[0],
        2 => bytes[at..at + 2].copy_from_slice(&value[..2]),
        4 => bytes[at..at + 4].copy_from_slice(&value[..4]),
        _ => bytes[at..at + 8].copy_from_slice(&value),
    }
    at + usize::from(size)
}

/// The original has no writer of headers: the rules' words in plain Rust, with the same memory lent and the original's
/// checksum, stand for it.
#[inline(never)]
fn plain_header(fields: &[u64], [w, l]: [u8; 2], bytes: &mut [u8], slot: &mut [u8]) -> u32 {
    if slot.len() < 16 || fields.len() < 23 {
        return 13;
    }
    let mut answer = |number, x: u64, y: u64| {
        slot[..8].copy_from_slice(&x.to_le_bytes());
        slot[8..16].copy_from_slice(&y.to_le_bytes());
        number
    };
    if !matches!(w, 2 | 4 | 8) {
        return answer(2, w.into(), 0);
    }
    if !matches!(l, 2 | 4 | 8) {
        return answer(3, l.into(), 0);
    }
    if fields[1] != 0 {
        return answer(8, 0, 0);
    }
    let sizes = [
        2, 2, 1, 4, l, w, l, w, l, l, l, l, l, l, l, l, 2, l, l, 2, 2, w, 2,
    ];
    for (place, (&value, size)) in fields.iter().zip(sizes).enumerate() {
        if size < 8 && value >> (8 * size) != 0 {
            return answer(17, place as u64, value);
        }
    }
    let length = 26 + 12 * usize::from(l) + 3 * usize::from(w);
    if bytes.len() < length {
        return 13;
    }
    bytes[..5].copy_from_slice(b"FRHP\0");
    let mut at = 5;
    for (i, size) in [2, 2, 1, 4].into_iter().enumerate() {
        at = put(bytes, at, fields[i], size);
    }
    at = put(bytes, at, fields[4], l);
    at = put(bytes, at, fields[5], w);
    at = put(bytes, at, fields[6], l);
    at = put(bytes, at, fields[7], w);
    for &value in &fields[8..16] {
        at = put(bytes, at, value, l);
    }
    at = put(bytes, at, fields[16], 2);
    at = put(bytes, at, fields[17], l);
    at = put(bytes, at, fields[18], l);
    at = put(bytes, at, fields[19], 2);
    at = put(bytes, at, fields[20], 2);
    at = put(bytes, at, fields[21], w);
    at = put(bytes, at, fields[22], 2);
    let sum = original::jenkins_lookup3(&bytes[..at]).into();
    put(bytes, at, sum, 4);
    answer(0, length as u64, sum)
}

/// The header of the fixed geometry, again and again.
fn header_written(times: &mut Times) {
    type Writer = fn(&[u64], [u8; 2], &mut [u8], &mut [u8]) -> u32;
    let heap = header_alone();
    let (mut fields, calls) = ([0; format::COUNT], 1 << 14);
    assert_eq!(ours::parse(&heap, &mut fields), 0);
    let all = |writer: Writer| {
        let (mut bytes, mut slot) = ([0; 146], [0; 16]);
        for _ in 0..calls {
            let (fields, widths) = black_box((&fields, [8, 8]));
            black_box(writer(fields, widths, &mut bytes, &mut slot));
            black_box((&bytes, &slot));
        }
        assert_eq!(bytes[..], heap.file[..]);
    };
    times.line(
        "header written (original: plain Rust)",
        calls,
        || all(ours::write_header),
        || all(plain_header),
    );
}

/// Both parse the header in every call, as the loader's function does.
fn decode(times: &mut Times) {
    let (heap, calls) = (header_alone(), 1 << 14);
    let id = by_rule(8214, 1003);
    let ours = || {
        for _ in 0..calls {
            let (view, id) = (view_of(black_box(&heap)), black_box(&id));
            black_box(ours::answered(|s, n| ours::decode_into(view, id, s, n)));
        }
    };
    let original = || {
        for _ in 0..calls {
            let view = view_of(black_box(&heap));
            black_box(parsed(view).decode(black_box(&id)));
        }
    };
    times.line("header parsed and ID decoded", calls, ours, original);
}

/// Ours answers the object's place in its ID, the original a copy; in the second line ours copies too.
fn tiny(times: &mut Times) {
    let calls = 1 << 14;
    for (length, id) in [(8, vec![0x26, 1, 2, 3, 4, 5, 6, 7]), (40, vec![0x20; 40])] {
        let place = || {
            let id = black_box(&id[..]);
            black_box(ours::answered(|s, n| ours::tiny_into(length, id, s, n)))
        };
        let original = || {
            for _ in 0..calls {
                black_box(original::tiny(length, black_box(&id))).expect("an object");
            }
        };
        let places = || {
            for _ in 0..calls {
                place();
            }
        };
        let name = format!("tiny object, heap ID length {length}");
        times.line(name, calls, places, original);
        let copied = || {
            for _ in 0..calls {
                let (_, at, n) = place();
                black_box(id[at as usize..][..n as usize].to_vec());
            }
        };
        times.line("  ours copying too", calls, copied, original);
    }
    id_type(times);
}

fn id_type(times: &mut Times) {
    let (id, calls) = ([0x20u8; 8], 1 << 14);
    let ours = || {
        for _ in 0..calls {
            let id = black_box(&id);
            black_box(ours::answered(|s, n| ours::type_into(id, s, n)));
        }
    };
    let original = || {
        for _ in 0..calls {
            black_box(original::id_type(black_box(&id)));
        }
    };
    times.line("type of an ID", calls, ours, original);
}

/// Sizes whose heap has a direct root, an indirect one, and nested blocks.
fn shapes(random: &mut Random) -> [(&'static str, Vec<u64>); 4] {
    let mut some = |n| (0..n).map(|_| 20 + random.below(41)).collect::<Vec<u64>>();
    let (direct, indirect, many) = (some(10), some(1000), some(100_000));
    let mut nested = vec![65_514; 4];
    nested.extend(some(1000));
    [
        ("10 objects, direct root", direct),
        ("1,000 objects, indirect root", indirect),
        ("1,004 objects, nested", nested),
        ("100,000 objects, nested", many),
    ]
}

/// Every object of 20 to 60 bytes by its ID: the time of one object.
fn read(times: &mut Times) {
    let mut random = Random::new(9);
    for (name, sizes) in shapes(&mut random) {
        let mut written = made::written(&mut random, &sizes, [8, 8], 50);
        written.objects.retain(|o| o.bytes.len() < 100);
        one_by_one(times, name, &written);
        together(times, name, &written);
    }
}

/// The loader's function: it parses the header in every call, and so does the original here, which then copies the
/// object. In the second line ours copies too.
fn one_by_one(times: &mut Times, name: &str, written: &Written) {
    let (view, objects) = (view_of(&written.heap), &written.objects[..]);
    let (calls, step) = (2000, objects.len().div_ceil(2000));
    let some = objects.iter().step_by(step).cycle().take(calls);
    let ids = || some.clone().map(|o| black_box(&o.id[..]));
    let place = |id: &[u8]| ours::answered(|s, n| ours::read_into(black_box(view), id, s, n));
    let copy = |(_, at, n): (u32, u64, u64)| view.file[at as usize..][..n as usize].to_vec();
    let right = |o: &made::Object| copy(place(&o.id)) == o.bytes;
    assert!(objects.iter().all(right), "{name}");
    let original = || {
        for id in ids() {
            let view = black_box(view);
            black_box(parsed(view).read(view.file, id, 8)).expect("an object");
        }
    };
    let places = || {
        for id in ids() {
            black_box(place(id));
        }
    };
    let copied = || ids().for_each(|id| drop(black_box(copy(place(id)))));
    times.line(format!("parse, read: {name}"), calls, places, original);
    times.line("  ours copying too", calls, copied, original);
}

/// Many reads in one call after one parse, for both; in the second line ours copies too.
fn together(times: &mut Times, name: &str, written: &Written) {
    let heap = &written.heap;
    let ids: Vec<u8> = written.objects.iter().flat_map(|o| o.id.clone()).collect();
    let n = written.objects.len();
    let again = (2000 / n).max(1);
    let mut found = vec![0; 3 * n];
    let mut all = |copied: bool| {
        for _ in 0..again {
            let number = ours::read_each(black_box(heap), black_box(&ids), &mut found);
            assert_eq!(number, 0, "{name}");
            for answer in black_box(&found).chunks_exact(3).filter(|_| copied) {
                let (place, length) = (answer[1] as usize, answer[2] as usize);
                black_box(heap.file[place..place + length].to_vec());
            }
        }
    };
    let original = || {
        for _ in 0..again {
            let header = parsed(view_of(black_box(heap)));
            for id in ids.chunks_exact(8) {
                black_box(header.read(&heap.file, black_box(id), 8)).expect("an object");
            }
        }
    };
    times.line(format!("read: {name}"), again * n, || all(false), original);
    times.line("  ours copying too", again * n, || all(true), original);
}

/// A heap of one direct block of so many bytes, by the format, and the ID of its first ten bytes.
fn one_block(size: u64) -> (Heap, [u8; 8]) {
    let mut head = made::fixed(0, 0);
    (head.starting, head.root) = (size, 146);
    let table = Table {
        width: 4,
        starting: size,
        largest: 65_536,
        bits: 40,
    };
    let kind = Kind::Direct { size };
    let layout = Layout::new(&table, 8, 2, kind);
    let mut block = b"FHDB".to_vec();
    block.resize(size as usize, 0);
    let sum = layout.sum.expect("a checksum") as usize;
    let checksum = computed(&block, kind, sum);
    block[sum..sum + 4].copy_from_slice(&checksum.to_le_bytes());
    let mut file = made::header(&mut Random::new(8), &head, 8, 8);
    file[9] = 2;
    file.extend(block);
    let mut heap = Heap {
        file,
        at: 0,
        offset_size: 8,
        length_size: 8,
    };
    heap.mend();
    (heap, by_rule(layout.header as u64, 10))
}

/// A heap whose last object is in an indirect root's block, or a nested one's.
fn last_object(sizes: &[u64]) -> (Heap, [u8; 8]) {
    let made::Written {
        mut heap,
        header,
        objects,
        ..
    } = made::written(&mut Random::new(8), sizes, [8, 8], 0);
    heap.file[header.start + 9] = 2;
    heap.mend();
    let last = objects.last().expect("an object");
    let id = last.id[..].try_into().expect("eight bytes");
    (heap, id)
}

/// The original does not test blocks: a checked read is held to what it has to take in any case, one checksum of each
/// block on its way, and an unchecked read.
fn checked_reads(times: &mut Times) {
    let one = [64, 128, 256, 511, 512, 1024, 2048, 4096, 16_384, 65_536]
        .map(|size| (format!("checked: one block of {size}"), one_block(size)));
    let some = [
        ("checked: root of 1 row, block of 1,024", &[1002, 1][..]),
        ("checked: root of 3 rows, block of 2,048", &[1003]),
        ("checked: root of 8 rows, block of 65,536", &[65_514]),
        (
            "checked: nested, block of 1,024",
            &[65_514, 65_514, 65_514, 65_514, 1],
        ),
    ];
    let some = some.map(|(name, sizes)| (name.to_owned(), last_object(sizes)));
    for (name, (heap, id)) in one.into_iter().chain(some) {
        checked_read(times, name, &heap, &id);
    }
}

fn checked_read(times: &mut Times, name: String, heap: &Heap, id: &[u8; 8]) {
    let view = view_of(heap);
    let parsed = format::parsed_of(heap);
    let Ended { answer, blocks } = checked::due(view, &parsed, (8, heap.at), id);
    let read = |view, id: &[u8]| ours::answered(|s, n| ours::checked_into(view, heap.at, id, s, n));
    assert_eq!((read(view, id), answer.0), (answer, 0), "{name}");
    let numbers = parsed
        .unwrap_or_else(|refusal| panic!("{refusal:?}"))
        .numbers;
    let covered = |block: &crate::checked_reader::Block| {
        let layout = Layout::new(&Table::of(&numbers), 8, 2, block.kind);
        let length = match block.kind {
            Kind::Direct { size } => size,
            Kind::Indirect { .. } => layout.length as u64 - 4,
        };
        &heap.file[block.address as usize..][..length as usize]
    };
    let covered: Vec<&[u8]> = blocks.iter().map(covered).collect();
    let bytes: usize = covered.iter().map(|part| part.len()).sum();
    let calls = ((1 << 20) / bytes).clamp(10, 2000);
    let ours = || {
        for _ in 0..calls {
            black_box(read(black_box(view), black_box(id)));
        }
    };
    let due = || {
        for _ in 0..calls {
            each(covered.iter().copied(), ours::jenkins_lookup3);
            let (view, id) = black_box((view, id));
            black_box(ours::answered(|s, n| ours::read_into(view, id, s, n)));
        }
    };
    times.line(name, calls, ours, due);
    let line = times.0.last().expect("a line");
    let more = line.ours - line.original;
    println!(
        "bench: {}, {bytes} bytes of blocks: {more:.1} ns more",
        line.what
    );
}

/// The original has no writer of IDs: the rules' words in plain Rust, with the same memory lent, stand for it.
#[inline(never)]
fn plain_id(offset: u64, size: u64, id: &mut [u8], slot: &mut [u8]) -> u32 {
    if slot.len() < 16 {
        return 13;
    }
    let (number, x, y) = by_table(offset, size, id.len()).unwrap_or((0, 0, 0));
    if number == 0 {
        id[..8].copy_from_slice(&by_rule(offset, size));
    }
    slot[..8].copy_from_slice(&x.to_le_bytes());
    slot[8..16].copy_from_slice(&y.to_le_bytes());
    number
}

/// IDs one after the other in one list.
fn ids(times: &mut Times) {
    type Writer = fn(u64, u64, &mut [u8], &mut [u8]) -> u32;
    let all = |writer: Writer| {
        let (mut list, mut slot) = ([0; 8 << 13], [0; 16]);
        for (i, id) in list.chunks_exact_mut(8).enumerate() {
            let (offset, size) = black_box((i as u64, 1003));
            black_box(writer(offset, size, id, &mut slot));
        }
        black_box((&list, slot));
    };
    times.line(
        "ID written (original: plain Rust)",
        1 << 13,
        || all(ours::write_managed_id),
        || all(plain_id),
    );
}

/// Three numbers of the table, as the counting engine has them: when it runs.
struct Numbers {
    width: u64,
    starting: u64,
    largest: u64,
}

/// Plain Rust that walks the slots one by one, and asks each whether the offset lies in it, where the counting engine
/// passes a row of direct slots that ends before: where it comes to, past the offset or not.
fn plain_walk(
    numbers: &Numbers,
    at: u64,
    end: u64,
    offset: u64,
    passed: &mut impl FnMut(u64),
) -> Result<[u64; 2], u64> {
    let (mut here, mut size, mut next) = (at, numbers.starting, numbers.starting);
    while here < end {
        for _ in 0..numbers.width {
            if size > numbers.largest {
                here = match plain_walk(numbers, here, here + size, offset, passed) {
                    Err(past) => past,
                    found => return found,
                };
            } else if offset < here + size {
                return Ok([here, size]);
            } else {
                passed(size);
                here += size;
            }
        }
        (size, next) = (next, next + next);
    }
    Err(here)
}

/// Slots: the descent against the original's, and counting against plain Rust, since the original does not count.
fn slots(times: &mut Times) {
    let mut random = Random::new(73);
    let offsets: Vec<u64> = (0..4_096).map(|_| random.below(1 << 40)).collect();
    let all = |f: &dyn Fn(u64) -> u64| {
        offsets.iter().for_each(|&offset| {
            black_box(f(black_box(offset)));
        });
    };
    times.line(
        "slot of an offset, by descent",
        offsets.len(),
        || all(&|offset| ours::locate(offset).1),
        || all(&|offset| original::slot(offset).0),
    );
    let last = (1 << 40) - 1;
    let numbers = black_box(Numbers {
        width: 4,
        starting: 1_024,
        largest: 65_536,
    });
    times.line(
        "slot of the farthest offset, counted",
        1,
        || {
            black_box(ours::count_to(black_box(last)));
        },
        || {
            black_box(plain_walk(
                &numbers,
                0,
                1 << 40,
                black_box(last),
                &mut |_| (),
            ))
            .unwrap();
        },
    );
    let counted = || {
        let mut counts = [0_u64; 7];
        let count = &mut |size: u64| counts[size.ilog2() as usize - 10] += 1;
        black_box(plain_walk(&numbers, 0, 1 << 40, black_box(u64::MAX), count)).unwrap_err();
        black_box(counts);
    };
    times.line(
        "slots of 29 rows, counted by size",
        1,
        || {
            let mut counts = [0; 7];
            assert_eq!(ours::count_slots(black_box(29), &mut counts), 0);
            black_box(counts);
        },
        counted,
    );
}

/// What ours is lent for writing.
struct Lent {
    offsets: Vec<u64>,
    blocks: Vec<u64>,
    region: Vec<u8>,
}

impl Lent {
    fn new(objects: usize, size: usize) -> Self {
        Lent {
            offsets: vec![0; objects],
            blocks: vec![0; objects.max(1)],
            region: vec![0; size],
        }
    }

    fn write(&mut self, writing: &Writing) {
        let (offsets, blocks) = (&mut self.offsets, &mut self.blocks);
        let mut totals = [0; 8];
        let region = &mut self.region;
        let number = ours::serialize(black_box(writing), offsets, blocks, region, &mut totals);
        assert_eq!(black_box(number), 0);
    }
}

/// The longest front part of a list whose region has at most so many bytes.
fn fitting(sizes: &[u64], bytes: u64) -> &[u64] {
    let (mut fits, mut too_many) = (0, sizes.len() + 1);
    while fits + 1 < too_many {
        let n = (fits + too_many) / 2;
        let size = original::plans(&sizes[..n], 8).expect("within the heap space");
        if size <= bytes {
            fits = n;
        } else {
            too_many = n;
        }
    }
    &sizes[..fits]
}

/// Planning and writing a region, again and again. The original allocates what it fills in every call; ours is
/// lent memory that is allocated once, outside of the time, and in the second line in every call.
fn write(times: &mut Times) {
    let mut random = Random::new(12);
    for (name, bytes, most, n) in [
        ("2 KiB", 2200, 2026, 100),
        ("1 MiB", 1 << 20, 65_514, 20_000),
        ("256 MiB", 1 << 28, 65_514, 3_000_000),
    ] {
        for kind in ["small", "mixed", "largest"] {
            let all = sizes(&mut random, kind, n, most);
            let sizes = fitting(&all, bytes);
            let mut objects = vec![0; sizes.iter().sum::<u64>() as usize];
            random.fill(&mut objects);
            let writing = Writing {
                sizes,
                objects: &objects,
                offset_size: 8,
                region_at: 4096,
                header_at: 2048,
            };
            written(times, &format!("{name}, {} {kind}", sizes.len()), &writing);
        }
    }
}

fn written(times: &mut Times, name: &str, writing: &Writing) {
    let parts = write::parts(writing.sizes, writing.objects);
    let (at, header) = (writing.region_at, writing.header_at);
    let region = original::region(&parts, 8, at, header);
    let (objects, size) = (parts.len(), region.len());
    let calls = ((1 << 20) / size).max(1);
    let again = |f: &mut dyn FnMut()| (0..calls).for_each(|_| f());
    let original = || {
        again(&mut || {
            let plan = original::planned(black_box(writing.sizes), 8);
            let plan = plan.expect("within the heap space");
            black_box(plan.serialize(black_box(&parts), at, header));
        })
    };
    let mut lent = Lent::new(objects, size);
    let name = format!("write {name}");
    times.line(
        &name,
        calls,
        || again(&mut || lent.write(writing)),
        original,
    );
    assert!(lent.region == region, "{name}");
    let allocated = || again(&mut || Lent::new(objects, size).write(writing));
    times.line("  ours allocating too", calls, allocated, original);
    passes(&name, writing, &region, calls, lent);
}

/// For the eye: the time of one checksum and one copy of the whole region, and that of ours for planning alone.
fn passes(name: &str, writing: &Writing, region: &[u8], calls: usize, mut lent: Lent) {
    let again = |f: &mut dyn FnMut()| (0..calls).for_each(|_| f());
    let mut copy = vec![0; region.len()];
    let pass = || {
        again(&mut || {
            black_box(ours::jenkins_lookup3(black_box(region)));
            black_box(&mut copy).copy_from_slice(black_box(region));
        })
    };
    let (pass, ours, _) = best(pass, || again(&mut || lent.write(writing)));
    let (offsets, blocks) = (&mut lent.offsets, &mut lent.blocks);
    let plan = || again(&mut || plan_in(writing.sizes, offsets, blocks));
    let (plan, ..) = best(plan, || ());
    let ns = |t: f64| t * 1e9 / calls as f64;
    println!(
        "bench: {name}: {} bytes; one checksum and one copy of them {:.1} ns, ours / that {:.2}; planning alone {:.1} ns",
        region.len(),
        ns(pass),
        ours / pass,
        ns(plan)
    );
}
