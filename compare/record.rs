//! What the programs `run_vectors` and `run_heaps` must print, from the original (stores: by the facts of
//! docs/DECISIONS.md; the refusals of planning that the original does not have: by the rules' table). What
//! the program `run_reads` replays and prints is in reads.rs, what `run_regions` and `run_round_trips` print in
//! regions.rs and round_trips.rs.
use crate::fields::stored;
use crate::plan::{by_table, header, limit};
pub use crate::reads::{reads, reads_summary};
pub use crate::regions::regions;
pub use crate::round_trips::round_trips;
use original::{
    Answer, Plan, final_mix, is_undefined_addr, jenkins_lookup3, mix, plan, read_length,
    read_offset,
};

pub const LONG: [usize; 6] = [255, 1000, 4096, 10_007, 65_535, 65_536];
pub const PLACES: [u64; 9] = [0, 1, 8, 14, 16, 17, 18, u64::MAX - 7, u64::MAX];
pub const WIDTHS: [u8; 10] = [0, 1, 2, 3, 4, 5, 8, 9, 128, 255];
pub const ADDRS: [u64; 7] = [
    0,
    0xFFFE,
    0xFFFF,
    0x1_0000,
    0xFFFF_FFFF,
    u64::MAX - 1,
    u64::MAX,
];
pub const STORED: u64 = 0x0123_4567_89AB_CDEF;

/// A linear congruence, from a number on.
pub fn numbers_from(first: u64) -> impl Iterator<Item = u64> {
    let next = |&x: &u64| Some((x * 1_103_515_245 + 12_345) % (1 << 32));
    std::iter::successors(Some(first), next).skip(1)
}

pub fn numbers() -> impl Iterator<Item = u64> {
    numbers_from(1)
}

/// The bytes that are summed and read: bits 16 to 23 of each number.
pub fn sequence(n: usize) -> Vec<u8> {
    let bytes = numbers().map(|x| (x / 65_536 % 256) as u8);
    bytes.take(n).collect()
}

fn answer((number, first, second): Answer) -> String {
    format!("{number} {first:x} {second:x}")
}

pub fn hex(bytes: &[u8]) -> String {
    bytes
        .iter()
        .fold(String::new(), |s, b| s + &format!("{b:02x}"))
}

/// Reads and stores of a width at a place of 18 bytes.
fn field(bytes: &[u8], pos: u64, size: u8) -> String {
    let read = |name: &str, read: Answer| format!("{name} {pos:x} {size} {}\n", answer(read));
    let store = |name: &str, value: u64| {
        let mut a = [0xA5u8; 18];
        let number = stored(&mut a, pos, value, size);
        format!("{name} {pos:x} {size} {} {}\n", answer(number), hex(&a))
    };
    [
        read("offset", read_offset(bytes, pos as usize, size)),
        read("length", read_length(bytes, pos as usize, size)),
        store("store", STORED),
        store("undefined", u64::MAX),
    ]
    .concat()
}

/// The texts that lookup3.c publishes with their checksums.
const PUBLISHED: [&str; 2] = ["", "Four score and seven years ago"];

/// States that are mixed.
const STATES: [[u32; 3]; 6] = [
    [0, 0, 0],
    [1, 0, 0x8000_0000],
    [0xFFFF_FFFF; 3],
    [0xDEAD_BEEF; 3],
    [0x0123_4567, 0x89AB_CDEF, 0xFEDC_BA98],
    [0x9E37_79B9, 0x7F4A_7C15, 0xF39C_C060],
];

fn words([a, b, c]: [u32; 3]) -> String {
    format!("{a:08x} {b:08x} {c:08x}")
}

/// A state's mix and final mix by the original, and twice the state itself of each, which is what an inverse gives.
fn undone(state: [u32; 3]) -> String {
    let s = words(state);
    let line = |name, mixed| format!("{name} of {s} {} undone {s} {s}\n", words(mixed));
    line("mix", mix(state)) + &line("final mix", final_mix(state))
}

/// The states of a text's run by the original's mixes, the last one first.
fn back(text: &str) -> String {
    let first = 0xDEAD_BEEF_u32.wrapping_add(text.len() as u32);
    let mut states = vec![[first; 3]];
    let parts = text.as_bytes().chunks(12);
    let groups = parts.len();
    for (i, part) in parts.enumerate() {
        let mut s = *states.last().unwrap();
        for (at, byte) in part.iter().enumerate() {
            s[at / 4] = s[at / 4].wrapping_add(u32::from(*byte) << (at % 4 * 8));
        }
        states.push(if i + 1 < groups { mix(s) } else { final_mix(s) });
    }
    let [_, _, sum] = *states.last().unwrap();
    assert_eq!(sum, jenkins_lookup3(text.as_bytes()), "{text}");
    let line = |s: &[u32; 3]| format!("back {text:?} {}\n", words(*s));
    states.iter().rev().map(line).collect()
}

pub fn vectors() -> String {
    let bytes = sequence(65_536);
    let mut out = String::from(
        "The original Rust's answers (stores: by the facts of docs/DECISIONS.md), from compare/run --record\n",
    );
    for text in PUBLISHED {
        let sum = jenkins_lookup3(text.as_bytes());
        out += &format!("lookup3 \"{text}\" {sum:08x}\n");
    }
    for n in (0..=200).chain(LONG) {
        out += &format!("lookup3 {n} {:08x}\n", jenkins_lookup3(&bytes[..n]));
    }
    out.extend(STATES.map(undone));
    out.extend(PUBLISHED.map(back));
    for (pos, size) in PLACES
        .into_iter()
        .flat_map(|pos| WIDTHS.map(|size| (pos, size)))
    {
        out += &field(&bytes[..18], pos, size);
    }
    for (addr, size) in ADDRS
        .into_iter()
        .flat_map(|addr| WIDTHS.map(|size| (addr, size)))
    {
        let undefined = u32::from(is_undefined_addr(addr, size));
        out += &format!("is undefined {addr:x} {size} {undefined}\n");
    }
    out
}

/// What a place that is lent for planning holds before a call.
const MARK: u64 = 42_405;

/// The first n numbers of a list, at most six, and all its places in their order as one number.
fn list(name: &str, numbers: &[u64], n: usize) -> String {
    let front = numbers.iter().take(n.min(6)).map(|x| format!(" {x}"));
    let sum = |s: u64, x: &u64| (s * 31 + x % 1_000_000_007) % 1_000_000_007;
    let all = numbers.iter().fold(0, sum);
    format!("{name}{} sum {all}", front.collect::<String>())
}

/// The front of a line: the name, the width, the sizes.
pub fn given(name: &str, sizes: &[u64], w: u8) -> String {
    format!("{name}: width {w}{}", list(", sizes", sizes, sizes.len()))
}

/// The answer, and what lists of so many places hold then.
pub fn answered(answer: &Result<Plan, Answer>, places: (usize, usize)) -> String {
    let (mut offsets, mut blocks) = (vec![MARK; places.0], vec![MARK; places.1]);
    let (n, count, answer) = match answer {
        Err((number, x, y)) => (0, 0, format!("refused {number} {x} {y}")),
        Ok(p) => {
            let (n, count) = (p.offsets.len(), p.starts.len());
            offsets[..n].copy_from_slice(&p.offsets);
            blocks[..count].copy_from_slice(&p.starts);
            let totals = p.totals.map(|x| format!(" {x}")).concat();
            (n, count, format!("accepted{totals}"))
        }
    };
    format!(
        "; {answer}{}{}",
        list("; offsets", &offsets, n),
        list("; blocks", &blocks, count)
    )
}

/// A line of the program `run_heaps`: planning in lists of so many places.
fn case_in(name: &str, sizes: &[u64], places: (usize, usize), w: u8) -> String {
    let answer = match by_table(sizes, places.0, places.1, w) {
        Some(refusal) => Err(refusal),
        None => Ok(plan(sizes, w).expect("the heap space is far")),
    };
    given(name, sizes, w) + &answered(&answer, places) + "\n"
}

fn case(name: &str, sizes: &[u64], w: u8) -> String {
    case_in(name, sizes, (260, 260), w)
}

/// Sizes with a name.
type Named = (&'static str, Vec<u64>);

/// Worked heaps 1 to 7 of docs/RULES.md and a wrong turn, for width 8.
pub fn worked() -> Vec<Named> {
    vec![
        ("heap 1", vec![]),
        ("heap 2", vec![1002]),
        ("heap 3", vec![1003]),
        ("heap 4", vec![1002, 1]),
        ("heap 5", vec![1002, 0]),
        ("heap 6", vec![65_514]),
        ("heap 6, one more", vec![65_515]),
        ("heap 7", vec![65_514; 5]),
        ("passed slot", vec![1003, 1]),
    ]
}

/// The same kinds for another width.
pub fn shifted(w: u8) -> Vec<Named> {
    let (body, most) = (1024 - header(w), limit(w));
    vec![
        ("nothing", vec![]),
        ("full block", vec![body]),
        ("larger", vec![body + 1]),
        ("full and 1", vec![body, 1]),
        ("full and 0", vec![body, 0]),
        ("passed slot", vec![body + 1, 1]),
        ("largest", vec![most]),
        ("too large", vec![most + 1]),
        ("first too large", vec![most + 1, most + 2]),
        ("second too large", vec![0, most + 2]),
        ("five largest", vec![most; 5]),
    ]
}

/// Widths that are none.
pub const NO_WIDTH: [(&[u64], u8); 4] = [(&[1, 2], 0), (&[1, 2], 1), (&[1, 65_536], 3), (&[], 255)];

fn refusals() -> String {
    let sizes = [10, 65_536, 30];
    [
        NO_WIDTH.map(|(sizes, w)| case("width", sizes, w)).concat(),
        case_in("short offsets", &sizes, (2, 3), 8),
        case_in("no places", &sizes, (0, 3), 2),
        case_in("short blocks", &sizes, (3, 1), 8),
        case_in("both short", &sizes, (2, 1), 4),
        case_in("width and both short", &sizes, (2, 1), 16),
        case_in("exact, too large", &sizes, (3, 3), 8),
        case_in("no block", &[], (1, 0), 8),
        case_in("one block", &[], (0, 1), 8),
    ]
    .concat()
}

/// A size from bits 16 to 31 of a number: small, mixed, or around what a block holds.
fn drawn(x: u64, kind: u64, w: u8) -> u64 {
    let (a, b) = (x / 65_536 % 256, x / 16_777_216 % 256);
    match kind {
        0 => a % 200,
        1 => (a * 256 + b) / (1 + b % 32),
        _ => ((1024 << (a % 7)) + b % 5 - 2 - header(w)).min(limit(w)),
    }
}

fn long(w: u8) -> String {
    let mut out = String::new();
    for n in [40, 256] {
        for (kind, name) in (0..).zip(["small", "mixed", "edges"]) {
            let sizes: Vec<u64> = numbers().take(n).map(|x| drawn(x, kind, w)).collect();
            out += &case(&format!("{n} {name}"), &sizes, w);
        }
    }
    out + &case("250 largest", &[limit(w); 250], w)
}

/// A line for each of these lists.
pub fn lines(lists: Vec<Named>, w: u8, line: fn(&str, &[u64], u8) -> String) -> String {
    let lines = lists.iter().map(|(name, sizes)| line(name, sizes, w));
    lines.collect()
}

pub fn heaps() -> String {
    let first = "The original Rust's answers (refusals 2, 11 and 13: by the rules' table), from compare/run --record\n";
    let worked = lines(worked(), 8, case);
    let shifted = [2, 4].map(|w| lines(shifted(w), w, case)).concat();
    let long = [2, 4, 8].map(long).concat();
    [first, &worked, &shifted, &refusals(), &long].concat()
}
