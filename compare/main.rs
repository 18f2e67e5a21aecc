//! Holds our static libraries against the original Rust: see the scripts `run`, `damage` and `bench`.
mod back;
mod beds;
mod bench;
mod checked;
mod checked_reader;
mod checksum;
mod damage;
mod differences;
mod fields;
mod format;
mod guarded;
mod headers;
mod heap;
mod ids;
mod image;
mod made;
mod one_byte;
mod open_plans;
mod ours;
mod panics;
mod plan;
mod random;
mod reads;
mod record;
mod regions;
mod round_trips;
mod sealed;
mod slots;
mod summary;
mod write;

use std::io::Write;
use std::sync::Mutex;
use std::time::Instant;
use summary::Row;

/// A part of the comparison: what it compared.
type Part = (&'static str, fn() -> Vec<Row>);

/// All parts, the longest first.
const PARTS: [Part; 21] = [
    ("back", || back::compare(200_000)),
    ("write", || write::compare(40_000)),
    ("heap space 8", || plan::heap_space(8)),
    ("heap", || heap::compare(1_000_000)),
    ("checked", || checked::compare(1_000_000)),
    ("slots counted", || slots::counted(1_000_000)),
    ("slots", || slots::compare(10_000_000)),
    ("heap space 4", || plan::heap_space(4)),
    ("heap space 2", || plan::heap_space(2)),
    ("open to the end 8", || open_plans::heap_space(8)),
    ("open to the end 4", || open_plans::heap_space(4)),
    ("open to the end 2", || open_plans::heap_space(2)),
    ("damage", || damage::compare(10_000_000)),
    ("ids", ids::compare),
    ("plan", || plan::compare(100_000)),
    ("headers", || headers::compare(120_000)),
    ("open plans", || open_plans::compare(10_000)),
    ("fields", || fields::compare(1_000_000)),
    ("checksum", || checksum::compare(1_000_000)),
    ("mixes undone", || checksum::undo(10_000_000)),
    ("differences", differences::compare),
];

/// Two parts at a time, each followed by the next that is left; the table in the end.
fn compare(parts: &[Part]) {
    let (left, done) = (Mutex::new(parts.iter()), Mutex::new(Vec::new()));
    let next = || left.lock().unwrap().next();
    let work = || {
        while let Some((name, part)) = next() {
            let start = Instant::now();
            let rows = part();
            let took = start.elapsed().as_secs_f64();
            done.lock().unwrap().push((*name, rows, took));
        }
    };
    std::thread::scope(|both| {
        both.spawn(work);
        work();
    });
    summary::print(&done.into_inner().unwrap());
}

/// The times of these parts, in one table.
fn bench(parts: &[bench::Part]) {
    let mut times = bench::Times::default();
    parts.iter().for_each(|part| part.1(&mut times));
    times.print();
}

/// The part of a name.
fn named<T>(parts: &[(&str, T)], name: &str) -> usize {
    let at = parts.iter().position(|part| part.0 == name);
    at.unwrap_or_else(|| panic!("no part {name}"))
}

fn main() {
    let words: Vec<String> = std::env::args().skip(1).collect();
    match words.iter().map(String::as_str).collect::<Vec<_>>()[..] {
        ["compare"] => compare(&PARTS),
        ["compare", name] => {
            let part = named(&PARTS, name);
            compare(&PARTS[part..=part]);
        }
        ["record", "vectors"] => print!("{}", record::vectors()),
        ["record", "heaps"] => print!("{}", record::heaps()),
        ["record", "regions"] => print!("{}", record::regions()),
        ["record", "round_trips"] => print!("{}", record::round_trips()),
        ["record", "reads"] => print!("{}", record::reads_summary()),
        ["record", "reads", "stdin"] => {
            let list = record::reads();
            std::io::stdout()
                .write_all(&list)
                .expect("a place to write");
        }
        ["damage", n, "plain"] => {
            damage::run(n.parse().expect("a number of reads"), true);
        }
        ["trespass", what] => damage::trespass(what, false),
        ["trespass", what, "plain"] => damage::trespass(what, true),
        ["bench"] => bench(&bench::PARTS),
        ["bench", name] => {
            let part = named(&bench::PARTS, name);
            bench(&bench::PARTS[part..=part]);
        }
        _ => panic!(
            "compare [PART], damage READS plain, trespass before|behind|store [plain], record vectors, record heaps, record regions, record round_trips, record reads [stdin], bench [PART]"
        ),
    }
}
