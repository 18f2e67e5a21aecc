//! What the program `run_round_trips` must print: the original plans, writes and reads; IDs are by the rules'
//! words, refusals of writing by its table.
use crate::back::by_rule;
use crate::made;
use crate::ours::Writing;
use crate::plan::{header, limit};
use crate::random::Random;
use crate::record::{given, numbers_from, sequence};
use crate::write::{by_table, parts};
use original::{Answer, Header, Plan, jenkins_lookup3};

/// The most objects of a list, the bytes of the file, where the region begins in it, where the heap's header is said
/// to be, and how many bytes there are for objects.
const PLACES: usize = 64;
const FILE: usize = 360_000;
const REGION: usize = 4321;
const HEADER: u64 = 1234;
const OBJECTS: usize = 327_600;

fn refused((number, x, y): Answer) -> String {
    format!("; refused {number} {x} {y}\n")
}

/// A header of the fixed geometry as the original parses it, with the width's largest managed size; the other fields
/// are random.
fn parsed(plan: &Plan, w: u8) -> Header {
    let [_, _, rows, root, ..] = plan.totals;
    let mut head = made::fixed(REGION as u64 + root, rows as u16);
    head.largest_managed = Some(limit(w) as u32);
    let bytes = made::header(&mut Random::new(1), &head, w, 8);
    original::parse(&bytes, 0, w, 8).expect("a right header")
}

/// Every object by its ID: how many there are, how many nonempty ones come back, lookup3 of the IDs and of the file;
/// a line for each empty one.
fn read_back(file: &[u8], plan: &Plan, objects: &[&[u8]], w: u8) -> String {
    let (header, mut back, mut ids, mut empties) = (parsed(plan, w), 0, vec![], String::new());
    for (i, (&offset, &bytes)) in plan.offsets.iter().zip(objects).enumerate() {
        let id = by_rule(offset, bytes.len() as u64);
        ids.extend(id);
        let read = header.read(file, &id, w);
        if bytes.is_empty() {
            let accepted = |read: Vec<u8>| format!("; accepted {}\n", read.len());
            empties += &format!("  empty {i}{}", read.map_or_else(refused, accepted));
        } else {
            back += u64::from(read.as_deref() == Ok(bytes));
        }
    }
    let (n, ids, file) = (objects.len(), jenkins_lookup3(&ids), jenkins_lookup3(file));
    format!("; accepted {n} {back} {ids} {file}\n{empties}")
}

/// What comes of a list in the file, which keeps its region.
fn trip(sizes: &[u64], file: &mut [u8], w: u8) -> String {
    let sum = sizes.iter().sum::<u64>() as usize;
    let objects = sequence(sum.min(OBJECTS));
    let writing = Writing {
        sizes,
        objects: &objects,
        offset_size: w,
        region_at: REGION as u64,
        header_at: HEADER,
    };
    if let Some(refusal) = by_table(&writing, PLACES, PLACES, FILE - REGION) {
        return refused(refusal);
    }
    let (planned, objects) = (original::planned(sizes, w), parts(sizes, &objects));
    let planned = planned.expect("the heap space is far");
    let region = planned.serialize(&objects, writing.region_at, HEADER);
    file[REGION..REGION + region.len()].copy_from_slice(&region);
    read_back(file, &planned.told(writing.region_at), &objects, w)
}

/// The worked heaps 1 to 7, and two lists with empty objects where a block ends.
fn chosen(w: u8) -> [Vec<u64>; 9] {
    let (block, large) = (1024 - header(w), limit(w));
    [
        vec![],
        vec![1002],
        vec![1003],
        vec![1002, 1],
        vec![1002, 0],
        vec![65_514],
        vec![65_514; 5],
        vec![block, 0, block, 0],
        vec![large, large, large, large, 0],
    ]
}

/// A random size of one of four kinds, from 16 bits: empty for one in eight.
fn size(kind: u64, i: usize, bits: u64) -> u64 {
    match kind {
        _ if bits % 8 == 0 => 0,
        0 => bits % 201,
        1 => bits % 2001,
        2 => bits % 65_001,
        _ if i < 4 => 64_000 + bits % 1001,
        _ => bits % 2001,
    }
}

/// List k: 22 at each width, nine of them chosen. At width 2 no very large object has an address.
fn list(k: u64) -> (Vec<u64>, u8) {
    let (w, j) = ([8, 4, 2][k as usize / 22], k % 22 + 1);
    if let Some(sizes) = chosen(w).get(j as usize - 1) {
        return (sizes.clone(), w);
    }
    let n = if j % 4 == 2 { 5 } else { 20 + j };
    let kind = if w == 2 { j % 2 } else { j % 4 };
    let numbers = numbers_from(k).take(n as usize).enumerate();
    let sizes = numbers.map(|(i, x)| size(kind, i, x / 65_536));
    (sizes.collect(), w)
}

pub fn round_trips() -> String {
    let first = "The original Rust's answers (IDs and refusals of writing: by the rules' words), from compare/run --record\n";
    let (mut out, mut file) = (String::from(first), vec![0xA5; FILE]);
    for k in 0..66 {
        let (sizes, w) = list(k);
        out += &given(&format!("list {k}"), &sizes, w);
        out += &trip(&sizes, &mut file, w);
    }
    out
}
