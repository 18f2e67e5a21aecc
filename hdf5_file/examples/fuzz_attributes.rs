//! Changes bytes of HDF5 files at random, makes every checksum right again, and reads their attributes, as long as it is
//! told: what is asked for is an end without a panic, and soon. Numbers are drawn from the same start each time.
//!   fuzz_attributes SECONDS FILE...     small files: each is searched for what its checksums cover
use fractal_heap::{Superblock, checksum};
use hdf5_file::{Attributes, Found, Unreadable};
use std::ops::Range;
use std::process::ExitCode;
use std::time::{Duration, Instant};

/// Signatures of what has its checksum right behind it, and the most bytes that such a part is sought in.
const SEALED: [(&[u8], usize); 7] = [
    (b"\x89HDF\r\n\x1a\n", 64),
    (b"OHDR", 4096),
    (b"OCHK", 4096),
    (b"FRHP", 256),
    (b"FHIB", 2048),
    (b"BTHD", 64),
    (b"BTIN", 1024),
];
const LEAF: (&[u8], usize) = (b"BTLF", 1024);

/// Bytes with a checksum, and where that stands: behind them, or in a direct block among them, where it counts as zero.
#[derive(Clone)]
struct Part {
    covers: Range<usize>,
    sum_at: usize,
}

impl Part {
    fn sum(&self, file: &[u8]) -> [u8; 4] {
        let mut bytes = file[self.covers.clone()].to_vec();
        if let Some(inside) = self.sum_at.checked_sub(self.covers.start)
            && inside < bytes.len()
        {
            bytes[inside..inside + 4].fill(0);
        }
        checksum(&bytes).to_le_bytes()
    }

    fn holds(&self, file: &[u8]) -> bool {
        let stored = file.get(self.sum_at..self.sum_at + 4);
        self.covers.end <= file.len() && stored == Some(&self.sum(file)[..])
    }

    fn seal(&self, file: &mut [u8]) {
        let sum = self.sum(file);
        file[self.sum_at..self.sum_at + 4].copy_from_slice(&sum);
    }
}

/// What begins at a place and has a checksum that holds.
fn part_at(file: &[u8], start: usize) -> Option<Part> {
    let rest = &file[start..];
    let behind = |end| Part {
        covers: start..end,
        sum_at: end,
    };
    for (signature, most) in SEALED.into_iter().chain([LEAF]) {
        if rest.starts_with(signature) {
            let ends = start + signature.len()..start + most.min(rest.len());
            return ends.map(behind).find(|part| part.holds(file));
        }
    }
    // A direct block: signature, version, address, heap offset in five bytes, checksum; of a power of two bytes.
    let sizes = (9..17).map(|bits| start + (1 << bits));
    let inside = |end, width| Part {
        covers: start..end,
        sum_at: start + 5 + width + 5,
    };
    let blocks = sizes.flat_map(|end| [2, 4, 8].map(|width| inside(end, width)));
    let mut sound = blocks.filter(|part| part.holds(file));
    rest.starts_with(b"FHDB").then(|| sound.next())?
}

/// Numbers that look drawn: a multiplication and its upper bits.
struct Draw(u64);

impl Draw {
    fn below(&mut self, limit: usize) -> usize {
        self.0 = self
            .0
            .wrapping_mul(6_364_136_223_846_793_005)
            .wrapping_add(1_442_695_040_888_963_407);
        ((self.0 >> 33) as usize) % limit
    }
}

/// How long this process has had a processor, which other work on the machine does not lengthen; by the clock where the
/// system does not tell.
fn worked(began: Instant) -> Duration {
    let told = std::fs::read_to_string("/proc/self/schedstat").ok();
    let nanoseconds = told.and_then(|told| told.split(' ').next()?.parse().ok());
    nanoseconds.map_or_else(|| began.elapsed(), Duration::from_nanos)
}

/// What comes of an ID is what comes where every block is tested, as far as that is the attribute's message. Huge objects
/// are in no block.
fn held_to_the_tested(attributes: &Attributes, file: &[u8], found: &Found, id: &[u8; 8]) {
    let header_at = attributes.dense().map(|dense| dense.heap);
    let heap = header_at.and_then(|at| Superblock::find(file)?.heap(file, at));
    let heap = heap.expect("what has an ID is in a heap");
    let is_huge = id[0] >> 4 & 3 == 1;
    match (
        &found.attribute,
        heap.read_managed_object(id, heap.header_at),
    ) {
        _ if is_huge => {}
        (Ok(attribute), tested) => {
            let tested = tested.expect("what is refused where every block is tested is not read");
            let is_same = |message| tested.starts_with(message);
            assert!(attribute.message.is_none_or(is_same), "another message");
        }
        (Err(Unreadable::Heap { .. }), tested) => assert!(tested.is_err(), "it is read"),
        _ => {}
    }
}

/// Everything that can be asked of a file, and whether all of it was read.
fn read(file: &[u8]) -> bool {
    let Ok(attributes) = Attributes::open(file) else {
        return false;
    };
    let Ok(all) = attributes.all() else {
        return false;
    };
    let mut are_read = attributes.heap().is_ok() && attributes.disagreement(&all).is_ok();
    for found in &all {
        are_read &= match &found.attribute {
            Ok(attribute) => {
                let text = attribute.variable_text.as_ref();
                assert!(text.is_none_or(|text| text.fixed().is_some()), "a text");
                attributes.find(attribute.name).is_ok() && attribute.value.is_ok()
            }
            Err(_) => false,
        };
        if let Some(id) = &found.id {
            are_read &= attributes.find_id(id).is_ok();
            held_to_the_tested(&attributes, file, found, id);
        }
    }
    are_read
}

/// Changes some bytes of a part, or of the file.
fn change(file: &mut [u8], within: Range<usize>, draw: &mut Draw) {
    for _ in 0..1 + draw.below(4) {
        let at = within.start + draw.below(within.len());
        file[at] = match draw.below(5) {
            0 => draw.below(256) as u8,
            1 => file[at] ^ 1 << draw.below(8),
            2 => 0xFF,
            3 => 0,
            _ => file[draw.below(file.len())],
        };
    }
}

#[derive(Default)]
struct Counts {
    parts: usize,
    read: u64,
    refused: u64,
    longest: Duration,
}

/// One file, until the time is over.
fn fuzz(file: &[u8], draw: &mut Draw, time: Duration, counts: &mut Counts) {
    let parts: Vec<Part> = (0..file.len()).filter_map(|at| part_at(file, at)).collect();
    counts.parts += parts.len();
    let (began, mut bytes) = (Instant::now(), file.to_vec());
    while began.elapsed() < time {
        for _ in 0..1 + draw.below(2) {
            let within = match (draw.below(4), parts.len()) {
                (0, _) | (_, 0) => 0..bytes.len(),
                (_, number) => parts[draw.below(number)].covers.clone(),
            };
            change(&mut bytes, within, draw);
        }
        // From the inside out: a checksum may stand in what another one covers.
        parts.iter().rev().for_each(|part| part.seal(&mut bytes));
        let started = worked(began);
        match read(&bytes) {
            true => counts.read += 1,
            false => counts.refused += 1,
        }
        counts.longest = counts.longest.max(worked(began).saturating_sub(started));
        bytes.copy_from_slice(file);
    }
}

fn main() -> ExitCode {
    let words: Vec<String> = std::env::args().skip(1).collect();
    let Some((seconds, names)) = words.split_first() else {
        eprintln!("fuzz_attributes SECONDS FILE...");
        return ExitCode::FAILURE;
    };
    let Ok(seconds) = seconds.parse::<f64>() else {
        eprintln!("fuzz_attributes: {seconds} is no number of seconds");
        return ExitCode::FAILURE;
    };
    let time = Duration::from_secs_f64(seconds / names.len().max(1) as f64);
    let (mut draw, mut counts) = (Draw(11), Counts::default());
    for name in names {
        let Ok(file) = std::fs::read(name) else {
            eprintln!("fuzz_attributes: {name} cannot be read");
            return ExitCode::FAILURE;
        };
        if !read(&file) || file.is_empty() {
            eprintln!("fuzz_attributes: not all of {name} is read as it is");
            return ExitCode::FAILURE;
        }
        fuzz(&file, &mut draw, time, &mut counts);
    }
    println!(
        "{} files with {} checksums: {} changed files, {} read, {} refused, the longest in {:.3} s of the processor",
        names.len(),
        counts.parts,
        counts.read + counts.refused,
        counts.read,
        counts.refused,
        counts.longest.as_secs_f64()
    );
    ExitCode::SUCCESS
}
