//! Damaged files, ours against the original: heaps of many kinds with one to four things wrong, each read by some
//! sound and some damaged IDs through the C functions that the loader calls. File and ID are lent with nothing
//! readable around them (guarded.rs), so a read outside of them, or a store into them, ends the program. The checked
//! reader is held to the one by the format (checked_reader.rs), and files with one byte changed come after them
//! (one_byte.rs).
use crate::beds::{Bed, KINDS, Spot};
use crate::checked::due as checked_due;
use crate::format;
use crate::guarded::{Edge, Lent};
use crate::heap::{counted, hex, pinned, told};
use crate::ids::unpadded;
use crate::made::right_checksum;
use crate::one_byte;
use crate::ours::{self, View};
use crate::panics::{self, Panics, caught};
use crate::random::Random;
use crate::summary::{Row, row};
use original::{Answer, Header};
use std::ops::Range;
use std::os::unix::process::ExitStatusExt;
use std::process::Command;

/// The kinds of damage to a file, or to how it is read; then those of an ID.
const DAMAGES: [&str; 13] = [
    "bits flipped",
    "bytes set",
    "words set",
    "files cut",
    "extended",
    "parts exchanged",
    "moved",
    "header places wrong",
    "sizes wrong",
    "IDs flipped",
    "set",
    "cut",
    "extended",
];

/// More bytes than a file has, extended or not.
const ROOM: usize = 1 << 20;

/// How often a sound heap is damaged at each edge, and how often each of these is read.
const DAMAGED: u64 = 150;
const READS: u64 = 8;

/// A sound heap in the lent memory, and what was done to it.
struct Work {
    random: Random,
    file: Lent,
    id: Lent,
    edge: Edge,
    at: u64,
    widths: [u8; 2],
    /// Where bytes were changed, to be undone.
    touched: Vec<Range<usize>>,
    resized: bool,
    damages: [u64; 13],
}

impl Work {
    fn new(seed: u64, plain: bool) -> Self {
        Work {
            random: Random::new(seed),
            file: Lent::new(ROOM, plain),
            id: Lent::new(4096, plain),
            edge: Edge::End,
            at: 0,
            widths: [0; 2],
            touched: Vec::new(),
            resized: false,
            damages: [0; 13],
        }
    }

    fn view(&self) -> View<'_> {
        View {
            file: self.file.bytes(),
            at: self.at,
            offset_size: self.widths[0],
            length_size: self.widths[1],
        }
    }

    /// The sound heap as it is.
    fn lay(&mut self, bed: &Bed, edge: Edge) {
        self.edge = edge;
        self.file.lay(&bed.heap.file, edge);
        self.sound(bed);
    }

    fn sound(&mut self, bed: &Bed) {
        self.at = bed.heap.at;
        self.widths = [bed.heap.offset_size, bed.heap.length_size];
        self.touched.clear();
        self.resized = false;
    }

    /// Undoes every damage.
    fn undo(&mut self, bed: &Bed) {
        if self.resized {
            return self.lay(bed, self.edge);
        }
        let file = self.file.bytes_mut();
        for range in self.touched.drain(..) {
            file[range.clone()].copy_from_slice(&bed.heap.file[range]);
        }
        self.sound(bed);
    }

    /// Writes bytes into the file, as many as there is room for.
    fn put(&mut self, at: usize, bytes: &[u8]) {
        let file = self.file.bytes_mut();
        let end = (at + bytes.len()).min(file.len());
        if at < end {
            file[at..end].copy_from_slice(&bytes[..end - at]);
            self.touched.push(at..end);
        }
    }

    fn resize(&mut self, len: usize) {
        self.file.resize(&mut self.random, len);
        self.resized = true;
    }

    /// A place at which damage matters: a field of the header, an entry or a signature, or any word. None if there
    /// is no byte.
    fn spot(&mut self, bed: &Bed) -> Option<Spot> {
        let (random, len) = (&mut self.random, self.file.bytes().len());
        let (at, size) = match random.below(8) {
            0..4 if !bed.fields.is_empty() => random.one(&bed.fields),
            4..7 if !bed.entries.is_empty() => random.one(&bed.entries),
            _ => (
                random.below(len.max(1) as u64) as usize,
                random.one(&[1, 2, 4, 8]),
            ),
        };
        (at + size <= len).then_some((at, size))
    }

    /// A number that tells: small, around the file's end or a power of two, near the largest, a block's place, any.
    fn telling(&mut self, bed: &Bed, size: usize) -> u64 {
        let (random, len) = (&mut self.random, self.file.bytes().len() as u64);
        let ones = u64::MAX >> (64 - 8 * size.min(8));
        let near = random.below(9);
        match random.below(16) {
            0 => 0,
            1 => 1,
            2 => ones,
            3 | 4 => ones - random.below(300).min(ones),
            5 => len,
            6 => (len + 4).saturating_sub(near),
            7 => (1 << 31) + near - 4,
            8 => (1 << 63) + near - 4,
            9 => 1 << random.below(64),
            10 | 11 => random.one(&bed.blocks),
            12 => random.below(len + 1),
            13 => random.below(80),
            _ => random.number(),
        }
    }

    /// A length for a cut file: around a field, an entry or a block, few bytes less, any.
    fn cut(&mut self, bed: &Bed) -> usize {
        let len = self.file.bytes().len() as u64;
        let near = self.random.below(3);
        let at = match self.random.below(5) {
            0 => self.spot(bed).map_or(0, |(at, size)| (at + size) as u64),
            1 => self.random.one(&bed.blocks) + self.random.below(60),
            2 => len.saturating_sub(self.random.below(30)),
            3 => self.random.below(30),
            _ => self.random.below(len + 1),
        };
        (at + near).saturating_sub(1).min(len) as usize
    }

    /// Two parts of as many bytes exchanged, or the first moved over the second.
    fn carry(&mut self, exchanged: bool, (a, n): Spot, (b, m): Spot) {
        let n = match self.random.below(4) {
            0 => 5 + self.random.below(60) as usize,
            _ => n.min(m),
        };
        let file = self.file.bytes();
        let part = |at: usize| file[at..].iter().take(n).copied().collect::<Vec<u8>>();
        let (first, second) = (part(a), part(b));
        self.put(b, &first);
        if exchanged {
            self.put(a, &second);
        }
    }

    /// The header's place: a few bytes off, at a block, anywhere, past the end, near 2^64.
    fn misplace(&mut self, bed: &Bed) {
        let (random, len) = (&mut self.random, self.file.bytes().len() as u64);
        self.at = match random.below(5) {
            0 => self.at.wrapping_add(random.below(17)).wrapping_sub(8),
            1 => random.one(&bed.blocks),
            2 => len.wrapping_sub(random.below(160)),
            _ => random.place(len),
        };
    }

    /// One damage.
    fn damage(&mut self, bed: &Bed) {
        let kind = match self.random.below(32) {
            0..6 => 0,
            6..9 => 1,
            9..21 => 2,
            21..23 => 3,
            23 => 4,
            24..27 => 5,
            27..30 => 6,
            30 => 7,
            _ => 8,
        };
        let spots = (self.spot(bed), self.spot(bed));
        match (kind, spots) {
            (3, _) => {
                let len = self.cut(bed);
                self.resize(len);
            }
            (4, _) => {
                let more = 1 + self.random.below(200) as usize;
                self.resize(self.file.bytes().len() + more);
            }
            (7, _) => self.misplace(bed),
            (8, _) => self.widths[self.random.below(2) as usize] = self.random.width(),
            (5 | 6, (Some(a), Some(b))) => self.carry(kind == 5, a, b),
            (0..=2, (Some(spot), _)) => self.spoil(bed, kind, spot),
            // The file is cut before that place.
            _ => return,
        }
        self.damages[kind] += 1;
    }

    /// A bit flipped, a byte or the whole word set.
    fn spoil(&mut self, bed: &Bed, kind: usize, (at, size): Spot) {
        let byte = at + self.random.below(size as u64) as usize;
        let (old, bit) = (self.file.bytes()[byte], self.random.below(8));
        match kind {
            0 => self.put(byte, &[old ^ 1 << bit]),
            1 => {
                let any = self.random.byte();
                let new = self
                    .random
                    .one(&[0, 1, 0x7F, 0x80, 0xFF, old.wrapping_add(1), any]);
                self.put(byte, &[new]);
            }
            _ => {
                let new = self.telling(bed, size).to_le_bytes();
                self.put(at, &new[..size.min(8)]);
            }
        }
    }

    /// The header's checksum made right again, where the header is now sought.
    fn mend(&mut self) {
        if let Some((at, sum)) = right_checksum(self.file.bytes(), self.at, self.widths) {
            self.put(at, &sum);
        }
    }

    /// One to four damages; in 15 of 16 cases the checksum of the header is mended, if that is possible.
    fn spoiled(&mut self, bed: &Bed) {
        for _ in 0..1 + self.random.below(4) {
            self.damage(bed);
        }
        if self.random.below(16) > 0 {
            self.mend();
        }
    }

    /// Lends an ID of the heap, half of them damaged in one way.
    fn any_id(&mut self, bed: &Bed) {
        let random = &mut self.random;
        let mut id = bed.ids[random.below(bed.ids.len() as u64) as usize].clone();
        let n = id.len() as u64;
        let kind = random.below(8) as usize + 9;
        match kind {
            9 if n > 0 => id[random.below(n) as usize] ^= 1 << random.below(8),
            10 if n > 0 => id[random.below(n) as usize] = random.one(&[0, 1, 0x7F, 0x80, 0xFF]),
            11 => id.truncate(random.below(n + 1) as usize),
            12 => id.extend((0..1 + random.below(12)).map(|_| random.byte())),
            _ => return self.id.lay(&id, self.edge),
        }
        self.damages[kind] += 1;
        self.id.lay(&id, self.edge);
    }
}

/// What was compared.
#[derive(Default)]
struct Counts {
    /// By kind of heap: how many, how often damaged.
    heaps: [u64; KINDS.len()],
    damaged: [u64; KINDS.len()],
    /// Answers of reading by kind of heap and number, and those of decoding by number.
    read: [[u64; 11]; KINDS.len()],
    decoded: [u64; 11],
    /// Answers of the checked reader by number.
    checked: [u64; 20],
    pinned: u64,
    panics: Panics,
    /// By function, how often the original panicked; and in how many answers not as docs/DIFFERENCES.md says.
    panicked: [u64; 2],
    unknown: u64,
}

const READ: usize = 0;
const DECODE: usize = 1;

/// What the original answers by the ID without its padding. Where it panics in the case that DIFFERENCES.md knows (shifts
/// by the heap's bits), what it says to the part of the ID that counts; else nothing is due.
fn due<T>(
    counts: &mut Counts,
    function: usize,
    (header, view, id): (&Header, View, &[u8]),
    call: impl Fn(&[u8]) -> T,
) -> Option<T> {
    let bare = unpadded(header, id);
    let kind = match caught(|| call(&bare)) {
        Ok(answer) => return Some(answer),
        Err(kind) => kind,
    };
    let bits = header.fields()[7];
    let known = bits >= 64 && kind.ends_with("attempt to shift right with overflow");
    counts.panics.add(kind, view.file.len() + id.len(), || {
        let (n, file) = (id.len(), view.file.len());
        format!(
            "{bits} heap bits, ID of {n} bytes {}, file of {file} bytes",
            hex(id)
        )
    });
    counts.panicked[function] += 1;
    counts.unknown += u64::from(!known);
    known.then(|| call(counted(&bare)))
}

impl Counts {
    /// Both functions with one ID: the answers of ours.
    fn same(&mut self, work: &mut Work, parsed: Result<&Header, &Answer>) -> [Answer; 2] {
        let (view, id) = (work.view(), work.id.bytes());
        let (read, decoded) = (ours::read_in(view, id), ours::decode_in(view, id));
        let header = match parsed {
            Ok(header) => header,
            Err(refusal) => {
                assert_eq!(
                    [read, decoded],
                    [*refusal; 2],
                    "not parsed: {}",
                    told(view, id)
                );
                return [read, decoded];
            }
        };
        let input = (header, view, id);
        if let Some(due) = due(self, DECODE, input, |id| header.decode(id)) {
            assert_eq!(decoded, due, "decode: {}", told(view, id));
        }
        match due(self, READ, input, |id| {
            header.read(view.file, id, view.offset_size)
        }) {
            Some(Err(refusal)) => assert_eq!(read, refusal, "read: {}", told(view, id)),
            Some(Ok(bytes)) => self.found(work, header, read, &bytes),
            None => {
                let end = u128::from(read.1) + u128::from(read.2);
                let inside = read.0 > 0 || end <= view.file.len() as u128;
                assert!(inside, "{read:?}: {}", told(view, id));
            }
        }
        [read, decoded]
    }

    /// Ours must answer a place that holds the bytes; in one of 16 cases it is tried whether the original sees a
    /// change there.
    fn found(&mut self, work: &mut Work, header: &Header, read: Answer, bytes: &[u8]) {
        let (number, place, length) = read;
        let (view, id) = (work.view(), work.id.bytes());
        let found = view
            .file
            .get(place as usize..)
            .and_then(|rest| rest.get(..bytes.len()));
        let right = (number, length, found) == (0, bytes.len() as u64, Some(bytes));
        assert!(
            right,
            "{read:?} for {} bytes: {}",
            bytes.len(),
            told(view, id)
        );
        let w = view.offset_size;
        if work.random.below(16) > 0 {
            return;
        }
        let id = work.id.bytes().to_vec();
        let again = |file: &[u8]| match caught(|| header.read(file, &id, w)) {
            Ok(read) => read,
            Err(_) => header.read(file, counted(&id), w),
        };
        let pinned = pinned(work.file.bytes_mut(), place, bytes, again);
        let pinned = pinned.unwrap_or_else(|| panic!("{read:?}: {}", told(work.view(), &id)));
        self.pinned += u64::from(pinned);
    }

    /// The checked reader and its stopping block, by the address that the heap had.
    fn checked(&mut self, work: &Work, bed: &Bed, parsed: &Result<format::Parsed, Answer>) {
        let (view, id, address) = (work.view(), work.id.bytes(), bed.heap.at);
        let ended = checked_due(view, parsed, (view.offset_size, address), id);
        let got = [
            ours::checked(view, address, id),
            ours::stopping_block(view, address, id),
        ];
        let due = [ended.answer, ended.last()];
        assert_eq!(got, due, "address {address}, {}", told(view, id));
        self.checked[got[0].0 as usize] += 1;
    }

    /// A damaged heap with some IDs; fewer if its header is refused. One in four is read by the checked reader, too.
    fn heap(&mut self, work: &mut Work, bed: &Bed) {
        let parsed = format::parsed(work.view());
        self.damaged[bed.kind] += 1;
        for i in 0..if parsed.is_ok() { READS } else { 2 } {
            work.any_id(bed);
            if i % 4 == 0 {
                self.checked(work, bed, &parsed);
            }
            let header = parsed.as_ref().map(|parsed| &parsed.header);
            let [read, decoded] = self.same(work, header);
            self.read[bed.kind][read.0 as usize] += 1;
            self.decoded[decoded.0 as usize] += 1;
        }
    }

    fn reads(&self) -> u64 {
        self.read.iter().flatten().sum()
    }

    fn read_all(&self) -> [u64; 11] {
        std::array::from_fn(|i| self.read.iter().map(|by| by[i]).sum())
    }

    /// Every number that can occur has.
    fn complete(&self) {
        let (read, decoded) = (self.read_all(), self.decoded);
        let met = |times: &[u64]| times.iter().all(|&times| times > 0);
        assert!(met(&read[..10]) && read[10] == 0, "{read:?}");
        assert!(met(&decoded[..8]) && decoded[8..] == [0; 3], "{decoded:?}");
        let checked = self.checked;
        let is_due = |n: usize| matches!(n, 0..9 | 18 | 19) == (checked[n] > 0);
        assert!((0..checked.len()).all(is_due), "{checked:?}");
    }

    /// A line for each kind of heap, and the sums.
    fn table(&self) -> String {
        let mut out = format!(
            "{:<24}{:>8}{:>9}{:>10}{:>9}",
            "damaged heaps", "sound", "damaged", "answers", "accepted"
        );
        (1..10).for_each(|n| out += &format!("{:>9}", format!("by {n}")));
        let mut row = |name: &str, heaps: [String; 2], numbers: &[u64]| {
            let (total, [sound, damaged]) = (numbers.iter().sum::<u64>(), heaps);
            out += &format!("\n{name:<24}{sound:>8}{damaged:>9}{total:>10}");
            numbers[..10].iter().for_each(|n| out += &format!("{n:>9}"));
        };
        for (i, name) in KINDS.iter().enumerate() {
            let heaps = [self.heaps[i], self.damaged[i]].map(|n| n.to_string());
            row(name, heaps, &self.read[i]);
        }
        let heaps = [self.heaps, self.damaged].map(|n| n.iter().sum::<u64>().to_string());
        row("read, all", heaps, &self.read_all());
        row(
            "decoded, all",
            [String::new(), String::new()],
            &self.decoded,
        );
        out
    }

    /// All at once: another part may be printing beside this one.
    fn print(&self, damages: [u64; 13]) {
        let damages = DAMAGES.iter().zip(damages);
        let damages: Vec<String> = damages.map(|(name, n)| format!("{name} {n}")).collect();
        let checked = self.checked.iter().enumerate().skip(1);
        let checked = checked.filter(|(_, times)| **times > 0);
        let checked: Vec<String> = checked
            .map(|(n, times)| format!("by {n} {times}"))
            .collect();
        println!(
            "damage: checked reads accepted {}, {}",
            self.checked[0],
            checked.join(", ")
        );
        println!(
            "{}\ndamage: {}\ndamage: {} places pinned; 10 cannot occur (no path has more than 64 blocks), nor 8 and 9 in decoding (no filter is tested, no block met); {} panics of another kind than DIFFERENCES.md 5",
            self.table(),
            damages.join(", "),
            self.pinned,
            self.unknown
        );
        self.panics.print("damage");
    }
}

/// At least `n` reads; for valgrind in plain memory. Every damage is undone rather than the file laid anew.
pub fn run(n: u64, plain: bool) -> Vec<Row> {
    panics::quiet();
    let mut work = Work::new(50, plain);
    let mut counts = Counts::default();
    while counts.reads() < n {
        let bed = Bed::new(&mut work.random);
        counts.heaps[bed.kind] += 1;
        for edge in [Edge::End, Edge::Start] {
            work.lay(&bed, edge);
            for _ in 0..DAMAGED.min(n / 2000 + 1) {
                work.spoiled(&bed);
                counts.heap(&mut work, &bed);
                work.undo(&bed);
            }
            assert!(
                work.file.bytes() == bed.heap.file,
                "a damage that was not undone"
            );
        }
    }
    counts.print(work.damages);
    if !plain {
        counts.complete();
    }
    let mut rows = vec![
        row("reads of damaged files, C function", counts.reads())
            .with_panics(counts.panicked[READ]),
        row("their IDs decoded, C function", counts.decoded.iter().sum())
            .with_panics(counts.panicked[DECODE]),
        row(
            "checked reads of damaged files, C function",
            counts.checked.iter().sum(),
        ),
    ];
    rows.extend(one_byte::run(n / 8, plain));
    rows
}

/// A read outside, and a store, does end the program: tried in programs of their own.
fn guarded() {
    let program = std::env::current_exe().expect("the program's own name");
    for what in ["before", "behind", "store"] {
        let ended = Command::new(&program).args(["trespass", what]).status();
        let signal = ended.expect("a program that is started").signal();
        assert_eq!(signal, Some(11), "a byte {what}");
    }
}

/// As `run`, after a look whether the guards hold.
pub fn compare(n: u64) -> Vec<Row> {
    guarded();
    run(n, false)
}

/// Lends 100 bytes with that end at the edge, and reads or writes where this must end the program.
pub fn trespass(what: &str, plain: bool) {
    let mut lent = Lent::new(4096, plain);
    let edge = if what == "before" {
        Edge::Start
    } else {
        Edge::End
    };
    lent.lay(&[7; 100], edge);
    lent.trespass(what);
}
