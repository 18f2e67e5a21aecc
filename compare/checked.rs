//! The checked reader, ours against one that is written from the format alone (`checked_reader.rs`): every answer by number
//! and pair, the block at which each read ends, and all lent memory. The original has no such reader; what is accepted
//! must be what it reads.
use crate::checked_reader::{Ended, Reader};
use crate::format;
use crate::heap::{hex, told};
use crate::ids::{Sizes, by_format};
use crate::made::{self, Heap, Written};
use crate::ours::{self, View, view_of};
use crate::panics;
use crate::random::Random;
use crate::sealed::{DAMAGES, LONGEST, Sealed, sealed};
use crate::summary::{Row, row};
use original::Answer;

/// One more than the largest number of a refusal here.
const NUMBERS: usize = 20;

/// Offset and length of a managed ID by the format, or why it is none.
pub fn sought(header: &original::Header, id: &[u8]) -> Result<(u64, u64), Answer> {
    match id.first().map(|first| first >> 4 & 3) {
        None => Err((1, 1, 0)),
        Some(0) => Ok(by_format(Sizes::of(header), id)),
        Some(kind) => Err((6, kind.into(), 0)),
    }
}

/// What a read has to end with, at an offset size that may be another one than the header's.
pub fn due(
    view: View,
    parsed: &Result<format::Parsed, Answer>,
    (w, header_address): (u8, u64),
    id: &[u8],
) -> Ended {
    match parsed {
        Err(refusal) => Ended {
            answer: *refusal,
            blocks: Vec::new(),
        },
        Ok(parsed) => {
            let reader = Reader {
                file: view.file,
                numbers: &parsed.numbers,
                w,
                header_address,
            };
            reader.read(sought(&parsed.header, id))
        }
    }
}

/// What was compared, by kind of damage.
#[derive(Default)]
struct Counts {
    heaps: [u64; DAMAGES.len()],
    numbers: [[u64; NUMBERS]; DAMAGES.len()],
    /// By number, of all that is not counted above: heaps that the original wrote.
    written: [u64; NUMBERS],
    /// By number, of headers with numbers at their ends.
    extreme: [u64; NUMBERS],
    /// Reads by how many blocks they come to: none, the root alone, ..
    depths: Vec<u64>,
    /// Blocks at which a read ends that is read at another offset size.
    sized: u64,
    /// Answers by the offset sizes 2, 4 and 8, and by flags.
    widths: [u64; 3],
    flags: Vec<u64>,
    /// Accepted reads that the original reads, too.
    by_original: u64,
}

impl Counts {
    fn new() -> Self {
        Counts {
            depths: vec![0; LONGEST + 1],
            flags: vec![0; 256],
            ..Counts::default()
        }
    }

    /// One ID of a heap.
    fn id(
        &mut self,
        heap: &Heap,
        parsed: &Result<format::Parsed, Answer>,
        handed_in: u64,
        id: &[u8],
    ) -> Answer {
        let view = view_of(heap);
        let ended = due(view, parsed, (heap.offset_size, handed_in), id);
        let got = [
            ours::checked(view, handed_in, id),
            ours::stopping_block(view, handed_in, id),
        ];
        let at = || format!("address {handed_in}, {}, {ended:?}", told(view, id));
        assert_eq!(got, [ended.answer, ended.last()], "checked: {}", at());
        self.depths[ended.blocks.len()] += 1;
        if ended.answer.0 == 0 {
            assert_eq!(ours::read(heap, id), ended.answer, "unchecked: {}", at());
        }
        ended.answer
    }

    /// The same at an offset size that is not the header's.
    fn at_size(
        &mut self,
        heap: &Heap,
        parsed: &Result<format::Parsed, Answer>,
        (w, handed_in): (u8, u64),
        id: &[u8],
    ) {
        let view = view_of(heap);
        let ended = due(view, parsed, (w, handed_in), id);
        let got = ours::checked_sized(heap, (w, handed_in), id);
        assert_eq!(
            got,
            ended.answer,
            "at offset size {w}, address {handed_in}: {}, {ended:?}",
            told(view, id)
        );
        self.sized += 1;
    }

    /// A heap, with all its IDs, and many in one call.
    fn heap(&mut self, random: &mut Random, made: &Sealed, damage: usize) {
        let heap = &made.heap;
        let parsed = format::parsed_of(heap);
        self.heaps[damage] += 1;
        self.flags[usize::from(made.flags)] += 1;
        let ids = made.ids();
        for id in &ids {
            let answer = self.id(heap, &parsed, made.handed_in, id);
            self.numbers[damage][answer.0 as usize] += 1;
            if let 2 | 4 | 8 = heap.offset_size {
                self.widths[heap.offset_size.ilog2() as usize - 1] += 1;
            }
            if let (0, Ok(parsed)) = (answer.0, &parsed)
                && random.below(32) == 0
            {
                self.original(heap, parsed, answer, id);
            }
        }
        if random.below(8) == 0 {
            let w = random.width();
            self.at_size(heap, &parsed, (w, made.handed_in), random.one(&refs(&ids)));
            let id = odd_id(random, &ids[0]);
            let answer = self.id(heap, &parsed, made.handed_in, &id);
            self.numbers[damage][answer.0 as usize] += 1;
        }
        if random.below(64) == 0 {
            each(made, &ids);
        }
    }

    /// The original reads the same bytes.
    fn original(&mut self, heap: &Heap, parsed: &format::Parsed, answer: Answer, id: &[u8]) {
        let (_, at, length) = answer;
        let bytes = &heap.file[at as usize..][..length as usize];
        let bare = crate::ids::unpadded(&parsed.header, id);
        let bare = match parsed.numbers[19] {
            0..64 => &bare[..],
            _ => crate::heap::counted(&bare),
        };
        let read = parsed.header.read(&heap.file, bare, heap.offset_size);
        assert_eq!(read.as_deref(), Ok(bytes), "{}", told(view_of(heap), id));
        self.by_original += 1;
    }

    /// A heap that the original wrote, whose direct blocks have checksums whatever the flags say: every object that is not
    /// empty comes back.
    fn written(&mut self, random: &mut Random, written: Written) {
        let Written {
            mut heap,
            objects,
            header,
            ..
        } = written;
        heap.file[header.start + 9] = random.byte();
        heap.mend();
        let parsed = format::parsed_of(&heap);
        for object in &objects {
            let answer = self.id(&heap, &parsed, heap.at, &object.id);
            let (number, at, length) = answer;
            self.written[number as usize] += 1;
            if !object.bytes.is_empty() {
                let found = &heap.file[at as usize..][..length as usize];
                assert_eq!(
                    (number, found),
                    (0, &object.bytes[..]),
                    "{}",
                    hex(&object.id)
                );
            }
        }
    }
}

/// An ID that is short, of another type, or padded.
fn odd_id(random: &mut Random, id: &[u8]) -> Vec<u8> {
    let mut id = id.to_vec();
    match random.below(3) {
        0 => id[0] = random.byte(),
        1 => id.truncate(random.below(10) as usize),
        _ => id.extend((0..random.below(20)).map(|i| i as u8)),
    }
    id
}

fn refs(ids: &[Vec<u8>]) -> Vec<&[u8]> {
    ids.iter().map(Vec::as_slice).collect()
}

/// Many reads in one call, and slots that are too short.
fn each(made: &Sealed, ids: &[Vec<u8>]) {
    const MARK: u64 = 0xA5A5_5A5A_A5A5_5A5A;
    let (heap, handed_in) = (&made.heap, made.handed_in);
    let ids: Vec<&[u8]> = ids.iter().map(|id| &id[..8]).collect();
    let mut wanted = vec![MARK; 3 * ids.len() + 2];
    let parsed = ours::parse(heap, &mut [0; format::COUNT]);
    for (i, id) in ids.iter().enumerate().filter(|_| parsed == 0) {
        let (number, x, y) = ours::checked(view_of(heap), handed_in, id);
        wanted[3 * i..3 * i + 3].copy_from_slice(&[number.into(), x, y]);
    }
    let mut found = vec![MARK; wanted.len()];
    let number = ours::checked_each(heap, handed_in, &ids.concat(), &mut found);
    assert_eq!((number, &found), (parsed, &wanted), "reads in one call");
    for len in [0, 8, 15] {
        ours::short_checked_slot(len, heap, handed_in, ids[0]);
    }
}

/// Objects of a heap that the original writes: of one block, of some, of nested ones.
fn written_heap(random: &mut Random) -> Written {
    let w = random.one(&[2, 4, 8]);
    let (n, most) = match random.below(24) {
        0 => (40, 60_000),
        1..8 => (30, 1500),
        _ => (12, 80),
    };
    let w = if most > 2000 { w.max(4) } else { w };
    let list: Vec<u64> = (0..random.below(n)).map(|_| random.below(most)).collect();
    let l = random.one(&[4, 8]);
    made::written(random, &list, [w, l], 60)
}

impl Counts {
    /// Block sizes of 0, around a block header's and up to the largest; roots at the ends of the file and of the addresses;
    /// heap offsets of no bytes and of thousands; files with a block or without a byte.
    fn extremes(&mut self, random: &mut Random) {
        let sizes = [0, 1, 13, 21, 22, 1024, 1 << 63, u64::MAX - 1, u64::MAX];
        for (w, rows, flags) in [2, 4, 8].into_iter().flat_map(|w| {
            [0, 1, 2, 65_535]
                .into_iter()
                .flat_map(move |rows| [0, 2].map(|flags| (w, rows, flags)))
        }) {
            for (&starting, bits) in sizes
                .iter()
                .flat_map(|s| [0, 8, 40, 64, 65, 65_535].map(|b| (s, b)))
            {
                let head = made::Head {
                    starting,
                    largest: random.one(&sizes),
                    width: random.one(&[0, 1, 4, 65_535]),
                    bits,
                    rows,
                    largest_managed: Some(u32::MAX),
                    ..made::fixed(0, 0)
                };
                self.at_ends(random, head, (w, flags));
            }
        }
    }

    /// The root at every place that is an end.
    fn at_ends(&mut self, random: &mut Random, mut head: made::Head, (w, flags): (u8, u8)) {
        let mut front = if head.rows == 0 {
            b"FHDB".to_vec()
        } else {
            b"FHIB".to_vec()
        };
        front.resize(80, 0);
        let largest = u64::MAX >> (64 - 8 * u32::from(w));
        for root in [0, 79, 80, 81, largest - 1, largest, largest / 2] {
            head.root = root;
            let mut heap = made::behind(random, front.clone(), &head, [w, 8]);
            heap.file[heap.at as usize + 9] = flags;
            heap.mend();
            let parsed = format::parsed_of(&heap);
            for (offset, length) in [(0, 0), (0, 1), (22, u64::MAX), (u64::MAX, 1), (1 << 39, 9)] {
                let id = made::packed(0, head.bits, offset, length);
                for handed_in in [0, u64::MAX] {
                    let answer = self.id(&heap, &parsed, handed_in, &id);
                    self.extreme[answer.0 as usize] += 1;
                }
            }
            let empty = Heap {
                file: Vec::new(),
                ..heap
            };
            let answer = self.id(&empty, &format::parsed_of(&empty), 0, &[0; 8]);
            self.extreme[answer.0 as usize] += 1;
        }
    }
}

/// At least `n` heaps, each sound and with several things wrong.
pub fn compare(n: u64) -> Vec<Row> {
    panics::quiet();
    let (mut random, mut counts) = (Random::new(47), Counts::new());
    for _ in 0..n / 100 {
        let written = written_heap(&mut random);
        counts.written(&mut random, written);
    }
    counts.extremes(&mut random);
    let mut flags = 0;
    while counts.heaps.iter().sum::<u64>() < n {
        flags = (flags + 1) % 256;
        // Half of them with checksums in direct blocks, and no other flag that is known.
        let set = if random.below(2) == 0 { 2 } else { flags as u8 };
        let sound = sealed(&mut random, set);
        counts.heap(&mut random, &sound, 0);
        for _ in 0..6 {
            let mut damaged = sound.clone();
            let kind = 1 + random.below(DAMAGES.len() as u64 - 1) as usize;
            damaged.damage(&mut random, kind);
            counts.heap(&mut random, &damaged, kind);
        }
    }
    counts.print();
    counts.complete();
    counts.rows()
}

impl Counts {
    fn answers(&self) -> [u64; NUMBERS] {
        std::array::from_fn(|i| self.numbers.iter().map(|by| by[i]).sum())
    }

    /// A line for each kind of damage.
    fn print(&self) {
        let numbers = [0, 1, 2, 3, 4, 5, 6, 7, 8, 18, 19];
        let mut out = format!("{:<32}{:>9}", "checked reads", "heaps");
        for number in numbers {
            let name = if number == 0 {
                "accepted".into()
            } else {
                format!("by {number}")
            };
            out += &format!("{name:>9}");
        }
        let mut line = |name: &str, heaps: u64, by: &[u64; NUMBERS]| {
            out += &format!("\n{name:<32}{heaps:>9}");
            numbers
                .iter()
                .for_each(|&n| out += &format!("{:>9}", by[n]));
        };
        for (i, name) in DAMAGES.iter().enumerate() {
            line(name, self.heaps[i], &self.numbers[i]);
        }
        line("all", self.heaps.iter().sum(), &self.answers());
        println!(
            "{out}\nchecked: by offset size 2, 4, 8: {:?}; by 62 to 65 blocks on the way: {:?}; {} read by the original, too; {} at another offset size; 9 and 10 never; at the ends of numbers {:?}",
            self.widths,
            &self.depths[62..],
            self.by_original,
            self.sized,
            self.extreme
        );
    }

    /// Every number that can occur has, and every flag.
    fn complete(&self) {
        let answers = self.answers();
        for (number, &times) in answers.iter().enumerate() {
            match number {
                9..18 => assert_eq!(times, 0, "by {number}"),
                _ => assert!(times >= 100, "{times} by {number}"),
            }
        }
        assert!(
            self.flags.iter().all(|&times| times > 0),
            "{:?}",
            self.flags
        );
        assert!(
            self.widths.iter().all(|&times| times > 1000),
            "{:?}",
            self.widths
        );
        // Of 64 indirect blocks and a direct one, too, which is below the counter's last.
        assert!(
            self.depths.iter().all(|&times| times > 100),
            "{:?}",
            self.depths
        );
        for number in [0, 1, 4, 19] {
            let times = self.extreme[number];
            assert!(times > 0, "none at the ends by {number}");
        }
        // A sound heap whose blocks have the address that is handed in gives most of its objects.
        let sound = &self.numbers[0];
        assert!(sound[0] > sound.iter().sum::<u64>() / 4, "{sound:?}");
    }

    fn rows(&self) -> Vec<Row> {
        let answers = self.answers().iter().sum();
        vec![
            row(
                "heaps, sound and damaged, by flags 0 to 255",
                self.heaps.iter().sum(),
            ),
            row("checked reads of them, and their stopping blocks", answers),
            row(
                "checked reads under headers with numbers at their ends",
                self.extreme.iter().sum(),
            ),
            row(
                "checked reads of heaps that the original wrote",
                self.written.iter().sum(),
            ),
        ]
    }
}
