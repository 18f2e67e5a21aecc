//! One byte changed in a file, and the checked reader: in a block on the way to an object, where the block is refused;
//! anywhere else but in the heap's header, where nothing changes. File and ID are lent with nothing readable around them.
use crate::checked::due;
use crate::checked_reader::{Ended, HEAP_BITS, Reader};
use crate::format;
use crate::guarded::{Edge, Lent};
use crate::heap::told;
use crate::made::{self, Heap};
use crate::ours::{self, View};
use crate::random::Random;
use crate::sealed::{Sealed, sealed};
use crate::summary::{Row, row};
use original::Answer;
use std::ops::Range;

/// As many bytes as a file can have here.
const ROOM: usize = 1 << 20;

/// Places that are changed for each object: in the blocks on the way, and elsewhere.
const PLACES: usize = 24;

/// A block's bytes in the file, and how many of them, from its start on, a reader tests.
struct Bytes {
    all: Range<usize>,
    tested: usize,
    header: usize,
}

/// A read that is accepted, in a file as it was written.
struct Sound {
    heap: Heap,
    handed_in: u64,
    id: Vec<u8>,
    answer: Answer,
    blocks: Vec<Bytes>,
    header: Range<usize>,
    numbers: [u64; format::COUNT],
}

/// What came of the changes.
#[derive(Default)]
struct Counts {
    objects: u64,
    /// Refused at the block that was changed, by number: 4, 5, 18, 19; by 1, 6 .. where an entry is one of them.
    refused: [u64; 20],
    /// Accepted, since the checksum of what was changed is the one that is stored.
    met: u64,
    /// In a direct block without a checksum, behind the eighth byte of its heap offset.
    ninth: u64,
    /// In such a block, behind its header: the bytes that are there now.
    untested: u64,
    elsewhere: u64,
}

impl Sound {
    /// If the read is accepted, and the object not empty, unless no ID of the heap has a length.
    fn new(heap: &Heap, handed_in: u64, id: &[u8]) -> Option<Self> {
        let parsed = format::parsed_of(heap);
        let view = ours::view_of(heap);
        let w = heap.offset_size;
        let Ended { answer, blocks } = due(view, &parsed, (w, handed_in), id);
        let numbers = parsed.ok()?.numbers;
        if answer.0 != 0 || answer.2 == 0 && numbers[HEAP_BITS] < 64 {
            return None;
        }
        let reader = Reader {
            file: &heap.file,
            numbers: &numbers,
            w,
            header_address: handed_in,
        };
        let bytes = |block: &crate::checked_reader::Block| {
            let layout = reader.layout(block.kind);
            let (at, length) = (block.address as usize, layout.length as usize);
            let header = layout.header as usize;
            Bytes {
                all: at..at + length,
                // Of a heap offset the first eight bytes count.
                tested: match layout.sum {
                    Some(_) => length,
                    None => header.min(5 + usize::from(w) + 8),
                },
                header,
            }
        };
        let at = heap.at as usize;
        let length = format::before_sum([w, heap.length_size], numbers[1] as u16) + 4;
        Some(Sound {
            handed_in,
            id: id.to_vec(),
            answer,
            blocks: blocks.iter().map(bytes).collect(),
            header: at..at + length,
            numbers,
            heap: heap.clone(),
        })
    }

    fn view<'l>(&self, file: &'l Lent) -> View<'l> {
        View {
            file: file.bytes(),
            at: self.heap.at,
            offset_size: self.heap.offset_size,
            length_size: self.heap.length_size,
        }
    }

    /// The checked reader's answer.
    fn read(&self, file: &Lent, id: &Lent) -> Answer {
        ours::checked(self.view(file), self.handed_in, id.bytes())
    }

    fn said(&self, file: &Lent, place: usize) -> String {
        format!(
            "byte {place} changed, address {}: {}",
            self.handed_in,
            told(self.view(file), &self.id)
        )
    }

    /// The bytes of the object.
    fn object<'f>(&self, file: &'f [u8]) -> &'f [u8] {
        &file[self.answer.1 as usize..][..self.answer.2 as usize]
    }
}

impl Counts {
    /// A byte of a block on the way, changed already.
    fn in_block(&mut self, sound: &Sound, lent: [&Lent; 2], at: &Bytes, place: usize) {
        let [file, id] = lent;
        let got = sound.read(file, id);
        let said = || format!("{got:?}, {}", sound.said(file, place));
        if place >= at.all.start + at.tested {
            // Nothing tests it, and the object is where it was.
            assert_eq!(got, sound.answer, "{}", said());
            match place < at.all.start + at.header {
                true => self.ninth += 1,
                false => self.untested += 1,
            }
            return;
        }
        if got.0 > 0 {
            self.refused[got.0 as usize] += 1;
            return;
        }
        // The other reader says that nothing tells the change.
        let reader = Reader {
            file: file.bytes(),
            numbers: &sound.numbers,
            w: sound.heap.offset_size,
            header_address: sound.handed_in,
        };
        let parsed = format::parsed(sound.view(file));
        let parsed = parsed.unwrap_or_else(|refusal| panic!("{refusal:?}, {}", said()));
        let sought = crate::checked::sought(&parsed.header, &sound.id);
        assert_eq!(reader.read(sought).answer, got, "{}", said());
        let same = sound.object(file.bytes()) == sound.object(&sound.heap.file);
        assert!(got == sound.answer && same, "{}", said());
        self.met += 1;
    }

    /// A byte elsewhere, changed already: the answer and the bytes are those of before, and the stopping block.
    fn elsewhere(&mut self, sound: &Sound, [file, id]: [&Lent; 2], place: usize, last: Answer) {
        let got = [
            sound.read(file, id),
            ours::stopping_block(sound.view(file), sound.handed_in, id.bytes()),
        ];
        assert_eq!(got, [sound.answer, last], "{}", sound.said(file, place));
        let object = sound.object(file.bytes());
        assert!(
            object == sound.object(&sound.heap.file),
            "{}",
            sound.said(file, place)
        );
        self.elsewhere += 1;
    }

    /// An object, in a file that is lent, with one byte changed after the other, each put back.
    fn object(&mut self, random: &mut Random, [file, id]: [&mut Lent; 2], sound: &Sound) {
        self.objects += 1;
        id.lay(&sound.id, Edge::End);
        assert_eq!(
            sound.read(file, id),
            sound.answer,
            "{}",
            sound.said(file, 0)
        );
        let last = ours::stopping_block(sound.view(file), sound.handed_in, id.bytes());
        for _ in 0..PLACES {
            let at = &sound.blocks[random.below(sound.blocks.len() as u64) as usize];
            let most = match random.below(3) {
                0 => at.all.len().min(50),
                _ => at.all.len(),
            };
            let place = at.all.start + random.below(most as u64) as usize;
            // Where blocks lie over the header or over each other it is not said which is changed.
            let is_alone = sound
                .blocks
                .iter()
                .filter(|b| b.all.contains(&place))
                .count()
                == 1;
            if is_alone && !sound.header.contains(&place) {
                changed(random, file, place, |file| {
                    self.in_block(sound, [file, id], at, place)
                });
            }
            let place = random.below(sound.heap.file.len() as u64) as usize;
            let is_elsewhere = !sound.blocks.iter().any(|b| b.all.contains(&place));
            if is_elsewhere && !sound.header.contains(&place) {
                changed(random, file, place, |file| {
                    self.elsewhere(sound, [file, id], place, last);
                });
            }
        }
    }

    fn complete(&self) {
        let refused = self.refused;
        for number in [4, 5, 18, 19] {
            assert!(refused[number] > 100, "{} by {number}", refused[number]);
        }
        let others: u64 =
            refused.iter().sum::<u64>() - [4, 5, 18, 19].map(|n| refused[n]).iter().sum::<u64>();
        assert_eq!(others, 0, "refused for another cause: {refused:?}");
        assert!(self.ninth > 100, "{}", self.ninth);
        let others = [self.untested, self.elsewhere];
        assert!(others.iter().all(|&times| times > 1000), "{others:?}");
    }

    /// Changes of a byte of a block on the way.
    fn in_blocks(&self) -> u64 {
        self.refused.iter().sum::<u64>() + self.met + self.ninth + self.untested
    }
}

/// With a byte changed, and put back.
fn changed(random: &mut Random, file: &mut Lent, place: usize, then: impl FnOnce(&Lent)) {
    let old = file.bytes()[place];
    file.bytes_mut()[place] ^= match random.below(2) {
        0 => 1 << random.below(8),
        _ => 1 + random.below(255) as u8,
    };
    then(file);
    file.bytes_mut()[place] = old;
}

/// A heap with objects that are read: laid out along one way under any table, or written by ours, with checksums in its
/// direct blocks or without.
fn heap(random: &mut Random) -> (Heap, u64, Vec<Vec<u8>>) {
    let flags = random.one(&[2, 2, 0]);
    if random.below(4) > 0 {
        let made @ Sealed { handed_in, .. } = sealed(random, flags);
        let ids = made.ids();
        return (made.heap, handed_in, ids);
    }
    let w = random.one(&[2, 4, 8]);
    let (n, most) = random.one(&[(6, 100), (12, 1500), (9, 3000)]);
    let list: Vec<u64> = (0..n).map(|_| 1 + random.below(most)).collect();
    let written = made::written_by(ours::region, random, &list, [w, 8], 60);
    let mut heap = written.heap;
    heap.file[written.header.start + 9] = flags;
    heap.mend();
    let at = heap.at;
    let ids = written.objects.into_iter().step_by(3).map(|o| o.id);
    (heap, at, ids.collect())
}

/// At least `n` reads of a file with a byte changed; for valgrind in plain memory.
pub fn run(n: u64, plain: bool) -> Vec<Row> {
    let mut random = Random::new(53);
    let (mut file, mut id) = (Lent::new(ROOM, plain), Lent::new(4096, plain));
    let mut counts = Counts::default();
    while counts.in_blocks() + counts.elsewhere < n {
        let (heap, handed_in, ids) = heap(&mut random);
        if heap.file.len() > ROOM {
            continue;
        }
        let edge = random.one(&[Edge::End, Edge::Start]);
        file.lay(&heap.file, edge);
        for sound in ids.iter().filter_map(|id| Sound::new(&heap, handed_in, id)) {
            counts.object(&mut random, [&mut file, &mut id], &sound);
        }
        assert!(file.bytes() == heap.file, "a byte that was not put back");
    }
    let [four, five, sum, foreign] = [4, 5, 18, 19].map(|number| counts.refused[number]);
    println!(
        "damage: one byte changed, {} objects: in a block on the way refused by 4 {four}, 5 {five}, 18 {sum}, 19 {foreign}, \
         not told {}, in no checksum {}, behind eight bytes of an offset {}; elsewhere the same {}",
        counts.objects, counts.met, counts.untested, counts.ninth, counts.elsewhere
    );
    if !plain {
        counts.complete();
    }
    vec![
        row(
            "checked reads, a byte of a block on the way changed",
            counts.in_blocks(),
        ),
        row("  accepted, since the checksum met", counts.met),
        row(
            "  behind the header of a block without a checksum",
            counts.untested,
        ),
        row(
            "  behind the eighth byte of a heap offset there",
            counts.ninth,
        ),
        row("checked reads, a byte elsewhere changed", counts.elsewhere),
    ]
}
