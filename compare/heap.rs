//! Headers, IDs and reading without tests of the blocks, ours against the original: every number of every answer, and all
//! lent memory. The reader that tests blocks is compared in `checked.rs`.
//! The original answers a read by bytes: ours must answer a place that holds them, and the original must see
//! a change of the byte at that place.
use crate::format;
use crate::ids::{Sizes, by_format, unpadded};
use crate::made::{self, Heap, Object, Written};
use crate::ours::{self, View, view_of};
use crate::panics::{self, Panics, caught};
use crate::random::Random;
use crate::summary::{Row, row};
use original::{Answer, Header};

const CALLS: [&str; 5] = ["parse", "decode", "read", "tiny", "id type"];
const PARSE: usize = 0;
const DECODE: usize = 1;
const READ: usize = 2;
const TINY: usize = 3;
const TYPE: usize = 4;

/// What a lent place holds before a call.
const MARK: u64 = 0xA5A5_5A5A_A5A5_5A5A;

/// Heaps of one group: how many, and how often which call gave which number.
#[derive(Default)]
struct Comparison {
    heaps: u64,
    numbers: [[u64; 11]; 5],
    pinned: u64,
    /// Headers that were accepted, without filters and with them, by offset size and length size of 2, 4 and 8.
    accepted: [[[u64; 3]; 3]; 2],
    all_heaps: u64,
    all: [u64; 11],
    panics: Panics,
}

pub fn hex(bytes: &[u8]) -> String {
    let front = bytes.iter().take(3000);
    front.map(|b| format!("{b:02x}")).collect()
}

/// A heap and an ID in words, for a difference.
pub fn told(view: View, id: &[u8]) -> String {
    format!(
        "header at {}, offset size {}, length size {}, ID {}, file of {} bytes {}",
        view.at,
        view.offset_size,
        view.length_size,
        hex(id),
        view.file.len(),
        hex(view.file)
    )
}

fn what(heap: &Heap, id: &[u8]) -> String {
    told(view_of(heap), id)
}

/// The part of an ID that counts where the heap has 64 bits or more: the offset is the first eight bytes
/// after the first, and the length is 0. For so short an ID the original answers just that.
pub fn counted(id: &[u8]) -> &[u8] {
    &id[..id.len().min(9)]
}

impl Comparison {
    fn count(&mut self, call: usize, number: u32) {
        self.numbers[call][number as usize] += 1;
    }

    /// The refusal or the fields: those that the original keeps are its own, and all of them by the format; places past
    /// them as they were.
    fn parse(&mut self, heap: &Heap) -> Result<Header, Answer> {
        let (w, l) = (heap.offset_size, heap.length_size);
        let due = format::parsed_of(heap);
        let (mut fields, mut wanted) = ([MARK; format::COUNT + 2], [MARK; format::COUNT + 2]);
        let number = match &due {
            Ok(parsed) => {
                wanted[..format::COUNT].copy_from_slice(&parsed.numbers);
                let accepted = &mut self.accepted[usize::from(parsed.has_filters())];
                accepted[w.ilog2() as usize - 1][l.ilog2() as usize - 1] += 1;
                0
            }
            &Err((number, x, y)) => {
                wanted[..2].copy_from_slice(&[x, y]);
                number
            }
        };
        let got = ours::parse(heap, &mut fields);
        assert_eq!(
            (got, fields),
            (number, wanted),
            "parse: {}",
            what(heap, &[])
        );
        // the loader's function leaves the list where it refuses
        if number > 0 {
            wanted = [MARK; format::COUNT + 2];
        }
        fields = [MARK; format::COUNT + 2];
        let answer = due.as_ref().err().copied().unwrap_or((0, 0, 0));
        let got = ours::header_fields(heap, &mut fields);
        assert_eq!(
            (got, fields),
            (answer, wanted),
            "fields: {}",
            what(heap, &[])
        );
        self.count(PARSE, number);
        due.map(|parsed| parsed.header)
    }

    fn panicked(&mut self, kind: String, call: usize, bits: u64, file: usize, id: &[u8]) {
        self.panics.add(kind, file + id.len(), || {
            format!(
                "{}, {bits} heap bits, ID of {} bytes {}, file of {file} bytes",
                CALLS[call],
                id.len(),
                hex(id)
            )
        });
    }

    /// The original by the ID without its padding, and where it accepts the format. Where the original panics, ours is
    /// held to the rules' words, and the answer is not counted.
    fn decode(&mut self, heap: &Heap, header: &Header, id: &[u8]) {
        let got = ours::decode(heap, id);
        let bare = unpadded(header, id);
        let due = match caught(|| header.decode(&bare)) {
            Ok(due) => {
                self.count(DECODE, due.0);
                due
            }
            Err(kind) => {
                self.panicked(kind, DECODE, header.fields()[7], heap.file.len(), id);
                header.decode(counted(&bare))
            }
        };
        assert_eq!(got, due, "decode: {}", what(heap, id));
        if due.0 == 0 {
            let by_format = by_format(Sizes::of(header), id);
            assert_eq!((due.1, due.2), by_format, "decode: {}", what(heap, id));
        }
    }

    /// At the offset size of the parse by the loader's function, at any other by that of the tests. The original reads by
    /// the ID without its padding.
    fn read(&mut self, heap: &mut Heap, header: &Header, read_size: u8, id: &[u8]) {
        let got = if read_size == heap.offset_size {
            ours::read(heap, id)
        } else {
            ours::read_sized(heap, read_size, id)
        };
        let bare = unpadded(header, id);
        let due = match caught(|| header.read(&heap.file, &bare, read_size)) {
            Ok(due) => {
                self.count(READ, due.as_ref().map_or_else(|refusal| refusal.0, |_| 0));
                due
            }
            Err(kind) => {
                self.panicked(kind, READ, header.fields()[7], heap.file.len(), id);
                header.read(&heap.file, counted(&bare), read_size)
            }
        };
        let at = |heap: &Heap| format!("read at offset size {read_size}: {}", what(heap, id));
        match due {
            Err(refusal) => assert_eq!(got, refusal, "{}", at(heap)),
            Ok(bytes) => {
                let (number, place, length) = got;
                assert_eq!((number, length), (0, bytes.len() as u64), "{}", at(heap));
                let again = |file: &[u8]| header.read(file, &bare, read_size);
                let pinned = pinned(&mut heap.file, place, &bytes, again);
                let pinned = pinned.unwrap_or_else(|| panic!("place {place}: {}", at(heap)));
                self.pinned += u64::from(pinned);
            }
        }
    }

    fn tiny(&mut self, heap_id_length: u16, id: &mut [u8]) {
        let got = ours::tiny(heap_id_length, id);
        let at = |id: &[u8]| format!("tiny: heap ID length {heap_id_length}, ID {}", hex(id));
        match caught(|| original::tiny(heap_id_length, id)) {
            Err(kind) => {
                self.panicked(kind, TINY, 0, 0, id);
                assert_eq!((got, id.len()), ((1, 1, 0), 0), "{}", at(id));
                return;
            }
            Ok(Err(refusal)) => assert_eq!(got, refusal, "{}", at(id)),
            Ok(Ok(bytes)) => {
                assert_eq!((got.0, got.2), (0, bytes.len() as u64), "{}", at(id));
                let again = |id: &[u8]| original::tiny(heap_id_length, id);
                let pinned = pinned(id, got.1, &bytes, again);
                assert_eq!(pinned, Some(true), "place {}: {}", got.1, at(id));
            }
        }
        self.count(TINY, got.0);
    }

    fn id_type(&mut self, id: &[u8]) {
        let due = original::id_type(id);
        assert_eq!(ours::id_type(id), due, "ID type: {}", hex(id));
        self.count(TYPE, due.0);
    }

    /// One heap with some IDs: every call, at the offset size of the parse and at another.
    fn heap(&mut self, heap: &mut Heap, read_size: u8, ids: &mut [Vec<u8>]) {
        self.heaps += 1;
        let parsed = self.parse(heap);
        for id in &mut *ids {
            match &parsed {
                Ok(header) => {
                    self.decode(heap, header, id);
                    self.read(heap, header, heap.offset_size, id);
                    if read_size != heap.offset_size {
                        self.read(heap, header, read_size, id);
                    }
                    self.tiny(header.fields()[0] as u16, id);
                }
                &Err(refusal) => {
                    let sized = ours::read_sized(heap, read_size, id);
                    let got = [ours::decode(heap, id), ours::read(heap, id), sized];
                    assert_eq!(got, [refusal; 3], "not parsed: {}", what(heap, id));
                }
            }
            self.id_type(id);
        }
        if self.heaps % 64 == 0 {
            short(heap, &ids[0]);
            each(heap, ids);
        }
    }
}

/// Whether the bytes at the place are those, and the answer changes with the byte at the place: none if
/// not. False if the place cannot be held to the answer: no bytes, or the change leads elsewhere, as in an
/// entry on the way; it may lead to the same bytes, so another bit is tried then.
pub fn pinned(
    file: &mut [u8],
    place: u64,
    bytes: &[u8],
    again: impl Fn(&[u8]) -> Result<Vec<u8>, Answer>,
) -> Option<bool> {
    let place = usize::try_from(place).ok()?;
    let end = place.checked_add(bytes.len())?;
    if file.get(place..end)? != bytes {
        return None;
    }
    let Some(&first) = bytes.first() else {
        return Some(false);
    };
    (0..8).rev().find_map(|bit| {
        file[place] ^= 1 << bit;
        let changed = again(file);
        file[place] ^= 1 << bit;
        match changed {
            Ok(other) if other == bytes => None,
            Ok(other) => Some(other[..1] == [first ^ 1 << bit] && other[1..] == bytes[1..]),
            Err(_) => Some(false),
        }
    })
}

/// Slots and fields that are too short: 13, and nothing is written, the file neither.
fn short(heap: &Heap, id: &[u8]) {
    let before = heap.file.clone();
    for len in [0, 1, 8, 15] {
        ours::short_heap_slot(len, heap, id);
    }
    for len in [0, 1, 2, 12, format::FIELD_COUNT, format::COUNT - 1] {
        let mut fields = [MARK; format::COUNT];
        assert_eq!(ours::parse(heap, &mut fields[..len]), 13, "{len} fields");
        assert_eq!(fields, [MARK; format::COUNT], "{len} fields");
    }
    assert_eq!(heap.file, before, "lent beside short slots");
}

/// The functions that only the tests call: reading at the parse's own offset size, and many reads in one
/// call, of which nothing is written where the parse is refused or the places are too few.
fn each(heap: &Heap, ids: &[Vec<u8>]) {
    let ids: Vec<&[u8]> = ids.iter().filter_map(|id| id.get(..8)).collect();
    let (joined, n) = (ids.concat(), 3 * ids.len());
    let mut wanted = vec![MARK; n + 2];
    let parsed = ours::parse(heap, &mut [0; format::COUNT]);
    for (i, id) in ids.iter().enumerate().filter(|_| parsed == 0) {
        let answer @ (number, x, y) = ours::read(heap, id);
        assert_eq!(ours::read_sized(heap, heap.offset_size, id), answer);
        wanted[3 * i..3 * i + 3].copy_from_slice(&[number.into(), x, y]);
    }
    let mut found = vec![MARK; n + 2];
    assert_eq!(ours::read_each(heap, &joined, &mut found), parsed);
    assert_eq!(found, wanted, "reads in one call: {}", what(heap, &joined));
    if n > 0 {
        let mut found = vec![MARK; n];
        assert_eq!(ours::read_each(heap, &joined, &mut found[..n - 1]), 13);
        assert_eq!(found, vec![MARK; n], "too few places for reads");
    }
}

/// Objects for a heap of a few blocks: mostly one, else rows of small blocks.
fn sizes(random: &mut Random) -> Vec<u64> {
    let (most, size) = match random.below(16) {
        0..8 => (12, 90),
        8..12 => (8, 1500),
        12..15 => (30, 300),
        _ => (6, 4200),
    };
    (0..random.below(most))
        .map(|_| random.below(size))
        .collect()
}

/// IDs of the fixed geometry: of some object in other lengths and kinds, and of some offset.
fn other_ids(random: &mut Random, objects: &[Object]) -> Vec<Vec<u8>> {
    let known = match objects.len() {
        0 => 22,
        n => objects[random.below(n as u64) as usize].offset,
    };
    let near = known + random.below(40);
    let any = random.number() >> 24;
    [known, near, any]
        .map(|offset| made::id(random, 40, offset))
        .to_vec()
}

/// An offset size for reading: mostly that of the parse.
fn read_size(random: &mut Random, heap: &Heap) -> u8 {
    match random.below(4) {
        0 => random.width(),
        _ => heap.offset_size,
    }
}

/// Some of the objects' own IDs, and others.
fn some_ids(random: &mut Random, heap: &Written) -> Vec<Vec<u8>> {
    let mut ids = other_ids(random, &heap.objects);
    let step = 1 + heap.objects.len() / 3;
    ids.extend(heap.objects.iter().step_by(step).map(|o| o.id.clone()));
    ids
}

impl Comparison {
    /// Every object by its ID: the original reads back what it wrote, but for empty objects, which it may
    /// not find.
    fn as_written(&mut self, random: &mut Random, written: &Written) {
        let mut heap = written.heap.clone();
        let mut ids: Vec<Vec<u8>> = written.objects.iter().map(|o| o.id.clone()).collect();
        ids.extend(other_ids(random, &written.objects));
        let size = read_size(random, &heap);
        self.heap(&mut heap, size, &mut ids);
        let (w, l) = (heap.offset_size, heap.length_size);
        let header = original::parse(&heap.file, heap.at, w, l).expect("a right header");
        for object in written.objects.iter().filter(|o| !o.bytes.is_empty()) {
            let read = header.read(&heap.file, &object.id, w);
            assert_eq!(
                read.as_ref(),
                Ok(&object.bytes),
                "{}",
                what(&heap, &object.id)
            );
        }
    }

    /// One byte changed in that part of the file; where it is the header's, also with its checksum mended.
    fn damaged(&mut self, random: &mut Random, written: &Written, part: std::ops::Range<usize>) {
        let mut heap = written.heap.clone();
        let place = part.start + random.below(part.len() as u64) as usize;
        heap.file[place] ^= 1 + random.below(255) as u8;
        let (size, mut ids) = (read_size(random, &heap), some_ids(random, written));
        self.heap(&mut heap, size, &mut ids);
        if written.header.contains(&place) {
            heap.mend();
            self.heap(&mut heap, size, &mut ids);
        }
    }

    /// The file cut to a length, or with more bytes behind it.
    fn cut(&mut self, random: &mut Random, written: &Written, len: usize) {
        let mut heap = written.heap.clone();
        heap.file.resize_with(len, || random.byte());
        let (size, mut ids) = (read_size(random, &heap), some_ids(random, written));
        self.heap(&mut heap, size, &mut ids);
    }
}

/// A length to cut the file to: in the header, in the region, past the end, or around an object's end.
fn length(random: &mut Random, written: &Written) -> usize {
    let Written { header, region, .. } = written;
    let whole = written.heap.file.len();
    match random.below(4) {
        0 => header.start + random.below(header.len() as u64 + 1) as usize,
        1 => region.start + random.below(region.len() as u64 + 1) as usize,
        2 => whole + random.below(80) as usize,
        _ => match &written.objects[..] {
            [] => whole - 1,
            objects => {
                let object = &objects[random.below(objects.len() as u64) as usize];
                // In a root direct block: the object's end, one before it and one after.
                let end = region.start + object.offset as usize + object.bytes.len();
                end.saturating_sub(1) + random.below(3) as usize
            }
        },
    }
}

/// A heap that the original wrote, at any offset size and the two length sizes that hold its geometry.
fn small(random: &mut Random) -> Written {
    let (list, w, l) = (sizes(random), random.one(&[2, 4, 8]), random.one(&[4, 8]));
    made::written(random, &list, [w, l], 90)
}

/// Objects of 12,000 to 65,514 bytes, so that the root has indirect slots, and these again.
fn large(random: &mut Random) -> Written {
    let (n, least) = (6 + random.below(40), 12_000 + random.below(53_000));
    let mut size = |_| least + random.below(65_515 - least);
    let list: Vec<u64> = (0..n).map(&mut size).collect();
    let w = random.one(&[4, 8]);
    made::written(random, &list, [w, 8], 5000)
}

/// The groups: each is counted by itself.
impl Comparison {
    fn done(&mut self, group: &str) {
        let mut line = format!("compare: heaps {group}, {}:", self.heaps);
        for (call, numbers) in CALLS.iter().zip(self.numbers) {
            line += &format!(" {call} accepted {}", numbers[0]);
            for (number, &times) in numbers.iter().enumerate().skip(1) {
                if times > 0 {
                    line += &format!(", by {number} {times}");
                }
                self.all[number] += times;
            }
            line += ";";
            self.all[0] += numbers[0];
        }
        println!("{line} {} places pinned: equal", self.pinned);
        self.all_heaps += self.heaps;
        (self.heaps, self.pinned, self.numbers) = (0, 0, [[0; 11]; 5]);
    }

    fn all_written(&mut self, random: &mut Random, n: u64) {
        for _ in 0..n / 10 {
            let written = small(random);
            self.as_written(random, &written);
        }
        self.done("as written");
        for _ in 0..60 {
            let written = large(random);
            self.as_written(random, &written);
        }
        self.done("as written, of several levels");
        for _ in 0..n / 25 {
            let written = small(random);
            let front = written.region.start..written.region.end.min(written.region.start + 150);
            let whole = 0..written.heap.file.len();
            for _ in 0..3 {
                self.damaged(random, &written, written.header.clone());
            }
            for _ in 0..2 {
                self.damaged(random, &written, front.clone());
            }
            self.damaged(random, &written, whole);
        }
        self.done("with a changed byte");
        for _ in 0..n / 25 {
            let written = small(random);
            for _ in 0..5 {
                let len = length(random, &written);
                self.cut(random, &written, len);
            }
        }
        self.done("cut and extended");
    }

    /// Small tables: offsets in the direct blocks and around their ends, some heaps with a changed byte.
    fn trees(&mut self, random: &mut Random, n: u64) {
        for i in 0..n {
            let (w, l) = (random.one(&[2, 4, 8]), random.one(&[2, 4, 8]));
            let (head, tenths) = (made::small_table(random), 3 + random.below(8));
            let mut tree = made::tree(random, w, l, head, tenths);
            let mut ids: Vec<Vec<u8>> = (0..6).map(|_| tree.id(random)).collect();
            if i % 4 == 0 {
                let place = random.below(tree.heap.at) as usize;
                tree.heap.file[place] ^= 1 << random.below(8);
            }
            let size = read_size(random, &tree.heap);
            self.heap(&mut tree.heap, size, &mut ids);
        }
        self.done("of small tables");
    }

    /// Any table, indirect blocks that lead to each other.
    fn webs(&mut self, random: &mut Random, n: u64) {
        for _ in 0..n {
            let (w, l) = (random.one(&[2, 4, 8]), random.one(&[2, 4, 8, 8]));
            let head = made::table(random);
            let (mut heap, head) = made::web(random, w, l, head);
            let mut id = |_| {
                let offset = made::offset(random, &head);
                made::id(random, head.bits, offset)
            };
            let mut ids: Vec<Vec<u8>> = (0..6).map(&mut id).collect();
            let size = read_size(random, &heap);
            self.heap(&mut heap, size, &mut ids);
        }
        self.done("of any table");
    }

    /// Any widths, any place of the header, filtered ones, cut ones, addresses near the largest.
    fn headers(&mut self, random: &mut Random, n: u64) {
        for _ in 0..n {
            let (w, l) = (random.width(), random.width());
            let mut head = made::table(random);
            (head.filter, head.rows) = match random.below(6) {
                0 => (1 + random.number() as u16 / 2, head.rows),
                1 => (0, 0),
                2 => (0, random.number() as u16),
                _ => (head.filter, head.rows),
            };
            let (mut heap, head) = made::web(random, w, l, head);
            let len = heap.file.len() as u64;
            match random.below(8) {
                0 => heap.at = random.place(len),
                1 => heap.file.truncate(random.below(len + 1) as usize),
                2 => {
                    let lost = random.below(len.min(100));
                    heap.file.truncate((len - lost) as usize);
                }
                _ => {}
            }
            let offset = made::offset(random, &head);
            let mut ids = [
                made::id(random, head.bits, offset),
                made::id(random, head.bits, 9),
            ];
            let size = random.width();
            self.heap(&mut heap, size, &mut ids);
        }
        self.done("of any header");
    }
}

/// A file that is a header and nothing else.
fn bare(random: &mut Random, head: &made::Head, w: u8, l: u8) -> Heap {
    made::behind(random, Vec::new(), head, [w, l])
}

impl Comparison {
    /// Every offset size with every length size; at the right ones every cut of a header.
    fn shapes(&mut self, random: &mut Random) {
        for w in 0..=255 {
            for l in 0..=255 {
                let head = made::table(random);
                let mut heap = bare(random, &head, w, l);
                if random.below(2) == 0 {
                    let len = random.below(heap.file.len() as u64);
                    heap.file.truncate(len as usize);
                }
                self.heap(&mut heap, w, &mut [made::id(random, head.bits, 0)]);
            }
        }
        for w in [2, 4, 8] {
            for (l, filter) in [2, 4, 8].into_iter().flat_map(|l| [(l, 0), (l, 1)]) {
                let mut head = made::table(random);
                head.filter = filter;
                let mut heap = bare(random, &head, w, l);
                while !heap.file.is_empty() {
                    self.heap(&mut heap, w, &mut [made::id(random, head.bits, 0)]);
                    heap.file.pop();
                }
            }
        }
        self.done("of every pair of widths, and cut at every byte");
    }

    /// Headers with filters of 1 to 65,535 bytes, amid other bytes: whole, with a changed byte, this also with the checksum
    /// mended, and cut anywhere behind the root's rows; and the longest cut at every byte, and at places near 2^64 - 1.
    fn filtered(&mut self, random: &mut Random, n: u64) {
        for i in 0..n {
            let widths = [2, 4, 8].map(|w| [2, 4, 8].map(|l| [w, l]));
            let widths = widths.as_flattened()[(i % 9) as usize];
            let mut head = made::table(random);
            head.filter = match random.below(6) {
                0 => 1,
                1 => 65_535 - random.below(2) as u16,
                2 => 1 + random.below(65_535) as u16,
                _ => 1.max(random.number() as u16),
            };
            let around = [0; 2].map(|_| random.below(30) as usize);
            let before = (0..around[0]).map(|_| random.byte()).collect();
            let mut heap = made::behind(random, before, &head, widths);
            let header = around[0]..heap.file.len();
            heap.file.extend((0..around[1]).map(|_| random.byte()));
            let offset = made::offset(random, &head);
            let mut ids = [
                made::id(random, head.bits, offset),
                made::id(random, head.bits, 9),
            ];
            let size = read_size(random, &heap);
            self.heap(&mut heap, size, &mut ids);
            let mut damaged = heap.clone();
            let place = header.start + random.below(header.len() as u64) as usize;
            damaged.file[place] ^= 1 + random.below(255) as u8;
            self.heap(&mut damaged, size, &mut ids);
            damaged.mend();
            self.heap(&mut damaged, size, &mut ids);
            let rows_end = header.start + format::before_sum(widths, 0);
            let cut = rows_end + random.below((header.end - rows_end) as u64) as usize;
            heap.file.truncate(cut);
            self.heap(&mut heap, size, &mut ids);
        }
        for widths in [[2, 4], [4, 8], [8, 8]] {
            let mut head = made::table(random);
            head.filter = 65_535;
            let mut heap = made::behind(random, vec![0x5A; 9], &head, widths);
            let rows_end = 9 + format::before_sum(widths, 0);
            for place in (0..300).map(|back| u64::MAX - back) {
                let mut heap = Heap {
                    at: place,
                    ..heap.clone()
                };
                self.heap(&mut heap, 8, &mut [made::id(random, head.bits, 0)]);
            }
            while heap.file.len() > rows_end {
                heap.file.pop();
                self.heap(&mut heap, 8, &mut [made::id(random, head.bits, 0)]);
            }
        }
        self.done("with filters");
    }

    /// Every ID length to 30 at every number of heap bits to 80 and some more.
    fn ids(&mut self, random: &mut Random) {
        for bits in (0..=80).chain([127, 128, 255, 256, 4096, 65_535]) {
            let mut head = made::fixed(random.below(30), 0);
            (head.bits, head.id_length) = (bits, random.below(30) as u16);
            head.largest_managed = Some(random.one(&[0, 255, 256, 65_514, 65_536, u32::MAX]));
            let mut heap = bare(random, &head, 2, 2);
            let mut ids = Vec::new();
            let types = [0, 0xC0, 0x20, 0x3F].into_iter();
            for (first, len) in types.flat_map(|first| (0..=30).map(move |n| (first, n))) {
                let (near, any) = (random.below(30), random.next());
                for (offset, length) in [(near, random.below(20)), (any, any >> 40)] {
                    let mut id = made::packed(first, bits, offset, length);
                    id.resize_with(len, || random.byte());
                    ids.push(id);
                }
            }
            self.heap(&mut heap, 3, &mut ids);
            for length in 0..40 {
                ids.iter_mut().for_each(|id| self.tiny(length, id));
            }
        }
        self.done("with IDs of every length at every number of heap bits");
    }

    /// As deep as a path can be. A child has fewer rows than its parent, so after the root's 64 and more rows
    /// come at most 64, 63, .. and 2, and a block of two rows has direct children alone: 64 blocks, and the
    /// original's depth of 64 is never used up.
    fn deep(&mut self, random: &mut Random, n: u64) {
        for bits in 2..=64 {
            for w in [2, 4, 8] {
                let (mut heap, offset) = made::chain(random, w, bits);
                let id = made::packed(0, bits, offset, 1);
                let header = original::parse(&heap.file, heap.at, w, 8).expect("a right header");
                let read = header.read(&heap.file, &id, w);
                assert_eq!(read.map(|bytes| bytes.len()), Ok(usize::from(bits < 64)));
                self.heap(&mut heap, w, &mut [id.clone()]);
                let place = random.below(heap.at) as usize;
                heap.file[place] ^= 1;
                self.heap(&mut heap, w, &mut [id]);
            }
        }
        for _ in 0..n {
            let w = random.one(&[2, 4, 8]);
            let (mut heap, head) = made::ring(random, w);
            let ones = u64::MAX << random.below(64);
            let offsets = [
                u64::MAX - random.below(5),
                ones,
                random.next() | ones,
                random.next(),
            ];
            let mut ids = offsets.map(|offset| made::id(random, head.bits, offset));
            self.heap(&mut heap, w, &mut ids);
        }
        self.done("of up to 64 blocks one in the other");
    }

    /// Roots of tens of thousands of rows, walked to their end where nothing is found before.
    fn tall(&mut self, random: &mut Random) {
        for _ in 0..20 {
            let (mut heap, head) = made::tall(random);
            let mut ids = [0; 4].map(|_| {
                let offset = made::offset(random, &head);
                made::packed(0, head.bits, offset, random.below(9))
            });
            self.heap(&mut heap, 2, &mut ids);
        }
        self.done("of tens of thousands of rows");
    }

    /// What the original gave, summed up: every number but 10 often.
    fn sum(&self, n: u64) -> Vec<Row> {
        self.panics.print("compare");
        let [rest @ .., ten] = self.all;
        assert!(rest.iter().all(|&times| times >= 100), "{rest:?}");
        assert_eq!(ten, 0, "a path of more than 64 blocks");
        assert!(self.all_heaps >= n, "{} heaps", self.all_heaps);
        let [plain, filtered] = self.accepted.each_ref().map(|pairs| pairs.as_flattened());
        for (what, accepted) in [("without filters", plain), ("with filters", filtered)] {
            assert!(accepted.iter().all(|&times| times >= 100), "{accepted:?}");
            println!(
                "compare: headers {what} accepted at the nine pairs of widths {accepted:?}: equal"
            );
        }
        println!(
            "compare: heaps {} in all, answers by number from 0 to 10 {:?}: equal",
            self.all_heaps, self.all
        );
        let answers = self.all.iter().sum::<u64>() + self.panics.total();
        vec![
            row("heaps, sound and damaged", self.all_heaps),
            row(
                "headers without filters, 26 numbers by the format",
                plain.iter().sum(),
            ),
            row(
                "headers with filters, 26 numbers by the format",
                filtered.iter().sum(),
            ),
            row("headers, IDs and reads of them", answers).with_panics(self.panics.total()),
        ]
    }
}

/// The longest ID of the compared domain; from 2^29 payload bytes on the original cannot count the bits, and
/// ours answers by the rules' words: 40 bits of offset, the other 24 of the first eight bytes as length, as 65,536 needs.
fn long_ids(random: &mut Random) -> Row {
    let head = made::Head {
        largest_managed: Some(65_536),
        ..made::fixed(0, 0)
    };
    let heap = bare(random, &head, 8, 8);
    let header = original::parse(&heap.file, 0, 8, 8).expect("a right header");
    let mut id = vec![0; (1 << 29) + 9];
    id[1..10].copy_from_slice(&[1, 2, 3, 4, 5, 6, 7, 8, 9]);
    let due = (0, 0x05_0403_0201, 0x08_0706);
    let domain = &id[..(1 << 29) - 1];
    assert_eq!(
        [header.decode(domain), ours::decode(&heap, domain)],
        [due; 2]
    );
    for len in [(1 << 29) + 1, (1 << 29) + 9] {
        let kind = caught(|| header.decode(&id[..len])).expect_err("an ID of too many bits");
        assert_eq!(ours::decode(&heap, &id[..len]), due, "an ID of {len} bytes");
        println!(
            "compare: the original panicked in {kind}: ID of {len} bytes; ours by the rules' words"
        );
    }
    row("IDs of about 2^29 bytes", 3).with_panics(2)
}

/// At least `n` heaps.
pub fn compare(n: u64) -> Vec<Row> {
    panics::quiet();
    let mut random = Random::new(6);
    let mut all = Comparison::default();
    all.all_written(&mut random, n);
    all.trees(&mut random, n / 10);
    all.webs(&mut random, n / 5);
    all.headers(&mut random, n / 4);
    all.shapes(&mut random);
    all.ids(&mut random);
    all.deep(&mut random, n / 100);
    all.tall(&mut random);
    all.filtered(&mut Random::new(16), n / 50);
    let mut rows = all.sum(n);
    rows.push(long_ids(&mut random));
    rows
}
