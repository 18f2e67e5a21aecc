//! Headers that are written, by the loader's function: what is accepted is read by the original and by the format alone,
//! what is refused is held to the rules' table, and lent memory to what it was.
use crate::format;
use crate::made;
use crate::ours::{self, View};
use crate::random::Random;
use crate::summary::{Row, row};
use original::Answer;

/// All pairs of widths.
const PAIRS: [[u8; 2]; 9] = [
    [2, 2],
    [2, 4],
    [2, 8],
    [4, 2],
    [4, 4],
    [4, 8],
    [8, 2],
    [8, 4],
    [8, 8],
];

/// The place of the filters' length.
const FILTER: usize = 1;

/// The most that so many bytes hold.
fn most(size: usize) -> u64 {
    u64::MAX >> (64 - 8 * size)
}

/// Bytes of a header without filters by the format.
fn length(widths: [u8; 2]) -> usize {
    format::before_sum(widths, 0) + 4
}

/// The answer by the rules' table: the number and its pair. A header that is written has its checksum for a second value,
/// which is 0 here.
fn by_table(fields: &[u64], [w, l]: [u8; 2], lent: usize, slot: usize) -> Answer {
    if slot < 16 || fields.len() < format::FIELD_COUNT {
        return (13, 0, 0);
    }
    if !matches!(w, 2 | 4 | 8) {
        return (2, w.into(), 0);
    }
    if !matches!(l, 2 | 4 | 8) {
        return (3, l.into(), 0);
    }
    if fields[FILTER] != 0 {
        return (8, 0, 0);
    }
    let sizes = format::sizes(w, l);
    if let Some(place) = (0..format::FIELD_COUNT).find(|&i| fields[i] > most(sizes[i])) {
        return (17, place as u64, fields[place]);
    }
    let needed = length([w, l]);
    if lent < needed {
        return (13, 0, 0);
    }
    (0, needed as u64, 0)
}

/// What a call is lent: a list of numbers, bytes amid others, and a slot amid others.
struct Lent {
    file: Vec<u8>,
    before: Vec<u8>,
    slot: [u8; 40],
}

/// Where the bytes and the slot that are lent begin.
const BYTES_AT: usize = 7;
const SLOT_AT: usize = 8;

impl Lent {
    fn new() -> Self {
        Lent {
            file: Vec::new(),
            before: Vec::new(),
            slot: [0; 40],
        }
    }

    /// Calls with so many bytes and a slot of so many, both amid others, and holds number, pair and all of the memory to
    /// what is due. What is accepted is read. The number comes back.
    fn same(
        &mut self,
        random: &mut Random,
        fields: &[u64],
        widths: [u8; 2],
        lent: usize,
        slot: usize,
    ) -> u32 {
        let at = || format!("{fields:?} at {widths:?}, {lent} bytes, a slot of {slot}");
        self.file.resize(BYTES_AT + lent + 5, 0);
        random.fill(&mut self.file);
        random.fill(&mut self.slot);
        self.before.clone_from(&self.file);
        let (number, x, y) = by_table(fields, widths, lent, slot);
        let mut slot_due = self.slot;
        let got = ours::write_header(
            fields,
            widths,
            &mut self.file[BYTES_AT..BYTES_AT + lent],
            &mut self.slot[SLOT_AT..SLOT_AT + slot],
        );
        assert_eq!(got, number, "{}", at());
        let mut second = y;
        if number == 0 {
            second = self.read(fields, widths).into();
            let header = BYTES_AT..BYTES_AT + length(widths);
            self.before[header.clone()].copy_from_slice(&self.file[header]);
        }
        assert!(self.file == self.before, "bytes that are kept: {}", at());
        if number != 13 {
            slot_due[SLOT_AT..SLOT_AT + 8].copy_from_slice(&x.to_le_bytes());
            slot_due[SLOT_AT + 8..SLOT_AT + 16].copy_from_slice(&second.to_le_bytes());
        }
        assert_eq!(self.slot, slot_due, "the slot: {}", at());
        number
    }

    /// The original accepts what was written, and by it and by the format every field is as it was given. What comes back
    /// is the checksum by the original.
    fn read(&mut self, fields: &[u64], widths: [u8; 2]) -> u32 {
        let [offset_size, length_size] = widths;
        let parsed = format::parsed(View {
            file: &self.file,
            at: BYTES_AT as u64,
            offset_size,
            length_size,
        });
        let read = parsed.unwrap_or_else(|refusal| panic!("{fields:?} at {widths:?}: {refusal:?}"));
        let (read, of_filters) = read.numbers.split_at(format::FIELD_COUNT);
        assert_eq!(read, &fields[..format::FIELD_COUNT], "at {widths:?}");
        assert_eq!(of_filters, [0; 3], "at {widths:?}");
        let covered = &self.file[BYTES_AT..BYTES_AT + length(widths) - 4];
        original::jenkins_lookup3(covered)
    }
}

/// Numbers that their widths hold: 0, all ones, any of them.
fn fitting(random: &mut Random, widths: [u8; 2]) -> Vec<u64> {
    let sizes = format::sizes(widths[0], widths[1]);
    let mut fields = sizes.map(|size| match random.below(8) {
        0 => 0,
        1 => most(size),
        2 => random.number() & most(size),
        _ => random.next() & most(size),
    });
    fields[FILTER] = 0;
    let mut fields = fields.to_vec();
    // Numbers behind the fields are not read: what a value has of filters there, neither.
    match random.below(3) {
        0 => {}
        n => fields.extend((0..n).map(|_| random.next()).chain([1, u64::MAX, 154])),
    }
    fields
}

/// `n` headers that are accepted, into as many bytes as they need or some more.
fn accepted(random: &mut Random, lent: &mut Lent, n: u64) -> u64 {
    let mut written = 0;
    for _ in 0..n {
        for widths in PAIRS {
            let fields = fitting(random, widths);
            let (more, slot) = (random.below(9), random.one(&[16, 16, 17, 24]));
            let bytes = length(widths) + more as usize;
            let number = lent.same(random, &fields, widths, bytes, slot);
            assert_eq!(number, 0, "{fields:?} at {widths:?}");
            written += 1;
        }
    }
    written
}

/// Each field of fewer than eight bytes one above its largest number, and farther above: alone, and with later ones. The
/// filters' length is refused by 8 from 1 on, also behind a field that is too large.
fn too_large(random: &mut Random, lent: &mut Lent, n: u64) -> [u64; 2] {
    let (mut by_17, mut by_8) = (0, 0);
    for widths in PAIRS {
        let sizes = format::sizes(widths[0], widths[1]);
        let needed = length(widths);
        for place in (0..format::FIELD_COUNT).filter(|&place| sizes[place] < 8) {
            let above = most(sizes[place]) + 1;
            for i in 0..n {
                let mut fields = fitting(random, widths);
                fields[place] = match i {
                    0 => above,
                    1 => u64::MAX,
                    _ => above.saturating_add(random.number()),
                };
                if i % 2 == 1 {
                    let last = format::FIELD_COUNT as u64 - 1;
                    let later = place as u64 + random.below(last - place as u64 + 1);
                    fields[later as usize] = u64::MAX;
                }
                let bytes = random.one(&[needed, 0, needed - 1]);
                match lent.same(random, &fields, widths, bytes, 16) {
                    8 => by_8 += 1,
                    17 => by_17 += 1,
                    number => panic!("{number}: {fields:?} at {widths:?}"),
                }
                fields[FILTER] = random.one(&[1, 65_535, 65_536, u64::MAX]);
                assert_eq!(lent.same(random, &fields, widths, bytes, 16), 8);
                by_8 += 1;
            }
        }
    }
    [by_17, by_8]
}

/// Every pair of widths from 0 to 255, with lists, bytes and slots that are too short or not, numbers that fit and the
/// largest that there are: how many calls, and how many wrote a header.
fn any_widths(random: &mut Random, lent: &mut Lent) -> [u64; 2] {
    let (mut calls, mut written) = (0, 0);
    for widths in (0..=255).flat_map(|w| (0..=255).map(move |l| [w, l])) {
        let is_pair = PAIRS.contains(&widths);
        let due = if is_pair { length(widths) } else { 146 };
        let fits = match is_pair {
            true => fitting(random, widths),
            false => vec![0; format::FIELD_COUNT],
        };
        let [mut ones, mut filtered] = [(); 2].map(|_| vec![u64::MAX; format::FIELD_COUNT]);
        (ones[FILTER], filtered[0]) = (0, 0);
        let zeros = vec![0; format::FIELD_COUNT];
        for fields in [&fits, &zeros, &ones, &filtered] {
            for (list, bytes, slot) in [
                (format::FIELD_COUNT, due, 16),
                (format::FIELD_COUNT, due - 1, 16),
                (format::FIELD_COUNT, 0, 16),
                (format::FIELD_COUNT, due + 3, 24),
                (format::FIELD_COUNT, due, 15),
                (format::FIELD_COUNT, due, 0),
                (format::FIELD_COUNT - 1, due, 16),
                (0, 0, 16),
                (0, 0, 0),
            ] {
                let number = lent.same(random, &fields[..list], widths, bytes, slot);
                calls += 1;
                written += u64::from(number == 0);
            }
        }
    }
    [calls, written]
}

/// Headers by the format's layout: read by ours, and written as they stand.
fn written_back(random: &mut Random, n: u64) -> u64 {
    let mut headers = 0;
    for _ in 0..n {
        for widths in PAIRS {
            let mut head = made::table(random);
            (head.filter, head.root) = (0, random.number());
            let heap = made::behind(random, vec![0x55; 3], &head, widths);
            let mut fields = [0; format::COUNT];
            assert_eq!(ours::parse(&heap, &mut fields), 0);
            let (mut bytes, mut slot) = (vec![0; length(widths)], [0; 16]);
            assert_eq!(
                ours::write_header(&fields, widths, &mut bytes, &mut slot),
                0
            );
            assert_eq!(bytes, heap.file[3..], "{fields:?} at {widths:?}");
            headers += 1;
        }
    }
    headers
}

/// `n` random headers at each pair of widths.
pub fn compare(n: u64) -> Vec<Row> {
    let (mut random, mut lent) = (Random::new(14), Lent::new());
    let accepted = accepted(&mut random, &mut lent, n);
    let [by_17, by_8] = too_large(&mut random, &mut lent, n / 500);
    let [calls, written] = any_widths(&mut random, &mut lent);
    vec![
        row("headers written, and read by the format, too", accepted),
        row(
            "headers by the format, written back",
            written_back(&mut random, n / 10),
        ),
        row("headers with a field too large, by the rules", by_17),
        row("headers of filtered heaps, by the rules", by_8),
        row("calls at any widths and lengths, by the rules", calls),
        row("headers written in these", written),
    ]
}
