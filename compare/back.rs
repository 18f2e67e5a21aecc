//! The whole way, ours against the original: plan a list, write its region into a file, write each object's ID,
//! read the object back by it; and the same IDs from the front parts of the list. Then the writer of IDs alone,
//! held to the rules' table.
use crate::ours::{self, View, Writing};
use crate::plan::{accepted, enough, news};
use crate::random::Random;
use crate::summary::{Row, row};
use crate::write::{self, address, deep_list, drawn, mixed_list, most, parts, same_bytes};
use crate::{image, made};
use original::{Answer, Header, Plan};
use std::ops::Range;

/// The ID by the rules: 0, the heap offset in five bytes, the length in two.
pub fn by_rule(offset: u64, length: u64) -> [u8; 8] {
    let (o, n) = (offset.to_le_bytes(), length.to_le_bytes());
    [0, o[0], o[1], o[2], o[3], o[4], n[0], n[1]]
}

/// Its refusals by the rules' table and in its order: 16, 13.
pub fn by_table(offset: u64, length: u64, lent: usize) -> Option<Answer> {
    if offset >= 1 << 40 || length >= 1 << 16 {
        return Some((16, offset, length));
    }
    (lent < 8).then_some((13, 8, lent as u64))
}

/// Calls both of ours with so many lent bytes and a slot of so many, both amid others, and holds all of them to what is
/// due: the number. Of an ID that is too short the loader's puts nothing into the slot.
fn same_id(random: &mut Random, offset: u64, length: u64, lent: usize, slot: usize) -> u32 {
    let mut before = [0; 72];
    random.fill(&mut before);
    let (number, x, y) = by_table(offset, length, lent).unwrap_or((0, 0, 0));
    let number = if slot < 16 { 13 } else { number };
    for loaders in [false, true] {
        let (mut around, mut wanted) = (before, before);
        if slot >= 16 && !(loaders && number == 13) {
            wanted[40..48].copy_from_slice(&x.to_le_bytes());
            wanted[48..56].copy_from_slice(&y.to_le_bytes());
        }
        if number == 0 {
            wanted[8..16].copy_from_slice(&by_rule(offset, length));
        }
        let (ids, slots) = around.split_at_mut(32);
        let (id, answer) = (&mut ids[8..8 + lent], &mut slots[8..8 + slot]);
        let got = match loaders {
            true => ours::loader_write_managed_id(offset, length, id, answer),
            false => ours::write_managed_id(offset, length, id, answer),
        };
        assert_eq!(
            (got, around),
            (number, wanted),
            "ID of offset {offset}, length {length} in {lent} bytes, slot of {slot}, the loader's: {loaders}"
        );
    }
    number
}

/// Numbers on both sides of a power of two, small and large ones.
fn edges(bound: u64) -> [u64; 11] {
    let near = [bound - 2, bound - 1, bound, bound + 1, 2 * bound - 1];
    let [a, b, c, d, e] = near;
    [0, 1, 255, 256, a, b, c, d, e, u64::MAX - 1, u64::MAX]
}

/// A number that is below the power of two mostly, often next to it.
fn around(random: &mut Random, bits: u32) -> u64 {
    match random.below(8) {
        0 => (1 << bits) - 4 + random.below(8),
        1 => random.number(),
        2 => random.next(),
        _ => random.next() >> (64 - bits),
    }
}

/// Every length of ID up to 16 and of slot up to 24 with offsets and lengths at the bounds, and `n` random calls.
fn ids(random: &mut Random, n: u64) -> Row {
    let (mut times, mut short) = ([0; 17], 0);
    let mut same = |random: &mut Random, offset, length, lent, slot| {
        let number = same_id(random, offset, length, lent, slot);
        match slot {
            0..16 => short += 1,
            _ => times[number as usize] += 1,
        }
    };
    for (offset, length) in edges(1 << 40)
        .into_iter()
        .flat_map(|offset| edges(1 << 16).map(|length| (offset, length)))
    {
        for (lent, slot) in (0..=16).flat_map(|lent| (0..=24).map(move |slot| (lent, slot))) {
            same(random, offset, length, lent, slot);
        }
    }
    for _ in 0..n {
        let (offset, length) = (around(random, 40), around(random, 16));
        let lent = random.one(&[8, 8, 8, 7, 9, 0, 16]);
        let slot = random.one(&[16, 16, 16, 16, 17, 24, 15, 0]);
        same(random, offset, length, lent, slot);
    }
    println!(
        "compare: write_managed_id accepted {}, by 16 {}, by 13 {}, by 13 for a short slot {short}: by the rules' table, all other memory as it was",
        times[0], times[16], times[13]
    );
    row(
        "IDs written or refused, by the rules",
        short + times.iter().sum::<u64>(),
    )
}

/// What was compared at a width.
#[derive(Default)]
struct Counts {
    runs: u64,
    objects: u64,
    bytes: u64,
    /// Empty objects that are found, and that answer 1.
    found: u64,
    lost: u64,
    /// IDs that a front part gives, too.
    fronts: u64,
    /// The most rows of a root.
    rows: u64,
    /// Regions at 0, at the last address, and past the addresses of four bytes.
    zero: u64,
    last: u64,
    far: u64,
}

/// Where a region lies in the file, the header's own place and the one that the blocks tell, and the file's end.
struct Place {
    region: Range<u64>,
    /// Whether no later place is free.
    last: bool,
    header: Range<u64>,
    length_size: u8,
    header_told: u64,
    end: u64,
}

/// Bytes of the file that no region reaches, for what is behind it.
const SPARE: u64 = 1000;

/// The header just before the region or after it, or some bytes from it. The file ends with the later one of
/// them, or some bytes later, or late.
fn place(random: &mut Random, size: u64, w: u8, room: u64) -> Place {
    let l = random.one(&[4, 8]);
    let (header, gap) = (26 + 12 * u64::from(l) + 3 * u64::from(w), random.below(100));
    let gap = random.one(&[0, gap]);
    let last = most(w).min(room - SPARE) - size;
    let start = match random.below(8) {
        0 => 0,
        1 => last,
        2 | 3 => address(random, last),
        _ => random.below(last.min(5000)),
    };
    let region = start..start + size;
    let at = match random.below(2) {
        0 if gap + header <= start => start - gap - header,
        _ => region.end + gap,
    };
    let header_told = match random.below(2) {
        0 if at < most(w) => at,
        _ => address(random, most(w) - 1),
    };
    let end = region.end.max(at + header);
    Place {
        last: start == last,
        header: at..at + header,
        length_size: l,
        header_told,
        end: random.one(&[end, end, end + gap, room]),
        region,
    }
}

/// A part of the file.
fn part(file: &mut [u8], range: Range<u64>) -> &mut [u8] {
    &mut file[range.start as usize..range.end as usize]
}

/// A list that is written: the call, the file, its header as the original has parsed it, the original's plan.
struct Run<'a> {
    writing: &'a Writing<'a>,
    view: View<'a>,
    header: Header,
    plan: &'a Plan,
    region: Range<u64>,
}

impl Run<'_> {
    fn what(&self) -> String {
        let View { at, file, .. } = self.view;
        let size = (self.region.end - self.region.start) as usize;
        let writing = write::what(self.writing, enough(self.writing.sizes, [0; 3]), size);
        format!(
            "header in the file at {at}, {} bytes, {writing}",
            file.len()
        )
    }

    /// An object's ID, by ours and by the rule; the original and ours decode it.
    fn id(&self, random: &mut Random, offset: u64, length: usize) -> [u8; 8] {
        let (length, lent) = (length as u64, 8 + random.below(9) as usize);
        let number = same_id(random, offset, length, lent, 16);
        let id = by_rule(offset, length);
        let decoded = [self.header.decode(&id), ours::decode_in(self.view, &id)];
        let due = (0, offset, length);
        assert_eq!((number, decoded), (0, [due; 2]), "{}", self.what());
        id
    }

    /// Reads an object: where it lies. None if it is empty and answers 1, as it may below an indirect root.
    fn read(&self, id: &[u8; 8], bytes: &[u8]) -> Option<u64> {
        let View {
            file, offset_size, ..
        } = self.view;
        let what = || format!("object {id:?} of {} bytes, {}", bytes.len(), self.what());
        let got @ (number, place, length) = ours::read_in(self.view, id);
        match self.header.read(file, id, offset_size) {
            Ok(read) => {
                assert!(read == bytes, "read by the original: {}", what());
                let n = bytes.len() as u64;
                assert_eq!((number, length), (0, n), "{}", what());
                let inside = self.region.start <= place && place + n <= self.region.end;
                assert!(inside, "place {place}: {}", what());
                let found = &file[place as usize..][..bytes.len()];
                same_bytes(found, bytes, || format!("place {place}: {}", what()));
                Some(place)
            }
            Err(refusal) => {
                assert_eq!(got, refusal, "{}", what());
                let rows = self.plan.totals[2];
                let may = bytes.is_empty() && refusal.0 == 1 && rows > 0;
                assert!(may, "refused: {}", what());
                None
            }
        }
    }
}

/// A largest managed size: that of the largest object, of a length of three bytes or more, or any from the first on.
fn largest_managed(random: &mut Random, sizes: &[u64]) -> u32 {
    let least = sizes.iter().copied().max().unwrap_or(0);
    let any = least + random.below((1 << 32) - least);
    let shifted = any >> random.below(17);
    let size = random.one(&[least, least.max(65_536), shifted, any, 0xFFFF_FFFF]);
    size.max(least) as u32
}

struct Comparison<'a> {
    random: Random,
    /// For largest managed sizes alone.
    sizes: Random,
    /// Random bytes, from which objects and marks are taken.
    pool: &'a [u8],
    /// By width.
    counts: [Counts; 9],
}

impl<'a> Comparison<'a> {
    fn bytes(&mut self, len: u64) -> &'a [u8] {
        drawn(self.pool, &mut self.random, len as usize)
    }

    /// Writes the region by ours amid random bytes, holds it and them to the original's, and lays a header of the
    /// fixed geometry, whose other fields are random, the largest managed size from the largest object's on.
    fn write(&mut self, file: &mut [u8], writing: &Writing, plan: &Plan, place: &Place) {
        let (region, header) = (&place.region, &place.header);
        let start = region.start.min(header.start).saturating_sub(20);
        let end = region.end.max(header.end) + 20;
        let marks = self.bytes(end - start);
        part(file, start..end).copy_from_slice(marks);
        let mut more = || self.random.below(9) as usize;
        let places = enough(writing.sizes, [more(), more(), more()]);
        let lent = part(file, region.start..region.end + more() as u64);
        write::call(writing, places, lent, 0, news(plan));
        let objects = parts(writing.sizes, writing.objects);
        let (w, at) = (writing.offset_size, writing.header_at);
        let due = original::region(&objects, w, region.start, at);
        let (before, behind) = ((region.start - start) as usize, (end - region.end) as usize);
        let marks = [&marks[..before], &due, &marks[marks.len() - behind..]].concat();
        same_bytes(part(file, start..end), &marks, || {
            write::what(writing, places, due.len())
        });
        let [_, _, rows, root, ..] = plan.totals;
        let mut head = made::fixed(region.start + root, rows as u16);
        head.id_length = self.random.number() as u16;
        head.largest_managed = Some(largest_managed(&mut self.sizes, writing.sizes));
        let bytes = made::header(&mut self.random, &head, w, place.length_size);
        part(file, header.clone()).copy_from_slice(&bytes);
    }

    /// Every object by its ID, in the order of the list, which is that of their places: the IDs.
    fn objects(&mut self, run: &Run) -> Vec<[u8; 8]> {
        let objects = parts(run.writing.sizes, run.writing.objects);
        let counts = &mut self.counts[usize::from(run.writing.offset_size)];
        let mut end = run.region.start;
        let mut object = |(&offset, bytes): (&u64, &[u8])| {
            let id = run.id(&mut self.random, offset, bytes.len());
            let found = run.read(&id, bytes);
            if let Some(place) = found {
                assert!(place >= end, "{place} before {end}: {}", run.what());
                end = place + bytes.len() as u64;
            }
            counts.objects += 1;
            counts.bytes += bytes.len() as u64;
            counts.found += u64::from(bytes.is_empty() && found.is_some());
            counts.lost += u64::from(found.is_none());
            id
        };
        let offsets = run.plan.offsets.iter();
        offsets.zip(objects).map(&mut object).collect()
    }

    /// A front part, planned in the lists of the whole, gives the same offsets and IDs; its last object is read by
    /// that ID from the file of the whole.
    fn front(&mut self, run: &Run, ids: &[[u8; 8]]) {
        let (sizes, w) = (run.writing.sizes, run.writing.offset_size);
        let k = self.random.below(sizes.len() as u64 + 1) as usize;
        let plan = accepted(&sizes[..k], enough(sizes, [0; 3]), w);
        assert_eq!(plan.offsets, run.plan.offsets[..k], "{}", run.what());
        for (i, &offset) in plan.offsets.iter().enumerate() {
            let id = run.id(&mut self.random, offset, sizes[i] as usize);
            assert_eq!(id, ids[i], "object {i} of {k}, {}", run.what());
        }
        if k > 0 {
            let objects = parts(sizes, run.writing.objects);
            run.read(&ids[k - 1], objects[k - 1]);
        }
        self.counts[usize::from(w)].fronts += k as u64;
    }

    fn count(&mut self, run: &Run, last: bool) {
        let counts = &mut self.counts[usize::from(run.writing.offset_size)];
        let start = run.region.start;
        counts.runs += 1;
        counts.rows = counts.rows.max(run.plan.totals[2]);
        counts.zero += u64::from(start == 0);
        counts.last += u64::from(last);
        counts.far += u64::from(start >= 1 << 32);
    }

    fn run(&mut self, file: &mut [u8], sizes: &[u64], w: u8) {
        let plan = accepted(sizes, enough(sizes, [0; 3]), w);
        let place = place(&mut self.random, plan.totals[1], w, file.len() as u64);
        let writing = Writing {
            sizes,
            objects: self.bytes(sizes.iter().sum()),
            offset_size: w,
            region_at: place.region.start,
            header_at: place.header_told,
        };
        self.write(file, &writing, &plan, &place);
        let (file, at, l) = (
            &file[..place.end as usize],
            place.header.start,
            place.length_size,
        );
        let run = Run {
            writing: &writing,
            view: View {
                file,
                at,
                offset_size: w,
                length_size: l,
            },
            header: original::parse(file, at, w, l).expect("a right header"),
            plan: &plan,
            region: place.region,
        };
        let ids = self.objects(&run);
        self.front(&run, &ids);
        self.count(&run, place.last);
    }

    fn print(&self, w: u8, room: usize) {
        let c = &self.counts[usize::from(w)];
        assert!(c.zero.min(c.last) > 100 && (w < 8 || c.far > 100));
        assert!(c.found.min(c.lost) > 100);
        println!(
            "compare: there and back, {} runs at width {w}: {} objects of {} bytes read by their IDs; of the empty ones {} accepted, {} by 1; a front part of each gives the same IDs, {} in all; roots of up to {} rows; regions at 0 {}, at the last address {}, past 2^32 {} in files of up to {room} bytes: equal",
            c.runs, c.objects, c.bytes, c.found, c.lost, c.fronts, c.rows, c.zero, c.last, c.far
        );
    }
}

/// `n` random runs of any width and some deep ones; as many calls of the writer of IDs.
pub fn compare(n: u64) -> Vec<Row> {
    let mut pool = vec![0; 80 << 20];
    Random::new(30).fill(&mut pool);
    let file = image::zeros();
    let mut comparison = Comparison {
        random: Random::new(31),
        sizes: Random::new(45),
        pool: &pool,
        counts: Default::default(),
    };
    for i in 0..n {
        let w = comparison.random.one(&[2, 4, 8]);
        let sizes = mixed_list(&mut comparison.random, w);
        comparison.run(file, &sizes, w);
        if i % 1000 == 0 {
            image::forget(file);
        }
    }
    for (w, depth) in [(4, 2), (8, 2), (4, 3), (8, 3), (4, 4), (8, 4), (8, 5)] {
        let sizes = deep_list(&mut comparison.random, depth, w);
        comparison.run(file, &sizes, w);
        image::forget(file);
    }
    let mut rows = Vec::new();
    for w in [2, 4, 8] {
        comparison.print(w, file.len());
        let c = &comparison.counts[usize::from(w)];
        rows.push(row(
            format!("objects written and read back, width {w}"),
            c.objects,
        ));
    }
    rows.push(ids(&mut comparison.random, n));
    rows
}
