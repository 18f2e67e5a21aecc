//! Files as objects of a heap: taken in, each with its ID as it is given, then planned and written as a whole.
use crate::destination::Destination;
use crate::failure::Failure;
use crate::id::HeapId;
use crate::image::{self, Layout, Part, Place};
use crate::inputs::{self, Bytes, Identity, Seen, Taken};
use crate::joined::Joined;
use crate::library::{self, Id, Lists, Writing};
use crate::progress::Progress;
use crate::quoting::shown;
use crate::table::Fullness;
use crate::talk::{Talk, Volume};
use crate::{index, map, memory};
use fractal_heap::{Added, Header, OpenPlan, Refusal, Totals, count, grouped};
use memmap2::Mmap;
use serde_json::{Value, json};
use std::ffi::OsStr;

/// The objects, the IDs that they were given, and the files that they came from.
pub struct Objects {
    pub sizes: Vec<u64>,
    pub bytes: Bytes,
    pub ids: Vec<Id>,
    pub files: Vec<Identity>,
}

impl Objects {
    pub fn number(&self) -> u64 {
        self.sizes.len() as u64
    }

    /// Each object's ID and bytes.
    pub fn each(&self) -> impl Iterator<Item = (&Id, &[u8])> {
        let mut rest = &self.bytes[..];
        self.ids.iter().zip(&self.sizes).map(move |(id, &size)| {
            let (bytes, behind) = rest.split_at(size as usize);
            rest = behind;
            (id, bytes)
        })
    }
}

/// How a line looks for each object.
#[derive(Clone, Copy, PartialEq, Eq)]
pub enum Lines {
    Table,
    Ids,
    Json,
}

impl Lines {
    /// The lines that are asked for, and how much beside them.
    pub fn asked(json: bool, quiet: bool) -> (Self, Volume) {
        match (json, quiet) {
            (true, _) => (Lines::Json, Volume::Results),
            (_, true) => (Lines::Ids, Volume::Results),
            _ => (Lines::Table, Volume::All),
        }
    }
}

/// An object that was taken in.
pub struct Placed<'n> {
    pub number: usize,
    /// The file's name.
    pub name: &'n OsStr,
    /// Bytes of the file, and of the object.
    pub length: u64,
    pub size: u64,
    pub offset: u64,
    pub id: HeapId,
}

/// What a subcommand makes of its files.
pub trait Intake {
    /// What the table has of each object beside its number, its heap offset and its ID.
    const COLUMNS: [&'static str; 2];

    /// What an object has before the bytes of its file.
    fn head(&self, number: usize, taken: &Taken) -> Result<Vec<u8>, Failure>;

    /// Says which file planning refuses, the object of this number, with that many bytes before it, and how large it can be.
    fn not_taken(&self, refusal: &Refusal, number: usize, name: &OsStr, head: u64) -> Failure;

    /// What stands in these columns.
    fn columns<'p>(&'p self, placed: &'p Placed) -> (u64, &'p OsStr);

    /// What a line of JSON has beside what all have.
    fn put_more(&self, _: &Placed, _: &mut Value) {}

    fn line(&self, placed: &Placed, lines: Lines) -> String {
        match lines {
            Lines::Ids => placed.id.to_string(),
            Lines::Json => {
                let mut line = json!({
                    "object": placed.number,
                    "size": placed.size,
                    "offset": placed.offset,
                    "id": placed.id.to_string(),
                });
                index::put_name(&mut line, "file", placed.name);
                self.put_more(placed, &mut line);
                line.to_string()
            }
            Lines::Table => {
                let (size, name) = self.columns(placed);
                row([
                    &grouped(placed.number as u64),
                    &grouped(size),
                    &grouped(placed.offset),
                    &placed.id.to_string(),
                    &shown(name),
                ])
            }
        }
    }
}

/// A line of a table of objects.
pub fn row([number, size, offset, id, name]: [&str; 5]) -> String {
    format!("{number:>7} {size:>8} {offset:>15}  {id:<23}  {name}")
}

/// The line above them.
pub fn heading([size, name]: [&str; 2]) -> String {
    row(["object", size, "heap offset", "ID", name])
}

/// Objects as they come. A plan that stays open places each at once; as front parts are planned alike, the ID that an
/// object gets here is its ID for good.
pub struct Gathering {
    plan: OpenPlan,
    sizes: Vec<u64>,
    ids: Vec<Id>,
    joined: Joined,
}

impl Gathering {
    /// Without any so far, and with room for so many, which will have so many bytes, as far as it is seen.
    pub fn begin(
        objects: usize,
        bytes: u64,
        w: u8,
        destination: &Destination,
    ) -> Result<Self, Failure> {
        let mut joined = destination.joined();
        joined.expect(bytes);
        Ok(Gathering {
            plan: OpenPlan::open(w)?,
            sizes: memory::with_room(objects)?,
            ids: memory::with_room(objects)?,
            joined,
        })
    }

    /// How many there are.
    pub fn number(&self) -> usize {
        self.sizes.len()
    }

    /// The plan of the objects so far.
    pub fn plan(&self) -> &OpenPlan {
        &self.plan
    }

    /// Takes an object, in parts; `size` is that of all of it. Its bytes are put by first, so that none is planned of an
    /// object that could not be kept.
    pub fn add(
        &mut self,
        parts: [&[u8]; 2],
        size: u64,
        not_taken: impl FnOnce(&Refusal) -> Failure,
        name: &OsStr,
    ) -> Result<(Added, Id), Failure> {
        for part in parts {
            self.joined.add(part)?;
        }
        let added = self.plan.add(size).map_err(|refusal| not_taken(&refusal))?;
        let id = given_id(added, name)?;
        self.sizes.push(size);
        self.ids.push(id);
        Ok((added, id))
    }

    fn finish(self, files: Vec<Identity>) -> Result<Objects, Failure> {
        Ok(Objects {
            sizes: self.sizes,
            bytes: self.joined.finish()?,
            ids: self.ids,
            files,
        })
    }
}

/// Takes files in, one by one, behind the objects that there are already; of each it is told what was seen of it. No ID is
/// printed of an object that could not be kept. Where nothing is kept, the work ends when nobody hears the IDs.
pub fn take_in<'n, I: Intake>(
    intake: &I,
    names: impl ExactSizeIterator<Item = (&'n OsStr, Option<Seen>)>,
    mut gathering: Gathering,
    destination: &Destination,
    lines: Lines,
    talk: &mut Talk,
) -> Result<Objects, Failure> {
    let (mut files, mut room) = (memory::with_room(names.len())?, inputs::room_for_one()?);
    let work = "taking in the files";
    let mut progress = Progress::unless(talk.is_seen(), work, names.len() as u64);
    if names.len() > 0 {
        talk.say(&heading(I::COLUMNS));
    }
    for (name, seen) in names {
        let taken = inputs::take_in(name, seen, &mut room)?;
        let number = gathering.number();
        let head = intake.head(number, &taken)?;
        let head_size = head.len() as u64;
        let size = head_size.saturating_add(taken.size);
        let not_taken = |refusal: &Refusal| {
            let failure = intake.not_taken(refusal, number, name, head_size);
            at_least(failure, &taken)
        };
        let (added, id) = gathering.add([&head, taken.bytes], size, not_taken, name)?;
        files.push(taken.identity);
        let placed = Placed {
            number,
            name,
            length: taken.size,
            size,
            offset: added.offset,
            id: HeapId::new(&id),
        };
        talk.give(&intake.line(&placed, lines));
        if matches!(destination, Destination::Nowhere) {
            talk.heard()?;
        }
        progress.step();
    }
    gathering.finish(files)
}

/// A refusal of what is too long, where no more was read than shows that.
fn at_least(failure: Failure, taken: &Taken) -> Failure {
    match failure {
        Failure::Not(words) if taken.is_at_least => {
            let size = count(taken.size, "byte");
            Failure::Not(format!(
                "{words}; it has at least {size}, and no more were read"
            ))
        }
        other => other,
    }
}

/// The ID of an object that was placed; the file of one that has none is named.
fn given_id(added: Added, name: &OsStr) -> Result<Id, Failure> {
    added.id().map_err(|refusal| {
        let file = shown(name);
        Failure::Not(format!(
            "{refusal}\nthe file is {file}; it is empty, and the heap space is full"
        ))
    })
}

/// Lists that take the plan of so many objects without asking for more memory.
fn lists(objects: usize) -> Result<Lists, Failure> {
    Ok(Lists {
        offsets: memory::with_room(objects)?,
        blocks: memory::with_room(objects.max(1))?,
    })
}

/// A heap that is written: its plan, its header, and where it is.
pub struct Written {
    pub lists: Lists,
    pub totals: Totals,
    pub header: Header,
    pub place: Place,
}

/// Plans the whole list, and writes region and header where the image is to lie, and what else a plan with these totals
/// has there.
pub fn written(
    objects: &Objects,
    place: Place,
    destination: &Destination,
    around: impl FnOnce(&Totals) -> Vec<Part>,
) -> Result<(Written, Mmap), Failure> {
    let w = place.offset_size;
    let mut lists = lists(objects.sizes.len())?;
    let totals = library::plan(&objects.sizes, &mut lists, w)?;
    let header = totals.header(objects.number(), place.region_at, w);
    let mut parts = around(&totals);
    parts.push(Part {
        at: place.header_at,
        bytes: image::header_bytes(&header, &place)?,
    });
    let layout = Layout::new(place.region(totals.region_size), &parts)?;
    let mut image = destination.image(&layout, objects.bytes.len() as u64)?;
    let writing = Writing {
        sizes: &objects.sizes,
        objects: &objects.bytes,
        region_at: place.region_at,
        header_at: place.header_at,
        offset_size: w,
    };
    // The plan that is checked is the one that was written.
    lists.offsets.clear();
    lists.blocks.clear();
    if library::serialize(&writing, &mut lists, image.region())? != totals {
        return Err(Failure::Not(
            "writing and planning have different totals".into(),
        ));
    }
    let image = image.finish(&parts);
    let image = image.map_err(|error| destination.no_image(error))?;
    let heap = Written {
        lists,
        totals,
        header,
        place,
    };
    Ok((heap, image))
}

/// The totals, with what the heap lies in: an image, or a file.
pub fn print_totals(heap: &Written, objects: &Objects, whole: &str, talk: &mut Talk) {
    let (t, place) = (&heap.totals, &heap.place);
    let root = place.region_at + t.root_place;
    talk.say("");
    talk.say(&format!(
        "heap: {} of {}",
        count(objects.number(), "object"),
        count(objects.bytes.len() as u64, "byte")
    ));
    let lines = [
        ("blocks", t.block_count, String::new()),
        (
            "region size",
            t.region_size,
            format!("at {} in the {whole}", grouped(place.region_at)),
        ),
        ("root rows", t.root_rows, String::new()),
        (
            "root's place",
            t.root_place,
            format!("in the region, at {} in the {whole}", grouped(root)),
        ),
        ("managed space", t.managed_space, String::new()),
        ("allocated space", t.allocated_space, String::new()),
        ("free space", t.free_space, String::new()),
        ("iterator", t.allocation_iterator, String::new()),
    ];
    for (name, number, more) in lines {
        talk.say(&number_line(name, number, &more));
    }
}

/// A line of a heap's totals.
pub fn number_line(name: &str, number: u64, more: &str) -> String {
    let line = format!("  {name:<16} {:>17}  {more}", grouped(number));
    line.trim_end().into()
}

pub fn print_map(
    heap: &Written,
    objects: &Objects,
    ascii: bool,
    talk: &mut Talk,
) -> Result<(), Failure> {
    let (lists, totals) = (&heap.lists, &heap.totals);
    let starts = &lists.blocks[..totals.block_count as usize];
    let w = heap.place.offset_size;
    let fullness = Fullness::new(starts, &lists.offsets, &objects.sizes, w);
    talk.say("");
    for line in map::lines(&fullness, totals.root_rows, ascii)? {
        talk.say(&line);
    }
    Ok(())
}

#[cfg(test)]
mod tests {
    use super::*;

    // By docs/RULES.md the heap space ends at 2^40, where an empty object is placed, but no ID holds that offset.
    #[test]
    fn a_file_without_an_id_is_named() {
        let id = |offset| given_id(Added { offset, size: 0 }, OsStr::new("a note"));
        let last = [0, 0xFF, 0xFF, 0xFF, 0xFF, 0xFF, 0, 0];
        assert_eq!(id((1 << 40) - 1).unwrap(), last);
        let Err(Failure::Not(words)) = id(1 << 40) else {
            panic!("it has an ID, or is called wrong use");
        };
        let due = "refused by 16: no ID holds offset 1,099,511,627,776 and length 0: they must be below 2^40 and below \
                   2^16\nthe file is a note; it is empty, and the heap space is full";
        assert_eq!(words, due);
    }
}
