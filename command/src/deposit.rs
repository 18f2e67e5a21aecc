//! `poilures deposit`: files as attributes of an HDF5 file's root group, each with its ID as it is given,
//! then read back by it.
use crate::adding::{self, Earlier, Old};
use crate::arguments::Deposit;
use crate::check::check;
use crate::destination::Destination;
use crate::failure::Failure;
use crate::heap::{self, Gathering, Intake, Lines, Objects, Placed};
use crate::id::HeapId;
use crate::image::{self, Layout, Part, Place};
use crate::inputs::{self, Taken};
use crate::library::Id;
use crate::memory;
use crate::print;
use crate::quoting::{self, shown};
use crate::talk::{Talk, tell};
use fractal_heap::{Header, Refusal, count, grouped};
use hdf5_file::{Dense, Kind, MOST_IN_ORDER, NameIndex, Named, Places, RootGroup, message_head};
use hdf5_file::{LENGTH_SIZE, OFFSET_SIZE};
use memmap2::Mmap;
use serde_json::Value;
use std::ffi::OsStr;
use std::os::unix::ffi::OsStrExt;
use std::path::Path;

/// Bytes of the largest object, an attribute's message.
fn largest_object() -> u64 {
    image::largest_object(OFFSET_SIZE)
}

/// Bytes of the longest value of this kind under a name of so many bytes; none where not even an empty one fits.
fn longest_value(kind: Kind, name: u64) -> Option<u64> {
    let head = message_head("", kind, 0)?.len() as u64;
    largest_object().checked_sub(head)?.checked_sub(name)
}

/// Bytes that stand before the values under these names, all together; before those that are text there are fewer.
fn heads(names: &[&str]) -> u64 {
    let head = message_head("", Kind::Bytes, 0).map_or(0, |head| head.len() as u64);
    names.iter().map(|name| head + name.len() as u64).sum()
}

/// The name of the attribute that a file becomes: the one that is given, where it is for this file, or its base name.
fn attribute_name<'n>(file: &'n OsStr, given: Option<&'n str>) -> Result<&'n str, Failure> {
    let name = match given {
        Some(name) => name,
        None if inputs::is_standard(file) => {
            let words = "standard input, -, has no name: --name says how its attribute is called";
            return Err(Failure::Use(words.into()));
        }
        None => {
            let unnamed = |why: &str| {
                let words = format!("{} names no attribute: {why}; --name does", shown(file));
                Failure::Use(words)
            };
            let base = Path::new(file).file_name();
            let base = base.ok_or_else(|| unnamed("it ends with no file's name"))?;
            let name = base.to_str();
            name.ok_or_else(|| unnamed("HDF5's names are UTF-8, and it is not"))?
        }
    };
    match (name.len() as u64, longest_value(Kind::Bytes, 0)) {
        (0, _) => Err(Failure::Use(
            "an attribute's name has a byte at least".into(),
        )),
        (length, Some(most)) if length <= most => Ok(name),
        (length, most) => Err(Failure::Not(format!(
            "an attribute's name has at most {}, and here are {}",
            count(most.unwrap_or(0), "byte"),
            grouped(length)
        ))),
    }
}

/// The names of all attributes, which must differ.
fn attribute_names<'n>(
    files: &[&'n OsStr],
    given: Option<&'n str>,
) -> Result<Vec<&'n str>, Failure> {
    let takes_given = |file: &OsStr| files.len() == 1 || inputs::is_standard(file);
    if given.is_some() && !files.iter().any(|file| takes_given(file)) {
        let words = "--name is for the only FILE, or for standard input";
        return Err(Failure::Use(words.into()));
    }
    let mut names = memory::with_room(files.len())?;
    for file in files {
        names.push(attribute_name(file, given.filter(|_| takes_given(file)))?);
    }
    let mut sorted = memory::with_room(files.len())?;
    sorted.extend(0..files.len());
    sorted.sort_unstable_by_key(|&i| (names[i], i));
    match sorted.windows(2).find(|two| names[two[0]] == names[two[1]]) {
        None => Ok(names),
        Some(two) => Err(Failure::Use(format!(
            "two attributes would have the name {}: {} and {}",
            shown(names[two[0]]),
            shown(files[two[0]]),
            shown(files[two[1]])
        ))),
    }
}

/// Files as attributes: the message of one is the object, its head, and behind it the file's bytes.
struct Deposited<'n> {
    /// Of all objects, those that were there before the files, too.
    names: Vec<&'n OsStr>,
    /// Their numbers, where order is tracked.
    orders: Vec<Option<u16>>,
    /// As many numbers are given, where order is tracked.
    newest: Option<u16>,
    text: bool,
}

impl<'n> Deposited<'n> {
    /// Those that there are already, and those that the files become.
    fn new(earlier: &Earlier<'n>, names: &[&'n str], text: bool) -> Result<Self, Failure> {
        let newest = newest(earlier.newest, names.len())?;
        let number = earlier.attributes.len() + names.len();
        let (mut all, mut orders) = (memory::with_room(number)?, memory::with_room(number)?);
        for kept in &earlier.attributes {
            all.push(kept.name);
            orders.push(kept.order);
        }
        for (number, &name) in names.iter().enumerate() {
            all.push(OsStr::new(name));
            // There are no more of them than the newest has a number for.
            let order = earlier.newest.map(|first| first + number as u16);
            orders.push(order);
        }
        Ok(Deposited {
            names: all,
            orders,
            newest,
            text,
        })
    }
}

impl Intake for Deposited<'_> {
    const COLUMNS: [&'static str; 2] = ["length", "name"];

    fn head(&self, number: usize, taken: &Taken) -> Result<Vec<u8>, Failure> {
        let kind = match self.text {
            true => Kind::of_text(taken.bytes),
            false => Kind::Bytes,
        };
        let name = self.names[number].to_str();
        let head = name.and_then(|name| message_head(name, kind, taken.size));
        head.ok_or_else(|| Failure::Not("a name is longer than a message can have it".into()))
    }

    fn not_taken(&self, refusal: &Refusal, number: usize, file: &OsStr, head: u64) -> Failure {
        let longest = largest_object().saturating_sub(head);
        // A file that is larger than any object is not looked at, so that a text counts as bytes, too.
        let name = self.names[number].len() as u64;
        let is_bytes = longest_value(Kind::Bytes, name) == Some(longest);
        Failure::Not(format!(
            "{refusal}\nthe file is {}; under its name a value{} has at most {}, since HDF5's message has {} before it",
            shown(file),
            if self.text && is_bytes {
                " as bytes"
            } else {
                ""
            },
            count(longest, "byte"),
            grouped(head)
        ))
    }

    fn columns<'p>(&'p self, placed: &'p Placed) -> (u64, &'p OsStr) {
        (placed.length, self.names[placed.number])
    }

    fn put_more(&self, placed: &Placed, line: &mut Value) {
        line["name"] = self.names[placed.number].to_string_lossy().into();
        line["length"] = placed.length.into();
    }
}

/// As many numbers as are given with those of these files, where order is tracked.
fn newest(before: Option<u16>, files: usize) -> Result<Option<u16>, Failure> {
    let Some(before) = before else {
        return Ok(None);
    };
    let number = u64::from(before) + files as u64;
    match u16::try_from(number) {
        Ok(newest) if number <= MOST_IN_ORDER => Ok(Some(newest)),
        _ => Err(Failure::Not(format!(
            "--track-order has numbers for {}, and here are {}; without it there is no such bound",
            count(MOST_IN_ORDER, "attribute"),
            grouped(number)
        ))),
    }
}

/// A file without attributes: it has no heap.
fn empty(newest: Option<u16>, places: Places, to: &Destination) -> Result<Mmap, Failure> {
    let root = RootGroup {
        newest,
        dense: None,
    };
    let front = [Part {
        at: 0,
        bytes: root.front(places.heap),
    }];
    let image = to.image(&Layout::new(0..0, &front)?, 0)?.finish(&front);
    image.map_err(|error| to.no_image(error))
}

/// The whole file, with all of it checked that is the heap's.
fn whole(
    attributes: &Deposited,
    objects: &Objects,
    to: &Destination,
    arguments: &Deposit,
    talk: &mut Talk,
) -> Result<Mmap, Failure> {
    let newest = attributes.newest;
    let places = Places::new(newest.is_some());
    let place = Place {
        header_at: places.heap,
        region_at: places.heap + Header::length(OFFSET_SIZE, LENGTH_SIZE) as u64,
        offset_size: OFFSET_SIZE,
        length_size: LENGTH_SIZE,
    };
    if objects.number() == 0 {
        talk.say("a file without attributes has no heap");
        return empty(newest, places, to);
    }
    let mut named = memory::with_room(attributes.names.len())?;
    for ((name, &order), &id) in attributes
        .names
        .iter()
        .zip(&attributes.orders)
        .zip(&objects.ids)
    {
        let name = name.as_bytes();
        named.push(Named { name, id, order });
    }
    let names = NameIndex::new(&named);
    let (heap, image) = heap::written(objects, place, to, |totals| {
        let index_at = place.region_at + totals.region_size;
        let index = names.write(index_at);
        let end = index_at + index.len() as u64;
        let dense = Dense {
            heap: places.heap,
            names: index_at,
        };
        let root = RootGroup {
            newest,
            dense: Some(dense),
        };
        let front = root.front(end);
        vec![
            Part {
                at: 0,
                bytes: front,
            },
            Part {
                at: index_at,
                bytes: index,
            },
        ]
    })?;
    heap::print_totals(&heap, objects, "file", talk);
    if arguments.map {
        heap::print_map(&heap, objects, arguments.ascii, talk)?;
    }
    talk.say("");
    check(&image, &heap, objects, talk)?;
    Ok(image)
}

/// How an attribute is read from the file, to be pasted: by its ID where its name looks like an option.
fn hint(out: &OsStr, name: &OsStr, id: &Id) -> String {
    let id = HeapId::new(id).to_string();
    let out = quoting::word(out);
    match name.as_bytes().starts_with(b"-") {
        true => quoting::command(&[b"get --id", id.as_bytes(), &out]),
        false => quoting::command(&[b"get", &out, &quoting::word(name)]),
    }
}

/// Keeps the file, in the place of an old one if that is as it was, and says where it is and how an attribute is read
/// from it.
fn keep(
    destination: Destination,
    old: Option<&Old>,
    arguments: &Deposit,
    bytes: &[u8],
    attributes: &Deposited,
    objects: &Objects,
    talk: &mut Talk,
) -> Result<(), Failure> {
    let size = count(bytes.len() as u64, "byte");
    let all = count(objects.number(), "attribute");
    let file = format!("HDF5 file: {size}, {all} of the root group, put into");
    let Destination::File(output) = destination else {
        print(bytes)?;
        talk.say(&format!("{file} standard output"));
        return Ok(());
    };
    let is_input = |file| objects.files.contains(&file);
    output.finish_if(is_input, || old.map_or(Ok(()), Old::check))?;
    let out = arguments.out.as_os_str();
    talk.say(&format!("{file} {}", shown(out)));
    if let (Some(name), Some(id)) = (attributes.names.last(), objects.ids.last()) {
        let hint = hint(out, name, id);
        talk.say(&format!("  the last attribute from it: {hint}"));
    }
    Ok(())
}

pub fn deposit(arguments: &Deposit) -> Result<(), Failure> {
    let list = arguments.files0_from.as_deref();
    let (bytes, seen) = inputs::list_or_files(list, &arguments.files)?;
    let files = inputs::all_names(&arguments.files, list.zip(bytes.as_ref()))?;
    let names = attribute_names(&files, arguments.name.as_deref())?;
    let is_input = |file| inputs::is_among(file, files.iter().copied().chain(list));
    let (destination, old) = match arguments.add {
        true => adding::begin(
            &arguments.out,
            arguments.force,
            &arguments.locking,
            is_input,
        )?,
        false => {
            let (out, patience) = (&arguments.out, arguments.locking.patience());
            let new = Destination::named(out, arguments.force, patience, is_input)?;
            (new, None)
        }
    };
    let earlier = match &old {
        Some(old) => Earlier::read(old)?,
        None => Earlier::none(arguments.track_order),
    };
    earlier.refuse(&names, &files)?;
    let attributes = Deposited::new(&earlier, &names, arguments.text)?;
    let (lines, volume) = Lines::asked(arguments.json, arguments.quiet);
    let mut talk = Talk::new(matches!(destination, Destination::Standard), volume);
    let number = attributes.names.len();
    let bytes = earlier.bytes() + heads(&names) + inputs::seen_bytes(&seen);
    let mut gathering = Gathering::begin(number, bytes, OFFSET_SIZE, &destination)?;
    earlier.gather(&mut gathering, arguments.force, &mut talk)?;
    let objects = heap::take_in(
        &attributes,
        files.iter().copied().zip(seen),
        gathering,
        &destination,
        lines,
        &mut talk,
    )?;
    let image = whole(&attributes, &objects, &destination, arguments, &mut talk)?;
    keep(
        destination,
        old.as_ref(),
        arguments,
        &image,
        &attributes,
        &objects,
        &mut talk,
    )?;
    talk.end().inspect_err(|_| {
        tell("the file is whole, but standard output did not take all that was to be printed");
    })
}

#[cfg(test)]
mod tests {
    use super::*;

    fn named<'n>(files: &[&'n str], given: Option<&'n str>) -> Result<Vec<&'n str>, Failure> {
        let files: Vec<&OsStr> = files.iter().map(|file| OsStr::new(*file)).collect();
        attribute_names(&files, given)
    }

    #[test]
    fn an_attribute_has_its_files_base_name() {
        let due = ["letter", "größe 1", ".hidden"];
        let files = ["out/letter", "./größe 1", "/a/b/.hidden"];
        assert_eq!(named(&files, None).unwrap(), due);
        assert_eq!(named(&["out/letter"], Some("n")).unwrap(), ["n"]);
        assert_eq!(named(&["-", "out/a"], Some("n")).unwrap(), ["n", "a"]);
        assert!(named(&[], None).unwrap().is_empty());
    }

    #[test]
    fn what_names_no_attribute_is_refused() {
        for files in [&["-"][..], &[".."], &["/"], &["a/.."], &["a", "b/a"]] {
            assert!(named(files, None).is_err(), "{files:?}");
        }
        assert!(named(&["a", "b"], Some("n")).is_err());
        assert!(named(&["a", "-"], Some("a")).is_err());
        assert!(named(&["a"], Some("")).is_err());
        assert!(attribute_names(&[OsStr::from_bytes(b"a/\xff")], None).is_err());
    }

    // 65,514 bytes of an object, 34 of them before an empty name's empty value.
    #[test]
    fn a_name_leaves_room_for_an_empty_value() {
        assert_eq!(longest_value(Kind::Bytes, 4), Some(65_514 - 34 - 4));
        assert_eq!(longest_value(Kind::Text, 4), Some(65_514 - 22 - 4));
        let longest = "n".repeat(65_480);
        assert!(named(&["a"], Some(&longest)).is_ok());
        assert!(named(&["a"], Some(&format!("{longest}n"))).is_err());
    }
}
