//! `poilures write`: files as objects of a heap, each with its ID as it is given, then read back by it.
use crate::arguments::Write;
use crate::check::check;
use crate::destination::Destination;
use crate::failure::Failure;
use crate::heap::{self, Gathering, Intake, Lines, Objects, Placed};
use crate::id::HeapId;
use crate::image::{self, Layout, Part, Place};
use crate::inputs::{self, Identity, Taken};
use crate::library::{self, Id, Lists, Writing};
use crate::locks::Patience;
use crate::quoting::{self, shown};
use crate::talk::{Talk, tell};
use crate::{index, print};
use fractal_heap::{Header, Refusal, Superblock, count, grouped};
use std::ffi::OsStr;
use std::path::PathBuf;

/// The heap's place; whether it and the two sizes will do is asked with the empty heap, than which none is smaller.
fn place(arguments: &Write) -> Result<Place, Failure> {
    let (offset_size, length_size) = (arguments.offset_size, arguments.length_size);
    let header_at = arguments.header_at;
    let behind = header_at.saturating_add(Header::length(offset_size, length_size) as u64);
    let place = Place {
        header_at,
        region_at: arguments.at.unwrap_or(behind),
        offset_size,
        length_size,
    };
    let none = library::plan(&[], &mut Lists::default(), offset_size)?;
    let writing = Writing {
        sizes: &[],
        objects: &[],
        region_at: place.region_at,
        header_at,
        offset_size,
    };
    let mut region = vec![0; none.region_size as usize];
    library::serialize(&writing, &mut Lists::default(), &mut region)?;
    let header = none.header(0, place.region_at, offset_size);
    let header = Part {
        at: header_at,
        bytes: image::header_bytes(&header, &place)?,
    };
    Layout::new(place.region(none.region_size), &[header])?;
    Ok(place)
}

/// A file's bytes are the object.
struct Files {
    offset_size: u8,
}

impl Intake for Files {
    const COLUMNS: [&'static str; 2] = ["size", "file"];

    fn head(&self, _: usize, _: &Taken) -> Result<Vec<u8>, Failure> {
        Ok(Vec::new())
    }

    fn not_taken(&self, refusal: &Refusal, _: usize, name: &OsStr, _: u64) -> Failure {
        let w = self.offset_size;
        let largest = image::largest_object(w);
        Failure::Not(format!(
            "{refusal}\nthe file is {}; at offset size {w} an object has at most {} bytes",
            shown(name),
            grouped(largest)
        ))
    }

    fn columns<'p>(&'p self, placed: &'p Placed) -> (u64, &'p OsStr) {
        (placed.size, placed.name)
    }
}

/// What reading from an image has to be told. Where bytes of an object stand as those of a superblock would, that is
/// everything that a superblock says.
fn options(image: &[u8], place: &Place) -> String {
    let mut options = String::new();
    let seems_hdf5 = Superblock::find(image).is_some();
    if seems_hdf5 {
        options += " --base 0";
    }
    for (option, size) in [
        ("--offset-size", place.offset_size),
        ("--length-size", place.length_size),
    ] {
        if size != 8 || seems_hdf5 {
            options += &format!(" {option} {size}");
        }
    }
    options
}

/// How an object is read from the file, to be pasted.
fn hint(out: &OsStr, options: &str, place: &Place, id: &Id) -> String {
    let behind = format!("{} {}", place.header_at, HeapId::new(id));
    let read = format!("read{options}");
    quoting::command(&[read.as_bytes(), &quoting::word(out), behind.as_bytes()])
}

/// Keeps the image, and says where it is and how an object is read from it. Of a file it comes back which it is.
fn keep(
    destination: Destination,
    arguments: &Write,
    bytes: &[u8],
    place: &Place,
    objects: &Objects,
    talk: &mut Talk,
) -> Result<Option<Identity>, Failure> {
    let size = count(bytes.len() as u64, "byte");
    let at = grouped(place.header_at);
    let image = format!("image: {size}, header at {at}, put into");
    match destination {
        Destination::Nowhere => talk.say("nothing was kept: --out IMAGE keeps the heap in a file"),
        Destination::Standard => {
            print(bytes)?;
            talk.say(&format!("{image} standard output; it is no HDF5 file"));
        }
        Destination::File(output) => {
            let file = output.finish(|file| objects.files.contains(&file))?;
            let out = arguments
                .out
                .as_ref()
                .map_or(OsStr::new(""), PathBuf::as_ref);
            talk.say(&format!("{image} {}; it is no HDF5 file", shown(out)));
            if let Some(id) = objects.ids.last() {
                let hint = hint(out, &options(bytes, place), place, id);
                talk.say(&format!("  the last object from it: {hint}"));
            }
            return Ok(Some(file));
        }
    }
    Ok(None)
}

pub fn write(arguments: &Write) -> Result<(), Failure> {
    let list = arguments.files0_from.as_deref();
    let (bytes, seen) = inputs::list_or_files(list, &arguments.files)?;
    let names = inputs::all_names(&arguments.files, list.zip(bytes.as_ref()))?;
    let place = place(arguments)?;
    let is_input = |file| inputs::is_among(file, names.iter().copied().chain(list));
    index::may_go(arguments, is_input)?;
    let destination = match &arguments.out {
        None => Destination::Nowhere,
        Some(out) => Destination::named(out, arguments.force, Some(Patience::No), is_input)?,
    };
    let (lines, volume) = Lines::asked(arguments.json, arguments.quiet);
    let mut talk = Talk::new(matches!(destination, Destination::Standard), volume);
    let offset_size = place.offset_size;
    let bytes = inputs::seen_bytes(&seen);
    let gathering = Gathering::begin(names.len(), bytes, offset_size, &destination)?;
    let files = Files { offset_size };
    let objects = heap::take_in(
        &files,
        names.iter().copied().zip(seen),
        gathering,
        &destination,
        lines,
        &mut talk,
    )?;
    let (heap, image) = heap::written(&objects, place, &destination, |_| vec![])?;
    heap::print_totals(&heap, &objects, "image", &mut talk);
    if arguments.map {
        heap::print_map(&heap, &objects, arguments.ascii, &mut talk)?;
    }
    talk.say("");
    check(&image, &heap, &objects, &mut talk)?;
    let kept = !matches!(destination, Destination::Nowhere);
    let file = keep(destination, arguments, &image, &place, &objects, &mut talk)?;
    index::keep(arguments, &names, &objects, file).inspect_err(|_| {
        tell("the image is whole, but its index was not kept");
    })?;
    talk.end().inspect_err(|_| {
        if kept {
            tell("the image is whole, but standard output did not take all that was to be printed");
        }
    })
}
