//! `poilures read`: objects by their IDs, from a heap in a file.
use crate::arguments::Read;
use crate::block::Checked;
use crate::failure::Failure;
use crate::filters;
use crate::giving::Giving;
use crate::held;
use crate::id::{self, HeapId};
use crate::inputs;
use crate::library::{Kind, kind, tiny_object};
use crate::message;
use crate::progress::Progress;
use crate::quoting::shown;
use crate::site::{self, Remarks, Site};
use crate::talk::{Talk, Volume, tell};
use fractal_heap::{Error, Header, Heap, Refusal, count, grouped};
use serde_json::json;
use std::borrow::Cow;
use std::collections::HashSet;
use std::ffi::OsString;

/// The heap that is read, in its file, and what its header says.
struct Reading<'f> {
    site: Site<'f>,
    heap: Heap<'f>,
    header: Header,
    /// What each block has to say of its header's address; None where blocks are not tested.
    header_address: Option<u64>,
}

/// Where an object was found.
enum Place {
    /// A managed one: its offset in the heap, and its position in the file; None of an empty one that no block holds.
    Heap { offset: u64, position: Option<u64> },
    /// A tiny one: its position in the ID.
    Id { position: u64 },
}

/// An object that was found.
struct Object<'o> {
    id: &'o HeapId,
    bytes: &'o [u8],
    place: Place,
}

impl Object<'_> {
    fn sentence(&self) -> String {
        let length = self.bytes.len() as u64;
        let size = count(length, "byte");
        match self.place {
            Place::Id { position } => {
                format!("tiny object: {size}, in the ID itself at {position}")
            }
            Place::Heap { offset, position } => {
                let at = position.map_or("in no block".into(), |start| {
                    let (start, end) = (grouped(start), grouped(start + length));
                    format!("in the file at {start}, up to {end}")
                });
                let offset = grouped(offset);
                format!("managed object at heap offset {offset}: {size}, {at}")
            }
        }
    }

    fn json(&self) -> String {
        let mut line = json!({"id": self.id.to_string(), "length": self.bytes.len()});
        match self.place {
            Place::Id { position } => {
                line["type"] = "tiny".into();
                line["position_in_id"] = position.into();
            }
            Place::Heap { offset, position } => {
                line["type"] = "managed".into();
                line["heap_offset"] = offset.into();
                line["position"] = position.into();
            }
        }
        line.to_string()
    }
}

/// IDs of the heap's length, each in one word.
fn check_ids(ids: &[HeapId], id_length: u16) -> Result<(), Failure> {
    let wrong = |id: &&HeapId| id.bytes().len() != usize::from(id_length);
    let Some(id) = ids.iter().find(wrong) else {
        return Ok(());
    };
    let one_word = match ids.iter().all(|id| id.bytes().len() == 1) {
        true if ids.len() > 1 => {
            let bytes: Vec<u8> = ids.iter().flat_map(HeapId::bytes).copied().collect();
            format!("; an ID is one word: {}", HeapId::new(&bytes))
        }
        _ => String::new(),
    };
    Err(Failure::Use(format!(
        "the ID {id} has {}, and the heap's IDs have {id_length}{one_word}",
        count(id.bytes().len() as u64, "byte")
    )))
}

/// Where a part of the file begins.
fn position(file: &[u8], part: &[u8]) -> u64 {
    (part.as_ptr() as usize - file.as_ptr() as usize) as u64
}

impl<'f> Reading<'f> {
    /// The heap that the words name.
    fn new(file: &'f [u8], arguments: &Read, remarks: &Remarks) -> Result<Self, Failure> {
        let addressing = &arguments.addressing;
        let site = Site::new(file, Some(arguments.place), addressing, remarks)?;
        let heap = site.heap(arguments.place, addressing)?;
        let header = site.header(&heap)?;
        let header_address = match arguments.unchecked {
            true => None,
            false => Some(arguments.header_address.unwrap_or(heap.header_at)),
        };
        Ok(Reading {
            site,
            heap,
            header,
            header_address,
        })
    }

    /// The bytes of a managed object, by the reader that is asked for.
    fn bytes(&self, id: &[u8]) -> Result<&'f [u8], Error> {
        match self.header_address {
            Some(address) => self.heap.read_managed_object_of_any_length(id, address),
            None => self.heap.read_managed_object_of_any_length_unchecked(id),
        }
    }

    /// A managed object, as it lies in the file. One without bytes may lie in no block, and is refused by 1; in a list,
    /// where all objects of a heap may stand, it is just empty.
    fn managed(
        &self,
        id: &[u8],
        in_list: bool,
        remarks: &Remarks,
    ) -> Result<(&'f [u8], Place), Failure> {
        let (offset, length) = self.heap.decode_managed_id_of_any_length(id)?;
        let (bytes, position) = match self.bytes(id) {
            Ok(bytes) => (
                bytes,
                Some(self.site.base + position(self.heap.file, bytes)),
            ),
            Err(Error::Refused(refusal))
                if in_list && length == 0 && self.is_in_no_block(refusal, id, offset) =>
            {
                (&[][..], None)
            }
            Err(error) => return Err(self.not_found(error, id, (offset, length), remarks)),
        };
        Ok((bytes, Place::Heap { offset, position }))
    }

    /// What names the blocks of the heap, where they are tested.
    fn checked(&self) -> Option<Checked<'_>> {
        Some(Checked {
            heap: &self.heap,
            header: &self.header,
            header_address: self.header_address?,
            base: self.site.base,
        })
    }

    /// Whether an object that is refused has no block; where blocks are not tested, it may also end too early.
    fn is_in_no_block(&self, refusal: Refusal, id: &[u8], offset: u64) -> bool {
        let Some(checked) = self.checked() else {
            return matches!(refusal, Refusal::UnexpectedEof { .. });
        };
        let last = self.heap.stopping_block(id, checked.header_address);
        last.is_ok_and(|block| checked.is_in_no_block(refusal, block, offset))
    }

    /// Why there is no object, which is at a heap offset and has a length by its ID.
    fn not_found(&self, error: Error, id: &[u8], object: (u64, u64), remarks: &Remarks) -> Failure {
        let Error::Refused(refusal) = error else {
            return Failure::Not(error.to_string());
        };
        if refusal == Refusal::UnsupportedFilteredHeapObject {
            return self.filtered(refusal);
        }
        let Some(checked) = self.checked() else {
            return self.not_found_unchecked(refusal, object.0.saturating_add(object.1), remarks);
        };
        match self.heap.stopping_block(id, checked.header_address) {
            Ok(block) => Failure::Not(checked.sentence(refusal, block, object.0)),
            Err(refusal) => site::in_file(refusal, self.site.base, None).into(),
        }
    }

    /// Where blocks are not tested; `end` is the object's end in the heap, by its ID.
    fn not_found_unchecked(&self, refusal: Refusal, end: u64, remarks: &Remarks) -> Failure {
        // Only under an indirect root the end that is told may be the ID's own.
        let in_heap = self.header.current_rows_in_root_indirect_block > 0;
        match refusal {
            Refusal::UnexpectedEof {
                expected,
                available,
            } if in_heap && expected == end && end > available => remarks.tell(
                "the end expected is the ID's own in the heap: no block seems to be placed there",
            ),
            _ => {}
        }
        site::in_file(refusal, self.site.base, in_heap.then_some(end)).into()
    }

    /// With what a filtered heap's blocks are, and who reads them.
    fn filtered(&self, refusal: Refusal) -> Failure {
        let information = self.heap.io_filter_information(&self.header);
        let blocks = filters::of_blocks(information.unwrap_or_default());
        Failure::Not(format!("{refusal}\n{blocks}"))
    }

    /// A tiny object, as it lies in its ID.
    fn tiny<'i>(&self, id: &'i [u8]) -> Result<(&'i [u8], Place), Failure> {
        let (position, length) = tiny_object(self.header.heap_id_length, id)?;
        let bytes = id.get(position as usize..(position + length) as usize);
        let bytes = bytes.ok_or(Failure::Not("the object lies past its ID".into()))?;
        Ok((bytes, Place::Id { position }))
    }

    fn object<'o>(
        &self,
        id: &'o HeapId,
        in_list: bool,
        remarks: &Remarks,
    ) -> Result<Object<'o>, Failure>
    where
        'f: 'o,
    {
        let found = match kind(id.bytes())? {
            Kind::Managed => self.managed(id.bytes(), in_list, remarks),
            Kind::Tiny => self.tiny(id.bytes()),
            Kind::Huge => Err(Failure::Not(
                "the ID is a huge object's, and huge objects are not read".into(),
            )),
        };
        let (bytes, place) = found?;
        Ok(Object { id, bytes, place })
    }

    /// The ID turned round, and the object that it names then: h5debug prints an attribute's ID backwards. A managed
    /// object's ID begins with 0, by the format.
    fn backwards(&self, id: &HeapId) -> Option<(HeapId, &'f [u8])> {
        let turned = id.reversed();
        if turned == *id || turned.bytes().first() != Some(&0) {
            return None;
        }
        let bytes = self.bytes(turned.bytes()).ok()?;
        (!bytes.is_empty()).then_some((turned, bytes))
    }

    /// What is said of an ID that seems to be the wrong way round: where it names nothing; where no ID of HDF5's begins
    /// as it does; or where, in an HDF5 file, only turned round it names what begins as an attribute's message.
    fn seems_backwards(&self, id: &HeapId, found: Option<&Object>) -> Option<String> {
        let is_none = match found {
            None => true,
            Some(_) if matches!(id.bytes(), [first, .., 0] if *first != 0) => true,
            Some(object) if self.site.of_hdf5 && !message::is_attribute(object.bytes) => false,
            Some(_) => return None,
        };
        let (turned, bytes) = self.backwards(id)?;
        (is_none || message::is_attribute(bytes)).then(|| {
            format!(
                "turned round, byte by byte, the ID {id} is {turned}, which names an object of {}; h5debug prints an \
                 attribute's ID backwards",
                count(bytes.len() as u64, "byte")
            )
        })
    }

    /// All objects, before a byte of one is printed. Of the IDs in a list it is not said where each object is.
    fn objects<'o>(
        &self,
        ids: &'o [HeapId],
        in_list: bool,
        remarks: &Remarks,
    ) -> Result<Vec<Object<'o>>, Failure>
    where
        'f: 'o,
    {
        let mut progress = Progress::new("finding the objects", ids.len() as u64);
        let mut objects = Vec::new();
        for id in ids {
            let found = self.object(id, in_list, remarks);
            let backwards = self.seems_backwards(id, found.as_ref().ok());
            let object = found.map_err(|failure| match failure {
                Failure::Not(words) => {
                    let id = if ids.len() > 1 {
                        format!("ID {id}: ")
                    } else {
                        String::new()
                    };
                    let backwards = backwards
                        .as_ref()
                        .map_or(String::new(), |words| format!("\n{words}"));
                    Failure::Not(format!("{id}{words}{backwards}"))
                }
                other => other,
            })?;
            if !in_list {
                remarks.tell(&object.sentence());
            }
            // What is printed may be no object: that is told to whom nothing else is.
            if let Some(words) = backwards {
                tell(&words);
            }
            objects.push(object);
            progress.step();
        }
        Ok(objects)
    }
}

/// A line of JSON for each object, on standard error where its bytes go to standard output.
fn describe(objects: &[Object], on_standard_error: bool) -> Result<(), Failure> {
    let mut talk = Talk::new(on_standard_error, Volume::Results);
    for object in objects {
        talk.give(&object.json());
    }
    talk.heard()
}

/// The IDs that are given, or those of the list.
fn ids(arguments: &Read) -> Result<Cow<'_, [HeapId]>, Failure> {
    let Some(list) = &arguments.ids_from else {
        return Ok(Cow::Borrowed(&arguments.ids));
    };
    if inputs::is_standard(list) && inputs::is_standard(&arguments.file) {
        return Err(Failure::Use(
            "standard input, -, can be the file or the list of IDs, not both".into(),
        ));
    }
    let name = match inputs::is_standard(list) {
        true => "standard input".into(),
        false => shown(list),
    };
    let ids = id::listed(&inputs::list(list)?);
    ids.map(Cow::Owned)
        .map_err(|why| Failure::Use(format!("{name}, {why}")))
}

/// All objects that the words name, before a byte of one is printed.
fn found<'o>(
    file: &'o [u8],
    ids: &'o [HeapId],
    arguments: &Read,
) -> Result<Vec<Object<'o>>, Failure> {
    let remarks = Remarks {
        quiet: arguments.quiet,
    };
    let reading = Reading::new(file, arguments, &remarks)?;
    if !arguments.any_length {
        check_ids(ids, reading.header.heap_id_length)?;
    }
    let in_list = arguments.ids_from.is_some();
    let objects = reading.objects(ids, in_list, &remarks)?;
    if in_list {
        let bytes: usize = objects.iter().map(|object| object.bytes.len()).sum();
        remarks.tell(&format!(
            "found by the list of IDs: {} of {}",
            count(objects.len() as u64, "object"),
            count(bytes as u64, "byte")
        ));
    }
    Ok(objects)
}

pub fn read(arguments: &Read) -> Result<(), Failure> {
    let inputs = arguments.ids_from.iter().chain([&arguments.file]);
    inputs::refuse_written(inputs.map(OsString::as_os_str))?;
    let ids = ids(arguments)?;
    let file = inputs::source(&arguments.file, &arguments.locking)?;
    let objects = found(&file, &ids, arguments);
    for object in objects.iter().flatten() {
        held::look_at(object.bytes);
    }
    // Of a file that was cut meanwhile not even a refusal is its own.
    file.release()?;
    let objects = objects?;
    let giving = Giving {
        name: &arguments.file,
        list: arguments.ids_from.as_deref(),
        hex: arguments.hex,
        force: arguments.force,
    };
    let parts: Vec<&[u8]> = objects.iter().map(|object| object.bytes).collect();
    let mut bytes_on_standard_output = false;
    match (&arguments.out, &arguments.out_dir) {
        (Some(out), _) if !inputs::is_standard(out.as_os_str()) => giving.keep(out, &parts)?,
        (_, Some(folder)) => {
            let mut ids = HashSet::new();
            if let Some(twice) = objects.iter().find(|o| !ids.insert(o.id.digits())) {
                return Err(Failure::Use(format!("the ID {} is given twice", twice.id)));
            }
            let named = objects.iter().map(|o| (o.id.digits().into(), o.bytes));
            giving.keep_each(folder, &named.collect::<Vec<_>>())?;
        }
        (None, None) if arguments.json => {}
        _ => {
            giving.print(&parts)?;
            bytes_on_standard_output = true;
        }
    }
    match arguments.json {
        true => describe(&objects, bytes_on_standard_output),
        false => Ok(()),
    }
}
