//! `poilures header`: what the header of a heap says, or of each heap in a file.
use crate::arguments;
use crate::dump::dump;
use crate::failure::Failure;
use crate::filters::Pipeline;
use crate::image::SIGNATURE;
use crate::inputs::{self, Source};
use crate::map::percent;
use crate::memory;
use crate::progress::Progress;
use crate::quoting::shown;
use crate::site::{Remarks, Site};
use crate::talk::{Talk, Volume};
use fractal_heap::{Header, Heap, count, grouped};
use serde_json::{Map, Value};

/// A file is searched part by part; no part is kept.
const PART: usize = 1 << 20;
/// So many places are told where a signature begins no header.
const TOLD: usize = 8;

/// A field as it is told: by its name in the library, and in words.
struct Field {
    name: &'static str,
    words: &'static str,
    /// None of an address that is undefined.
    value: Option<u64>,
    remark: String,
}

/// A header that was found, and where it is in the file.
struct Found<'f> {
    header: Header,
    heap: Heap<'f>,
    position: u64,
    /// Where addresses count from.
    base: u64,
}

/// The flags in words; what is not known is said by its number.
fn flags(flags: u8) -> String {
    let wrapped = match flags & Header::IDS_HAVE_WRAPPED {
        0 => "huge IDs have not wrapped",
        _ => "huge IDs have wrapped",
    };
    let checksums = match flags & Header::BLOCKS_HAVE_CHECKSUMS {
        0 => "direct blocks have no checksums",
        _ => "direct blocks have checksums",
    };
    let unknown = match flags & !(Header::IDS_HAVE_WRAPPED | Header::BLOCKS_HAVE_CHECKSUMS) {
        0 => String::new(),
        others => format!("; the others, {others}, are not known"),
    };
    format!("{wrapped}; {checksums}{unknown}")
}

/// Which filters a mask says that were skipped, by their names, where these are known, and their places.
fn skipped(mask: u32, pipeline: Option<&Pipeline>) -> String {
    let (mut filters, mut others) = (Vec::new(), Vec::new());
    for place in (0..u32::BITS).filter(|place| mask >> place & 1 == 1) {
        match pipeline.map(|pipeline| pipeline.name_at(place)) {
            None => filters.push(format!("the filter at place {place}")),
            Some(Some(name)) => filters.push(format!("{name}, at place {place}")),
            Some(None) => others.push(place.to_string()),
        }
    }
    let filters = match &filters[..] {
        [] => "no filter".into(),
        filters => filters.join("; "),
    };
    let others = match &others[..] {
        [] => String::new(),
        [one] => format!("; set is bit {one}, which stands for no filter"),
        more => format!(
            "; set are bits {}, which stand for no filter",
            more.join(", ")
        ),
    };
    format!("the root block skipped {filters}{others}")
}

/// What the rows of the doubling table have, where its sizes are the powers of two that they have to be.
fn geometry(header: &Header) -> Vec<String> {
    let (start, largest) = (header.starting_block_size, header.max_direct_block_size);
    if !start.is_power_of_two() || !largest.is_power_of_two() || start > largest {
        return Vec::new();
    }
    let last = largest.ilog2() - start.ilog2() + 1;
    let (blocks, start) = (
        count(header.table_width.into(), "block"),
        count(start, "byte"),
    );
    vec![
        format!(
            "geometry: a row has {blocks}, of {start} in rows 0 and 1, in each later row of twice as many;"
        ),
        format!("  those of rows 0 to {last} are direct blocks"),
    ]
}

impl Found<'_> {
    /// An address, undefined or not, with its position in the file where addresses count from elsewhere than the file's
    /// start. Of a header before that it is not known where they count from.
    fn address(&self, name: &'static str, words: &'static str, address: u64) -> Field {
        let value = self.heap.defined(address);
        let is_moved = self.base != 0 && self.position >= self.base;
        let remark = match value.filter(|_| is_moved) {
            None => String::new(),
            Some(address) => match address.checked_add(self.base) {
                Some(position) => format!("in the file at {}", grouped(position)),
                None => "past every file".into(),
            },
        };
        Field {
            name,
            words,
            value,
            remark,
        }
    }

    /// All fields, in header order.
    fn fields(&self) -> Vec<Field> {
        let h = &self.header;
        let number = |name, words, value: u64, remark: &str| Field {
            name,
            words,
            value: Some(value),
            remark: remark.into(),
        };
        let bytes = |name, words, value| number(name, words, value, "bytes");
        let objects = |name, words, value| number(name, words, value, "");
        let address = |name, words, value| self.address(name, words, value);
        let rows = h.current_rows_in_root_indirect_block;
        let share = percent(h.free_space_managed_blocks, h.managed_space_in_heap);
        let share = share.unwrap_or("none".into());
        let share = format!("bytes, share of the managed space: {share}");
        vec![
            bytes("heap_id_length", "length of an ID", h.heap_id_length.into()),
            number(
                "io_filter_encoded_length",
                "length of the filters",
                h.io_filter_encoded_length.into(),
                match h.io_filter_encoded_length {
                    0 => "bytes: the heap has no filters",
                    _ => "bytes",
                },
            ),
            number("flags", "flags", h.flags.into(), &flags(h.flags)),
            bytes(
                "max_managed_object_size",
                "largest managed object",
                h.max_managed_object_size.into(),
            ),
            objects("next_huge_object_id", "next huge ID", h.next_huge_object_id),
            address(
                "btree_huge_objects_address",
                "index of huge objects",
                h.btree_huge_objects_address,
            ),
            number(
                "free_space_managed_blocks",
                "free space",
                h.free_space_managed_blocks,
                &share,
            ),
            address(
                "managed_block_free_space_manager_address",
                "its manager",
                h.managed_block_free_space_manager_address,
            ),
            bytes(
                "managed_space_in_heap",
                "managed space",
                h.managed_space_in_heap,
            ),
            bytes(
                "allocated_managed_space_in_heap",
                "allocated space",
                h.allocated_managed_space_in_heap,
            ),
            number(
                "direct_block_allocation_iterator_offset",
                "iterator",
                h.direct_block_allocation_iterator_offset,
                "the next block's heap offset",
            ),
            objects(
                "managed_objects_count",
                "managed objects",
                h.managed_objects_count,
            ),
            bytes(
                "huge_objects_size",
                "size of huge objects",
                h.huge_objects_size,
            ),
            objects("huge_objects_count", "huge objects", h.huge_objects_count),
            bytes(
                "tiny_objects_size",
                "size of tiny objects",
                h.tiny_objects_size,
            ),
            objects("tiny_objects_count", "tiny objects", h.tiny_objects_count),
            number(
                "table_width",
                "table width",
                h.table_width.into(),
                "blocks a row",
            ),
            bytes(
                "starting_block_size",
                "starting block",
                h.starting_block_size,
            ),
            bytes(
                "max_direct_block_size",
                "largest direct block",
                h.max_direct_block_size,
            ),
            number(
                "max_heap_size",
                "heap space",
                h.max_heap_size.into(),
                "bits of a heap offset",
            ),
            number(
                "start_root_rows",
                "rows of a new root",
                h.start_root_rows.into(),
                match h.start_root_rows {
                    0 => "as many as there can be",
                    _ => "",
                },
            ),
            address("root_block_address", "root block", h.root_block_address),
            number(
                "current_rows_in_root_indirect_block",
                "rows of the root",
                rows.into(),
                match (rows, self.heap.defined(h.root_block_address)) {
                    (0, Some(_)) => "the root is a direct block",
                    (0, None) => "there is no root",
                    _ => "",
                },
            ),
        ]
    }

    /// The three fields of a filtered heap's header, which are 0 where there are no filters. The size and the mask are
    /// those of a root that is a direct block.
    fn filter_fields(&self) -> [Field; 3] {
        let h = &self.header;
        let field = |name, words, value, remark| Field {
            name,
            words,
            value: Some(value),
            remark,
        };
        // The heap's file may begin behind a user block.
        let position = match h.io_filter_information_position {
            0 => 0,
            position => self.position - self.heap.header_at + position,
        };
        let length = count(h.io_filter_encoded_length.into(), "byte");
        let information = self.heap.io_filter_information(h);
        let pipeline = information.and_then(|bytes| Pipeline::decode(bytes).ok());
        let has_no_root = self.heap.defined(h.root_block_address).is_none();
        let (size, mask) = match h.current_rows_in_root_indirect_block {
            0 if has_no_root => ("bytes: there is no root", "there is no root".into()),
            0 => (
                "bytes of the root block in the file",
                skipped(h.io_filter_mask, pipeline.as_ref()),
            ),
            _ => (
                "bytes: the root is no direct block",
                "the root is no direct block".into(),
            ),
        };
        [
            field(
                "io_filter_information_position",
                "filter information",
                position,
                format!("its {length} begin here in the file"),
            ),
            field(
                "filtered_root_direct_block_size",
                "filtered root",
                h.filtered_root_direct_block_size,
                size.into(),
            ),
            field(
                "io_filter_mask",
                "filter mask",
                h.io_filter_mask.into(),
                mask,
            ),
        ]
    }

    /// What the filters are, or the bytes that do not say it.
    fn filters(&self) -> Vec<String> {
        let Some(information) = self.heap.io_filter_information(&self.header) else {
            return Vec::new();
        };
        let (mut lines, rest) = match Pipeline::decode(information) {
            Ok(pipeline) => (pipeline.lines(), pipeline.rest),
            Err(why) => (
                vec![format!(
                    "filters: not known, the bytes are no Filter Pipeline message: {why}"
                )],
                information,
            ),
        };
        if !rest.is_empty() && rest.len() < information.len() {
            let rest = count(rest.len() as u64, "byte");
            lines.push(format!("  and {rest} behind the message:"));
        }
        lines.extend(dump(rest, 0).lines().map(|line| format!("  {line}")));
        lines
    }

    /// Where the header is, and by which sizes it was read.
    fn heading(&self) -> String {
        let address = match (self.base, self.position.checked_sub(self.base)) {
            (0, _) => String::new(),
            (_, Some(address)) => format!(" in the file, address {}", grouped(address)),
            (base, None) => format!(
                " in the file, before the base, {}: no heap of what begins there",
                grouped(base)
            ),
        };
        format!(
            "heap header at {}{address}; offset size {}, length size {}",
            grouped(self.position),
            self.heap.offset_size,
            self.heap.length_size
        )
    }

    /// A table for a person.
    fn lines(&self) -> Vec<String> {
        let mut fields = self.fields();
        if self.header.io_filter_encoded_length > 0 {
            fields.extend(self.filter_fields());
        }
        let told = |field: &Field| field.value.map_or("none".into(), grouped);
        let width = fields.iter().map(|field| told(field).len()).max();
        let width = width.unwrap_or(0);
        let line = |field: &Field| {
            let line = format!(
                "  {:<22} {:>width$}  {}",
                field.words,
                told(field),
                field.remark
            );
            line.trim_end().to_owned()
        };
        let lines = [self.heading()].into_iter().chain(fields.iter().map(line));
        let more = self.filters().into_iter().chain(geometry(&self.header));
        lines.chain(more.map(|line| format!("  {line}"))).collect()
    }

    fn json(&self) -> String {
        let fields = self.fields().into_iter().chain(self.filter_fields());
        let mut object: Map<String, Value> = fields
            .map(|field| (field.name.into(), field.value.into()))
            .collect();
        for (name, number) in [
            ("position", self.position),
            ("offset_size", self.heap.offset_size.into()),
            ("length_size", self.heap.length_size.into()),
        ] {
            object.insert(name.into(), number.into());
        }
        Value::Object(object).to_string()
    }
}

/// Where in a file of so many bytes the signature of a heap's header stands. It is searched in parts of this size, which are
/// put into one place, one after another.
fn signatures(
    length: usize,
    part: usize,
    mut put: impl FnMut(usize, &mut [u8]) -> Result<(), Failure>,
) -> Result<Vec<u64>, Failure> {
    let parts = length.div_ceil(part);
    let mut progress = Progress::new("searching for headers: parts", parts as u64);
    // One that begins in a part may end in the next one.
    let more = SIGNATURE.len() - 1;
    let mut room = memory::with_room(length.min(part + more))?;
    let mut found = Vec::new();
    for start in (0..length).step_by(part) {
        room.resize(part.saturating_add(more).min(length - start), 0);
        put(start, &mut room)?;
        let windows = room.windows(SIGNATURE.len()).enumerate();
        let here = windows.filter(|(_, window)| *window == SIGNATURE);
        found.extend(here.map(|(at, _)| (start + at) as u64));
        progress.step();
    }
    Ok(found)
}

/// What was found at all signatures of a file.
#[derive(Default)]
struct Search<'f> {
    found: Vec<Found<'f>>,
    /// Where no sound header begins.
    others: Vec<u64>,
}

impl<'f> Search<'f> {
    fn new(site: &Site<'f>, file: &Source) -> Result<Self, Failure> {
        let mut search = Search::default();
        for position in signatures(file.len(), PART, |at, to| file.peek(at, to))? {
            let heap = site.heap_at(position);
            match heap.header() {
                Ok(header) => search.found.push(Found {
                    header,
                    heap,
                    position,
                    base: site.base,
                }),
                Err(_) => search.others.push(position),
            }
        }
        Ok(search)
    }

    /// Where the signature begins no header, in words.
    fn others(&self) -> Option<String> {
        let places: Vec<String> = self
            .others
            .iter()
            .take(TOLD)
            .copied()
            .map(grouped)
            .collect();
        let more = match self.others.len().saturating_sub(TOLD) {
            0 => String::new(),
            more => format!(" and {}", count(more as u64, "other place")),
        };
        (!places.is_empty()).then(|| {
            format!(
                "FRHP stands where no sound header begins: at {}{more}; with PLACE it is said why",
                places.join(", ")
            )
        })
    }
}

/// Every sound header of a file.
fn all<'f>(
    site: &Site<'f>,
    file: &Source,
    name: &str,
    remarks: &Remarks,
) -> Result<Vec<Found<'f>>, Failure> {
    let search = Search::new(site, file)?;
    let others = search.others();
    if search.found.is_empty() {
        let others = others.map_or(String::new(), |words| format!("\n{words}"));
        return Err(Failure::Not(format!(
            "{name} has no sound header of a heap, at offset size {} and length size {}{others}",
            site.offset_size, site.length_size
        )));
    }
    if let Some(words) = others {
        remarks.tell(&words);
    }
    Ok(search.found)
}

/// The header at a place.
fn one<'f>(
    site: &Site<'f>,
    place: u64,
    arguments: &arguments::Header,
) -> Result<Found<'f>, Failure> {
    let heap = site.heap(place, &arguments.addressing)?;
    Ok(Found {
        header: site.header(&heap)?,
        heap,
        position: site.base + heap.header_at,
        base: site.base,
    })
}

pub fn header(arguments: &arguments::Header) -> Result<(), Failure> {
    inputs::refuse_written([arguments.file.as_os_str()].into_iter())?;
    let file = inputs::source(&arguments.file, &arguments.locking)?;
    let remarks = Remarks {
        quiet: arguments.quiet,
    };
    let found =
        Site::new(&file, arguments.place, &arguments.addressing, &remarks).and_then(|site| {
            match arguments.place {
                Some(place) => Ok(vec![one(&site, place, arguments)?]),
                None => all(&site, &file, &named(arguments), &remarks),
            }
        });
    // What is told is put into words while the file is locked.
    let words = found.map(|found| lines(&found, arguments.json));
    // Of a file that was cut meanwhile not even a refusal is its own.
    file.release()?;
    let mut talk = Talk::new(false, Volume::Results);
    words?.iter().for_each(|line| talk.give(line));
    talk.end()
}

/// What is told of these headers.
fn lines(found: &[Found], json: bool) -> Vec<String> {
    if json {
        return found.iter().map(Found::json).collect();
    }
    let each: Vec<Vec<String>> = found.iter().map(Found::lines).collect();
    each.join(&String::new())
}

/// The file, in words.
fn named(arguments: &arguments::Header) -> String {
    match inputs::is_standard(&arguments.file) {
        true => "standard input".into(),
        false => shown(&arguments.file),
    }
}

#[cfg(test)]
mod tests {
    use super::*;

    #[test]
    fn a_signature_is_found_in_every_part_and_between_parts() {
        let mut file = vec![b'F'; 40];
        for at in [0, 5, 14, 36] {
            file[at..at + 4].copy_from_slice(b"FRHP");
        }
        let signatures = |file: &[u8], part| {
            let put = |at: usize, to: &mut [u8]| {
                to.copy_from_slice(&file[at..at + to.len()]);
                Ok(())
            };
            super::signatures(file.len(), part, put).unwrap()
        };
        for part in 1..=41 {
            assert_eq!(signatures(&file, part), [0, 5, 14, 36], "parts of {part}");
        }
        for cut in 0..4 {
            assert!(signatures(&file[36..36 + cut], 2).is_empty());
        }
    }

    // By the format: bit 0, huge IDs have wrapped; bit 1, direct blocks have checksums; the others are reserved.
    #[test]
    fn flags_in_words() {
        for (number, due) in [
            (
                0,
                "huge IDs have not wrapped; direct blocks have no checksums",
            ),
            (1, "huge IDs have wrapped; direct blocks have no checksums"),
            (2, "huge IDs have not wrapped; direct blocks have checksums"),
            (3, "huge IDs have wrapped; direct blocks have checksums"),
            (
                255,
                "huge IDs have wrapped; direct blocks have checksums; the others, 252, are not known",
            ),
        ] {
            assert_eq!(flags(number), due);
        }
    }

    // By the format: bit i stands for the filter at place i, counted from 0. These are deflate, whose number is 1, and
    // packer, whose number is 300.
    #[test]
    fn a_mask_in_words() {
        let message = *b"\x02\x02\x01\0\0\0\0\0\x2c\x01\x06\0\0\0\0\0packer";
        let pipeline = Pipeline::decode(&message).unwrap();
        for (mask, due) in [
            (0, "no filter"),
            (1, "deflate, at place 0"),
            (2, "packer, at place 1"),
            (3, "deflate, at place 0; packer, at place 1"),
            (
                1 << 31,
                "no filter; set is bit 31, which stands for no filter",
            ),
            (
                1 << 31 | 6,
                "packer, at place 1; set are bits 2, 31, which stand for no filter",
            ),
        ] {
            let due = format!("the root block skipped {due}");
            assert_eq!(skipped(mask, Some(&pipeline)), due);
        }
        for (mask, due) in [
            (0, "no filter"),
            (2, "the filter at place 1"),
            (
                1 << 31 | 5,
                "the filter at place 0; the filter at place 2; the filter at place 31",
            ),
        ] {
            assert_eq!(skipped(mask, None), format!("the root block skipped {due}"));
        }
    }
}
