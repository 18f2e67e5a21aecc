//! `poilures list`: the attributes of an HDF5 file's root group.
use crate::arguments::List;
use crate::attributes::{self, unread};
use crate::covered;
use crate::failure::Failure;
use crate::heap::{self, number_line};
use crate::held;
use crate::id::HeapId;
use crate::index;
use crate::inputs;
use crate::quoting::shown;
use crate::talk::{Talk, Volume, is_or_are};
use fractal_heap::{Header, count, grouped};
use hdf5_file::{Found, Uncovered, Unreadable};
use serde_json::json;
use std::ffi::OsStr;
use std::iter;
use std::os::unix::ffi::OsStrExt;

/// What is told of an attribute.
struct Entry<'f> {
    number: usize,
    found: &'f Found<'f>,
    name: Option<&'f OsStr>,
    /// Bytes of its value, or why they are not read.
    length: Result<u64, Unreadable>,
    /// Where a value that is read lies if no checksum covers every byte of it.
    uncovered: Option<Uncovered>,
}

/// Stands in the row of a value that no checksum covers.
const MARK: &str = "*";

impl<'f> Entry<'f> {
    fn new(number: usize, found: &'f Found<'f>) -> Self {
        let attribute = found.attribute.as_ref();
        let read = attribute.ok().filter(|it| it.value.is_ok());
        Entry {
            number,
            found,
            name: attribute.ok().map(|it| OsStr::from_bytes(it.name)),
            length: attribute
                .map_err(|&why| why)
                .and_then(|it| it.value.map(|bytes| bytes.len() as u64)),
            uncovered: read.and_then(|it| it.uncovered),
        }
    }

    /// Whether it is damaged. A value of a kind that is not read is not, nor is a message that is shared, nor what is of a
    /// version that is not known here.
    fn is_damaged(&self) -> bool {
        match self.length {
            Ok(_) | Err(Unreadable::NotHere { .. } | Unreadable::Unknown { .. }) => false,
            Err(_) => true,
        }
    }

    fn row(&self) -> String {
        let told = |number: Option<u64>| number.map_or("-".into(), grouped);
        let id = self.found.id.as_ref();
        let (number, name) = (grouped(self.number as u64), self.name.map(shown));
        let mut row = heap::row([
            &number,
            &told(self.length.ok()),
            &told(self.found.heap_offset),
            &id.map_or("-".into(), |id| HeapId::new(id).to_string()),
            &match (name, self.length) {
                (Some(name), Ok(_)) => name,
                (Some(name), Err(why)) => format!("{name}  ({why})"),
                (None, Err(why)) => format!("- ({why})"),
                (None, Ok(_)) => "-".into(),
            },
        ]);
        if self.uncovered.is_some() {
            let behind = row.find(&number).unwrap_or(0) + number.len();
            row.replace_range(behind..=behind, MARK);
        }
        row
    }

    fn json(&self) -> String {
        let id = self.found.id.as_ref();
        let mut line = json!({
            "object": self.number,
            "length": self.length.ok(),
            "offset": self.found.heap_offset,
            "id": id.map(|id| HeapId::new(id).to_string()),
            "order": self.found.order,
            "checked": self.length.ok().map(|_| self.uncovered.is_none()),
        });
        match self.name {
            Some(name) => index::put_name(&mut line, "name", name),
            None => line["name"] = json!(null),
        }
        if let Err(why) = self.length {
            line["why"] = why.to_string().into();
        }
        line.to_string()
    }
}

/// The totals that the heap's header tells.
fn totals(header: &Header) -> Vec<String> {
    let managed = count(header.managed_objects_count, "managed object");
    let huge = match header.huge_objects_count {
        0 => String::new(),
        number => format!(
            ", {} of {}",
            count(number, "huge object"),
            count(header.huge_objects_size, "byte")
        ),
    };
    let numbers = [
        (
            "root rows",
            header.current_rows_in_root_indirect_block.into(),
        ),
        ("managed space", header.managed_space_in_heap),
        ("allocated space", header.allocated_managed_space_in_heap),
        ("free space", header.free_space_managed_blocks),
        ("iterator", header.direct_block_allocation_iterator_offset),
    ];
    let mut lines = vec![format!("heap: {managed}{huge}")];
    lines.extend(numbers.map(|(name, number)| number_line(name, number, "")));
    lines
}

pub fn list(arguments: &List) -> Result<(), Failure> {
    let name = arguments.file.as_os_str();
    inputs::refuse_written(iter::once(name))?;
    let file = inputs::source(name, &arguments.locking)?;
    let read = attributes::open_behind(&file, name, arguments.user_block);
    let found = read.and_then(|read| {
        let found = read.all().map_err(|why| unread(name, why))?;
        let heap = read.heap().map_err(|why| unread(name, why))?;
        let amiss = attributes::not_as_it_should_be(&read, &found, name);
        Ok((found, heap, amiss))
    });
    let attributes = found.iter().flat_map(|(found, ..)| found);
    for attribute in attributes.flat_map(|found| &found.attribute) {
        held::look_at(attribute.name);
    }
    // Of a file that was cut meanwhile not even a refusal is its own.
    file.release()?;
    let (found, header, mut amiss) = found?;
    let volume = match arguments.json {
        true => Volume::Results,
        false => Volume::All,
    };
    let mut talk = Talk::new(false, volume);
    if !found.is_empty() {
        talk.say(&heap::heading(["length", "name"]));
    }
    let entries: Vec<Entry> = found
        .iter()
        .enumerate()
        .map(|(i, it)| Entry::new(i, it))
        .collect();
    for entry in &entries {
        let line = if arguments.json {
            entry.json()
        } else {
            entry.row()
        };
        talk.give(&line);
    }
    let uncovered = covered::counted(entries.iter().filter_map(|entry| entry.uncovered));
    if let Some(words) = &uncovered {
        talk.say(&format!("{MARK} {words}"));
    }
    let bytes: u64 = entries.iter().filter_map(|entry| entry.length.ok()).sum();
    let all = count(entries.len() as u64, "attribute");
    if !entries.is_empty() {
        talk.say("");
    }
    talk.say(&format!("{all} of {}", count(bytes, "byte")));
    match &header {
        Some(header) => totals(header).iter().for_each(|line| talk.say(line)),
        None => talk.say("there is no heap"),
    }
    talk.end()?;
    amiss.extend(of_entries(&entries, arguments.require_checksums));
    match amiss.is_empty() {
        true => Ok(()),
        false => Err(Failure::Not(amiss.join("\n"))),
    }
}

/// What is not as it should be with some of the attributes, in sentences: they are damaged, or no checksum covers them
/// where one has to.
fn of_entries(entries: &[Entry], require_checksums: bool) -> impl Iterator<Item = String> {
    let of = |number: usize, what: &str| {
        let (number, all) = (number as u64, count(entries.len() as u64, "attribute"));
        let verb = is_or_are(number);
        (number > 0).then(|| format!("of {all} {} {verb} {what}", grouped(number)))
    };
    let damaged = entries.iter().filter(|entry| entry.is_damaged()).count();
    let uncovered = entries.iter().filter(|entry| entry.uncovered.is_some());
    let uncovered = uncovered.filter(|_| require_checksums).count();
    let sentences = [
        of(damaged, "not read"),
        of(uncovered, "not covered by checksums"),
    ];
    sentences.into_iter().flatten()
}

#[cfg(test)]
mod tests {
    use super::*;
    use hdf5_file::Attribute;

    fn is_damaged(attribute: Result<Attribute, Unreadable>) -> bool {
        let (id, heap_offset, order) = (None, None, None);
        let found = Found {
            id,
            heap_offset,
            order,
            attribute,
        };
        Entry::new(0, &found).is_damaged()
    }

    #[test]
    fn what_is_not_read_is_not_damaged() {
        let (what, number, why) = (
            "version of a datatype",
            5,
            "it is a compound of several values",
        );
        let unknown = Unreadable::Unknown { what, number };
        for why in [unknown, Unreadable::NotHere { why }] {
            let (name, value) = (&b"a"[..], Err(why));
            assert!(!is_damaged(Err(why)));
            assert!(!is_damaged(Ok(Attribute {
                name,
                value,
                message: None,
                variable_text: None,
                uncovered: None,
            })));
        }
        assert!(is_damaged(Err(Unreadable::Contradicts { what, why })));
    }

    #[test]
    fn a_value_that_no_checksum_covers_is_marked() {
        let found = |value, uncovered| Found {
            id: None,
            heap_offset: None,
            order: None,
            attribute: Ok(Attribute {
                name: b"a",
                value,
                message: None,
                variable_text: None,
                uncovered,
            }),
        };
        let lies = Some(Uncovered::OldObjectHeader);
        let told = |number, found| {
            let entry = Entry::new(number, &found);
            (entry.row(), entry.json())
        };
        for (number, due) in [(7, "      7*       2 "), (1_234_567, "1,234,567*       2 ")] {
            let (row, json) = told(number, found(Ok(&b"ab"[..]), lies));
            assert!(row.starts_with(due), "{row}");
            assert!(json.contains("\"checked\":false"), "{json}");
        }
        let (row, json) = told(7, found(Ok(&b"ab"[..]), None));
        assert!(row.starts_with("      7        2 ") && json.contains("\"checked\":true"));
        let why = "it is a compound of several values";
        let (row, json) = told(7, found(Err(Unreadable::NotHere { why }), lies));
        assert!(row.starts_with("      7        - ") && json.contains("\"checked\":null"));
    }
}
