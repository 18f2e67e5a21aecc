//! `poilures get`: attributes of an HDF5 file's root group, by their names.
use crate::arguments::Get;
use crate::attributes::{self, called, unread};
use crate::covered;
use crate::failure::Failure;
use crate::giving::Giving;
use crate::held;
use crate::id::HeapId;
use crate::inputs;
use crate::quoting::shown;
use crate::talk::{is_or_are, tell};
use fractal_heap::{count, grouped};
use hdf5_file::{Attributes, Found, Uncovered, Unreadable};
use std::collections::HashSet;
use std::ffi::{OsStr, OsString};
use std::iter;
use std::os::unix::ffi::OsStrExt;

/// Bytes of the longest name of a file.
const LONGEST_NAME: usize = 255;

/// An attribute whose bytes are there.
struct Value<'f> {
    name: &'f OsStr,
    bytes: &'f [u8],
    /// Where it lies if no checksum covers every byte of it.
    uncovered: Option<Uncovered>,
}

/// What is to be given out.
struct Wanted<'f> {
    values: Vec<Value<'f>>,
    /// Of attributes that are not given why, where all are asked for.
    left: Vec<String>,
    /// What is not as it should be with the file, where all are asked for.
    amiss: Vec<String>,
}

/// An attribute's bytes, or why there are none, as a part of a sentence.
fn value<'f>(found: &Found<'f>) -> Result<Value<'f>, String> {
    match &found.attribute {
        Ok(attribute) => {
            let name = OsStr::from_bytes(attribute.name);
            match attribute.value {
                Ok(bytes) => Ok(Value {
                    name,
                    bytes,
                    uncovered: attribute.uncovered,
                }),
                Err(why) => Err(format!("{}: {why}", shown(name))),
            }
        }
        Err(why) => Err(match &found.id {
            Some(id) => format!("the attribute of the ID {}: {why}", HeapId::new(id)),
            None if matches!(why, Unreadable::NotHere { .. }) => format!("an attribute: {why}"),
            None => format!("an attribute in the object header: {why}"),
        }),
    }
}

/// Why a file cannot have this name.
fn no_file_name(name: &OsStr) -> Option<&'static str> {
    match name.as_bytes() {
        b"" => Some("its name is empty, which no file's is"),
        b"." | b".." => Some("its name is that of a folder"),
        name if name.contains(&b'/') => Some("its name has a slash, which no file's has"),
        name if name.contains(&0) => Some("its name has a zero byte, which no file's has"),
        name if name.len() > LONGEST_NAME => Some("its name has more than 255 bytes"),
        _ => None,
    }
}

/// The attributes that are asked for.
fn asked<'f>(read: &Attributes<'f>, arguments: &Get) -> Result<Vec<Value<'f>>, Failure> {
    let file = &arguments.file;
    let one = |found: Option<Found<'f>>, words: &dyn Fn() -> String| match found {
        Some(found) => value(&found).map_err(Failure::Not),
        None => Err(Failure::Not(words())),
    };
    if let Some(id) = &arguments.id {
        let found = match id.bytes().try_into() {
            Ok(bytes) => read.find_id(bytes).map_err(|why| unread(file, why))?,
            Err(_) => {
                let length = count(id.bytes().len() as u64, "byte");
                let words = format!("the ID {id} has {length}, and those of attributes have 8");
                return Err(Failure::Use(words));
            }
        };
        let none = || format!("no attribute of the root group has the ID {id}");
        return one(found, &none).map(|value| vec![value]);
    }
    let by_name = |name: &OsString| {
        let found = read.find(name.as_bytes());
        let none = || match name.is_empty() {
            true => "the root group has no attribute whose name is empty".into(),
            false => {
                let name = shown(name);
                format!("the root group has no attribute of the name {name}")
            }
        };
        one(found.map_err(|why| unread(file, why))?, &none)
    };
    named_once(arguments).into_iter().map(by_name).collect()
}

/// The names that are asked for: where each becomes a file, one that is given again is the same file.
fn named_once(arguments: &Get) -> Vec<&OsString> {
    let mut met = HashSet::new();
    let names = arguments.names.iter();
    let (names, mut again): (Vec<_>, Vec<_>) =
        names.partition(|&name| arguments.out_dir.is_none() || met.insert(name));
    again.sort_unstable();
    again.dedup();
    if !again.is_empty() {
        let again = again.iter().map(shown).collect::<Vec<_>>().join(", ");
        tell(&format!(
            "named more than once, which makes one file each: {again}"
        ));
    }
    names
}

/// The values that no checksum covers, in a sentence, if there are any.
fn uncovered(values: &[Value], file: &OsStr) -> Option<String> {
    let those = values
        .iter()
        .filter_map(|it| Some((it.name, it.uncovered?)));
    let words = covered::named(&those.collect::<Vec<_>>())?;
    Some(format!("{}: {words}", called(file)))
}

/// Those that are asked for, which are refused where checksums have to cover them and do not.
fn asked_and_covered<'f>(
    read: &Attributes<'f>,
    arguments: &Get,
) -> Result<Vec<Value<'f>>, Failure> {
    let values = asked(read, arguments)?;
    match uncovered(&values, &arguments.file) {
        Some(words) if arguments.require_checksums => Err(Failure::Not(format!(
            "{words}, and --require-checksums refuses that"
        ))),
        _ => Ok(values),
    }
}

/// All attributes whose bytes are there, and of the others why not.
fn all<'f>(read: &Attributes<'f>, arguments: &Get) -> Result<Wanted<'f>, Failure> {
    let file = arguments.file.as_os_str();
    let found = read.all().map_err(|why| unread(file, why))?;
    let (mut values, mut left) = (Vec::new(), Vec::new());
    for found in &found {
        match value(found) {
            Ok(value) => match value.uncovered {
                Some(lies) if arguments.require_checksums => left.push(format!(
                    "{}: no checksum covers every byte of it ({lies})",
                    shown(value.name)
                )),
                _ => values.push(value),
            },
            Err(why) => left.push(why),
        }
    }
    let amiss = attributes::not_as_it_should_be(read, &found, file);
    Ok(Wanted {
        values,
        left,
        amiss,
    })
}

/// What is to be given out.
fn wanted<'f>(file: &'f [u8], arguments: &Get) -> Result<Wanted<'f>, Failure> {
    let read = attributes::open_behind(file, &arguments.file, arguments.user_block)?;
    match arguments.all {
        true => all(&read, arguments),
        false => Ok(Wanted {
            values: asked_and_covered(&read, arguments)?,
            left: Vec::new(),
            amiss: Vec::new(),
        }),
    }
}

/// Leaves out what can be no file of its own in a folder, and says why.
fn leave_out(values: &mut Vec<Value>, left: &mut Vec<String>) {
    let mut names = HashSet::new();
    values.retain(|value| {
        let twice = "another attribute has this name, too";
        let why = no_file_name(value.name).or((!names.insert(value.name)).then_some(twice));
        left.extend(why.map(|why| format!("{}: {why}", shown(value.name))));
        why.is_none()
    });
}

/// Tells which of the values that are given no checksum covers, in one line.
fn tell_uncovered(values: &[Value], file: &OsStr) {
    if let Some(words) = uncovered(values, file) {
        tell(&words);
    }
}

/// Fails where some attributes are left out, so many beside those that were written, or the file is not as it should be.
fn all_written(written: u64, left: &[String], amiss: Vec<String>) -> Result<(), Failure> {
    let mut sentences = amiss;
    let number = left.len() as u64;
    if number > 0 {
        sentences.push(format!(
            "of {} {} {} not written:\n  {}",
            count(written + number, "attribute"),
            grouped(number),
            is_or_are(number),
            left.join("\n  ")
        ));
    }
    match sentences.is_empty() {
        true => Ok(()),
        false => Err(Failure::Not(sentences.join("\n"))),
    }
}

pub fn get(arguments: &Get) -> Result<(), Failure> {
    let name = arguments.file.as_os_str();
    inputs::refuse_written(iter::once(name))?;
    let file = inputs::source(name, &arguments.locking)?;
    let wanted = wanted(&file, arguments);
    for value in wanted.iter().flat_map(|wanted| &wanted.values) {
        held::look_at(value.name.as_bytes());
        held::look_at(value.bytes);
    }
    // Of a file that was cut meanwhile not even a refusal is its own.
    file.release()?;
    let Wanted {
        mut values,
        mut left,
        amiss,
    } = wanted?;
    let giving = Giving {
        name,
        list: None,
        hex: arguments.hex,
        force: arguments.force,
    };
    if let Some(folder) = &arguments.out_dir {
        leave_out(&mut values, &mut left);
        if let (false, [why, ..]) = (arguments.all, &left[..]) {
            return Err(Failure::Use(format!("no file can be written: {why}")));
        }
        tell_uncovered(&values, name);
        let files = values.iter().map(|value| (value.name.into(), value.bytes));
        giving.keep_each(folder, &files.collect::<Vec<_>>())?;
        return all_written(values.len() as u64, &left, amiss);
    }
    tell_uncovered(&values, name);
    let parts: Vec<&[u8]> = values.iter().map(|value| value.bytes).collect();
    match &arguments.out {
        Some(out) if !inputs::is_standard(out.as_os_str()) => giving.keep(out, &parts),
        _ => giving.print(&parts),
    }
}

#[cfg(test)]
mod tests {
    use super::*;

    #[test]
    fn what_is_no_files_name() {
        let longest = "n".repeat(255);
        for name in ["a", ".a", "...", "größe 1", "a\nb", "-", "~", &longest] {
            assert_eq!(no_file_name(OsStr::new(name)), None, "{name}");
        }
        let longer = "n".repeat(256);
        for name in ["", ".", "..", "/", "a/b", "../a", "a\0b", &longer] {
            assert!(no_file_name(OsStr::new(name)).is_some(), "{name}");
        }
    }

    #[test]
    fn no_name_is_written_twice() {
        let value = |name| Value {
            name: OsStr::new(name),
            bytes: b"",
            uncovered: None,
        };
        let (mut values, mut left) = (vec![value("a"), value("b/"), value("a")], vec![]);
        leave_out(&mut values, &mut left);
        assert_eq!(values.len(), 1);
        let due = [
            "b/: its name has a slash, which no file's has",
            "a: another attribute has this name, too",
        ];
        assert_eq!(left, due);
    }
}
