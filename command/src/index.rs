//! The index that `poilures write` keeps: which ID is whose.
use crate::arguments::Write as Arguments;
use crate::failure::Failure;
use crate::heap::Objects;
use crate::id::{HeapId, hex};
use crate::inputs::{self, Identity};
use crate::output::{self, Output};
use serde_json::{Value, json};
use std::ffi::OsStr;
use std::fmt::Display;
use std::fs;
use std::io::{BufWriter, Write};
use std::os::unix::ffi::OsStrExt;
use std::path::Path;

/// Puts a name into a line of JSON, which is UTF-8: one that is not goes as hexadecimal, too, beside a lossy one.
pub fn put_name(line: &mut Value, key: &str, name: &OsStr) {
    line[key] = name.to_string_lossy().into();
    if name.to_str().is_none() {
        line[format!("{key}_hex")] = hex(name.as_bytes(), "").into();
    }
}

/// Whether both names would be one file in one folder.
fn is_one_file(a: &Path, b: &Path) -> bool {
    let folder = |name: &Path| {
        let folder = output::folder(name);
        fs::metadata(folder)
            .ok()
            .map(|known| inputs::identity(&known))
    };
    a.file_name() == b.file_name() && folder(a) == folder(b)
}

/// Before anything is taken in: whether the index may go where it shall.
pub fn may_go(arguments: &Arguments, is_input: impl Fn(Identity) -> bool) -> Result<(), Failure> {
    let Some(name) = &arguments.index else {
        return Ok(());
    };
    if inputs::is_standard(name.as_os_str()) {
        return Err(Failure::Use(
            "an index goes into a file; --json prints such lines".into(),
        ));
    }
    let unwritten = |why: &dyn Display| Failure::file(name, "written", why);
    if arguments.out.iter().any(|out| is_one_file(out, name)) {
        return Err(unwritten(&"the image shall be there"));
    }
    output::may_go(name, arguments.force, is_input)?;
    // A folder that is not there is not to be missed only when the image is whole.
    let folder = fs::metadata(output::folder(name));
    folder.map(|_| ()).map_err(|error| unwritten(&error))
}

/// Keeps a line for each object, when the image is whole. Two names may be one file, where a file system does not tell
/// capitals from small letters: whether the index's is the image's is seen when the image is there.
pub fn keep(
    arguments: &Arguments,
    names: &[&OsStr],
    objects: &Objects,
    image: Option<Identity>,
) -> Result<(), Failure> {
    let Some(index) = &arguments.index else {
        return Ok(());
    };
    if image.is_some() && inputs::identity_of(index.as_os_str()) == image {
        return Err(Failure::file(index, "written", "the image is there"));
    }
    let is_input = |file| objects.files.contains(&file);
    let output = Output::begin(index, arguments.force, is_input)?;
    let mut to = BufWriter::new(output.file());
    for ((id, size), name) in objects.ids.iter().zip(&objects.sizes).zip(names) {
        let mut line = json!({"id": HeapId::new(id).to_string(), "length": size});
        put_name(&mut line, "name", name);
        writeln!(to, "{line}").map_err(|error| output.unwritten(error))?;
    }
    to.flush().map_err(|error| output.unwritten(error))?;
    drop(to);
    output.finish(is_input).map(|_| ())
}
