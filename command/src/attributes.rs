//! The attributes of an HDF5 file's root group, as they are read.
use crate::failure::Failure;
use crate::quoting::shown;
use crate::site;
use fractal_heap::{Superblock, count};
use hdf5_file::{Attributes, Found, Unreadable};
use std::ffi::OsStr;

/// A file's name in a sentence.
pub fn called(file: &OsStr) -> String {
    match crate::inputs::is_standard(file) {
        true => "standard input".into(),
        false => shown(file),
    }
}

/// Why something of a file is not read, with the file's name.
pub fn unread(file: &OsStr, why: Unreadable) -> Failure {
    let advice = match why {
        Unreadable::OtherBase { at, .. } => format!(
            "; where a user block was put before the file, as h5jam does it, h5unjam takes it off, and get and list read \
             the file behind it with --user-block {at}"
        ),
        _ => String::new(),
    };
    Failure::Not(format!("{}: {why}{advice}", called(file)))
}

/// Those of a file that was opened by this name.
pub fn open<'f>(bytes: &'f [u8], file: &OsStr) -> Result<Attributes<'f>, Failure> {
    if let Some(superblock) = Superblock::find(bytes) {
        site::warn(&superblock);
    }
    Attributes::open(bytes).map_err(|why| unread(file, why))
}

/// The same; or those of a file whose superblock stands behind a user block of so many bytes.
pub fn open_behind<'f>(
    bytes: &'f [u8],
    file: &OsStr,
    user_block: Option<u64>,
) -> Result<Attributes<'f>, Failure> {
    let Some(user_block) = user_block else {
        return open(bytes, file);
    };
    let rest = usize::try_from(user_block)
        .ok()
        .and_then(|at| bytes.get(at..));
    let superblock = rest.and_then(Superblock::find).filter(|it| it.at == 0);
    if let Some(mut superblock) = superblock {
        superblock.at = user_block;
        site::warn(&superblock);
    }
    Attributes::open_behind(bytes, user_block).map_err(|why| unread(file, why))
}

/// What is not as it should be with a file, though all of its attributes may be read, in sentences: `all` are all of
/// them. Another file may lie over this one, or an older part of it over a newer one.
pub fn not_as_it_should_be(read: &Attributes, all: &[Found], file: &OsStr) -> Vec<String> {
    let disagreement = match read.disagreement(all) {
        Ok(None) => None,
        Ok(Some(disagreement)) => Some(disagreement.to_string()),
        Err(why) => Some(why.to_string()),
    };
    let behind = match read.bytes_behind() {
        0 => None,
        behind => Some(format!(
            "behind the end that its superblock tells are {}, which are not read",
            count(behind, "more byte")
        )),
    };
    let sentence = |words| format!("{}: {words}", called(file));
    disagreement
        .into_iter()
        .chain(behind)
        .map(sentence)
        .collect()
}
