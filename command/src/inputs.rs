//! Files in, with a plain sentence where one cannot be read.
use crate::failure::Failure;
use crate::held::{CUT, Held};
use crate::image::LARGEST_DIRECT;
use crate::joined::Joined;
use crate::locks::{self, Lock, Locking};
use crate::memory;
use crate::quoting::shown;
use crate::signals;
use crate::streams;
use crate::talk::{self, tell};
use fractal_heap::{count, grouped};
use memmap2::Mmap;
use std::cell::Cell;
use std::ffi::{OsStr, OsString};
use std::fmt::Display;
use std::fs::{self, File, FileType, Metadata};
use std::io::{self, Read, Seek};
use std::ops::Deref;
use std::os::fd::AsFd;
use std::os::unix::ffi::OsStrExt;
use std::os::unix::fs::{FileTypeExt, MetadataExt};
use std::path::Path;

/// No more is taken from a pipe, or of a list.
const LARGEST_PIPE: u64 = 1 << 30;
/// Bytes that are read at once from it.
const STRIDE: usize = 1 << 16;

/// Which file it is, whatever its name.
pub type Identity = (u64, u64);

pub fn identity(known: &Metadata) -> Identity {
    (known.dev(), known.ino())
}

/// What a file is that is neither a file with bytes nor a pipe.
pub fn other_kind(kind: FileType) -> Option<&'static str> {
    match () {
        () if kind.is_file() || kind.is_fifo() => None,
        () if kind.is_dir() => Some("it is a folder"),
        () if kind.is_socket() => Some("it is a socket"),
        () => Some("it is a device"),
    }
}

/// The words of standard input's name.
pub fn is_standard(name: &OsStr) -> bool {
    name == "-"
}

/// A file that is open, and what is known of it.
struct Open {
    file: File,
    known: Metadata,
}

/// Opens a file or a pipe; `-` is standard input, which may also be a terminal. A device is not even opened: some do
/// something then. What is written to as well is refused.
fn open(name: &OsStr) -> Result<Open, Failure> {
    let unread = |error: io::Error| Failure::file(name, "read", error);
    let file = if is_standard(name) {
        streams::check_input().map_err(unread)?;
        File::from(io::stdin().as_fd().try_clone_to_owned().map_err(unread)?)
    } else {
        let kind = fs::metadata(name).map_err(unread)?.file_type();
        refuse_other(name, kind)?;
        File::open(name).map_err(unread)?
    };
    opened(name, file)
}

/// Looks at a file that is open.
fn opened(name: &OsStr, file: File) -> Result<Open, Failure> {
    let known = file.metadata();
    let known = known.map_err(|error| Failure::file(name, "read", error))?;
    if !is_standard(name) {
        refuse_other(name, known.file_type())?;
    }
    streams::refuse_input(identity(&known))?;
    Ok(Open { file, known })
}

/// Refuses what is neither a file with bytes nor a pipe.
fn refuse_other(name: &OsStr, kind: FileType) -> Result<(), Failure> {
    match other_kind(kind) {
        None => Ok(()),
        Some(kind) => Err(Failure::file(name, "read", kind)),
    }
}

/// What is known of the file that a name stands for, if there is one.
fn known(name: &OsStr) -> Option<Metadata> {
    let known = match is_standard(name) {
        true => File::from(io::stdin().as_fd().try_clone_to_owned().ok()?).metadata(),
        false => fs::metadata(name),
    };
    known.ok()
}

/// Which file a name stands for, if there is one.
pub fn identity_of(name: &OsStr) -> Option<Identity> {
    known(name).map(|known| identity(&known))
}

/// Whether a file goes by one of these names.
pub fn is_among<'n>(file: Identity, mut names: impl Iterator<Item = &'n OsStr>) -> bool {
    names.any(|name| identity_of(name) == Some(file))
}

/// A file that was looked at before it is opened: which, and how large it was.
#[derive(Clone, Copy)]
pub struct Seen {
    identity: Identity,
    size: u64,
}

/// Refuses an input that is written to as well; no file is opened for that. What is seen of a file comes back.
fn look_at(name: &OsStr) -> Result<Option<Seen>, Failure> {
    let Some(known) = known(name) else {
        return Ok(None);
    };
    let seen = Seen {
        identity: identity(&known),
        size: known.len(),
    };
    streams::refuse_input(seen.identity)?;
    Ok((known.is_file() && !is_standard(name)).then_some(seen))
}

/// As many bytes as the objects have that these inputs become, as far as it is seen.
pub fn seen_bytes(seen: &[Option<Seen>]) -> u64 {
    let files = seen.iter().flatten();
    files.map(|file| file.size.min(LARGEST_DIRECT)).sum()
}

/// Refuses inputs that are written to as well, before a byte is written.
pub fn refuse_written<'n>(mut names: impl Iterator<Item = &'n OsStr>) -> Result<(), Failure> {
    names.try_for_each(|name| look_at(name).map(|_| ()))
}

/// A file that was taken in: which, how large it is, and its bytes.
pub struct Taken<'o> {
    pub identity: Identity,
    pub size: u64,
    /// That is how much came of it, and more may come.
    pub is_at_least: bool,
    pub bytes: &'o [u8],
}

/// Room for what `take_in` reads of a file: one byte more than an object can have.
pub fn room_for_one() -> Result<Vec<u8>, Failure> {
    let length = LARGEST_DIRECT as usize + 1;
    let mut room = memory::with_room(length)?;
    room.resize(length, 0);
    Ok(room)
}

/// Reads a file as an object. Of a file that is too large for an object only the size is of use, so no more of it is
/// read than shows that. One that gives as many bytes as were seen in it is not looked at once more.
pub fn take_in<'o>(
    name: &OsStr,
    seen: Option<Seen>,
    room: &'o mut [u8],
) -> Result<Taken<'o>, Failure> {
    let unread = |error| Failure::file(name, "read", error);
    let Some(seen) = seen else {
        return take_on(name, open(name)?, 0, room);
    };
    let mut file = File::open(name).map_err(unread)?;
    let length = read_some(&mut file, room).map_err(unread)?;
    match length as u64 {
        size if size == seen.size && (1..=LARGEST_DIRECT).contains(&size) => Ok(Taken {
            identity: seen.identity,
            size,
            is_at_least: false,
            bytes: &room[..length],
        }),
        _ => {
            let open = opened(name, file)?;
            tell_change(
                name,
                seen.size,
                open.known.len(),
                "it is taken as it is now",
            );
            take_on(name, open, length, room)
        }
    }
}

/// Tells that a file has another size than it had when it was looked at, and what is done then.
fn tell_change(name: &OsStr, before: u64, now: u64, then: &str) {
    if before != now {
        let name = match is_standard(name) {
            true => "standard input".into(),
            false => shown(name),
        };
        let (before, now) = (grouped(before), count(now, "byte"));
        tell(&format!(
            "{name} was changed since it was looked at, from {before} to {now}: {then}"
        ));
    }
}

/// As many bytes as come at once.
fn read_some(file: &mut File, room: &mut [u8]) -> io::Result<usize> {
    loop {
        match file.read(room) {
            Err(error) if error.kind() == io::ErrorKind::Interrupted => {}
            read => return read,
        }
    }
}

/// Reads the rest of an object, of which so many bytes are there.
fn take_on<'o>(
    name: &OsStr,
    open: Open,
    mut length: usize,
    room: &'o mut [u8],
) -> Result<Taken<'o>, Failure> {
    let Open { mut file, known } = open;
    // A file that gave all that it has is not asked once more; one of /proc says that it has nothing.
    let is_whole = |length| known.is_file() && length > 0 && length as u64 == known.len();
    while length < room.len() && !is_whole(length) {
        match read_some(&mut file, &mut room[length..]) {
            Ok(0) => break,
            Ok(more) => length += more,
            Err(error) => return Err(Failure::file(name, "read", error)),
        }
    }
    let (bytes, size) = match length as u64 {
        size if size > LARGEST_DIRECT => (&[][..], size.max(known.len())),
        size => (&room[..length], size),
    };
    Ok(Taken {
        identity: identity(&known),
        size,
        is_at_least: bytes.is_empty() && size > known.len(),
        bytes,
    })
}

/// What comes from a pipe, or from a file that is not taken from its start; `too_much` says why more is not taken.
fn read_on(name: &OsStr, mut file: File, too_much: &str) -> Result<Bytes, Failure> {
    let unread = |why: &dyn Display| Failure::file(name, "read", why);
    let known = file.metadata().map_err(|error| unread(&error))?;
    if let Some(kind) = other_kind(known.file_type()) {
        return Err(unread(&kind));
    }
    // Of a file it is known before it is read.
    let at = file.stream_position().unwrap_or(0);
    if known.is_file() && known.len().saturating_sub(at) > LARGEST_PIPE {
        return Err(unread(&too_much));
    }
    let mut joined = Joined::in_memory();
    let mut part = memory::with_room(STRIDE)?;
    part.resize(STRIDE, 0);
    loop {
        match read_some(&mut file, &mut part).map_err(|error| unread(&error))? {
            0 => return joined.finish(),
            length => joined.add(&part[..length])?,
        }
        if joined.size() > LARGEST_PIPE {
            return Err(unread(&too_much));
        }
    }
}

/// A list of names, as it was read.
pub fn list(name: &OsStr) -> Result<Bytes, Failure> {
    let too_much = "a list of more than 1 GiB is not taken";
    read_on(name, open(name)?.file, too_much)
}

/// What stands in a list between zero bytes, whether it is a name or not.
pub fn pieces(bytes: &[u8]) -> impl Iterator<Item = &OsStr> {
    let whole = bytes.strip_suffix(b"\0").unwrap_or(bytes);
    let each = whole.split(|&byte| byte == 0).map(OsStr::from_bytes);
    each.take(if bytes.is_empty() { 0 } else { usize::MAX })
}

/// The names in a list, each ended by a zero byte.
pub fn names<'l>(list: &OsStr, bytes: &'l [u8]) -> Result<Vec<&'l OsStr>, Failure> {
    let mut names = memory::with_room(pieces(bytes).count())?;
    for (i, name) in pieces(bytes).enumerate() {
        match name.as_bytes() {
            b"" => {
                let list = shown(list);
                return Err(Failure::Use(format!("name {} in {list} is empty", i + 1)));
            }
            b"-" if is_standard(list) => {
                return Err(Failure::Use("standard input is the list already".into()));
            }
            _ => names.push(name),
        }
    }
    Ok(names)
}

/// The list that names the files, if there is one, and what is seen of them. What a list names is looked at before any
/// sentence could go into it.
pub fn list_or_files(
    list: Option<&OsStr>,
    files: &[OsString],
) -> Result<(Option<Bytes>, Vec<Option<Seen>>), Failure> {
    refuse_written(list.into_iter())?;
    let mut seen = memory::with_room(files.len())?;
    for name in files {
        seen.push(look_at(name)?);
    }
    let bytes = list.map(self::list).transpose()?;
    if let Some(bytes) = &bytes {
        memory::reserve(&mut seen, pieces(bytes).count())?;
        for name in pieces(bytes) {
            seen.push(look_at(name)?);
        }
    }
    Ok((bytes, seen))
}

/// The names of files, or those in a list that was read in their place; standard input can be read once.
pub fn all_names<'n>(
    files: &'n [OsString],
    list: Option<(&'n OsStr, &'n Bytes)>,
) -> Result<Vec<&'n OsStr>, Failure> {
    let names = match list {
        Some((name, list)) => names(name, list)?,
        None => {
            let mut names = memory::with_room(files.len())?;
            names.extend(files.iter().map(OsString::as_os_str));
            names
        }
    };
    match names.iter().filter(|name| is_standard(name)).count() {
        0 | 1 => Ok(names),
        _ => Err(Failure::Use(
            "standard input, -, can be one object only".into(),
        )),
    }
}

/// Bytes that are looked at: of a file that is mapped, of one that is held, of memory, of a pipe.
pub enum Bytes {
    File { map: Mmap, file: File },
    Held(Held),
    Memory(Mmap),
    Read(Vec<u8>),
}

impl Deref for Bytes {
    type Target = [u8];

    fn deref(&self) -> &[u8] {
        match self {
            Bytes::File { map, .. } | Bytes::Memory(map) => map,
            Bytes::Held(held) => held,
            Bytes::Read(bytes) => bytes,
        }
    }
}

impl Bytes {
    /// Whether a file still has the bytes that it had. Where a mapped one was cut, the rest of its last page is zeros;
    /// only behind that the signal comes.
    pub fn check_whole(&self, name: &OsStr) -> Result<(), Failure> {
        self.size_now(name).map(|_| ())
    }

    /// How many bytes a file has now, or what was read, where it is none: as many as there are here, or more.
    fn size_now(&self, name: &OsStr) -> Result<u64, Failure> {
        let here = self.len() as u64;
        match self.file().map(File::metadata) {
            None => Ok(here),
            Some(Ok(known)) if known.len() >= here => Ok(known.len()),
            Some(_) => Err(Failure::file(name, "read", CUT)),
        }
    }

    /// The file, where it is one that is mapped or held.
    pub fn file(&self) -> Option<&File> {
        match self {
            Bytes::File { file, .. } => Some(file),
            Bytes::Held(held) => Some(held.file()),
            Bytes::Memory(_) | Bytes::Read(_) => None,
        }
    }
}

/// A mapped file. Nothing of it is read before it is looked at.
fn map(file: File, name: &OsStr) -> io::Result<Bytes> {
    // A mapping has at least one byte.
    if file.metadata()?.len() == 0 {
        return Ok(Bytes::Read(Vec::new()));
    }
    signals::set_mapped(&Failure::file(name, "read", CUT));
    // SAFETY: this takes for granted that nobody writes into the file while it is read, as the proofs of the library
    // do. A file that is cut is met by the signal's handler and by check_whole.
    let map = unsafe { Mmap::map(&file) }?;
    Ok(Bytes::File { map, file })
}

impl Open {
    /// Whether it is a file that is read from its start.
    fn is_whole_file(&mut self) -> bool {
        self.known.is_file() && self.file.stream_position().is_ok_and(|at| at == 0)
    }
}

/// At most 1 GiB of what is no whole file.
fn not_whole(name: &OsStr, file: File) -> Result<Bytes, Failure> {
    let too_much = "more than 1 GiB comes from it, and it is no whole file";
    read_on(name, file, too_much)
}

/// A whole file, mapped, or at most 1 GiB of a pipe.
pub fn whole(name: &OsStr) -> Result<Bytes, Failure> {
    let mut open = open(name)?;
    match open.is_whole_file() {
        true => map(open.file, name).map_err(|error| Failure::file(name, "read", error)),
        false => not_whole(name, open.file),
    }
}

/// What is read and given out: a whole file, locked, whose bytes stay as they were when they were first seen, or at most
/// 1 GiB of a pipe.
pub struct Source<'n> {
    bytes: Bytes,
    name: &'n OsStr,
    lock: Cell<Option<Locked>>,
}

/// The lock of a file that is read. What there is to tell waits until it is given back.
struct Locked(Option<Lock>);

impl Drop for Locked {
    fn drop(&mut self) {
        self.0.take();
        talk::tell_all();
    }
}

/// Opens and locks what is to be read and given out; standard input has no lock. Nothing is read before the lock is
/// there, and of a large file nothing before it is looked at.
pub fn source<'n>(name: &'n OsStr, locking: &Locking) -> Result<Source<'n>, Failure> {
    let patience = locking.patience();
    let mut open = open(name)?;
    let mut lock = None;
    while open.is_whole_file() && !is_standard(name) {
        lock = Some(locks::shared(&open.file, name, patience)?);
        // Who was waited for may have put another file there.
        if patience.is_none() || locks::stands_at(&open.file, Path::new(name)) {
            break;
        }
        open = self::open(name)?;
    }
    if !open.is_whole_file() {
        return Ok(Source {
            bytes: not_whole(name, open.file)?,
            name,
            lock: Cell::new(None),
        });
    }
    let lock = lock.map(|lock| {
        talk::wait_to_tell();
        Locked(Some(lock))
    });
    // It may have grown while another program had it locked.
    let known = open.file.metadata();
    let known = known.map_err(|error| Failure::file(name, "read", error))?;
    Ok(Source {
        bytes: Bytes::Held(Held::new(open.file, known.len(), name)?),
        name,
        lock: Cell::new(lock),
    })
}

impl Deref for Source<'_> {
    type Target = [u8];

    fn deref(&self) -> &[u8] {
        &self.bytes
    }
}

impl Source<'_> {
    /// Gives the lock back, when all bytes that are to be given out were looked at: from then on the file may be changed.
    /// One that was cut before is refused, and of one that has grown it is told.
    pub fn release(&self) -> Result<(), Failure> {
        let (before, now) = (self.bytes.len() as u64, self.bytes.size_now(self.name)?);
        tell_change(self.name, before, now, "what was added is not read");
        self.lock.take();
        Ok(())
    }

    /// Puts bytes from a position on there. Of a large file they are those of this moment, and are not kept by that.
    pub fn peek(&self, at: usize, to: &mut [u8]) -> Result<(), Failure> {
        match &self.bytes {
            Bytes::Held(held) => held.peek(at, to, self.name),
            bytes => {
                to.copy_from_slice(&bytes[at..at + to.len()]);
                Ok(())
            }
        }
    }
}

#[cfg(test)]
mod tests {
    use super::*;
    use std::io::Write;

    fn listed(bytes: &[u8]) -> Result<Vec<&OsStr>, Failure> {
        names(OsStr::new("a list"), bytes)
    }

    #[test]
    fn a_list_is_read_whole() {
        let mut file = tempfile::NamedTempFile::new().unwrap();
        let due = b"name\0".repeat(STRIDE);
        file.write_all(&due).unwrap();
        assert_eq!(&*list(file.path().as_os_str()).unwrap(), due);
    }

    #[test]
    fn names_end_with_a_zero_byte() {
        let due = [OsStr::new("a b"), OsStr::from_bytes(b"\n\xff")];
        assert_eq!(listed(b"a b\0\n\xff\0").unwrap(), due);
        assert_eq!(
            listed(b"a b\0\n\xff").unwrap(),
            due,
            "the last end may be missing"
        );
        assert!(listed(b"").unwrap().is_empty());
    }

    #[test]
    fn an_empty_name_is_refused() {
        for list in [&b"\0"[..], b"a\0\0b\0", b"\0a\0", b"a\0\0"] {
            assert!(listed(list).is_err(), "{list:?}");
        }
    }

    #[test]
    fn an_object_is_taken_in_whole_or_not_at_all() {
        let mut room = room_for_one().unwrap();
        for length in [0, 1, 65_535, 65_536, 65_537, 200_000] {
            let mut file = tempfile::NamedTempFile::new().unwrap();
            let due: Vec<u8> = (0..length).map(|i| (i % 251) as u8).collect();
            file.write_all(&due).unwrap();
            let name = file.path().as_os_str();
            let seen = look_at(name).unwrap().unwrap();
            // One that has other bytes meanwhile than were seen in it.
            let before = Seen { size: 7, ..seen };
            for seen in [None, Some(seen), Some(before)] {
                let taken = take_in(name, seen, &mut room).unwrap();
                assert_eq!(taken.size, length);
                assert_eq!(
                    taken.identity,
                    identity(&file.as_file().metadata().unwrap())
                );
                // A block has 65,536 bytes at most, an object fewer.
                let kept = if length > 65_536 { &[][..] } else { &due };
                assert_eq!(taken.bytes, kept, "{length}");
            }
        }
    }

    #[test]
    fn an_empty_file_is_no_bytes() {
        let empty = tempfile::NamedTempFile::new().unwrap();
        assert_eq!(&*whole(empty.path().as_os_str()).unwrap(), b"");
    }

    #[test]
    fn folders_and_devices_are_refused() {
        for name in ["/", "/dev/null"] {
            assert!(whole(OsStr::new(name)).is_err(), "{name}");
            let before = Seen {
                identity: (0, 0),
                size: 1,
            };
            for seen in [None, Some(before)] {
                let taken = take_in(OsStr::new(name), seen, &mut []);
                assert!(taken.is_err(), "{name}");
            }
        }
    }
}
