//! Files out. A file appears under its name whole or not at all, and replaces another only where that was asked for.
use crate::failure::{Failure, done};
use crate::inputs::{Identity, identity, other_kind};
use crate::locks::{self, Lock, Patience};
use crate::signals;
use crate::streams;
use std::ffi::{CStr, CString};
use std::fs::{self, File, Metadata, OpenOptions, Permissions};
use std::io;
use std::os::fd::AsRawFd;
use std::os::unix::ffi::OsStrExt;
use std::os::unix::fs::{FileTypeExt, MetadataExt, OpenOptionsExt, PermissionsExt, fchown};
use std::path::{Path, PathBuf};
use std::process;
use tempfile::{PathPersistError, TempPath};

/// The names of unfinished files begin so.
const PREFIX: &str = ".poilures-";

/// A file that is not yet what it is to become.
pub struct Output {
    /// Where it is to stand: of a link where that leads, if the file there may be replaced.
    name: PathBuf,
    force: bool,
    file: Unfinished,
    /// How long is waited for a program that has open for writing what stands there; none where that is not asked.
    patience: Option<Patience>,
    /// Of what stood there when it was begun, until it has its name.
    _lock: Option<Lock>,
}

enum Unfinished {
    /// In the same folder, without a name: whatever ends the program, nothing is left, but for a file that is to replace
    /// another and has a third name for a moment.
    Unnamed(File),
    /// Under another name in the same folder.
    Named(File, TempPath),
}

fn unwritten(name: &Path, error: impl std::fmt::Display) -> Failure {
    Failure::file(name, "written", error)
}

/// The folder of a file.
pub fn folder(name: &Path) -> &Path {
    match name.parent() {
        Some(folder) if folder != Path::new("") => folder,
        _ => Path::new("."),
    }
}

/// What stands under a name; of a link, the link itself.
fn standing(name: &Path) -> Result<Option<Metadata>, Failure> {
    match fs::symlink_metadata(name) {
        Ok(known) => Ok(Some(known)),
        Err(error) if error.kind() == io::ErrorKind::NotFound => Ok(None),
        Err(error) => Err(unwritten(name, error)),
    }
}

/// Links that are followed one after the other: as many as the system follows.
const MOST_LINKS: usize = 40;

/// Where a link leads in the end, whether a file is there or not; any other name is its own.
fn behind_links(name: &Path) -> Result<PathBuf, Failure> {
    let mut place = name.to_path_buf();
    for _ in 0..=MOST_LINKS {
        if !standing(&place)?.is_some_and(|known| known.is_symlink()) {
            return Ok(place);
        }
        let to = fs::read_link(&place).map_err(|error| unwritten(name, error))?;
        if is_open_files(&place, &to) {
            return Err(unwritten(name, OPEN_FILE));
        }
        place = folder(&place).join(to);
    }
    let error = io::Error::from_raw_os_error(libc::ELOOP);
    Err(unwritten(name, error))
}

/// Whether a link is one of the system's to an open file, or leads to one, as /dev/stdout does. Those are neither
/// followed nor replaced.
fn is_open_files(link: &Path, to: &Path) -> bool {
    let is_there = fs::canonicalize(folder(link)).is_ok_and(|at| at.starts_with("/proc"));
    is_there || to.starts_with("/proc")
}

const OPEN_FILE: &str = "it is an open file's link; - is standard output";

/// Whether a file may go by this name: not where something else than a file is, not over another without `force`, and
/// never over an input, nor over what is printed.
pub fn may_go(
    name: &Path,
    force: bool,
    is_input: impl Fn(Identity) -> bool,
) -> Result<(), Failure> {
    let Some(known) = standing(name)? else {
        return match name.as_os_str().as_bytes().ends_with(b"/") {
            true => Err(unwritten(name, "it is a folder's name")),
            false => Ok(()),
        };
    };
    let behind = fs::metadata(name).ok();
    if behind
        .as_ref()
        .is_some_and(|known| is_input(identity(known)))
    {
        return Err(unwritten(name, "it is read as well"));
    }
    let kind = behind.as_ref().unwrap_or(&known).file_type();
    match other_kind(kind) {
        _ if kind.is_fifo() => return Err(unwritten(name, "it is a pipe")),
        Some(other) if !kind.is_symlink() => return Err(unwritten(name, other)),
        _ => {}
    }
    if known.is_symlink() && fs::read_link(name).is_ok_and(|to| is_open_files(name, &to)) {
        return Err(unwritten(name, OPEN_FILE));
    }
    let stream = behind.map_or(Ok(None), |known| streams::written_as(identity(&known)))?;
    if let Some(stream) = stream {
        return Err(unwritten(name, format!("it is {stream} as well")));
    }
    match force {
        true => Ok(()),
        false => Err(unwritten(name, "it is there already; --force replaces it")),
    }
}

/// Whether a file's own rights let it be written. To replace it by its name only its folder's have to.
pub fn may_be_written(name: &Path) -> io::Result<()> {
    let name = c_string(name)?;
    // SAFETY: it is a C string, which outlives the call.
    done(unsafe { libc::access(name.as_ptr(), libc::W_OK) })
}

/// Whether a new file may take the place of this one, in a folder that takes new files: in one like /tmp only whoever
/// owns the file or the folder may have it do so.
pub fn may_be_replaced(name: &Path) -> bool {
    let (Ok(known), Ok(folder)) = (fs::symlink_metadata(name), fs::metadata(folder(name))) else {
        return true; // it is seen when it is tried
    };
    // SAFETY: the call gives a number.
    let user = unsafe { libc::geteuid() };
    folder.mode() & libc::S_ISVTX == 0 || [0, known.uid(), folder.uid()].contains(&user)
}

/// The mode that the umask gives to a new file.
fn new_mode() -> u32 {
    // SAFETY: both calls only exchange a number; this program has one thread.
    let mask = unsafe {
        let mask = libc::umask(0o077);
        libc::umask(mask);
        mask
    };
    0o666 & !mask
}

impl Output {
    /// Begins a file. Nothing stands under its name before it is finished. It goes where a link leads, and what it is
    /// to replace there must not be open for writing by another program.
    pub fn begin(
        name: &Path,
        force: bool,
        is_input: impl Fn(Identity) -> bool,
    ) -> Result<Self, Failure> {
        Output::begin_patiently(name, force, Some(Patience::No), is_input)
    }

    /// As `begin`, where such a program is waited for, or is not asked for.
    pub fn begin_patiently(
        name: &Path,
        force: bool,
        patience: Option<Patience>,
        is_input: impl Fn(Identity) -> bool,
    ) -> Result<Self, Failure> {
        may_go(name, force, is_input)?;
        match force {
            true => Output::begun(behind_links(name)?, force, patience),
            false => Output::begun(name.into(), force, patience),
        }
    }

    /// As `begin`, for one of several files in a folder: there a link is replaced, since what it leads to may be the
    /// place of another one.
    pub fn begin_in_folder(
        name: &Path,
        force: bool,
        is_input: impl Fn(Identity) -> bool,
    ) -> Result<Self, Failure> {
        may_go(name, force, is_input)?;
        Output::begun(name.into(), force, Some(Patience::No))
    }

    fn begun(name: PathBuf, force: bool, patience: Option<Patience>) -> Result<Self, Failure> {
        let lock = match force {
            true => locks::for_replacing(&name, patience)?,
            false => None,
        };
        match unnamed(folder(&name)).or_else(|_| named(folder(&name))) {
            Ok(file) => Ok(Output {
                name,
                force,
                file,
                patience,
                _lock: lock,
            }),
            Err(error) => Err(unwritten(&name, error)),
        }
    }

    pub fn file(&self) -> &File {
        match &self.file {
            Unfinished::Unnamed(file) | Unfinished::Named(file, _) => file,
        }
    }

    /// The folder that it will be in.
    pub fn folder(&self) -> &Path {
        folder(&self.name)
    }

    /// Says why writing failed.
    pub fn unwritten(&self, error: io::Error) -> Failure {
        unwritten(&self.name, error)
    }

    /// Gives the file its name, when all of it is on the disk, and has the name there, too. Which file it is comes back.
    pub fn finish(self, is_input: impl Fn(Identity) -> bool) -> Result<Identity, Failure> {
        self.finish_if(is_input, || Ok(()))
    }

    /// As `finish`, if what is asked last, when all of the file is on the disk, agrees.
    pub fn finish_if(
        self,
        is_input: impl Fn(Identity) -> bool,
        agrees: impl FnOnce() -> Result<(), Failure>,
    ) -> Result<Identity, Failure> {
        let folder = self.folder().to_path_buf();
        let known = self.file().metadata().map_err(|e| self.unwritten(e))?;
        self.give_name_if(is_input, agrees)?;
        sync_folder(&folder);
        Ok(identity(&known))
    }

    /// Gives the file its name, when all of it is on the disk. The name is there when its folder is synced.
    pub fn give_name(self, is_input: impl Fn(Identity) -> bool) -> Result<(), Failure> {
        self.give_name_if(is_input, || Ok(()))
    }

    fn give_name_if(
        self,
        is_input: impl Fn(Identity) -> bool,
        agrees: impl FnOnce() -> Result<(), Failure>,
    ) -> Result<(), Failure> {
        let name = &self.name;
        let unwritten = |error| unwritten(name, error);
        may_go(name, self.force, is_input).or_else(|failure| match self.force {
            true => Err(failure),
            false => Ok(()), // what appeared meanwhile is met below
        })?;
        let file = self.file();
        match standing(name)? {
            Some(old) if old.is_file() => take_over(file, &old),
            _ => file.set_permissions(Permissions::from_mode(new_mode())),
        }
        .map_err(unwritten)?;
        file.sync_all().map_err(unwritten)?;
        // What stands there now may be another file than before.
        let _lock = match self.force {
            true => locks::for_replacing(name, self.patience)?,
            false => None,
        };
        agrees()?;
        match self.file {
            Unfinished::Unnamed(file) => {
                give_name(&file, name, self.force).map_err(|error| taken(name, error))?
            }
            // From then on that name may be another process's: no signal takes its file away.
            Unfinished::Named(_, path) => signals::uninterrupted(|| {
                persist(path, name, self.force).inspect(|()| signals::set_unfinished(None))
            })?,
        }
        Ok(())
    }
}

/// Has the names in a folder on the disk; a folder that cannot be synced does not undo the files.
pub fn sync_folder(folder: &Path) {
    let _ = File::open(folder).and_then(|folder| folder.sync_all());
}

/// What a file that is replaced has of owner, group and rights goes to the new one, but for what makes a program run as
/// its owner. Only root gives files away; where the group is another one, it may do what it might and all may.
/// Other hard links, access control lists and extended attributes stay behind, since it is another file. A file that is
/// write-protected is replaced like any other.
fn take_over(file: &File, old: &Metadata) -> io::Result<()> {
    let own = file.metadata()?;
    let mut mode = old.permissions().mode() & 0o777;
    if own.uid() != old.uid() {
        let _ = fchown(file, Some(old.uid()), None);
    }
    if own.gid() != old.gid() && fchown(file, None, Some(old.gid())).is_err() {
        mode &= 0o707 | (mode & 0o007) << 3;
    }
    file.set_permissions(Permissions::from_mode(mode))
}

/// Where the system shows an open file.
fn shown_at(file: &File) -> PathBuf {
    format!("/proc/self/fd/{}", file.as_raw_fd()).into()
}

/// A file without a name, which can be given one. Not all file systems have such files, and the name needs /proc.
fn unnamed(folder: &Path) -> io::Result<Unfinished> {
    let mut options = OpenOptions::new();
    options.read(true).write(true).mode(0o600);
    let file = options.custom_flags(libc::O_TMPFILE).open(folder)?;
    fs::read_link(shown_at(&file)).map(|_| Unfinished::Unnamed(file))
}

/// A file by another name, which signals take away, and so does the end of memory: nothing asks for any between the making
/// of the file and the entry of its name.
fn named(folder: &Path) -> io::Result<Unfinished> {
    let mut options = OpenOptions::new();
    options.read(true).write(true).create_new(true).mode(0o600);
    signals::uninterrupted(|| {
        free_name(folder, |path, entry| {
            let file = options.open(&path)?;
            signals::set_unfinished(Some(entry));
            Ok(Unfinished::Named(file, TempPath::from_path(path)))
        })
    })
}

/// Does something with a name that no file in the folder has; where one has it, it is to fail, and gets the next.
fn free_name<T>(folder: &Path, work: impl Fn(PathBuf, CString) -> io::Result<T>) -> io::Result<T> {
    let mut number = 0;
    loop {
        let path = folder.join(format!("{PREFIX}{}-{number}", process::id()));
        let entry = c_string(&path)?;
        match work(path, entry) {
            Err(error) if error.kind() == io::ErrorKind::AlreadyExists => number += 1,
            answer => return answer,
        }
    }
}

fn c_string(path: &Path) -> io::Result<CString> {
    Ok(CString::new(path.as_os_str().as_bytes())?)
}

/// Gives a file without a name this one. It takes the place of another file only where `force` says so, and then under
/// a third name, for a moment in which no signal comes, and nothing asks for memory.
fn give_name(file: &File, name: &Path, force: bool) -> io::Result<()> {
    let (from, to) = (c_string(&shown_at(file))?, c_string(name)?);
    match link(&from, &to) {
        Err(error) if force && error.kind() == io::ErrorKind::AlreadyExists => {}
        linked => return linked,
    }
    signals::uninterrupted(|| {
        let beside = free_name(folder(name), |_, entry| link(&from, &entry).map(|()| entry))?;
        rename(&beside, &to)
    })
}

/// Links a file that has no name to one that no other file has.
fn link(from: &CStr, to: &CStr) -> io::Result<()> {
    let here = libc::AT_FDCWD;
    // SAFETY: both are C strings, which outlive the call.
    done(unsafe {
        let follow = libc::AT_SYMLINK_FOLLOW;
        libc::linkat(here, from.as_ptr(), here, to.as_ptr(), follow)
    })
}

/// Has a file take the place of another one. Where it cannot, it goes.
fn rename(from: &CStr, to: &CStr) -> io::Result<()> {
    // SAFETY: both are C strings, which outlive the calls.
    unsafe {
        done(libc::rename(from.as_ptr(), to.as_ptr())).inspect_err(|_| {
            libc::unlink(from.as_ptr());
        })
    }
}

/// Says why a file did not get its name.
fn taken(name: &Path, error: io::Error) -> Failure {
    match error.kind() {
        io::ErrorKind::AlreadyExists => {
            unwritten(name, "a file of that name appeared meanwhile, and was left")
        }
        _ if has_no_links(&error) && may_be_replaced(name) => {
            let words = format!("{error}; this file system may have no hard links");
            unwritten(name, words)
        }
        _ => unwritten(name, error),
    }
}

/// Over another file only where `force` says so; else the system itself refuses.
fn persist(path: TempPath, name: &Path, force: bool) -> Result<(), Failure> {
    let persisted = match force {
        true => path.persist(name),
        false => path.persist_noclobber(name),
    };
    persisted.map_err(|PathPersistError { error, .. }| match force {
        false if has_no_links(&error) => {
            let words =
                format!("{error}; this file system may have no hard links: --force does without");
            unwritten(name, words)
        }
        true => unwritten(name, error),
        false => taken(name, error),
    })
}

/// How a file system without hard links refuses one.
fn has_no_links(error: &io::Error) -> bool {
    matches!(error.raw_os_error(), Some(libc::EPERM | libc::EOPNOTSUPP))
}

/// A folder for files; made where it is not there.
pub fn make_folder(name: &Path) -> Result<(), Failure> {
    match fs::create_dir(name) {
        Err(error) if error.kind() != io::ErrorKind::AlreadyExists => Err(unwritten(name, error)),
        Err(_) if !name.is_dir() => Err(unwritten(name, "it is there already, and no folder")),
        _ => Ok(()),
    }
}

#[cfg(test)]
mod tests {
    use super::*;
    use std::io::Write;
    use std::os::unix::fs::symlink;

    fn write(name: &Path, force: bool, bytes: &[u8]) -> Result<(), Failure> {
        let output = Output::begin(name, force, |_| false)?;
        output.file().write_all(bytes).unwrap();
        output.finish(|_| false).map(|_| ())
    }

    /// A file that is begun with another name and without one, where the system has such files.
    fn begun(name: &Path, force: bool) -> Vec<Output> {
        let begin = |file| Output {
            name: name.into(),
            force,
            file,
            patience: Some(Patience::No),
            _lock: None,
        };
        let named = named(folder(name)).unwrap();
        let unnamed = unnamed(folder(name));
        [Some(named), unnamed.ok()]
            .into_iter()
            .flatten()
            .map(begin)
            .collect()
    }

    #[test]
    fn a_file_is_replaced_with_force_alone() {
        let folder = tempfile::tempdir().unwrap();
        let name = folder.path().join("image");
        write(&name, false, b"old").unwrap();
        assert!(write(&name, false, b"new").is_err());
        assert_eq!(fs::read(&name).unwrap(), b"old");
        for (turn, output) in begun(&name, true).into_iter().enumerate() {
            let new = format!("new {turn}");
            output.file().write_all(new.as_bytes()).unwrap();
            output.finish(|_| false).unwrap();
            assert_eq!(fs::read(&name).unwrap(), new.as_bytes());
        }
        let left = fs::read_dir(folder.path()).unwrap().count();
        assert_eq!(left, 1, "nothing else is left in the folder");
    }

    #[test]
    fn what_appears_meanwhile_is_left() {
        let folder = tempfile::tempdir().unwrap();
        let name = folder.path().join("image");
        let begun = begun(&name, false);
        fs::write(&name, b"another's").unwrap();
        for output in begun {
            assert!(output.finish(|_| false).is_err());
            assert_eq!(fs::read(&name).unwrap(), b"another's");
        }
        let left = fs::read_dir(folder.path()).unwrap().count();
        assert_eq!(left, 1, "nothing else is left in the folder");
    }

    #[test]
    fn a_name_that_is_taken_is_not_used() {
        let folder = tempfile::tempdir().unwrap();
        let make = |path: PathBuf, _| File::create_new(&path).map(|_| path);
        let first = free_name(folder.path(), make).unwrap();
        assert_ne!(free_name(folder.path(), make).unwrap(), first);
        let both = [named(folder.path()), named(folder.path())];
        assert!(both.iter().all(Result::is_ok));
        let all = fs::read_dir(folder.path()).unwrap().count();
        assert_eq!(all, 4, "each has a name of its own");
    }

    #[test]
    fn no_bit_that_makes_a_program_run_as_its_owner_is_kept() {
        let folder = tempfile::tempdir().unwrap();
        let name = folder.path().join("image");
        fs::write(&name, b"old").unwrap();
        fs::set_permissions(&name, Permissions::from_mode(0o6754)).unwrap();
        write(&name, true, b"new").unwrap();
        let mode = fs::metadata(&name).unwrap().permissions().mode();
        assert_eq!(mode & 0o7777, 0o754);
    }

    #[test]
    fn an_input_is_never_replaced() {
        let folder = tempfile::tempdir().unwrap();
        let (name, link) = (folder.path().join("note"), folder.path().join("link"));
        fs::write(&name, b"note").unwrap();
        symlink(&name, &link).unwrap();
        let input = identity(&fs::metadata(&name).unwrap());
        for name in [&name, &link] {
            assert!(Output::begin(name, true, |file| file == input).is_err());
        }
    }

    #[test]
    fn a_link_is_followed() {
        let folder = tempfile::tempdir().unwrap();
        let place = |name| folder.path().join(name);
        fs::write(place("archive"), b"archive").unwrap();
        fs::create_dir(place("sub")).unwrap();
        symlink("../archive", place("sub/link")).unwrap();
        symlink("sub/link", place("first")).unwrap();
        for (turn, name) in ["sub/link", "first"].iter().enumerate() {
            let new = format!("new {turn}");
            assert!(write(&place(name), false, b"new").is_err());
            write(&place(name), true, new.as_bytes()).unwrap();
            assert_eq!(fs::read(place("archive")).unwrap(), new.as_bytes());
            assert!(fs::symlink_metadata(place(name)).unwrap().is_symlink());
        }
        symlink("nowhere", place("dangling")).unwrap();
        write(&place("dangling"), true, b"made").unwrap();
        assert_eq!(fs::read(place("nowhere")).unwrap(), b"made");
        symlink("round", place("round")).unwrap();
        assert!(write(&place("round"), true, b"new").is_err());
    }

    #[test]
    fn a_link_among_the_files_of_a_folder_is_replaced() {
        let folder = tempfile::tempdir().unwrap();
        let (name, link) = (folder.path().join("archive"), folder.path().join("link"));
        fs::write(&name, b"archive").unwrap();
        symlink(&name, &link).unwrap();
        let theirs = File::open(&name).unwrap();
        // SAFETY: the call takes two numbers, and the file is open.
        assert_eq!(unsafe { libc::flock(theirs.as_raw_fd(), libc::LOCK_EX) }, 0);
        let output = Output::begin_in_folder(&link, true, |_| false).unwrap();
        output.file().write_all(b"new").unwrap();
        output.give_name(|_| false).unwrap();
        assert_eq!(fs::read(&name).unwrap(), b"archive");
        assert!(fs::symlink_metadata(&link).unwrap().is_file());
    }

    #[test]
    fn what_is_open_for_writing_is_not_replaced() {
        let folder = tempfile::tempdir().unwrap();
        let name = folder.path().join("image");
        fs::write(&name, b"old").unwrap();
        let theirs = File::open(&name).unwrap();
        let lock = |kind| {
            // SAFETY: the call takes two numbers, and the file is open.
            assert_eq!(unsafe { libc::flock(theirs.as_raw_fd(), kind) }, 0);
        };
        lock(libc::LOCK_EX);
        let begun = begun(&name, true);
        assert!(write(&name, true, b"new").is_err());
        for output in begun {
            assert!(output.finish(|_| false).is_err(), "asked once more");
        }
        assert_eq!(fs::read(&name).unwrap(), b"old");
        lock(libc::LOCK_SH);
        write(&name, true, b"new").unwrap();
        assert_eq!(fs::read(&name).unwrap(), b"new");
    }
}
