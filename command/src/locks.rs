//! The locks of files. HDF5 locks a file that it opens with `flock`, shared to read it and exclusive to write it, and is
//! refused where another program's lock is in its way. The shared lock is asked for here: it is given beside readers, who
//! keep the file that they have open, and not beside a program that has the file open for writing, which may not have
//! written all of it. While it is held, HDF5 does not open the file for writing.
//!
//! Two `deposit --add`, which both get the shared lock, are told apart by a lock of their own on the file's first byte, of
//! which HDF5 knows nothing.
use crate::arguments::number;
use crate::failure::{Failure, done};
use crate::inputs::identity;
use clap::Args;
use fractal_heap::{Superblock, count};
use libc::c_int;
use std::ffi::OsStr;
use std::fs::{self, File, OpenOptions};
use std::io;
use std::os::fd::AsRawFd;
use std::os::unix::fs::{FileExt, OpenOptionsExt};
use std::path::Path;
use std::thread;
use std::time::{Duration, Instant};

/// What is done where another program has the file locked.
#[derive(Args, Debug, Clone, Copy, Default)]
pub struct Locking {
    /// Wait where a program has the file open for writing, at most SECONDS.
    #[arg(long, value_name = "SECONDS", num_args = 0..=1, require_equals = true, value_parser = number)]
    wait: Option<Option<u64>>,
    /// Do not ask whether a program has the file open for writing.
    #[arg(long, conflicts_with = "wait")]
    no_lock: bool,
}

/// How long a lock is waited for that another program has.
#[derive(Debug, Clone, Copy)]
pub enum Patience {
    No,
    Until { end: Instant, seconds: u64 },
    ForEver,
}

/// A lock that is given back when it is dropped. It belongs to the open file, and not to the
/// program: of two locks of one kind that were taken by the same open file the first that is dropped gives back both.
#[derive(Debug)]
pub struct Lock {
    /// The open file once more; none where its file system has no locks, or none was asked for.
    file: Option<File>,
    part: Part,
}

/// What of a file is locked.
#[derive(Debug, Clone, Copy)]
enum Part {
    /// All of it, as HDF5 does.
    Whole,
    /// The first byte, as an addition does.
    FirstByte,
}

/// Whether a call waits until the lock is given.
#[derive(Debug, Clone, Copy, PartialEq, Eq)]
enum Waiting {
    No,
    ForEver,
}

/// Between two questions for a lock that is waited for no longer than so many seconds.
const PAUSE: Duration = Duration::from_millis(5);

impl Locking {
    /// How long is waited from now on; none where no lock is asked for. What has to be locked more than once has the
    /// patience of one.
    pub fn patience(&self) -> Option<Patience> {
        let after = |seconds| {
            let end = Instant::now().checked_add(Duration::from_secs(seconds))?;
            Some(Patience::Until { end, seconds })
        };
        match (self.no_lock, self.wait) {
            (true, _) => None,
            (false, None) => Some(Patience::No),
            (false, Some(None)) => Some(Patience::ForEver),
            // What ends after all clocks do does not end.
            (false, Some(Some(seconds))) => Some(after(seconds).unwrap_or(Patience::ForEver)),
        }
    }
}

/// What there is to do where a lock is not given.
const OPTIONS: &str = "; --wait waits for it, and --no-lock does not ask";

/// The shared lock of a file that is read, and was opened by this name.
pub fn shared(
    file: &File,
    name: impl AsRef<OsStr>,
    patience: Option<Patience>,
) -> Result<Lock, Failure> {
    let why =
        "a program has it open for writing, HDF5 perhaps, which may not have written all of it";
    let asked = Lock::taken(file, Part::Whole, patience);
    asked.map_err(|error| not_locked(name, "read", error, patience, &format!("{why}{OPTIONS}")))
}

/// The shared lock of the file of this name, which is to be replaced: a program that has it open for writing would go on
/// in a file without a name. None where there is no such file, or a link, or it may not be read: then it cannot be
/// asked for. Who waited may find another file under the name, and asks for that one's. One that HDF5 lets others read
/// while it writes is not locked, but marked.
pub fn for_replacing(name: &Path, patience: Option<Patience>) -> Result<Option<Lock>, Failure> {
    let mut options = OpenOptions::new();
    // A pipe that stands there by now is not waited for.
    options
        .read(true)
        .custom_flags(libc::O_NOFOLLOW | libc::O_NONBLOCK);
    let lost = "what that writes would be lost: wait until it is closed, or remove the file";
    let why = format!("a program has it open for writing, HDF5 perhaps, and {lost}");
    while let Ok(file) = options.open(name) {
        let asked = Lock::taken(&file, Part::Whole, patience);
        let lock = asked.map_err(|error| not_locked(name, "replaced", error, patience, &why))?;
        if patience.is_some() && is_marked(&file) {
            let why = "by a program that has it open, or did not close it";
            let why = format!("it is marked as open for writing, {why}, and {lost}");
            return Err(Failure::file(name, "replaced", why));
        }
        if stands_at(&file, name) {
            return Ok(Some(lock));
        }
    }
    Ok(None)
}

/// Whether a file's superblock, at its start, says that a program has it open for writing.
fn is_marked(file: &File) -> bool {
    let mut start = [0; 64];
    let there = file.read_at(&mut start, 0).unwrap_or(0);
    Superblock::find(&start[..there]).is_some_and(|superblock| superblock.open_for_writing)
}

/// Whether this file is the one of this name.
pub fn stands_at(file: &File, name: &Path) -> bool {
    match (file.metadata(), fs::metadata(name)) {
        (Ok(opened), Ok(named)) => identity(&opened) == identity(&named),
        _ => false,
    }
}

/// The lock that one addition to a file has at a time; the file has to be open for writing.
pub fn addition(
    file: &File,
    name: impl AsRef<OsStr>,
    patience: Option<Patience>,
) -> Result<Lock, Failure> {
    let why = "another poilures is adding to it; --wait waits for it";
    let asked = Lock::taken(file, Part::FirstByte, patience);
    asked.map_err(|error| not_locked(name, "written", error, patience, why))
}

/// Why a lock is not given. Where another program has it, it is said how long that was waited for.
fn not_locked(
    name: impl AsRef<OsStr>,
    what: &str,
    error: io::Error,
    patience: Option<Patience>,
    why: &str,
) -> Failure {
    match (is_held(&error), patience) {
        (false, _) => Failure::file(name, "locked", error),
        (true, Some(Patience::Until { seconds, .. })) => {
            let time = count(seconds, "second");
            Failure::file(name, what, format!("after {time} {why}"))
        }
        (true, _) => Failure::file(name, what, why),
    }
}

impl Lock {
    /// Takes a lock. A file system that has none has none of others.
    fn taken(file: &File, part: Part, patience: Option<Patience>) -> io::Result<Lock> {
        let Some(patience) = patience else {
            return Ok(Lock { file: None, part });
        };
        let file = match part.wait_for(file, patience) {
            Ok(()) => Some(file.try_clone()?),
            Err(error) if has_no_locks(&error) => None,
            Err(error) => return Err(error),
        };
        Ok(Lock { file, part })
    }
}

impl Drop for Lock {
    fn drop(&mut self) {
        if let Some(file) = &self.file {
            // The file is locked no longer when it is closed, at the latest.
            let _ = self.part.free(file);
        }
    }
}

impl Part {
    /// Asks until the lock is given or patience ends. Signals end the program, so that it may wait in a call of the system.
    fn wait_for(self, file: &File, patience: Patience) -> io::Result<()> {
        let mut waiting = Waiting::No;
        loop {
            match (self.lock(file, waiting), patience) {
                (Err(error), _) if error.kind() == io::ErrorKind::Interrupted => {}
                (Err(error), Patience::Until { end, .. }) if is_held(&error) => {
                    match end.saturating_duration_since(Instant::now()) {
                        Duration::ZERO => return Err(error),
                        rest => thread::sleep(rest.min(PAUSE)),
                    }
                }
                (Err(error), Patience::ForEver) if is_held(&error) => waiting = Waiting::ForEver,
                (answer, _) => return answer,
            }
        }
    }

    fn lock(self, file: &File, waiting: Waiting) -> io::Result<()> {
        match (self, waiting) {
            (Part::Whole, Waiting::No) => flock(file, libc::LOCK_SH | libc::LOCK_NB),
            (Part::Whole, Waiting::ForEver) => flock(file, libc::LOCK_SH),
            (Part::FirstByte, Waiting::No) => {
                lock_first_byte(file, libc::F_OFD_SETLK, libc::F_WRLCK)
            }
            (Part::FirstByte, Waiting::ForEver) => {
                lock_first_byte(file, libc::F_OFD_SETLKW, libc::F_WRLCK)
            }
        }
    }

    fn free(self, file: &File) -> io::Result<()> {
        match self {
            Part::Whole => flock(file, libc::LOCK_UN),
            Part::FirstByte => lock_first_byte(file, libc::F_OFD_SETLK, libc::F_UNLCK),
        }
    }
}

fn flock(file: &File, operation: c_int) -> io::Result<()> {
    // SAFETY: the call takes two numbers, and the file is open.
    done(unsafe { libc::flock(file.as_raw_fd(), operation) })
}

/// An open file description's lock of the first byte. It is another than those of `flock`, and no file of the same program
/// gives it back by being closed.
fn lock_first_byte(file: &File, command: c_int, kind: c_int) -> io::Result<()> {
    // SAFETY: all of flock is plain numbers; those that stay 0 are as such a lock has to have them.
    let mut lock: libc::flock = unsafe { std::mem::zeroed() };
    lock.l_type = kind as _;
    lock.l_whence = libc::SEEK_SET as _;
    lock.l_start = 0;
    lock.l_len = 1;
    // SAFETY: the file is open, and the lock outlives the call.
    done(unsafe { libc::fcntl(file.as_raw_fd(), command, &lock) })
}

/// Whether a lock is not given since another has it.
fn is_held(error: &io::Error) -> bool {
    matches!(error.raw_os_error(), Some(libc::EWOULDBLOCK | libc::EACCES))
}

/// How a file system without locks refuses one, or a system that does not know those of open file descriptions.
fn has_no_locks(error: &io::Error) -> bool {
    let none = [
        libc::ENOLCK,
        libc::EOPNOTSUPP,
        libc::ENOSYS,
        libc::EINVAL,
        libc::EBADF,
    ];
    error
        .raw_os_error()
        .is_some_and(|code| none.contains(&code))
}

#[cfg(test)]
mod tests {
    use super::*;
    use clap::Parser;
    use std::sync::mpsc;
    use tempfile::NamedTempFile;

    #[derive(Parser)]
    struct Words {
        #[command(flatten)]
        locking: Locking,
        file: Option<String>,
    }

    fn words(words: &[&str]) -> Result<Words, clap::Error> {
        Words::try_parse_from([&["poilures"], words].concat())
    }

    fn locking(wait: Option<Option<u64>>) -> Locking {
        Locking {
            wait,
            no_lock: false,
        }
    }

    /// A file, opened twice for reading and writing.
    fn twice() -> (NamedTempFile, [File; 2]) {
        let file = NamedTempFile::new().unwrap();
        let open = || {
            let mut options = OpenOptions::new();
            options.read(true).write(true).open(file.path()).unwrap()
        };
        let both = [open(), open()];
        (file, both)
    }

    /// As HDF5 locks a file that it opens.
    fn hdf5(file: &File, kind: c_int) -> io::Result<()> {
        flock(file, kind | libc::LOCK_NB)
    }

    fn said(failure: Failure) -> String {
        match failure {
            Failure::Use(words) => words,
            failure => panic!("{failure:?}"),
        }
    }

    #[test]
    fn seconds_stand_behind_an_equals_sign() {
        let due = [
            (&[][..], None),
            (&["--wait"], Some(None)),
            (&["--wait=7"], Some(Some(7))),
            (&["--wait", "7"], Some(None)),
        ];
        for (given, wait) in due {
            let words = words(given).unwrap();
            assert_eq!(words.locking.wait, wait, "{given:?}");
            assert_eq!(words.file.is_some(), given.len() == 2, "{given:?}");
        }
        assert!(words(&["--no-lock"]).unwrap().locking.no_lock);
        for wrong in [&["--wait", "--no-lock"][..], &["--wait=no"], &["--wait=-1"]] {
            assert!(words(wrong).is_err(), "{wrong:?}");
        }
    }

    #[test]
    fn a_reader_is_no_hindrance_and_a_writer_is_one() {
        let (named, [ours, theirs]) = twice();
        hdf5(&theirs, libc::LOCK_SH).unwrap();
        let lock = shared(&ours, named.path(), locking(None).patience()).unwrap();
        assert!(for_replacing(named.path(), Some(Patience::No)).is_ok());
        assert!(hdf5(&theirs, libc::LOCK_EX).is_err(), "we have it");
        drop(lock);
        hdf5(&theirs, libc::LOCK_EX).unwrap();
        let words = said(shared(&ours, named.path(), locking(None).patience()).unwrap_err());
        assert!(words.contains("cannot be read: a program has it open for writing"));
        assert!(words.contains("--wait waits for it"), "{words}");
        let words = said(for_replacing(named.path(), Some(Patience::No)).unwrap_err());
        assert!(words.contains("cannot be replaced: a program has it open for writing"));
        let none = Locking {
            wait: None,
            no_lock: true,
        };
        assert!(shared(&ours, named.path(), none.patience()).is_ok());
        assert!(for_replacing(named.path(), none.patience()).is_ok());
    }

    #[test]
    fn a_lock_goes_with_its_guard() {
        let (named, [ours, theirs]) = twice();
        drop(shared(&ours, named.path(), locking(None).patience()).unwrap());
        hdf5(&theirs, libc::LOCK_EX).unwrap();
        drop(theirs);
        assert!(shared(&ours, named.path(), locking(None).patience()).is_ok());
    }

    #[test]
    fn one_addition_at_a_time() {
        let (named, [ours, theirs]) = twice();
        let now = Some(Patience::No);
        let lock = addition(&theirs, named.path(), now).unwrap();
        let words = said(addition(&ours, named.path(), now).unwrap_err());
        assert!(
            words.contains("another poilures is adding to it"),
            "{words}"
        );
        // HDF5 does not see it, nor does it see HDF5's.
        hdf5(&ours, libc::LOCK_EX).unwrap();
        drop(lock);
        assert!(addition(&theirs, named.path(), now).is_ok());
        // What may not be written has no such lock, and goes on.
        let read = File::open(named.path()).unwrap();
        let _first = addition(&theirs, named.path(), now).unwrap();
        assert!(addition(&read, named.path(), now).is_ok());
    }

    #[test]
    fn patience_ends() {
        let (named, [ours, theirs]) = twice();
        hdf5(&theirs, libc::LOCK_EX).unwrap();
        let _theirs = addition(&theirs, named.path(), Some(Patience::No)).unwrap();
        let patience = locking(Some(Some(1))).patience();
        let begin = Instant::now();
        let words = said(shared(&ours, named.path(), patience).unwrap_err());
        assert!(begin.elapsed() >= Duration::from_secs(1));
        assert!(words.contains("after 1 second a program has it"), "{words}");
        // The second lock has what is left of the same patience.
        let words = said(addition(&ours, named.path(), patience).unwrap_err());
        assert!(begin.elapsed() < Duration::from_secs(2));
        assert!(words.contains("after 1 second another poilures"), "{words}");
    }

    #[test]
    fn who_waits_gets_it_when_it_is_given_back() {
        for wait in [None, Some(60), Some(u64::MAX)] {
            let (named, [ours, theirs]) = twice();
            let path = named.path().to_path_buf();
            hdf5(&theirs, libc::LOCK_EX).unwrap();
            let first = addition(&theirs, &path, Some(Patience::No)).unwrap();
            let (sent, met) = mpsc::channel();
            let waiting = thread::spawn(move || {
                let patience = locking(Some(wait)).patience();
                sent.send(()).unwrap();
                let _whole = shared(&ours, &path, patience).unwrap();
                let _byte = addition(&ours, &path, patience).unwrap();
            });
            met.recv().unwrap();
            thread::sleep(4 * PAUSE);
            assert!(!waiting.is_finished());
            flock(&theirs, libc::LOCK_UN).unwrap();
            thread::sleep(4 * PAUSE);
            assert!(!waiting.is_finished());
            drop(first);
            waiting.join().unwrap();
        }
    }
}
