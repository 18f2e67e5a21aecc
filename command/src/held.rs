//! A file's bytes in memory of our own, which stay as they were when they were first seen, whatever becomes of the file: so
//! what is tested and what is given out are the same bytes, for every reader.
//!
//! A small file is read whole. For a larger one memory of its length is laid out that cannot be touched. Where it is
//! touched all the same, the system raises SIGSEGV; the handler reads the part around that place from the file, makes it
//! readable, and the read goes on as if it had been there. A part is filled once, and can only be read from then on. So
//! what is not looked at is not read, and takes no memory.
//!
//! Each file is read by the thread that opened it, which alone knows of it: a [`Held`] cannot be given to another one. The
//! handler comes only where that thread touches such memory, and so never while the list of these files changes, nor within
//! a call of the system's: it calls mprotect, pread, and what ends the program. The bytes that a [`Held`] lends stay with
//! its thread, too: another one that touched them would end the program. The system itself must not be handed bytes that
//! were not looked at, since it answers with an error where a program would be interrupted: they are copied first.
use crate::failure::Failure;
use crate::memory;
use crate::signals;
use libc::{c_int, c_void, siginfo_t};
use std::cell::Cell;
use std::ffi::OsStr;
use std::fs::File;
use std::hint::black_box;
use std::io;
use std::mem;
use std::ops::Deref;
use std::os::fd::{AsRawFd, RawFd};
use std::os::unix::fs::FileExt;
use std::ptr::{self, NonNull};
use std::slice;
use std::sync::OnceLock;
use std::sync::atomic::{AtomicU8, AtomicUsize, Ordering, compiler_fence};

/// Why the bytes of a file cannot be had.
pub const CUT: &str = "it was cut short while it was read, or its disk failed";

/// A file of up to so many bytes is read whole.
const MOST_AT_ONCE: u64 = 1 << 20;
/// Bytes that are read at once of a larger one, and that a byte of `Record::filled` stands for: some whole pages, whatever
/// their size.
const WINDOW: usize = 1 << 16;
/// So often as many are read.
const SMALL_WINDOWS: usize = 1 << 14;
/// Then twice as many, and again twice as many after each so many windows. For the system a window between two that are
/// not filled is a mapping, and so is what lies behind it. By default there may be 65,530, and here there are fewer for
/// any file: of one of 2^47 bytes, than which none fits into memory, 22 sizes are used up, with 16,384 + 22 × 512 windows,
/// and fewer than 512 more are left.
const WINDOWS_OF_A_SIZE: usize = 1 << 9;

/// Bytes of one of the system's large pages. A file that is looked at from its front to its end is read in parts of twice as
/// many bytes each time, up to as many: such a part takes one page in place of 512.
const LARGE_PAGE: usize = 1 << 21;

/// Bytes that are read at once after so many windows.
fn window(windows: usize) -> usize {
    let doubled = match windows.checked_sub(SMALL_WINDOWS) {
        None => 0,
        Some(more) => more / WINDOWS_OF_A_SIZE + 1,
    };
    WINDOW << doubled.min(31)
}

/// A file that is read, in memory of our own.
pub struct Held {
    bytes: Bytes,
    file: File,
}

enum Bytes {
    Whole(Vec<u8>),
    Windows(Windows),
}

impl Held {
    /// So many bytes of an open file, as it is called.
    pub fn new(file: File, length: u64, name: &OsStr) -> Result<Self, Failure> {
        let unread = |error: io::Error| Failure::file(name, "read", error);
        // Valgrind has not all registers as they are where a touch is interrupted, and calls it an error.
        let bytes = match length <= MOST_AT_ONCE || is_under_valgrind() {
            true => Bytes::Whole(whole(&file, length, name)?),
            false => {
                let words = signals::line(&Failure::file(name, "read", CUT)).unwrap_or_default();
                let windows = Windows::new(file.as_raw_fd(), length, words);
                Bytes::Windows(windows.map_err(unread)?)
            }
        };
        Ok(Held { bytes, file })
    }

    pub fn file(&self) -> &File {
        &self.file
    }

    /// Puts bytes from a position on there, of which a large file keeps none by that: it is read once more where they are
    /// looked at.
    pub fn peek(&self, at: usize, to: &mut [u8], name: &OsStr) -> Result<(), Failure> {
        match &self.bytes {
            Bytes::Windows(_) => read_exact(&self.file, at as u64, to, name),
            Bytes::Whole(bytes) => {
                to.copy_from_slice(&bytes[at..at + to.len()]);
                Ok(())
            }
        }
    }
}

/// Reads so many bytes of a file that is called so.
fn read_exact(file: &File, at: u64, to: &mut [u8], name: &OsStr) -> Result<(), Failure> {
    file.read_exact_at(to, at)
        .map_err(|error| match error.kind() {
            io::ErrorKind::UnexpectedEof => Failure::file(name, "read", CUT),
            _ => Failure::file(name, "read", error),
        })
}

impl Deref for Held {
    type Target = [u8];

    fn deref(&self) -> &[u8] {
        match &self.bytes {
            Bytes::Whole(bytes) => bytes,
            Bytes::Windows(windows) => windows.bytes(),
        }
    }
}

/// Looks at bytes, so that they are there whatever becomes of their file.
pub fn look_at(bytes: &[u8]) {
    for part in bytes.chunks(WINDOW) {
        black_box((part[0], part[part.len() - 1]));
    }
}

/// Whether Valgrind runs the program: it has libraries of its own loaded.
fn is_under_valgrind() -> bool {
    let loaded = std::env::var_os("LD_PRELOAD");
    loaded.is_some_and(|loaded| loaded.to_string_lossy().contains("vgpreload"))
}

/// All bytes of a file, in a list.
fn whole(file: &File, length: u64, name: &OsStr) -> Result<Vec<u8>, Failure> {
    let length = usize::try_from(length).map_err(|_| memory::no_room(length))?;
    let mut bytes = memory::with_room(length)?;
    bytes.resize(length, 0);
    read_exact(file, 0, &mut bytes, name)?;
    Ok(bytes)
}

/// Memory of the system's: zeros, of which only what is written takes room. It begins with a large page.
struct Pages {
    start: NonNull<c_void>,
    length: usize,
    /// What was mapped for it.
    mapped: (*mut c_void, usize),
}

impl Pages {
    fn new(length: usize, protection: c_int) -> io::Result<Self> {
        let flags = libc::MAP_PRIVATE | libc::MAP_ANONYMOUS | libc::MAP_NORESERVE;
        let size = length.saturating_add(LARGE_PAGE);
        // SAFETY: new memory, where the system has room for it.
        let mapped = unsafe { libc::mmap(ptr::null_mut(), size, protection, flags, -1, 0) };
        if mapped == libc::MAP_FAILED {
            return Err(io::Error::last_os_error());
        }
        let start = mapped.map_addr(|at| at.next_multiple_of(LARGE_PAGE));
        Ok(Pages {
            start: NonNull::new(start).ok_or(io::ErrorKind::OutOfMemory)?,
            length,
            mapped: (mapped, size),
        })
    }

    /// The same, in large pages wherever a whole one comes into use at once.
    fn in_large_pages(self) -> Self {
        // SAFETY: this says how the memory is to be given, and changes no byte of it.
        unsafe { libc::madvise(self.start.as_ptr(), self.length, libc::MADV_HUGEPAGE) };
        self
    }
}

impl Drop for Pages {
    fn drop(&mut self) {
        let (mapped, size) = self.mapped;
        // SAFETY: it came from mmap, and nothing of it is lent any more.
        unsafe { libc::munmap(mapped, size) };
    }
}

/// What the handler knows of a file. It stays where it is while it is in its thread's list.
struct Record {
    memory: Pages,
    /// For each window whether it is filled, a byte of 0 or 1.
    filled: Pages,
    file: RawFd,
    /// How many windows were read. Who was interrupted may know no better than that this is as it was, and so the next two.
    windows: AtomicUsize,
    /// Bytes of the part that was read last, and the number of the window behind it.
    last_size: AtomicUsize,
    last_end: AtomicUsize,
    /// What is said where the file's bytes cannot be had.
    words: String,
    /// The one that is next in the list.
    next: Cell<*const Record>,
}

thread_local! {
    /// The files of this thread that are in windows; the one that came last. A handler may look at it, since it is plain
    /// memory that is there from the thread's start to its end.
    static LAST: Cell<*const Record> = const { Cell::new(ptr::null()) };
}

/// Bytes of a file that come where they are looked at. The file stays open for as long.
struct Windows(*const Record);

impl Windows {
    fn new(file: RawFd, length: u64, words: String) -> io::Result<Self> {
        install()?;
        let too_long = |_| io::Error::from(io::ErrorKind::OutOfMemory);
        let length = usize::try_from(length).map_err(too_long)?;
        let record = Box::into_raw(Box::new(Record {
            memory: Pages::new(length, libc::PROT_NONE)?.in_large_pages(),
            filled: Pages::new(length.div_ceil(WINDOW), libc::PROT_READ | libc::PROT_WRITE)?,
            file,
            windows: AtomicUsize::new(0),
            last_size: AtomicUsize::new(WINDOW),
            last_end: AtomicUsize::new(usize::MAX),
            words,
            next: Cell::new(LAST.get()),
        }));
        LAST.set(record);
        // The handler sees it before anything is touched.
        compiler_fence(Ordering::SeqCst);
        Ok(Windows(record))
    }

    fn record(&self) -> &Record {
        // SAFETY: it goes with self alone.
        unsafe { &*self.0 }
    }

    fn bytes(&self) -> &[u8] {
        let Pages { start, length, .. } = self.record().memory;
        // SAFETY: it is memory of this length, which nobody writes to but the handler, and that only before it is seen for
        // the first time. It goes with self.
        unsafe { slice::from_raw_parts(start.as_ptr().cast(), length) }
    }
}

impl Drop for Windows {
    fn drop(&mut self) {
        let next = self.record().next.get();
        if LAST.get() == self.0 {
            LAST.set(next);
        } else if let Some(before) = records().find(|record| record.next.get() == self.0) {
            before.next.set(next);
        }
        compiler_fence(Ordering::SeqCst);
        // SAFETY: it came from into_raw, and nobody else knows of it any more.
        drop(unsafe { Box::from_raw(self.0.cast_mut()) });
    }
}

/// Those of this thread. A handler may call it.
fn records() -> impl Iterator<Item = &'static Record> {
    // SAFETY: what is in the list is taken out before it goes, and nothing is taken out while it is gone through.
    let at = |record: *const Record| unsafe { record.as_ref() };
    std::iter::successors(at(LAST.get()), move |record| at(record.next.get()))
}

/// What was done with the signal before; none where the handler is not there.
static BEFORE: OnceLock<Option<libc::sigaction>> = OnceLock::new();

/// Has the handler take the signal from here on, also where whoever started us has it blocked: then the system would end
/// the program. Who asks while another thread does so waits.
fn install() -> io::Result<()> {
    // SAFETY: all of sigaction is plain numbers, and the handler calls only what a handler may call. It runs on the stack
    // that Rust keeps for handlers. All signals wait in it: what they do to a file that is half written goes on when the
    // part is filled.
    let before = BEFORE.get_or_init(|| unsafe {
        let (mut action, mut before): (libc::sigaction, libc::sigaction) = mem::zeroed();
        action.sa_sigaction = touched as *const () as usize;
        action.sa_flags = libc::SA_SIGINFO | libc::SA_ONSTACK;
        libc::sigfillset(&mut action.sa_mask);
        (libc::sigaction(libc::SIGSEGV, &action, &mut before) == 0).then_some(before)
    });
    match before {
        Some(_) => {
            signals::let_through(libc::SIGSEGV);
            Ok(())
        }
        None => Err(io::Error::other("SIGSEGV gets no handler")),
    }
}

/// Memory was touched that cannot be. Where it is a file's it is filled, and what touched it goes on.
extern "C" fn touched(signal: c_int, info: *mut siginfo_t, context: *mut c_void) {
    // SAFETY: the system hands out what it knows of the signal; who was interrupted may just be looking at errno.
    unsafe {
        let errno = libc::__errno_location();
        let before = *errno;
        // Others that send the signal say no address.
        let address = ((*info).si_code > 0).then(|| (*info).si_addr().addr());
        let is_filled = address.is_some_and(|at| records().any(|record| record.fill(at)));
        if !is_filled {
            pass_on(signal, info, context);
        }
        *errno = before;
    }
}

/// Does with the signal what was done with it before.
unsafe fn pass_on(signal: c_int, info: *mut siginfo_t, context: *mut c_void) {
    let before = BEFORE.get().and_then(Option::as_ref);
    let (handler, flags) = before.map_or((libc::SIG_DFL, 0), |b| (b.sa_sigaction, b.sa_flags));
    // SAFETY: it was a handler of this kind before.
    unsafe {
        match handler {
            libc::SIG_IGN if (*info).si_code <= 0 => {}
            // It comes again when this one is done, and ends the program.
            libc::SIG_DFL | libc::SIG_IGN => {
                libc::signal(signal, libc::SIG_DFL);
                libc::raise(signal);
            }
            handler if flags & libc::SA_SIGINFO != 0 => {
                let handler: extern "C" fn(c_int, *mut siginfo_t, *mut c_void) =
                    mem::transmute(handler);
                handler(signal, info, context);
            }
            handler => {
                let handler: extern "C" fn(c_int) = mem::transmute(handler);
                handler(signal);
            }
        }
    }
}

impl Record {
    /// Fills the window around an address, if it is one of this file's and was not filled. A handler may call it.
    fn fill(&self, address: usize) -> bool {
        let Some(at) = address.checked_sub(self.memory.start.addr().get()) else {
            return false;
        };
        // The last page goes on behind the last byte.
        let end = self.memory.length.next_multiple_of(memory::SMALL_PAGE);
        if at >= end || self.is_filled(at / WINDOW) {
            return false;
        }
        let least = window(self.windows.fetch_add(1, Ordering::Relaxed));
        // Who goes on where the last part ended may want all of the file.
        let size = match self.last_end.load(Ordering::Relaxed) == at / WINDOW {
            true => least.max((2 * self.last_size.load(Ordering::Relaxed)).min(LARGE_PAGE)),
            false => least,
        };
        let start = at / size * size;
        let end = start.saturating_add(size).min(self.memory.length);
        // A large one may have small ones in it that are filled already, and stay.
        let (mut next, end) = (start / WINDOW, end.div_ceil(WINDOW));
        self.last_size.store(size, Ordering::Relaxed);
        self.last_end.store(end, Ordering::Relaxed);
        while next < end {
            let first = next;
            let is_filled = self.is_filled(first);
            while next < end && self.is_filled(next) == is_filled {
                next += 1;
            }
            if !is_filled {
                self.take(first * WINDOW, self.memory.length.min(next * WINDOW));
                (first..next).for_each(|window| self.flag(window).store(1, Ordering::Relaxed));
            }
        }
        true
    }

    fn is_filled(&self, window: usize) -> bool {
        self.flag(window).load(Ordering::Relaxed) != 0
    }

    fn flag(&self, window: usize) -> &AtomicU8 {
        // SAFETY: there is a byte for each window of the file.
        unsafe { self.filled.start.cast::<AtomicU8>().add(window).as_ref() }
    }

    /// Takes in part of the file. Where the file has not all of it any more, that ends the program.
    fn take(&self, start: usize, end: usize) {
        let length = end - start;
        // SAFETY: the part lies in the memory, it begins with a page, and nobody has seen a byte of it.
        unsafe {
            let at = self.memory.start.as_ptr().byte_add(start);
            if libc::mprotect(at, length, libc::PROT_READ | libc::PROT_WRITE) != 0 {
                memory::end(length);
            }
            if !read_all(self.file, at, length, start) {
                signals::end(self.words.as_bytes());
            }
            if libc::mprotect(at, length, libc::PROT_READ) != 0 {
                memory::end(length);
            }
        }
    }
}

/// Reads so many bytes of a file from a position on, if they are there. A handler may call it.
unsafe fn read_all(file: RawFd, to: *mut c_void, length: usize, position: usize) -> bool {
    let mut there = 0;
    while there < length {
        // SAFETY: the caller has room for all of them.
        let read = unsafe {
            let (rest, at) = (length - there, (position + there) as libc::off64_t);
            libc::pread64(file, to.byte_add(there), rest, at)
        };
        match read {
            0 => return false,
            1.. => there += read as usize,
            // SAFETY: the last call failed, and has said why.
            _ if unsafe { *libc::__errno_location() } == libc::EINTR => {}
            _ => return false,
        }
    }
    true
}

#[cfg(test)]
mod tests {
    use super::*;
    use std::env;
    use std::io::{Seek, SeekFrom, Write};
    use std::process::Command;
    use std::thread;
    use tempfile::NamedTempFile;

    /// A byte of a file at a position: neighbours differ, and so do windows.
    fn due(at: usize) -> u8 {
        (at % 251 + at / WINDOW % 5) as u8
    }

    fn bytes(length: usize) -> Vec<u8> {
        (0..length).map(due).collect()
    }

    /// A file with these bytes.
    fn file(bytes: &[u8]) -> NamedTempFile {
        let mut file = NamedTempFile::new().unwrap();
        file.write_all(bytes).unwrap();
        file
    }

    fn held(file: &NamedTempFile) -> Held {
        let open = File::open(file.path()).unwrap();
        let length = open.metadata().unwrap().len();
        Held::new(open, length, OsStr::new("a file")).unwrap()
    }

    /// Writes one byte over so many.
    fn change(file: &NamedTempFile, byte: u8, length: usize) {
        file.as_file().write_all_at(&vec![byte; length], 0).unwrap();
    }

    fn windows(held: &Held) -> &Record {
        match &held.bytes {
            Bytes::Windows(windows) => windows.record(),
            Bytes::Whole(_) => panic!("it is read whole"),
        }
    }

    const LARGE: usize = 3 * MOST_AT_ONCE as usize;

    #[test]
    fn every_byte_comes() {
        for length in [
            0,
            1,
            WINDOW,
            MOST_AT_ONCE as usize - 1,
            MOST_AT_ONCE as usize,
            MOST_AT_ONCE as usize + 1,
            MOST_AT_ONCE as usize + WINDOW,
            LARGE - 4097,
        ] {
            let file = file(&bytes(length));
            let held = held(&file);
            assert_eq!(held.len(), length);
            assert_eq!(
                matches!(held.bytes, Bytes::Whole(_)),
                length as u64 <= MOST_AT_ONCE
            );
            assert!(held[..] == bytes(length), "{length}");
        }
    }

    #[test]
    fn bytes_come_from_behind_too() {
        let held = held(&file(&bytes(LARGE)));
        for at in (0..LARGE).rev().step_by(997) {
            assert_eq!(held[at], due(at));
        }
    }

    #[test]
    fn what_was_seen_stays_and_what_was_not_comes_as_it_is_then() {
        for length in [WINDOW, LARGE] {
            let file = file(&vec![b'A'; length]);
            let held = held(&file);
            assert_eq!(held[length / 2], b'A');
            change(&file, b'B', length);
            let start = length / 2 / WINDOW * WINDOW;
            assert!(held[start..][..WINDOW].iter().all(|&byte| byte == b'A'));
            let other = if length == LARGE { b'B' } else { b'A' };
            assert_eq!((held[0], held[length - 1]), (other, other));
            change(&file, b'C', length);
            assert_eq!((held[0], held[length - 1]), (other, other));
        }
    }

    #[test]
    fn what_was_looked_at_stays() {
        let file = file(&vec![b'A'; LARGE]);
        let held = held(&file);
        let part = &held[WINDOW - 1..4 * WINDOW + 1];
        look_at(part);
        look_at(&[]);
        change(&file, b'B', LARGE);
        assert!(part.iter().all(|&byte| byte == b'A'));
        assert_eq!(held[20 * WINDOW], b'B');
    }

    #[test]
    fn what_is_not_looked_at_is_not_read() {
        let held = held(&file(&bytes(LARGE)));
        let record = windows(&held);
        assert_eq!(record.windows.load(Ordering::SeqCst), 0);
        assert_eq!(held[7 * WINDOW + 5], due(7 * WINDOW + 5));
        assert_eq!(held[7 * WINDOW], due(7 * WINDOW));
        assert_eq!(record.windows.load(Ordering::SeqCst), 1);
        let filled: Vec<usize> = (0..LARGE / WINDOW)
            .filter(|&window| record.is_filled(window))
            .collect();
        assert_eq!(filled, [7]);
    }

    #[test]
    fn to_peek_is_not_to_look() {
        for length in [WINDOW, LARGE] {
            let file = file(&vec![b'A'; length]);
            let held = held(&file);
            let peek = |at| {
                let mut byte = [0];
                held.peek(at, &mut byte, OsStr::new("a file")).unwrap();
                byte[0]
            };
            assert_eq!((peek(0), peek(length - 1)), (b'A', b'A'));
            change(&file, b'B', length);
            let due = if length == LARGE { b'B' } else { b'A' };
            assert_eq!((peek(0), peek(length - 1)), (due, due));
            assert_eq!((held[0], held[length - 1]), (due, due));
        }
    }

    #[test]
    fn who_goes_on_has_more_at_once() {
        let held = held(&file(&bytes(LARGE)));
        let record = windows(&held);
        let parts = || record.windows.load(Ordering::SeqCst);
        assert!(held[..] == bytes(LARGE));
        // Of 48 windows one, one, 2, 4, 8, 16 and 16.
        assert_eq!(parts(), 7);
        let held = self::held(&file(&bytes(LARGE)));
        let (record, each) = (windows(&held), 3 * WINDOW);
        assert!((0..LARGE / each).all(|part| held[part * each] == due(part * each)));
        assert_eq!(record.windows.load(Ordering::SeqCst), LARGE / each);
    }

    #[test]
    fn windows_grow_and_what_is_filled_in_them_stays() {
        let file = file(&vec![b'A'; LARGE]);
        let held = held(&file);
        assert_eq!(held[WINDOW], b'A');
        change(&file, b'B', LARGE);
        let read = SMALL_WINDOWS + WINDOWS_OF_A_SIZE;
        windows(&held).windows.store(read, Ordering::SeqCst);
        assert_eq!(held[0], b'B');
        // Four at once by now, of which the second was there.
        change(&file, b'C', LARGE);
        let seen: Vec<u8> = (0..6).map(|window| held[window * WINDOW + 9]).collect();
        assert_eq!(seen, b"BABBCC");
        // Wider than the whole file.
        windows(&held).windows.store(1 << 20, Ordering::SeqCst);
        change(&file, b'D', LARGE);
        assert_eq!(held[LARGE - 1], b'D');
        change(&file, b'E', LARGE);
        assert_eq!((held[0], held[9 * WINDOW]), (b'B', b'D'));
    }

    // The system keeps 65,530 mappings by default. Each window makes two more at most: itself, and what lies behind it.
    #[test]
    fn there_are_never_too_many_windows() {
        let (mut windows, mut size) = (0usize, WINDOW);
        // Of windows of one size there are no more than fit into memory, and no more than are read before the next size.
        while size < 1 << 47 {
            let first = windows;
            while window(windows) == size && windows - first < (1 << 47) / size {
                windows += 1;
            }
            size = window(windows).max(2 * size);
        }
        assert!((16_384..28_672).contains(&windows), "{windows}");
        assert_eq!(window(usize::MAX), 1 << 47);
    }

    #[test]
    fn several_files_at_once_and_some_that_go() {
        let files: Vec<NamedTempFile> = (0..5u8).map(|i| file(&vec![i; LARGE])).collect();
        let mut held: Vec<Option<Held>> = files.iter().map(|file| Some(self::held(file))).collect();
        let is_sound = |held: &[Option<Held>], at: usize| {
            let mut there = held.iter().zip(0u8..);
            there.all(|(held, byte)| held.as_ref().is_none_or(|held| held[at] == byte))
        };
        for (turn, gone) in [2, 4, 0, 3, 1].into_iter().enumerate() {
            assert!(is_sound(&held, turn * 5 * WINDOW));
            held[gone] = None;
            assert_eq!(records().count(), 4 - turn);
            assert!(is_sound(&held, turn * 5 * WINDOW + 2 * WINDOW));
        }
    }

    #[test]
    fn each_thread_has_its_own() {
        let threads: Vec<_> = (0..8u8)
            .map(|byte| {
                thread::spawn(move || {
                    let held = held(&file(&vec![byte; LARGE]));
                    assert!(held.iter().all(|&b| b == byte));
                    records().count()
                })
            })
            .collect();
        for thread in threads {
            assert_eq!(thread.join().unwrap(), 1);
        }
    }

    /// Says that the tests are run in a process that may end, and which of its ends is meant.
    const END: &str = "POILURES_HELD_END";

    /// Runs a test of this module by itself, up to an end of this name; its status, or its signal, and what it says.
    fn ended(test: &str, end: &str) -> (Option<i32>, Option<i32>, String) {
        use std::os::unix::process::ExitStatusExt;
        let mut command = Command::new(env::current_exe().unwrap());
        let name = format!("held::tests::{test}");
        let run = command.args(["--exact", &name, "--nocapture"]);
        let run = run.env(END, end).output().unwrap();
        let said = String::from_utf8_lossy(&run.stderr).into_owned();
        (run.status.code(), run.status.signal(), said)
    }

    #[test]
    fn a_file_that_was_cut_ends_the_program() {
        if env::var_os(END).is_some() {
            let file = file(&bytes(LARGE));
            let held = held(&file);
            assert_eq!(held[0], 0);
            file.as_file().set_len(2 * WINDOW as u64 - 1).unwrap();
            assert_eq!(held[1], 1, "what was seen is there");
            println!("{}", held[WINDOW]);
            unreachable!("that window is not whole");
        }
        let (status, _, said) = ended("a_file_that_was_cut_ends_the_program", "cut");
        assert_eq!(status, Some(2), "{said}");
        let due = "poilures: a file cannot be read: it was cut short while it was read, or its disk failed\n";
        assert!(said.ends_with(due), "{said}");
    }

    #[test]
    fn other_memory_that_is_touched_ends_the_program_as_before() {
        let name = "other_memory_that_is_touched_ends_the_program_as_before";
        match env::var(END).as_deref() {
            Ok("none") => {
                let _held = held(&file(&bytes(LARGE)));
                let none: *const u8 = ptr::without_provenance(WINDOW);
                // SAFETY: this ends the process, which is what it is for.
                println!("{}", unsafe { none.read_volatile() });
            }
            Ok("written") => {
                let held = held(&file(&bytes(LARGE)));
                assert_eq!(held[0], 0);
                // SAFETY: as above.
                unsafe { held.as_ptr().cast_mut().write_volatile(7) };
            }
            _ => {
                for end in ["none", "written"] {
                    let (_, signal, said) = ended(name, end);
                    assert_eq!(signal, Some(libc::SIGSEGV), "{end}: {said}");
                }
                return;
            }
        }
        unreachable!("it goes on");
    }

    #[test]
    fn a_small_file_that_was_cut_is_refused() {
        let mut file = file(b"small");
        file.seek(SeekFrom::Start(0)).unwrap();
        let open = File::open(file.path()).unwrap();
        let Err(Failure::Use(words)) = Held::new(open, 6, OsStr::new("a file")) else {
            panic!("a byte is missing");
        };
        assert_eq!(words, format!("a file cannot be read: {CUT}"));
    }
}
