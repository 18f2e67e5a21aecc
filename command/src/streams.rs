//! Standard input, output and error: whether they are open for what they are for, and which files they are.
use crate::failure::Failure;
use crate::inputs::{Identity, identity, identity_of};
use libc::c_int;
use std::ffi::OsStr;
use std::fs::{File, FileType};
use std::io::{self, IsTerminal, Write};
use std::os::fd::{AsFd, AsRawFd, BorrowedFd};
use std::os::unix::fs::FileTypeExt;
use std::sync::OnceLock;
use std::sync::atomic::{AtomicBool, Ordering};

/// Whether each of the three was open for what it is for as the program began.
static OPEN: [AtomicBool; 3] = [const { AtomicBool::new(true) }; 3];

/// Rust opens /dev/null for each of the three that is closed, before `main` begins. So no file that is opened later gets
/// its number; but it takes all that is written, and what is written is gone. This is called before that.
#[used]
#[unsafe(link_section = ".init_array")]
static LOOK: extern "C" fn() = look;

extern "C" fn look() {
    let unfit = [libc::O_WRONLY, libc::O_RDONLY, libc::O_RDONLY];
    for (number, (open, unfit)) in OPEN.iter().zip(unfit).enumerate() {
        // SAFETY: this asks for flags, and nothing more.
        let flags = unsafe { libc::fcntl(number as c_int, libc::F_GETFL) };
        let fit = flags & libc::O_ACCMODE != unfit && flags & libc::O_PATH == 0;
        open.store(flags != -1 && fit, Ordering::Relaxed);
    }
}

fn is_open(stream: &impl AsRawFd) -> bool {
    OPEN[stream.as_raw_fd() as usize].load(Ordering::Relaxed)
}

fn check(stream: &impl AsRawFd, why: &str) -> io::Result<()> {
    match is_open(stream) {
        true => Ok(()),
        false => Err(io::Error::other(why)),
    }
}

/// An error where nothing can be read from standard input.
pub fn check_input() -> io::Result<()> {
    check(&io::stdin(), "it is not open for reading")
}

/// An error where nothing can be written to standard output.
pub fn check_output() -> io::Result<()> {
    check(&io::stdout(), "standard output is not open for writing")
}

/// An error where nothing can be written to standard error.
pub fn check_error() -> io::Result<()> {
    check(&io::stderr(), "standard error is not open for writing")
}

/// Closes a stream, once: some disks say only then that they did not take what was written. One that was not open took
/// nothing.
fn close(stream: &impl AsRawFd) -> io::Result<()> {
    let number = stream.as_raw_fd();
    if !OPEN[number as usize].swap(false, Ordering::Relaxed) {
        return Ok(());
    }
    // SAFETY: nothing is written there any more, since it counts as not open from now on.
    match unsafe { libc::close(number) } {
        0 => Ok(()),
        _ => Err(io::Error::last_os_error()),
    }
}

/// Closes standard output, when all is printed.
pub fn close_output() -> io::Result<()> {
    close(&io::stdout())
}

/// Closes standard error, when all is told.
pub fn close_error() -> io::Result<()> {
    close(&io::stderr())
}

/// The files that standard output and standard error are.
struct Written {
    output: Option<Identity>,
    error: Option<Identity>,
}

/// Whether what is written there is read again from there: not from a terminal, a socket, or the like.
fn gives_back(kind: FileType) -> bool {
    kind.is_file() || kind.is_fifo() || kind.is_block_device()
}

fn file(stream: BorrowedFd) -> io::Result<Option<Identity>> {
    let known = File::from(stream.try_clone_to_owned()?).metadata()?;
    Ok(gives_back(known.file_type()).then(|| identity(&known)))
}

fn written() -> Result<&'static Written, Failure> {
    static WRITTEN: OnceLock<Written> = OnceLock::new();
    if let Some(written) = WRITTEN.get() {
        return Ok(written);
    }
    let unknown =
        |error| Failure::Use(format!("the standard streams cannot be looked at: {error}"));
    let written = Written {
        output: file(io::stdout().as_fd()).map_err(unknown)?,
        error: file(io::stderr().as_fd()).map_err(unknown)?,
    };
    Ok(WRITTEN.get_or_init(|| written))
}

/// Refuses an input that standard output or standard error is as well. Of standard error that cannot be told there.
pub fn refuse_input(input: Identity) -> Result<(), Failure> {
    let written = written()?;
    if written.error == Some(input) {
        let words = "standard error is a file that is read as well";
        return Err(Failure::Mute(words.into()));
    }
    if written.output == Some(input) {
        let words = "standard output is a file that is read as well";
        return Err(Failure::Use(words.into()));
    }
    Ok(())
}

/// Which of the two this file is, if it is one of them.
pub fn written_as(file: Identity) -> Result<Option<&'static str>, Failure> {
    let written = written()?;
    Ok(match Some(file) {
        file if file == written.output => Some("standard output"),
        file if file == written.error => Some("standard error"),
        _ => None,
    })
}

/// Whether standard error is the file that goes by this name.
pub fn is_error(name: &OsStr) -> bool {
    let error = written().ok().and_then(|written| written.error);
    error.is_some() && error == identity_of(name)
}

/// A line on standard output where that is a terminal, and nowhere else.
pub fn tell_terminal(line: &str) {
    if io::stdout().is_terminal() {
        let _ = writeln!(io::stdout(), "{line}");
    }
}
