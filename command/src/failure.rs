//! Why the program ends early: what it says on standard error, and its exit status.
use crate::quoting::shown;
use fractal_heap::Refusal;
use libc::c_int;
use std::ffi::OsStr;
use std::io;

/// What a call to the system says of itself.
pub fn done(status: c_int) -> io::Result<()> {
    match status {
        0 => Ok(()),
        _ => Err(io::Error::last_os_error()),
    }
}

#[derive(Debug)]
pub enum Failure {
    /// Wrong use, or a file that cannot be read or written: 2.
    Use(String),
    /// Refused, or not as it should be: 1.
    Not(String),
    /// As `Use`, where standard error is a file that is not to be changed.
    Mute(String),
    /// Nobody takes what we print, as when it is piped to `head`: 1, and nothing is said.
    Closed,
}

impl Failure {
    /// A file that could not be read or written.
    pub fn file(name: impl AsRef<OsStr>, what: &str, why: impl std::fmt::Display) -> Self {
        let name = match name.as_ref() {
            name if name.is_empty() => "a file without a name".into(),
            name if name == "-" => "standard input".into(),
            name => shown(name),
        };
        Failure::Use(format!("{name} cannot be {what}: {why}"))
    }

    /// Standard output did not take what was printed.
    pub fn printing(error: &io::Error) -> Self {
        match error.kind() {
            io::ErrorKind::BrokenPipe => Failure::Closed,
            _ => Failure::Use(format!("printing failed: {error}")),
        }
    }

    pub fn exit_status(&self) -> u8 {
        match self {
            Failure::Use(_) | Failure::Mute(_) => 2,
            Failure::Not(_) | Failure::Closed => 1,
        }
    }
}

impl From<Refusal> for Failure {
    fn from(refusal: Refusal) -> Self {
        Failure::Not(refusal.to_string())
    }
}
