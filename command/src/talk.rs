//! What the program says: lines on standard output, or on standard error where standard output carries bytes.
use crate::failure::Failure;
use crate::streams;
use std::cell::RefCell;
use std::io::{self, IsTerminal, Write};

thread_local! {
    /// Lines that wait; none where they are told at once.
    static WAITING: RefCell<Option<Vec<String>>> = const { RefCell::new(None) };
}

/// A line on standard error; where nobody takes it, the work goes on.
pub fn tell(line: &str) {
    WAITING.with_borrow_mut(|waiting| match waiting {
        Some(lines) => lines.push(line.into()),
        None => {
            let _ = writeln!(io::stderr(), "{line}");
        }
    });
}

/// Has lines on standard error wait from here on: whoever takes them may take his time.
pub fn wait_to_tell() {
    WAITING.with_borrow_mut(|waiting| {
        waiting.get_or_insert_default();
    });
}

/// Whether lines wait: then nothing else is shown either.
pub fn is_waiting() -> bool {
    WAITING.with_borrow(Option::is_some)
}

/// Tells the lines that have waited, and those to come at once.
pub fn tell_all() {
    let lines = WAITING.take();
    lines.iter().flatten().for_each(|line| tell(line));
}

/// How much is said.
#[derive(Clone, Copy, PartialEq, Eq)]
pub enum Volume {
    All,
    /// Only what was asked for: IDs.
    Results,
}

/// The lines of one run. Where they cannot be printed the work goes on, and the failure comes at the end.
pub struct Talk {
    to: Box<dyn Write>,
    /// Whether there is anything that takes them.
    is_open: fn() -> io::Result<()>,
    on_standard_error: bool,
    is_terminal: bool,
    volume: Volume,
    failed: Option<io::Error>,
}

/// The verb of so many.
pub fn is_or_are(number: u64) -> &'static str {
    if number == 1 { "is" } else { "are" }
}

impl Talk {
    pub fn new(on_standard_error: bool, volume: Volume) -> Self {
        let (to, is_terminal): (Box<dyn Write>, bool) = match on_standard_error {
            true => (Box::new(io::stderr()), io::stderr().is_terminal()),
            false => (Box::new(io::stdout()), io::stdout().is_terminal()),
        };
        let is_open = match on_standard_error {
            true => streams::check_error,
            false => streams::check_output,
        };
        Talk {
            to,
            is_open,
            on_standard_error,
            is_terminal,
            volume,
            failed: None,
        }
    }

    /// A line for a person.
    pub fn say(&mut self, line: &str) {
        if self.volume == Volume::All {
            self.give(line);
        }
    }

    /// A line that was asked for.
    pub fn give(&mut self, line: &str) {
        if self.failed.is_none() {
            let printed = (self.is_open)().and_then(|()| writeln!(self.to, "{line}"));
            let printed = printed.and_then(|()| self.to.flush());
            self.failed = printed.err();
        }
    }

    /// Whether somebody sees the lines as they come.
    pub fn is_seen(&self) -> bool {
        self.is_terminal
    }

    /// Whether all of it was printed; on standard output no more is.
    pub fn end(&self) -> Result<(), Failure> {
        self.heard()?;
        match self.on_standard_error {
            true => Ok(()),
            false => streams::close_output().map_err(|error| Failure::printing(&error)),
        }
    }

    /// Whether all of it was printed so far.
    pub fn heard(&self) -> Result<(), Failure> {
        match &self.failed {
            None => Ok(()),
            Some(error) => Err(Failure::printing(error)),
        }
    }
}
