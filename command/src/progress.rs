//! Long work shows how far it is, on standard error where that is a terminal.
use crate::talk;
use indicatif::{ProgressBar, ProgressDrawTarget, ProgressStyle};
use std::io::{self, IsTerminal};
use std::time::{Duration, Instant};

/// Work that is done sooner shows nothing.
const PATIENCE: Duration = Duration::from_millis(500);

pub struct Progress {
    /// Hidden until it is due.
    bar: ProgressBar,
    is_shown: bool,
    /// None where it is shown, or never will be.
    due: Option<Instant>,
    done: u64,
}

impl Progress {
    /// Work on so many objects; `what` says what is done with them. Nothing is shown while a file is locked that is read: a
    /// terminal may take its time.
    pub fn new(what: &'static str, objects: u64) -> Self {
        let bar = ProgressBar::with_draw_target(Some(objects), ProgressDrawTarget::hidden());
        let template = "{msg}: {human_pos} of {human_len} {wide_bar} {eta}";
        if let Ok(style) = ProgressStyle::with_template(template) {
            bar.set_style(style);
        }
        bar.set_message(what);
        let is_seen = io::stderr().is_terminal() && !talk::is_waiting();
        Progress {
            bar,
            is_shown: false,
            due: is_seen.then(|| Instant::now() + PATIENCE),
            done: 0,
        }
    }

    /// As `new`, but nothing is shown where each object's line shows on a terminal how far the work is.
    pub fn unless(seen: bool, what: &'static str, objects: u64) -> Self {
        let mut progress = Progress::new(what, objects);
        progress.due.take_if(|_| seen);
        progress
    }

    /// One more is done. A bar that is not shown is left alone.
    pub fn step(&mut self) {
        self.done += 1;
        if self.due.take_if(|due| Instant::now() > *due).is_some() {
            self.bar.set_draw_target(ProgressDrawTarget::stderr());
            self.is_shown = true;
        }
        if self.is_shown {
            self.bar.set_position(self.done);
        }
    }
}

impl Drop for Progress {
    fn drop(&mut self) {
        self.bar.finish_and_clear();
    }
}
