//! Panics of the original, caught and kept quiet. A panic's kind is its line in the original and its words.
use std::cell::{Cell, RefCell};
use std::collections::BTreeMap;
use std::panic::{self, AssertUnwindSafe};

thread_local! {
    static INSIDE: Cell<bool> = const { Cell::new(false) };
    static KIND: RefCell<String> = const { RefCell::new(String::new()) };
}

/// From now on a panic inside of `caught` prints nothing.
pub fn quiet() {
    let loud = panic::take_hook();
    panic::set_hook(Box::new(move |info| {
        if !INSIDE.get() {
            return loud(info);
        }
        let place = info.location().expect("a panic has a place");
        let file = place.file().rsplit('/').next().unwrap_or_default();
        let text = info.to_string();
        let words = text.split_once('\n').map_or("", |(_, words)| words);
        KIND.set(format!("{file} line {}, {words}", place.line()));
    }));
}

/// The call's answer, or the kind of its panic.
pub fn caught<T>(call: impl FnOnce() -> T) -> Result<T, String> {
    INSIDE.set(true);
    let answer = panic::catch_unwind(AssertUnwindSafe(call));
    INSIDE.set(false);
    answer.map_err(|_| KIND.take())
}

/// How often the original panicked, by kind, with the smallest input in words.
#[derive(Default)]
pub struct Panics(BTreeMap<String, (u64, usize, String)>);

impl Panics {
    /// One more, of an input of so many bytes.
    pub fn add(&mut self, kind: String, size: usize, words: impl FnOnce() -> String) {
        assert!(kind.starts_with("fractal_heap.rs line"), "{kind}");
        let new = || (0, usize::MAX, String::new());
        let (times, smallest, input) = self.0.entry(kind).or_insert_with(new);
        *times += 1;
        if size < *smallest {
            (*smallest, *input) = (size, words());
        }
    }

    pub fn total(&self) -> u64 {
        self.0.values().map(|kind| kind.0).sum()
    }

    pub fn print(&self, part: &str) {
        for (kind, (times, _, input)) in &self.0 {
            println!(
                "{part}: the original panicked {times} times in {kind}: ours as the rules say; smallest {input}"
            );
        }
    }
}
