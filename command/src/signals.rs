//! What reaches the program from outside: a mapped file that fails, Ctrl-C, a limit on the size of files.
//!
//! A handler may come at any moment, so it only loads two pointers and calls what a handler may call: write, unlink,
//! signal, raise, sigemptyset, sigaddset, pthread_sigmask and _exit. Neither handler returns: nothing goes on whose file
//! is gone. That of SIGSEGV has another one before it as soon as a file is held (`held.rs`).
use crate::failure::Failure;
use libc::{c_char, c_int};
use std::ffi::CString;
use std::ptr::{null, null_mut};
use std::sync::atomic::{AtomicPtr, Ordering};

/// The file that is to vanish where the program is ended.
static UNFINISHED: AtomicPtr<c_char> = AtomicPtr::new(null_mut());
/// What is said where a mapped file fails.
static MAPPED: Words = Words(AtomicPtr::new(null_mut()));

/// Words that a handler may say. Those that others follow stay where they are: a handler may just be saying them.
struct Words(AtomicPtr<String>);

impl Words {
    fn set(&self, words: String) {
        let words = Box::into_raw(Box::new(words));
        self.0.store(words, Ordering::Release);
    }

    /// A handler may call it.
    fn get(&self) -> Option<&'static String> {
        // SAFETY: what is stored there is never freed.
        unsafe { self.0.load(Ordering::Acquire).as_ref() }
    }
}

/// The signals that do not end a program that leaves them alone, the two that cannot be caught, and the three that this
/// program takes otherwise: SIGPIPE is ignored by Rust, SIGXFSZ by us, and SIGBUS has a handler of its own.
const OTHERS: [c_int; 12] = [
    libc::SIGCHLD,
    libc::SIGCONT,
    libc::SIGURG,
    libc::SIGWINCH,
    libc::SIGTSTP,
    libc::SIGTTIN,
    libc::SIGTTOU,
    libc::SIGKILL,
    libc::SIGSTOP,
    libc::SIGPIPE,
    libc::SIGXFSZ,
    libc::SIGBUS,
];

/// The signals that end the program, after what is half written was taken away: all that end one that leaves them alone,
/// real-time ones too. The C library keeps two for itself, which it does not give out.
fn ending() -> impl Iterator<Item = c_int> {
    (1..=libc::SIGRTMAX()).filter(|signal| !OTHERS.contains(signal))
}

/// From here on signals are taken as this program wants them.
pub fn install() {
    // SAFETY: both handlers call only what a handler may call.
    unsafe {
        // A write past the limit then fails as one on a full disk does, and what was written is taken away.
        libc::signal(libc::SIGXFSZ, libc::SIG_IGN);
        // Ending signals may come in this handler: it may have to wait until its words are taken.
        handle(libc::SIGBUS, mapped_failed, set(&[]));
        for signal in ending() {
            // Whoever started us may want it ignored.
            if !is_ignored(signal) {
                handle(signal, ended, all());
            }
        }
    }
}

fn is_ignored(signal: c_int) -> bool {
    // SAFETY: all of sigaction is plain numbers; without a new one, only the old one is handed out.
    unsafe {
        let mut action: libc::sigaction = std::mem::zeroed();
        libc::sigaction(signal, null(), &mut action) == 0 && action.sa_sigaction == libc::SIG_IGN
    }
}

/// A set of signals. A handler may call it.
fn set(signals: &[c_int]) -> libc::sigset_t {
    // SAFETY: a set of signals is plain numbers.
    unsafe {
        let mut set: libc::sigset_t = std::mem::zeroed();
        libc::sigemptyset(&mut set);
        for &signal in signals {
            libc::sigaddset(&mut set, signal);
        }
        set
    }
}

/// The set of all signals.
fn all() -> libc::sigset_t {
    // SAFETY: a set of signals is plain numbers.
    unsafe {
        let mut set: libc::sigset_t = std::mem::zeroed();
        libc::sigfillset(&mut set);
        set
    }
}

/// Sets a handler that stays set. While it runs, its signal and those of `blocked` wait. It runs on the stack that Rust
/// keeps for handlers, since the program's own may be used up.
///
/// With SA_RESETHAND the system would take it off as it takes the signal, and only then block the signal: the same
/// signal once more in between ends the program before the handler has begun, and what is half written is left.
unsafe fn handle(signal: c_int, handler: extern "C" fn(c_int), blocked: libc::sigset_t) {
    // SAFETY: all of sigaction is plain numbers.
    unsafe {
        let mut action: libc::sigaction = std::mem::zeroed();
        action.sa_sigaction = handler as *const () as usize;
        action.sa_flags = libc::SA_ONSTACK;
        action.sa_mask = blocked;
        libc::sigaction(signal, &action, null_mut());
    }
}

/// The bytes of a mapped file cannot be had: it was cut short meanwhile, or its disk failed. Should the handler itself
/// meet such bytes, the system ends the program, since the signal is blocked.
extern "C" fn mapped_failed(_: c_int) {
    let words = MAPPED
        .get()
        .map_or("poilures: a bus error\n", |words| words);
    end(words.as_bytes())
}

/// Takes away what is half written, says why, and ends with the status of what cannot be read or written. A handler may
/// call it.
pub fn end(words: &[u8]) -> ! {
    // SAFETY: a handler may call all of these, and the words outlive the call.
    unsafe {
        remove_unfinished();
        libc::write(2, words.as_ptr().cast(), words.len());
        libc::_exit(2);
    }
}

/// Takes away what is half written, and ends as the signal does. The signal gets its default back only when the file is
/// gone: from then on it is deadly wherever it comes. All are blocked here, so of several of them the first that was taken
/// tells how the program ended.
extern "C" fn ended(signal: c_int) {
    // SAFETY: a handler may call all of these, and the set outlives the call.
    unsafe {
        remove_unfinished();
        libc::signal(signal, libc::SIG_DFL);
        libc::raise(signal);
        // It is raised but blocked; here it comes, and the others still wait.
        libc::pthread_sigmask(libc::SIG_UNBLOCK, &set(&[signal]), null_mut());
        // The first process of a container is not ended by a default.
        libc::_exit(128 + signal);
    }
}

/// Has this thread take a signal, should whoever started us have blocked it.
pub fn let_through(signal: c_int) {
    // SAFETY: the set outlives the call.
    unsafe { libc::pthread_sigmask(libc::SIG_UNBLOCK, &set(&[signal]), null_mut()) };
}

unsafe fn remove_unfinished() {
    let path = UNFINISHED.load(Ordering::Acquire);
    if !path.is_null() {
        // SAFETY: what is stored there is a C string that is freed only after it was taken out.
        unsafe { libc::unlink(path) };
    }
}

/// Does something that no signal comes between; it comes after. No mapped byte may be touched meanwhile, nor one of a file
/// that is held: a mapped file that fails, and a part that is not filled yet, end the program at once where their signal is
/// blocked.
pub fn uninterrupted<T>(work: impl FnOnce() -> T) -> T {
    let mut before = set(&[]);
    // SAFETY: both sets outlive the calls.
    unsafe {
        libc::pthread_sigmask(libc::SIG_BLOCK, &all(), &mut before);
        let done = work();
        libc::pthread_sigmask(libc::SIG_SETMASK, &before, null_mut());
        done
    }
}

/// Names the file that is being written; None where it is whole or gone. No memory is asked for.
pub fn set_unfinished(path: Option<CString>) {
    let before = UNFINISHED.swap(path.map_or(null_mut(), CString::into_raw), Ordering::AcqRel);
    if !before.is_null() {
        // SAFETY: it came from into_raw and was taken out just now.
        drop(unsafe { CString::from_raw(before) });
    }
}

/// Says why a mapped file fails, should it fail. The last that is mapped has the word.
pub fn set_mapped(failure: &Failure) {
    if let Some(line) = line(failure) {
        MAPPED.set(line);
    }
}

/// What a handler says of a failure, if anything.
pub fn line(failure: &Failure) -> Option<String> {
    match failure {
        Failure::Use(words) | Failure::Not(words) | Failure::Mute(words) => {
            Some(format!("poilures: {words}\n"))
        }
        Failure::Closed => None,
    }
}

#[cfg(test)]
mod tests {
    use super::*;

    #[test]
    fn the_last_words_count() {
        let words = Words(AtomicPtr::new(null_mut()));
        assert_eq!(words.get(), None);
        for last in ["objects", "image"] {
            words.set(last.into());
            assert_eq!(words.get().map(String::as_str), Some(last));
        }
    }
}
