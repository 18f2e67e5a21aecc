//! Memory that cannot be had. What grows with the input asks for it and takes no for an answer. Wherever else it is
//! missing, in the libraries that this program stands on too, the program ends here with the same sentence, and what is
//! half written is taken away: Rust by itself would abort.
use crate::failure::Failure;
use crate::signals;
use std::alloc::{GlobalAlloc, Layout, System};
use std::cell::Cell;
use std::io::{self, Write};

thread_local! {
    /// Whether who asks takes no for an answer.
    static ASKING: Cell<bool> = const { Cell::new(false) };
}

/// The system's memory, but for its end.
struct Memory;

#[global_allocator]
static MEMORY: Memory = Memory;

// SAFETY: all is done by the system's, and nothing returns that it did not return.
unsafe impl GlobalAlloc for Memory {
    unsafe fn alloc(&self, layout: Layout) -> *mut u8 {
        // SAFETY: the caller keeps what it has to.
        or_end(unsafe { System.alloc(layout) }, layout.size())
    }

    unsafe fn alloc_zeroed(&self, layout: Layout) -> *mut u8 {
        // SAFETY: the caller keeps what it has to.
        or_end(unsafe { System.alloc_zeroed(layout) }, layout.size())
    }

    unsafe fn realloc(&self, at: *mut u8, layout: Layout, size: usize) -> *mut u8 {
        // SAFETY: the caller keeps what it has to.
        or_end(unsafe { System.realloc(at, layout, size) }, size)
    }

    unsafe fn dealloc(&self, at: *mut u8, layout: Layout) {
        // SAFETY: the caller keeps what it has to.
        unsafe { System.dealloc(at, layout) }
    }
}

fn or_end(at: *mut u8, size: usize) -> *mut u8 {
    if at.is_null() && !ASKING.get() {
        end(size);
    }
    at
}

/// Ends the program; nothing here asks for memory, and a handler may call it.
#[cold]
pub fn end(size: usize) -> ! {
    let mut words = [0; 80];
    let mut rest = &mut words[..];
    let _ = put_sentence(&mut rest, size);
    let unused = rest.len();
    signals::end(&words[..words.len() - unused])
}

/// What `no_room` says, without memory.
fn put_sentence(to: &mut impl Write, size: usize) -> io::Result<()> {
    write!(to, "poilures: there is no memory for ")?;
    put_grouped(to, size)?;
    writeln!(to, "{}", if size == 1 { " byte" } else { " bytes" })
}

fn put_grouped(to: &mut impl Write, number: usize) -> io::Result<()> {
    match number {
        0..1000 => write!(to, "{number}"),
        _ => {
            put_grouped(to, number / 1000)?;
            write!(to, ",{:03}", number % 1000)
        }
    }
}

pub fn no_room(size: u64) -> Failure {
    let size = fractal_heap::count(size, "byte");
    Failure::Use(format!("there is no memory for {size}"))
}

/// Room for so many more items, and for no others, or why there is none.
pub fn reserve<T>(list: &mut Vec<T>, more: usize) -> Result<(), Failure> {
    ASKING.set(true);
    let reserved = list.try_reserve_exact(more);
    ASKING.set(false);
    reserved.map_err(|_| no_room((list.len() + more) as u64 * size_of::<T>() as u64))
}

/// Bytes of a large page and of a small one; where the system has others, nothing is lost.
const LARGE_PAGE: usize = 1 << 21;
pub const SMALL_PAGE: usize = 1 << 12;
/// As Linux has it from 6.1 on; an older one refuses it.
const MADV_COLLAPSE: libc::c_int = 25;

/// So many bytes, and as many more as have the system begin with a large page what is mapped for them.
pub fn in_whole_pages(bytes: usize) -> usize {
    match bytes {
        0..LARGE_PAGE => bytes,
        _ => bytes.next_multiple_of(LARGE_PAGE),
    }
}

/// Likewise, with room for what the allocator puts before them.
pub fn in_whole_pages_of_list(bytes: usize) -> usize {
    match bytes {
        0..LARGE_PAGE => bytes,
        _ => (bytes + SMALL_PAGE).next_multiple_of(LARGE_PAGE) - SMALL_PAGE,
    }
}

/// Asks the system to give this memory in large pages, where it is not in use yet: to get it page by page takes longer
/// than to fill it.
pub fn in_large_pages<T>(memory: &mut [T]) {
    // The system takes the start of a page, and looks itself where large ones fit.
    let start = memory.as_ptr().addr() / SMALL_PAGE * SMALL_PAGE;
    let length = memory.as_ptr().addr() - start + size_of_val(memory);
    if length >= LARGE_PAGE {
        // SAFETY: this changes how memory is given, and no byte of it.
        unsafe {
            libc::madvise(start as *mut _, length, libc::MADV_HUGEPAGE);
            // The allocator has used the first page, so that the large one around it would be given in small ones.
            libc::madvise(start as *mut _, LARGE_PAGE, MADV_COLLAPSE);
        }
    }
}

/// A list that takes so many items without asking again.
pub fn with_room<T>(items: usize) -> Result<Vec<T>, Failure> {
    let mut list = Vec::new();
    reserve(&mut list, items)?;
    Ok(list)
}

#[cfg(test)]
mod tests {
    use super::*;

    #[test]
    fn what_is_not_there_is_answered() {
        let asked = with_room::<u64>(1 << 59);
        let Err(Failure::Use(words)) = asked else {
            panic!("it is there");
        };
        assert_eq!(
            words,
            "there is no memory for 4,611,686,018,427,387,904 bytes"
        );
    }

    #[test]
    fn both_say_the_same() {
        for size in [0, 1, 999, 1000, 65_514, 1_000_007, usize::MAX] {
            let mut words = Vec::new();
            put_sentence(&mut words, size).unwrap();
            let Failure::Use(due) = no_room(size as u64) else {
                panic!("it is wrong use");
            };
            assert_eq!(words, format!("poilures: {due}\n").as_bytes());
        }
    }
}
