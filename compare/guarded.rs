//! Bytes that are lent with nothing around them: a read before their start or past their end ends the program.
//! They have two mappings. By one they are written; the other, which is lent, can only be read, so that a store
//! into them ends the program too. Before and behind it are pages that cannot be read. For valgrind, which sees
//! every byte by itself, they are an exact block of the heap instead.
use crate::image::{FAILED, PRIVATE_ANONYMOUS_NORESERVE, READ_WRITE, mmap};
use crate::random::Random;
use std::ptr::null_mut;
use std::slice::{from_raw_parts, from_raw_parts_mut};

unsafe extern "C" {
    fn memfd_create(name: *const i8, flags: u32) -> i32;
    fn ftruncate(file: i32, n: i64) -> i32;
}

// Linux, x86-64.
const NOTHING: i32 = 0;
const READ: i32 = 1;
const SHARED: i32 = 1;
const SHARED_FIXED: i32 = 0x11;

/// How much cannot be read on each side: more than four bytes of an offset can say.
const AROUND: usize = 1 << 33;

/// Which end of the bytes is at the edge.
#[derive(Clone, Copy, PartialEq, Eq)]
pub enum Edge {
    End,
    Start,
}

enum Place {
    Mapped { writes: *mut u8, reads: *const u8 },
    Plain(Vec<u8>),
}

/// Up to `room` bytes.
pub struct Lent {
    place: Place,
    room: usize,
    start: usize,
    len: usize,
    edge: Edge,
}

fn mapped(room: usize) -> Place {
    let map = |at, n, access, flags, file| unsafe {
        let at: *mut u8 = mmap(at, n, access, flags, file, 0);
        assert!(at != FAILED, "no mapping of {n} bytes");
        at
    };
    unsafe {
        let file = memfd_create(c"lent".as_ptr().cast(), 0);
        assert_eq!(ftruncate(file, room as i64), 0, "a file of {room} bytes");
        let writes = map(null_mut(), room, READ_WRITE, SHARED, file);
        let flags = PRIVATE_ANONYMOUS_NORESERVE;
        let around = map(null_mut(), room + 2 * AROUND, NOTHING, flags, -1);
        let reads = map(around.add(AROUND), room, READ, SHARED_FIXED, file);
        Place::Mapped { writes, reads }
    }
}

impl Lent {
    /// No bytes yet. The room is a number of whole pages.
    pub fn new(room: usize, plain: bool) -> Self {
        Lent {
            place: if plain {
                Place::Plain(Vec::new())
            } else {
                mapped(room)
            },
            room,
            start: 0,
            len: 0,
            edge: Edge::Start,
        }
    }

    /// What is lent.
    pub fn bytes(&self) -> &[u8] {
        match &self.place {
            Place::Plain(bytes) => bytes,
            Place::Mapped { reads, .. } => unsafe {
                from_raw_parts(reads.add(self.start), self.len)
            },
        }
    }

    /// The same bytes, to be written.
    pub fn bytes_mut(&mut self) -> &mut [u8] {
        match &mut self.place {
            Place::Plain(bytes) => bytes,
            Place::Mapped { writes, .. } => unsafe {
                from_raw_parts_mut(writes.add(self.start), self.len)
            },
        }
    }

    fn set_len(&mut self, len: usize) {
        assert!(len <= self.room, "{len} bytes in a room of {}", self.room);
        self.len = len;
        self.start = match self.edge {
            Edge::End => self.room - len,
            Edge::Start => 0,
        };
        if let Place::Plain(bytes) = &mut self.place {
            bytes.resize(len, 0);
            bytes.shrink_to_fit();
        }
    }

    /// Other bytes, with that end at the edge.
    pub fn lay(&mut self, bytes: &[u8], edge: Edge) {
        self.edge = edge;
        self.set_len(bytes.len());
        self.bytes_mut().copy_from_slice(bytes);
    }

    /// The first `len` bytes, followed by random ones if there are fewer.
    pub fn resize(&mut self, random: &mut Random, len: usize) {
        let (start, kept) = (self.start, self.len.min(len));
        self.set_len(len);
        if let Place::Mapped { writes, .. } = self.place {
            // The end is at the edge: the front part has to move there.
            unsafe { std::ptr::copy(writes.add(start), writes.add(self.start), kept) };
        }
        random.fill(&mut self.bytes_mut()[kept..]);
    }

    /// Reads one byte outside, or writes one that is lent: the program must end here.
    pub fn trespass(&self, what: &str) {
        let bytes = self.bytes();
        let byte = match what {
            "behind" => bytes.as_ptr_range().end,
            "before" => bytes.as_ptr().wrapping_sub(1),
            _ => bytes.as_ptr(),
        };
        let found = unsafe { byte.read_volatile() };
        if what == "store" {
            unsafe { byte.cast_mut().write_volatile(found) };
        }
        // For valgrind the byte has to matter.
        println!(
            "damage: byte {what} is {}",
            if found > 9 { "large" } else { "small" }
        );
    }
}
