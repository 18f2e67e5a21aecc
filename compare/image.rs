//! A file of tebibytes, of which only what is touched takes memory: so a region can lie at the largest address
//! of four bytes, and far beyond it.
unsafe extern "C" {
    pub fn mmap(at: *mut u8, n: usize, access: i32, flags: i32, file: i32, offset: i64) -> *mut u8;
    fn madvise(at: *mut u8, n: usize, advice: i32) -> i32;
}

// Linux, x86-64.
pub const READ_WRITE: i32 = 3;
pub const PRIVATE_ANONYMOUS_NORESERVE: i32 = 0x4022;
pub const FAILED: *mut u8 = usize::MAX as *mut u8;
const NO_HUGE_PAGES: i32 = 15;
const DONT_NEED: i32 = 4;

/// The least that is of use: more than the addresses of four bytes.
const LEAST: usize = 1 << 33;

/// As many zeros as can be had, up to 2^46; they stay until the process ends.
pub fn zeros() -> &'static mut [u8] {
    let mut n = 1 << 46;
    while n >= LEAST {
        let flags = PRIVATE_ANONYMOUS_NORESERVE;
        let at = unsafe { mmap(std::ptr::null_mut(), n, READ_WRITE, flags, -1, 0) };
        if at != FAILED {
            // Without this a touched byte may take two MiB; that it may fail does no harm.
            unsafe { madvise(at, n, NO_HUGE_PAGES) };
            return unsafe { std::slice::from_raw_parts_mut(at, n) };
        }
        n /= 2;
    }
    panic!("no {LEAST} bytes of address space for a file");
}

/// All zeros again, and no memory is taken.
pub fn forget(image: &mut [u8]) {
    let done = unsafe { madvise(image.as_mut_ptr(), image.len(), DONT_NEED) };
    assert_eq!(done, 0, "memory that cannot be given back");
}
