//! The C functions of the proved fractal heap, as the libraries export them; the crate `fractal_heap` makes those of the
//! first library safe to call. What each answers is said in `loader/fractal_heap.h`, to which a test holds what stands
//! here, as it does to the functions that are proved, in `crates/fractal_heap_c` and `crates/tools_c`.
//!
//! With the feature `tools` the functions of the library `tools_c`, which the command and the comparison call, are here,
//! too.
//!
//! # Safety
//!
//! Each pointer is to as many elements as the length behind it says, for reading where it is `*const`, for writing
//! where it is `*mut`; of no elements it may be anything that is not read. What is written overlaps nothing else that is
//! lent to the call. Nothing is kept after it.
//!
//! A plan is lent only as opening and additions have left it, after an opening that was not refused, and to one call
//! at a time.

#[cfg(feature = "tools")]
mod tools;

#[cfg(feature = "tools")]
pub use tools::*;

// What the functions with a slot return: 0, or why they refuse.
pub const FRACTAL_HEAP_OK: u32 = 0;
pub const FRACTAL_HEAP_UNEXPECTED_EOF: u32 = 1;
pub const FRACTAL_HEAP_INVALID_OFFSET_SIZE: u32 = 2;
pub const FRACTAL_HEAP_INVALID_LENGTH_SIZE: u32 = 3;
pub const FRACTAL_HEAP_INVALID_SIGNATURE: u32 = 4;
pub const FRACTAL_HEAP_INVALID_VERSION: u32 = 5;
pub const FRACTAL_HEAP_INVALID_HEAP_ID_TYPE: u32 = 6;
pub const FRACTAL_HEAP_CHECKSUM_MISMATCH: u32 = 7;
pub const FRACTAL_HEAP_UNSUPPORTED_FILTERED_HEAP_OBJECT: u32 = 8;
pub const FRACTAL_HEAP_OFFSET_OVERFLOW: u32 = 9;
pub const FRACTAL_HEAP_DEPTH_EXCEEDED: u32 = 10;
pub const FRACTAL_HEAP_OBJECT_TOO_LARGE: u32 = 11;
pub const FRACTAL_HEAP_HEAP_SPACE_EXHAUSTED: u32 = 12;
pub const FRACTAL_HEAP_SLICE_TOO_SHORT: u32 = 13;
pub const FRACTAL_HEAP_OBJECT_BYTES_MISMATCH: u32 = 14;
pub const FRACTAL_HEAP_ADDRESS_TOO_LARGE: u32 = 15;
pub const FRACTAL_HEAP_HEAP_ID_TOO_LARGE: u32 = 16;
pub const FRACTAL_HEAP_HEADER_FIELD_TOO_LARGE: u32 = 17;
pub const FRACTAL_HEAP_BLOCK_CHECKSUM_MISMATCH: u32 = 18;
pub const FRACTAL_HEAP_FOREIGN_BLOCK: u32 = 19;
pub const FRACTAL_HEAP_OUTSIDE_HEAP: u32 = 20;

// How many numbers the fields of a header are; and with the three that are told of its filters.
pub const FRACTAL_HEAP_HEADER_FIELDS: u32 = 23;
pub const FRACTAL_HEAP_HEADER_NUMBERS: u32 = 26;

// Bytes of an open plan, its alignment, and how many numbers its totals are.
pub const FRACTAL_HEAP_PLAN_SIZE: u32 = 72;
pub const FRACTAL_HEAP_PLAN_ALIGNMENT: u32 = 8;
pub const FRACTAL_HEAP_PLAN_TOTALS: u32 = 8;

/// Where planning stands. Neither this nor what it is a part of is `Clone`: see [`OpenPlan`].
#[derive(Debug)]
#[repr(C)]
pub struct State {
    pub start: u64,
    pub size: u64,
    pub fill: u64,
    pub count: u64,
    pub allocated: u64,
    pub used: u64,
    pub indirect: u64,
}

/// A plan under way, for addresses of `offset_size` bytes.
#[derive(Debug)]
#[repr(C)]
pub struct Planner {
    pub offset_size: u8,
    pub state: State,
}

/// A plan that objects are added to one by one. Two copies that are both added to would give one heap offset to two
/// objects.
#[derive(Debug)]
#[repr(C)]
pub struct OpenPlan {
    pub planner: Planner,
    pub objects: u64,
}

/// What opening hands back; where the number is not 0, the plan is of no use.
#[derive(Debug)]
#[repr(C)]
pub struct OpenedPlan {
    pub number: u32,
    pub plan: OpenPlan,
}

#[link(name = "fractal_heap_c", kind = "static")]
unsafe extern "C" {
    pub fn fractal_heap_checksum(bytes: *const u8, bytes_len: usize) -> u32;
    pub fn fractal_heap_decode_managed_id(
        file: *const u8,
        file_len: usize,
        at: u64,
        offset_size: u8,
        length_size: u8,
        id: *const u8,
        id_len: usize,
        slot: *mut u8,
        slot_len: usize,
    ) -> u32;
    pub fn fractal_heap_read_managed_object(
        file: *const u8,
        file_len: usize,
        at: u64,
        offset_size: u8,
        length_size: u8,
        heap_header_address: u64,
        id: *const u8,
        id_len: usize,
        slot: *mut u8,
        slot_len: usize,
    ) -> u32;
    pub fn fractal_heap_read_managed_object_unchecked(
        file: *const u8,
        file_len: usize,
        at: u64,
        offset_size: u8,
        length_size: u8,
        id: *const u8,
        id_len: usize,
        slot: *mut u8,
        slot_len: usize,
    ) -> u32;
    pub fn fractal_heap_stopping_block(
        file: *const u8,
        file_len: usize,
        at: u64,
        offset_size: u8,
        length_size: u8,
        heap_header_address: u64,
        id: *const u8,
        id_len: usize,
        slot: *mut u8,
        slot_len: usize,
    ) -> u32;
    pub fn fractal_heap_parse_header(
        file: *const u8,
        file_len: usize,
        at: u64,
        offset_size: u8,
        length_size: u8,
        fields: *mut u64,
        fields_len: usize,
        slot: *mut u8,
        slot_len: usize,
    ) -> u32;
    pub fn fractal_heap_write_header(
        fields: *const u64,
        fields_len: usize,
        offset_size: u8,
        length_size: u8,
        bytes: *mut u8,
        bytes_len: usize,
        slot: *mut u8,
        slot_len: usize,
    ) -> u32;
    pub fn fractal_heap_open_plan(offset_size: u8, slot: *mut u8, slot_len: usize) -> OpenedPlan;
    pub fn fractal_heap_plan_add(
        plan: *mut OpenPlan,
        size: u64,
        slot: *mut u8,
        slot_len: usize,
    ) -> u32;
    pub fn fractal_heap_plan_totals(
        plan: *const OpenPlan,
        totals: *mut u64,
        totals_len: usize,
    ) -> u32;
    pub fn fractal_heap_write_managed_id(
        offset: u64,
        size: u64,
        id: *mut u8,
        id_len: usize,
        slot: *mut u8,
        slot_len: usize,
    ) -> u32;
}
