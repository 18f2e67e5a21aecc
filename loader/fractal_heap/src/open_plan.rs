//! A heap's plan that is advanced by one object at a time.
use crate::{Header, Refusal};
use fractal_heap_sys as sys;

/// The plan of a heap whose objects come one by one, in the order in which they will be written: each has its heap
/// offset and its ID at once, and the sizes need not be kept. It is at any time the plan of the sizes that were
/// accepted so far, and an offset that was given stays the object's in every longer list, and so does its ID, which is
/// written by the library, too; all of that is proved.
///
/// It takes 72 bytes, holds no memory of its own, and is neither `Clone` nor `Copy`: two copies that are both added to
/// would give one heap offset to two objects.
///
/// ```
/// use fractal_heap::{OpenPlan, Refusal};
///
/// let mut plan = OpenPlan::open(8)?; // for addresses of eight bytes
/// let first = plan.add(1002)?;
/// assert_eq!(first.offset, 22);
/// assert_eq!(first.id()?, [0x00, 0x16, 0x00, 0x00, 0x00, 0x00, 0xEA, 0x03]);
///
/// // What is refused changes nothing, and a smaller object may follow.
/// assert_eq!(plan.add(65_515), Err(Refusal::ObjectTooLarge { index: 1, size: 65_515 }));
/// assert_eq!(plan.add(1)?.offset, 1046);
///
/// let totals = plan.totals();
/// assert_eq!((totals.block_count, totals.root_rows, totals.region_size), (2, 1, 2102));
/// # Ok::<(), Refusal>(())
/// ```
///
/// ```compile_fail,E0599
/// let plan = fractal_heap::OpenPlan::open(8).unwrap();
/// let copy = plan.clone();
/// ```
///
/// ```compile_fail,E0382
/// let plan = fractal_heap::OpenPlan::open(8).unwrap();
/// let moved = plan;
/// plan.totals();
/// ```
#[derive(Debug)]
pub struct OpenPlan {
    // Set by opening and additions alone: the library's promise is of such a plan.
    plan: sys::OpenPlan,
}

/// An object that a plan has accepted.
#[derive(Debug, Clone, Copy, PartialEq, Eq)]
pub struct Added {
    /// Its heap offset.
    pub offset: u64,
    /// Its size in bytes.
    pub size: u64,
}

/// What a plan says of its heap, in bytes but for the counts of blocks and rows. The last four are fields of the heap's
/// header.
#[derive(Debug, Clone, Copy, PartialEq, Eq)]
pub struct Totals {
    /// How many direct blocks are placed.
    pub block_count: u64,
    /// The size of the region that holds all blocks.
    pub region_size: u64,
    /// The rows of the root indirect block; 0 where the root is a direct block.
    pub root_rows: u64,
    /// Where in the region the root begins.
    pub root_place: u64,
    /// Managed space: what the root's rows span.
    pub managed_space: u64,
    /// Allocated space: the placed blocks' sizes together.
    pub allocated_space: u64,
    /// Free space in the direct blocks of the managed space, those that are not placed, too.
    pub free_space: u64,
    /// The allocation iterator: the end of the last block; 0 where the root is a direct block.
    pub allocation_iterator: u64,
}

impl OpenPlan {
    /// The plan of no objects, for addresses of `offset_size` bytes; a size other than 2, 4 and 8 is refused (2).
    pub fn open(offset_size: u8) -> Result<OpenPlan, Refusal> {
        let mut slot = [0; 16];
        // SAFETY: pointer and length are those of the slot.
        let opened =
            unsafe { sys::fractal_heap_open_plan(offset_size, slot.as_mut_ptr(), slot.len()) };
        Refusal::answered(opened.number, slot)?;
        Ok(OpenPlan { plan: opened.plan })
    }

    /// Adds an object of `size` bytes. One above the largest managed size is refused by 11, and one that no slot is
    /// left for by 12, as is any at 2^64 - 1 objects; the index is the count of accepted objects. Then the plan is as
    /// it was, and a smaller object may follow.
    pub fn add(&mut self, size: u64) -> Result<Added, Refusal> {
        let mut slot = [0; 16];
        // SAFETY: the plan is as opening and additions have left it; pointer and length are those of the slot, which
        // overlaps no plan.
        let number = unsafe {
            sys::fractal_heap_plan_add(&mut self.plan, size, slot.as_mut_ptr(), slot.len())
        };
        let (offset, _) = Refusal::answered(number, slot)?;
        Ok(Added { offset, size })
    }

    /// How many objects were accepted.
    pub fn objects(&self) -> u64 {
        self.plan.objects
    }

    /// What the heap's header says of the objects that were accepted so far.
    pub fn totals(&self) -> Totals {
        let mut numbers = [0; sys::FRACTAL_HEAP_PLAN_TOTALS as usize];
        // SAFETY: the plan is as opening and additions have left it; pointer and length are those of the list, which
        // overlaps no plan.
        let number = unsafe {
            sys::fractal_heap_plan_totals(&self.plan, numbers.as_mut_ptr(), numbers.len())
        };
        // Only a shorter list is refused.
        assert_eq!(number, sys::FRACTAL_HEAP_OK, "a list of eight numbers");
        numbers.into()
    }

    /// The heap's header, once the objects that were accepted so far are written as a region at this address:
    /// [`Totals::header`] says what it has.
    pub fn header(&self, region_at: u64) -> Header {
        let offset_size = self.plan.planner.offset_size;
        self.totals().header(self.objects(), region_at, offset_size)
    }
}

/// By the eight numbers of a plan, in the order in which the C functions put them.
impl From<[u64; 8]> for Totals {
    fn from(numbers: [u64; 8]) -> Totals {
        let [
            block_count,
            region_size,
            root_rows,
            root_place,
            managed_space,
            allocated_space,
            free_space,
            allocation_iterator,
        ] = numbers;
        Totals {
            block_count,
            region_size,
            root_rows,
            root_place,
            managed_space,
            allocated_space,
            free_space,
            allocation_iterator,
        }
    }
}

impl Added {
    /// Its managed ID: 0, the offset in five bytes, the size in two. An object without bytes that is accepted at heap
    /// offset 2^40, the end of the heap space, has none (16).
    pub fn id(&self) -> Result<[u8; 8], Refusal> {
        let (mut id, mut slot) = ([0; 8], [0; 16]);
        // SAFETY: pointers and lengths are those of the ID and of the slot, two arrays.
        let number = unsafe {
            sys::fractal_heap_write_managed_id(
                self.offset,
                self.size,
                id.as_mut_ptr(),
                id.len(),
                slot.as_mut_ptr(),
                slot.len(),
            )
        };
        Refusal::answered(number, slot)?;
        Ok(id)
    }
}
