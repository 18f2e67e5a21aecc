//! The proved functions that this program calls beside the loader's, each behind a safe one.
use fractal_heap::{Refusal, Totals};
use fractal_heap_sys::{
    tools_ask_both, tools_count_slots, tools_entered, tools_heap_id_type, tools_plan,
    tools_read_tiny_object, tools_serialize,
};

/// A managed object's ID.
pub type Id = [u8; 8];

/// Both lists of a plan: the objects' heap offsets, and the heap offsets of the placed blocks.
#[derive(Default)]
pub struct Lists {
    pub offsets: Vec<u64>,
    pub blocks: Vec<u64>,
}

impl Lists {
    /// Places for as many objects.
    fn fit(&mut self, objects: usize) {
        self.offsets.resize(objects, 0);
        self.blocks.resize(objects.max(1), 0);
    }
}

/// A refusal where the number is not 0.
fn accepted(number: u32, first: u64, second: u64) -> Result<(), Refusal> {
    match number {
        0 => Ok(()),
        _ => Err(Refusal::new(number, first, second)),
    }
}

fn totals(number: u32, numbers: [u64; 8]) -> Result<Totals, Refusal> {
    accepted(number, numbers[0], numbers[1])?;
    Ok(numbers.into())
}

/// Plans these sizes; the lists hold the plan.
pub fn plan(sizes: &[u64], lists: &mut Lists, offset_size: u8) -> Result<Totals, Refusal> {
    lists.fit(sizes.len());
    let mut numbers = [0; 8];
    // SAFETY: pointers and lengths are those of lists that overlap no other.
    let number = unsafe {
        tools_plan(
            sizes.as_ptr(),
            sizes.len(),
            lists.offsets.as_mut_ptr(),
            lists.offsets.len(),
            lists.blocks.as_mut_ptr(),
            lists.blocks.len(),
            offset_size,
            numbers.as_mut_ptr(),
            numbers.len(),
        )
    };
    totals(number, numbers)
}

/// What is written: the objects' sizes and joined bytes, the two addresses, and the offset size.
pub struct Writing<'a> {
    pub sizes: &'a [u64],
    pub objects: &'a [u8],
    pub region_at: u64,
    pub header_at: u64,
    pub offset_size: u8,
}

/// Plans and writes the region; the lists hold the plan.
pub fn serialize(
    writing: &Writing,
    lists: &mut Lists,
    region: &mut [u8],
) -> Result<Totals, Refusal> {
    lists.fit(writing.sizes.len());
    let mut numbers = [0; 8];
    // SAFETY: pointers and lengths are those of lists and slices that overlap no other.
    let number = unsafe {
        tools_serialize(
            writing.sizes.as_ptr(),
            writing.sizes.len(),
            lists.offsets.as_mut_ptr(),
            lists.offsets.len(),
            lists.blocks.as_mut_ptr(),
            lists.blocks.len(),
            writing.objects.as_ptr(),
            writing.objects.len(),
            region.as_mut_ptr(),
            region.len(),
            writing.region_at,
            writing.header_at,
            writing.offset_size,
            numbers.as_mut_ptr(),
            numbers.len(),
        )
    };
    totals(number, numbers)
}

/// Calls with a slot, and takes the two values from it.
fn pair(call: impl FnOnce(*mut u8, usize) -> u32) -> Result<(u64, u64), Refusal> {
    let mut slot = [0; 16];
    let number = call(slot.as_mut_ptr(), slot.len());
    Refusal::answered(number, slot)
}

/// The kinds of heap IDs.
pub enum Kind {
    Managed,
    Huge,
    Tiny,
}

/// The kind of an ID; a type that the format does not have is refused by 6.
pub fn kind(id: &[u8]) -> Result<Kind, Refusal> {
    // SAFETY: the ID is only read; the slot is an array.
    let (kind, _) = pair(|slot, n| unsafe { tools_heap_id_type(id.as_ptr(), id.len(), slot, n) })?;
    Ok(match kind {
        0 => Kind::Managed,
        1 => Kind::Huge,
        _ => Kind::Tiny,
    })
}

/// A direct slot: its heap offset and its bytes.
#[derive(Clone, Copy)]
pub struct Slot {
    pub start: u64,
    pub size: u64,
}

/// The slot of a heap offset, by each engine, and whether both name it.
pub struct Asked {
    pub counted: Result<Slot, Refusal>,
    pub located: Result<Slot, Refusal>,
    pub agree: bool,
}

/// Asks both engines.
pub fn ask_both(offset: u64) -> Result<Asked, Refusal> {
    let mut answers = [0; 7];
    // SAFETY: the list is an array.
    let number = unsafe { tools_ask_both(offset, answers.as_mut_ptr(), answers.len()) };
    accepted(number, 7, answers.len() as u64)?;
    let slot = |number: u64, start, size| {
        let answer = accepted(number as u32, start, size);
        answer.map(|()| Slot { start, size })
    };
    let [number, start, size, ..] = answers;
    let counted = slot(number, start, size);
    let [_, _, _, number, start, size, agree] = answers;
    Ok(Asked {
        counted,
        located: slot(number, start, size),
        agree: agree == 1,
    })
}

/// An indirect block: row and column of its slot in the block that it stands in, and its heap offset.
pub struct Entered {
    pub row: u64,
    pub column: u64,
    pub start: u64,
}

/// The indirect blocks on the way from the root to the slot of a heap offset.
pub fn way(offset: u64) -> Result<Vec<Entered>, Refusal> {
    let mut way = Vec::new();
    loop {
        let mut block = [0; 4];
        // SAFETY: the list is an array.
        let number =
            unsafe { tools_entered(offset, way.len() as u64, block.as_mut_ptr(), block.len()) };
        accepted(number, block[0], block[1])?;
        let [is_there, row, column, start] = block;
        if is_there == 0 {
            return Ok(way);
        }
        way.push(Entered { row, column, start });
    }
}

/// How many direct slots a heap of so many rows has of each size, smallest first.
pub fn count_slots(rows: u64) -> Result<[u64; 7], Refusal> {
    let mut counts = [0; 7];
    // SAFETY: the list is an array.
    let number = unsafe { tools_count_slots(rows, counts.as_mut_ptr(), counts.len()) };
    accepted(number, counts[0], counts[1])?;
    Ok(counts)
}

/// Where a tiny object lies in its ID, and its length.
pub fn tiny_object(id_length: u16, id: &[u8]) -> Result<(u64, u64), Refusal> {
    // SAFETY: the ID is only read; the slot is an array.
    pair(|slot, n| unsafe { tools_read_tiny_object(id_length, id.as_ptr(), id.len(), slot, n) })
}
