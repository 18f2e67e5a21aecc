//! Our static libraries, each C function behind a safe one: `fractal_heap_c`, which the loader calls, and `tools_c`,
//! which is the tests' and the command's.
use crate::made::Heap;
use fractal_heap_sys::*;
use original::Answer;

/// What a slot holds before a call; every byte past 16 must still hold it after.
const MARK: u8 = 0xA5;

/// Calls with a slot of 19 bytes, and checks that only its first 16 are written.
fn with_slot(call: impl FnOnce(*mut u8, usize) -> u32) -> Answer {
    let mut slot = [MARK; 19];
    let number = call(slot.as_mut_ptr(), slot.len());
    assert_eq!(slot[16..], [MARK; 3], "bytes past the slot's first 16");
    let at = |i: usize| u64::from_le_bytes(slot[i..i + 8].try_into().unwrap());
    (number, at(0), at(8))
}

/// Calls with a slot that is long enough where something else is too short.
fn with_untouched_slot(call: impl FnOnce(*mut u8, usize) -> u32) {
    let mut slot = [MARK; 16];
    assert_eq!(call(slot.as_mut_ptr(), slot.len()), 13, "a short list");
    assert_eq!(slot, [MARK; 16], "beside a short list");
}

/// Calls with a slot of just 16 bytes, for times.
pub fn answered(call: impl FnOnce(*mut u8, usize) -> u32) -> Answer {
    let mut slot = [0; 16];
    let number = call(slot.as_mut_ptr(), slot.len());
    let both = u128::from_le_bytes(slot);
    (number, both as u64, (both >> 64) as u64)
}

/// Calls with a slot that is too short: 13, and the slot as it was.
fn with_short_slot(len: usize, call: impl FnOnce(*mut u8, usize) -> u32) {
    let mut slot = [MARK; 16];
    assert_eq!(call(slot.as_mut_ptr(), len), 13, "slot of {len} bytes");
    assert_eq!(slot, [MARK; 16], "slot of {len} bytes");
}

pub fn jenkins_lookup3(bytes: &[u8]) -> u32 {
    unsafe { tools_jenkins_lookup3(bytes.as_ptr(), bytes.len()) }
}

/// Calls with three words, which it leaves changed; with fewer it leaves them.
fn with_words(call: unsafe extern "C" fn(*mut u32, usize) -> u32, words: [u32; 3]) -> [u32; 3] {
    let mut after = words;
    let number = unsafe { call(after.as_mut_ptr(), 2) };
    assert_eq!((number, after), (13, words), "two words");
    let number = unsafe { call(after.as_mut_ptr(), 3) };
    assert_eq!(number, 0, "three words");
    after
}

pub fn unmix(words: [u32; 3]) -> [u32; 3] {
    with_words(tools_unmix, words)
}

pub fn unfinal_mix(words: [u32; 3]) -> [u32; 3] {
    with_words(tools_unfinal_mix, words)
}

pub fn to_usize(value: u64) -> u64 {
    unsafe { tools_to_usize(value) }
}

pub fn is_undefined_addr(addr: u64, size: u8) -> u32 {
    unsafe { tools_is_undefined_addr(addr, size) }
}

pub fn ensure_len(bytes: &[u8], offset: u64, needed: u64) -> Answer {
    with_slot(|s, n| unsafe { tools_ensure_len(bytes.as_ptr(), bytes.len(), offset, needed, s, n) })
}

pub fn read_offset(bytes: &[u8], pos: u64, size: u8) -> Answer {
    with_slot(|s, n| unsafe { tools_read_offset(bytes.as_ptr(), bytes.len(), pos, size, s, n) })
}

pub fn read_length(bytes: &[u8], pos: u64, size: u8) -> Answer {
    with_slot(|s, n| unsafe { tools_read_length(bytes.as_ptr(), bytes.len(), pos, size, s, n) })
}

pub fn write_offset(bytes: &mut [u8], pos: u64, value: u64, size: u8) -> Answer {
    with_slot(|s, n| unsafe {
        tools_write_offset(bytes.as_mut_ptr(), bytes.len(), pos, value, size, s, n)
    })
}

pub fn write_undef_offset(bytes: &mut [u8], pos: u64, size: u8) -> Answer {
    with_slot(|s, n| unsafe {
        tools_write_undef_offset(bytes.as_mut_ptr(), bytes.len(), pos, size, s, n)
    })
}

/// The refusal's number, or 0; its pair, or the eight totals, are put into `totals`.
pub fn plan(
    sizes: &[u64],
    offsets: &mut [u64],
    blocks: &mut [u64],
    offset_size: u8,
    totals: &mut [u64],
) -> u32 {
    unsafe {
        tools_plan(
            sizes.as_ptr(),
            sizes.len(),
            offsets.as_mut_ptr(),
            offsets.len(),
            blocks.as_mut_ptr(),
            blocks.len(),
            offset_size,
            totals.as_mut_ptr(),
            totals.len(),
        )
    }
}

/// What is written and where: sizes and joined bytes of the objects, offset size, addresses.
#[derive(Clone, Copy)]
pub struct Writing<'a> {
    pub sizes: &'a [u64],
    pub objects: &'a [u8],
    pub offset_size: u8,
    pub region_at: u64,
    pub header_at: u64,
}

/// The refusal's number, or 0; its pair, or the eight totals, are put into `totals`.
pub fn serialize(
    writing: &Writing,
    offsets: &mut [u64],
    blocks: &mut [u64],
    region: &mut [u8],
    totals: &mut [u64],
) -> u32 {
    let (sizes, objects) = (writing.sizes, writing.objects);
    unsafe {
        tools_serialize(
            sizes.as_ptr(),
            sizes.len(),
            offsets.as_mut_ptr(),
            offsets.len(),
            blocks.as_mut_ptr(),
            blocks.len(),
            objects.as_ptr(),
            objects.len(),
            region.as_mut_ptr(),
            region.len(),
            writing.region_at,
            writing.header_at,
            writing.offset_size,
            totals.as_mut_ptr(),
            totals.len(),
        )
    }
}

/// The region that ours writes for these objects at a region and a header address.
pub fn region(objects: &[&[u8]], offset_size: u8, region_at: u64, header_at: u64) -> Vec<u8> {
    let sizes: Vec<u64> = objects.iter().map(|o| o.len() as u64).collect();
    let (n, mut totals) = (sizes.len(), [0; 8]);
    let (mut offsets, mut blocks) = (vec![0; n], vec![0; n.max(1)]);
    let number = plan(&sizes, &mut offsets, &mut blocks, offset_size, &mut totals);
    assert_eq!(number, 0, "planned");
    let mut region = vec![0; totals[1] as usize];
    let writing = Writing {
        sizes: &sizes,
        objects: &objects.concat(),
        offset_size,
        region_at,
        header_at,
    };
    let number = serialize(
        &writing,
        &mut offsets,
        &mut blocks,
        &mut region,
        &mut totals,
    );
    assert_eq!(number, 0, "written");
    region
}

/// The refusal's number, or 0; the two numbers of the answer are put into the slot.
pub fn write_managed_id(offset: u64, size: u64, id: &mut [u8], slot: &mut [u8]) -> u32 {
    let (i, k, s, n) = (id.as_mut_ptr(), id.len(), slot.as_mut_ptr(), slot.len());
    unsafe { tools_write_managed_id(offset, size, i, k, s, n) }
}

/// The loader's, likewise.
pub fn loader_write_managed_id(offset: u64, size: u64, id: &mut [u8], slot: &mut [u8]) -> u32 {
    let (i, k, s, n) = (id.as_mut_ptr(), id.len(), slot.as_mut_ptr(), slot.len());
    unsafe { fractal_heap_write_managed_id(offset, size, i, k, s, n) }
}

/// Every function with a slot, lent one of fewer than 16 bytes: nothing is written anywhere.
pub fn short_slot(len: usize, bytes: &mut [u8]) {
    let before = bytes.to_vec();
    let (p, n) = (bytes.as_mut_ptr(), bytes.len());
    with_short_slot(len, |s, k| unsafe { tools_ensure_len(p, n, 0, 1, s, k) });
    with_short_slot(len, |s, k| unsafe { tools_read_offset(p, n, 0, 2, s, k) });
    with_short_slot(len, |s, k| unsafe { tools_read_length(p, n, 0, 2, s, k) });
    with_short_slot(len, |s, k| unsafe {
        tools_write_offset(p, n, 0, 7, 2, s, k)
    });
    with_short_slot(len, |s, k| unsafe {
        tools_write_undef_offset(p, n, 0, 2, s, k)
    });
    with_short_slot(len, |s, k| unsafe { tools_locate(0, s, k) });
    with_short_slot(len, |s, k| unsafe { tools_count_to(0, s, k) });
    assert_eq!(bytes, before, "bytes lent beside a short slot");
}

/// The slot of a heap offset by descent: where it begins, and its bytes.
pub fn locate(offset: u64) -> Answer {
    answered(|s, n| unsafe { tools_locate(offset, s, n) })
}

/// The same by counting.
pub fn count_to(offset: u64) -> Answer {
    answered(|s, n| unsafe { tools_count_to(offset, s, n) })
}

/// 0, or 13 for a list of fewer than 7 places; number and pair of both engines, the one that counts first, and 1 where
/// both name a slot, and the same, or 0, are put into `answers`.
pub fn ask_both(offset: u64, answers: &mut [u64]) -> u32 {
    unsafe { tools_ask_both(offset, answers.as_mut_ptr(), answers.len()) }
}

/// The refusal's number, or 0; its pair, or 1, row, column and heap offset of a block on the way, or four zeros, are put
/// into `block`.
pub fn entered(offset: u64, place: u64, block: &mut [u64]) -> u32 {
    unsafe { tools_entered(offset, place, block.as_mut_ptr(), block.len()) }
}

/// The refusal's number, or 0; its pair, or the seven counts, are put into `counts`.
pub fn count_slots(rows: u64, counts: &mut [u64]) -> u32 {
    unsafe { tools_count_slots(rows, counts.as_mut_ptr(), counts.len()) }
}

pub fn loader_checksum(bytes: &[u8]) -> u32 {
    unsafe { fractal_heap_checksum(bytes.as_ptr(), bytes.len()) }
}

/// The refusal's number, or 0; its pair, or the 26 numbers, are put into `fields`.
pub fn parse(heap: &Heap, fields: &mut [u64]) -> u32 {
    let (file, w, l) = (&heap.file, heap.offset_size, heap.length_size);
    unsafe {
        tools_parse_header(
            file.as_ptr(),
            file.len(),
            heap.at,
            w,
            l,
            fields.as_mut_ptr(),
            fields.len(),
        )
    }
}

/// The refusal's number, or 0; the two numbers of the answer are put into the slot.
pub fn write_header(fields: &[u64], [w, l]: [u8; 2], bytes: &mut [u8], slot: &mut [u8]) -> u32 {
    let (f, k, b, m) = (
        fields.as_ptr(),
        fields.len(),
        bytes.as_mut_ptr(),
        bytes.len(),
    );
    unsafe { fractal_heap_write_header(f, k, w, l, b, m, slot.as_mut_ptr(), slot.len()) }
}

/// A file that is lent, a header's place in it, and the two widths.
#[derive(Clone, Copy)]
pub struct View<'a> {
    pub file: &'a [u8],
    pub at: u64,
    pub offset_size: u8,
    pub length_size: u8,
}

pub fn view_of(heap: &Heap) -> View<'_> {
    View {
        file: &heap.file,
        at: heap.at,
        offset_size: heap.offset_size,
        length_size: heap.length_size,
    }
}

/// The loader's function for a header: its fields are put into `fields`, a refusal's pair or two zeros into the slot.
pub fn fields_into(view: View, fields: &mut [u64], slot: *mut u8, len: usize) -> u32 {
    let (file, w, l) = (view.file, view.offset_size, view.length_size);
    let (f, n, p, k) = (file.as_ptr(), file.len(), fields.as_mut_ptr(), fields.len());
    unsafe { fractal_heap_parse_header(f, n, view.at, w, l, p, k, slot, len) }
}

/// The refusal, or 0 and two zeros; a slot or a list that is too short gives 13 first, and leaves both.
pub fn header_fields(heap: &Heap, fields: &mut [u64]) -> Answer {
    let (view, before) = (view_of(heap), fields.to_vec());
    with_short_slot(15, |s, n| fields_into(view, fields, s, n));
    for places in [0, fields.len().min(23), fields.len().min(25)] {
        let few = &mut fields[..places];
        with_untouched_slot(|s, n| fields_into(view, few, s, n));
    }
    assert_eq!(
        fields, before,
        "fields lent beside a short slot, or too few"
    );
    with_slot(|s, n| fields_into(view, fields, s, n))
}

pub fn decode_into(view: View, id: &[u8], slot: *mut u8, len: usize) -> u32 {
    let (file, w, l) = (view.file, view.offset_size, view.length_size);
    let (f, n, i, k) = (file.as_ptr(), file.len(), id.as_ptr(), id.len());
    unsafe { fractal_heap_decode_managed_id(f, n, view.at, w, l, i, k, slot, len) }
}

pub fn read_into(view: View, id: &[u8], slot: *mut u8, len: usize) -> u32 {
    let (file, w, l) = (view.file, view.offset_size, view.length_size);
    let (f, n, i, k) = (file.as_ptr(), file.len(), id.as_ptr(), id.len());
    unsafe { fractal_heap_read_managed_object_unchecked(f, n, view.at, w, l, i, k, slot, len) }
}

fn sized_into(heap: &Heap, read_size: u8, id: &[u8], slot: *mut u8, len: usize) -> u32 {
    let (file, w, l) = (&heap.file, heap.offset_size, heap.length_size);
    let (f, n, i, k) = (file.as_ptr(), file.len(), id.as_ptr(), id.len());
    unsafe { tools_read_managed_object_unchecked(f, n, heap.at, w, l, read_size, i, k, slot, len) }
}

/// The checked reader, which holds every block to the address that its header is said to have.
pub fn checked_into(view: View, address: u64, id: &[u8], slot: *mut u8, len: usize) -> u32 {
    let (file, w, l) = (view.file, view.offset_size, view.length_size);
    let (f, n, i, k) = (file.as_ptr(), file.len(), id.as_ptr(), id.len());
    unsafe { fractal_heap_read_managed_object(f, n, view.at, w, l, address, i, k, slot, len) }
}

fn stopping_block_into(view: View, address: u64, id: &[u8], slot: *mut u8, len: usize) -> u32 {
    let (file, w, l) = (view.file, view.offset_size, view.length_size);
    let (f, n, i, k) = (file.as_ptr(), file.len(), id.as_ptr(), id.len());
    unsafe { fractal_heap_stopping_block(f, n, view.at, w, l, address, i, k, slot, len) }
}

fn checked_sized_into(
    heap: &Heap,
    (read_size, address): (u8, u64),
    id: &[u8],
    slot: *mut u8,
    len: usize,
) -> u32 {
    let (file, w, l) = (&heap.file, heap.offset_size, heap.length_size);
    let (f, n, i, k) = (file.as_ptr(), file.len(), id.as_ptr(), id.len());
    unsafe { tools_read_managed_object(f, n, heap.at, w, l, read_size, address, i, k, slot, len) }
}

pub fn tiny_into(heap_id_length: u16, id: &[u8], slot: *mut u8, len: usize) -> u32 {
    unsafe { tools_read_tiny_object(heap_id_length, id.as_ptr(), id.len(), slot, len) }
}

pub fn type_into(id: &[u8], slot: *mut u8, len: usize) -> u32 {
    unsafe { tools_heap_id_type(id.as_ptr(), id.len(), slot, len) }
}

/// The loader's: parses, then decodes.
pub fn decode_in(view: View, id: &[u8]) -> Answer {
    with_slot(|s, n| decode_into(view, id, s, n))
}

pub fn decode(heap: &Heap, id: &[u8]) -> Answer {
    decode_in(view_of(heap), id)
}

/// The loader's unchecked reader: parses, then reads at the offset size of the parse.
pub fn read_in(view: View, id: &[u8]) -> Answer {
    with_slot(|s, n| read_into(view, id, s, n))
}

pub fn read(heap: &Heap, id: &[u8]) -> Answer {
    read_in(view_of(heap), id)
}

/// The loader's checked reader, likewise.
pub fn checked(view: View, address: u64, id: &[u8]) -> Answer {
    with_slot(|s, n| checked_into(view, address, id, s, n))
}

/// The block at which it ends.
pub fn stopping_block(view: View, address: u64, id: &[u8]) -> Answer {
    with_slot(|s, n| stopping_block_into(view, address, id, s, n))
}

/// The checked reader at any offset size.
pub fn checked_sized(heap: &Heap, size_and_address: (u8, u64), id: &[u8]) -> Answer {
    with_slot(|s, n| checked_sized_into(heap, size_and_address, id, s, n))
}

/// Parses, then reads at any offset size, unchecked.
pub fn read_sized(heap: &Heap, read_size: u8, id: &[u8]) -> Answer {
    with_slot(|s, n| sized_into(heap, read_size, id, s, n))
}

pub fn tiny(heap_id_length: u16, id: &[u8]) -> Answer {
    with_slot(|s, n| tiny_into(heap_id_length, id, s, n))
}

pub fn id_type(id: &[u8]) -> Answer {
    with_slot(|s, n| type_into(id, s, n))
}

/// Every eight-byte ID of `ids`: number and pair of each answer, three numbers in `found`; unchecked.
pub fn read_each(heap: &Heap, ids: &[u8], found: &mut [u64]) -> u32 {
    let (file, w, l) = (&heap.file, heap.offset_size, heap.length_size);
    unsafe {
        tools_read_each_unchecked(
            file.as_ptr(),
            file.len(),
            heap.at,
            w,
            l,
            ids.as_ptr(),
            ids.len(),
            found.as_mut_ptr(),
            found.len(),
        )
    }
}

/// The same by the checked reader.
pub fn checked_each(heap: &Heap, address: u64, ids: &[u8], found: &mut [u64]) -> u32 {
    let (file, w, l) = (&heap.file, heap.offset_size, heap.length_size);
    unsafe {
        tools_read_each(
            file.as_ptr(),
            file.len(),
            heap.at,
            w,
            l,
            address,
            ids.as_ptr(),
            ids.len(),
            found.as_mut_ptr(),
            found.len(),
        )
    }
}

/// The functions over a heap with a slot, lent one of fewer than 16 bytes.
pub fn short_heap_slot(len: usize, heap: &Heap, id: &[u8]) {
    with_short_slot(len, |s, k| decode_into(view_of(heap), id, s, k));
    with_short_slot(len, |s, k| read_into(view_of(heap), id, s, k));
    with_short_slot(len, |s, k| sized_into(heap, 8, id, s, k));
    with_short_slot(len, |s, k| tiny_into(8, id, s, k));
    with_short_slot(len, |s, k| type_into(id, s, k));
}

/// The checked functions over a heap, likewise.
pub fn short_checked_slot(len: usize, heap: &Heap, address: u64, id: &[u8]) {
    let view = view_of(heap);
    with_short_slot(len, |s, k| checked_into(view, address, id, s, k));
    with_short_slot(len, |s, k| stopping_block_into(view, address, id, s, k));
    with_short_slot(len, |s, k| checked_sized_into(heap, (8, address), id, s, k));
}

/// A plan that stays open.
pub struct Open(OpenPlan);

impl Open {
    fn opened(w: u8) -> (Answer, OpenPlan) {
        let mut plan = None;
        let answer = with_slot(|s, n| {
            let opened = unsafe { fractal_heap_open_plan(w, s, n) };
            plan = Some(opened.plan);
            opened.number
        });
        with_short_slot(15, |s, n| unsafe { fractal_heap_open_plan(w, s, n) }.number);
        (answer, plan.unwrap())
    }

    /// What opening answers.
    pub fn answer(w: u8) -> Answer {
        Self::opened(w).0
    }

    /// Of no objects, at a width that is one.
    pub fn of(w: u8) -> Open {
        let (answer, plan) = Self::opened(w);
        assert_eq!(answer, (0, 0, 0), "width {w}");
        Open(plan)
    }

    pub fn set_objects(&mut self, objects: u64) {
        self.0.objects = objects;
    }

    /// A slot that is too short adds nothing.
    pub fn add(&mut self, size: u64) -> Answer {
        with_short_slot(15, |s, n| unsafe {
            fractal_heap_plan_add(&mut self.0, size, s, n)
        });
        with_slot(|s, n| unsafe { fractal_heap_plan_add(&mut self.0, size, s, n) })
    }

    /// For times: the number alone.
    pub fn add_in(&mut self, size: u64, slot: &mut [u8; 16]) -> u32 {
        unsafe { fractal_heap_plan_add(&mut self.0, size, slot.as_mut_ptr(), slot.len()) }
    }

    /// In a list with a place more, which keeps what it holds; a list of seven places gives 13.
    pub fn totals(&self) -> [u64; 8] {
        let mut totals = [u64::MAX; 9];
        let told = |places: usize, totals: &mut [u64; 9]| unsafe {
            fractal_heap_plan_totals(&self.0, totals.as_mut_ptr(), places)
        };
        assert_eq!(told(7, &mut totals), 13);
        assert_eq!(totals, [u64::MAX; 9]);
        assert_eq!(told(9, &mut totals), 0);
        assert_eq!(totals[8], u64::MAX);
        totals[..8].try_into().unwrap()
    }
}
