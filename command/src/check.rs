//! What `poilures write` and `deposit` check when the heap is written: the IDs, the header, and every object by its ID.
use crate::failure::Failure;
use crate::heap::{Objects, Written};
use crate::progress::Progress;
use crate::talk::Talk;
use fractal_heap::{Added, Error, Heap, count, grouped};

fn wrong(words: &str) -> Failure {
    Failure::Not(format!("not as it should be: {words}"))
}

/// All checks on the file that holds the heap, each with a line that says what held.
pub fn check(
    file: &[u8],
    heap: &Written,
    objects: &Objects,
    talk: &mut Talk,
) -> Result<(), Failure> {
    same_ids(heap, objects, talk)?;
    let readable = heap.place.heap(file, heap.place.header_at);
    check_header(&readable, heap, objects)?;
    let (found, lost) = read_back(&readable, heap, objects)?;
    print_read_back(objects, found, lost, talk);
    Ok(())
}

/// Every ID that was given early is the ID in the whole run.
fn same_ids(heap: &Written, objects: &Objects, talk: &mut Talk) -> Result<(), Failure> {
    let offsets = &heap.lists.offsets;
    for (i, (&offset, &size)) in offsets.iter().zip(&objects.sizes).enumerate() {
        if (Added { offset, size }).id()? != objects.ids[i] {
            return Err(wrong(&format!(
                "object {i} has another ID in the whole list"
            )));
        }
    }
    match objects.number() {
        0 => {}
        n => talk.say(&format!(
            "IDs: {} given early, {} in the whole list",
            grouped(n),
            if n == 1 { "the same" } else { "all the same" }
        )),
    }
    Ok(())
}

/// The header that is read says what was written, and that is what the plan's totals are.
fn check_header(readable: &Heap, heap: &Written, objects: &Objects) -> Result<(), Failure> {
    let (header, totals) = (readable.header()?, &heap.totals);
    let due = [
        heap.place.region_at + totals.root_place,
        totals.root_rows,
        objects.number(),
        totals.free_space,
        totals.managed_space,
        totals.allocated_space,
        totals.allocation_iterator,
    ];
    let got = [
        header.root_block_address,
        header.current_rows_in_root_indirect_block.into(),
        header.managed_objects_count,
        header.free_space_managed_blocks,
        header.managed_space_in_heap,
        header.allocated_managed_space_in_heap,
        header.direct_block_allocation_iterator_offset,
    ];
    match header == heap.header && got == due {
        true => Ok(()),
        false => Err(wrong("the header does not say what was written")),
    }
}

/// Every object by its ID, byte for byte: how many empty ones were found, and how many answered by 1. The first with
/// bytes of each block is read by the reader that tests all blocks on the way, the others by the one that does not.
fn read_back(readable: &Heap, heap: &Written, objects: &Objects) -> Result<(u64, u64), Failure> {
    let mut progress = Progress::new("reading back", objects.number());
    let (mut found, mut lost) = (0, 0);
    let starts = heap.lists.blocks[..heap.totals.block_count as usize].iter();
    let mut untested = starts.peekable();
    for (i, (id, bytes)) in objects.each().enumerate() {
        let offset = heap.lists.offsets[i];
        let mut is_first = false;
        while !bytes.is_empty() && untested.next_if(|&&start| start <= offset).is_some() {
            is_first = true;
        }
        let read = match is_first {
            true => readable.read_managed_object(id, heap.place.header_at),
            false => readable.read_managed_object_unchecked(id),
        };
        match read {
            Ok(read) if read == bytes => found += u64::from(bytes.is_empty()),
            Ok(_) => return Err(wrong(&format!("object {i} comes back with other bytes"))),
            Err(Error::Refused(r))
                if bytes.is_empty() && r.number() == 1 && heap.totals.root_rows > 0 =>
            {
                lost += 1;
            }
            Err(error) => return Err(wrong(&format!("object {i} does not come back: {error}"))),
        }
        progress.step();
    }
    Ok((found, lost))
}

fn print_read_back(objects: &Objects, found: u64, lost: u64, talk: &mut Talk) {
    if objects.number() == 0 {
        return talk.say("read back: the header; there are no objects");
    }
    let bytes = objects.bytes.len() as u64;
    let number = objects.number() - lost;
    talk.say(&format!(
        "read back: {} of {} by {}, every byte the same",
        count(number, "object"),
        count(bytes, "byte"),
        if number == 1 { "its ID" } else { "their IDs" }
    ));
    match found + lost {
        0 => talk.say("  empty objects: none"),
        all => talk.say(&format!(
            "  empty objects: {}; {} found, {} answered by 1",
            grouped(all),
            grouped(found),
            grouped(lost)
        )),
    }
    if lost > 0 {
        talk.say(
            "  1 is right there: an empty object has no byte in any block, and at the end of its",
        );
        talk.say(
            "  block its place may be in none; so it may be answered by 1 under an indirect root",
        );
    }
}
