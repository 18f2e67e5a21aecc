//! Where a heap's header is in a file: the superblock, where addresses count from, and the two sizes.
use crate::arguments::Addressing;
use crate::failure::Failure;
use crate::image;
use crate::talk::tell;
use fractal_heap::{Header, Heap, Refusal, Superblock, count, grouped};

/// What is said on standard error while all is well.
pub struct Remarks {
    pub quiet: bool,
}

impl Remarks {
    pub fn tell(&self, line: &str) {
        if !self.quiet {
            tell(line);
        }
    }
}

/// What the superblock is and says, in a line; then what options say instead.
fn described(superblock: Option<&Superblock>, addressing: &Addressing) -> String {
    let mut line = match superblock {
        None => "no superblock".into(),
        Some(s) => format!("superblock of version {} at {}", s.version, grouped(s.at)),
    };
    line += &match superblock.map(|s| s.sizes) {
        Some(Some((offset, length))) => format!(": offset size {offset}, length size {length}"),
        Some(None) => ", not known: offset size 8, length size 8".into(),
        None => ": offset size 8, length size 8".into(),
    };
    for (option, size) in [
        ("--offset-size", addressing.offset_size),
        ("--length-size", addressing.length_size),
    ] {
        line += &size.map_or(String::new(), |size| format!("; {option} says {size}"));
    }
    line
}

/// Tells what is wrong with a superblock, also where nothing else is to be said.
pub fn warn(superblock: &Superblock) {
    if let Some(field) = superblock.base.filter(|&field| field != superblock.at) {
        tell(&format!(
            "the superblock's base address field says {}, but it stands at {}, which counts for HDF5",
            grouped(field),
            grouped(superblock.at)
        ));
    }
    if superblock.open_for_writing {
        tell("the superblock is marked as open for writing: the file may not be whole");
    }
}

/// Where HDF5's addresses count from: where the superblock is, unless an option says otherwise.
fn base(superblock: Option<&Superblock>, addressing: &Addressing, remarks: &Remarks) -> u64 {
    let found = superblock.map_or(0, |s| s.at);
    let base = addressing.base.unwrap_or(found);
    let given = if addressing.base.is_some() {
        ", by --base"
    } else {
        ""
    };
    if base != 0 || found != 0 {
        remarks.tell(&format!(
            "the base is {}{given}: HDF5's addresses count from there; positions told here are in the file",
            grouped(base)
        ));
    }
    base
}

/// The superblock that counts. One behind the heap's header is none: there an object's bytes look like one.
fn superblock(
    file: &[u8],
    place: u64,
    addressing: &Addressing,
    remarks: &Remarks,
) -> Option<Superblock> {
    let found = Superblock::find(file)?;
    let heap = usize::try_from(place).ok();
    let heap = heap.and_then(|place| file.get(place..)).unwrap_or(&[]);
    let is_of_image = place < found.at
        && !addressing.address
        && addressing.base.is_none()
        && heap.starts_with(image::SIGNATURE);
    if is_of_image {
        remarks.tell(&format!(
            "what looks like a superblock at {} is behind the heap's header, and none: addresses count from 0",
            grouped(found.at)
        ));
        return None;
    }
    Some(found)
}

/// A file in which heaps are, where its addresses count from, and its two sizes.
pub struct Site<'f> {
    pub file: &'f [u8],
    pub base: u64,
    pub offset_size: u8,
    pub length_size: u8,
    /// The file has a superblock, so that its objects are HDF5's messages.
    pub of_hdf5: bool,
}

impl<'f> Site<'f> {
    /// The two sizes and the base are the superblock's, unless options say otherwise. Where no heap is named, one that
    /// begins the file is looked for.
    pub fn new(
        file: &'f [u8],
        place: Option<u64>,
        addressing: &Addressing,
        remarks: &Remarks,
    ) -> Result<Self, Failure> {
        let superblock = superblock(file, place.unwrap_or(0), addressing, remarks);
        let known = superblock.as_ref().and_then(|s| s.sizes).unwrap_or((8, 8));
        remarks.tell(&described(superblock.as_ref(), addressing));
        if let Some(superblock) = &superblock {
            warn(superblock);
        }
        let base = base(superblock.as_ref(), addressing, remarks);
        if base > file.len() as u64 {
            let (base, size) = (grouped(base), count(file.len() as u64, "byte"));
            return Err(Failure::Use(format!(
                "the base, {base}, is past the file, which has {size}"
            )));
        }
        Ok(Site {
            file,
            base,
            offset_size: addressing.offset_size.unwrap_or(known.0),
            length_size: addressing.length_size.unwrap_or(known.1),
            of_hdf5: superblock.is_some(),
        })
    }

    /// The heap whose header is at a place, which is a position in the file or an address.
    pub fn heap(&self, place: u64, addressing: &Addressing) -> Result<Heap<'f>, Failure> {
        let header_at = match addressing.address {
            true => place,
            false => place.checked_sub(self.base).ok_or_else(|| {
                Failure::Use(format!(
                    "PLACE {} is before the base, {}; --address says that it is an HDF5 address, --base 0 that \
                     addresses count from the file's start",
                    grouped(place),
                    grouped(self.base)
                ))
            })?,
        };
        Ok(self.heap_from(self.base, header_at))
    }

    /// The heap whose header is at a position in the file, wherever addresses count from.
    pub fn heap_at(&self, position: u64) -> Heap<'f> {
        self.heap_from(0, position)
    }

    /// What the header of a heap says. Where none begins, it is said what stands there.
    pub fn header(&self, heap: &Heap) -> Result<Header, Failure> {
        heap.header().map_err(|refusal| match refusal {
            Refusal::InvalidSignature => {
                let (found, due) = (heap.file.get(heap.header_at as usize..), image::SIGNATURE);
                let digits = |bytes: &[u8]| {
                    let each: Vec<String> = bytes.iter().map(|b| format!("{b:02X}")).collect();
                    each.join(" ")
                };
                Failure::Not(format!(
                    "refused by {}: the heap's header at {} in the file begins with {}, and not with {}, {}",
                    refusal.number(),
                    grouped(heap.header_at.saturating_add(self.base)),
                    digits(found.and_then(|found| found.get(..due.len())).unwrap_or(&[])),
                    String::from_utf8_lossy(due),
                    digits(due)
                ))
            }
            refusal => in_file(refusal, self.base, None).into(),
        })
    }

    fn heap_from(&self, start: u64, header_at: u64) -> Heap<'f> {
        Heap {
            file: &self.file[start as usize..],
            header_at,
            offset_size: self.offset_size,
            length_size: self.length_size,
        }
    }
}

/// A refusal whose positions are positions in the file. The end expected may also be the ID's own in the heap, which
/// is none.
pub fn in_file(refusal: Refusal, base: u64, ids_end: Option<u64>) -> Refusal {
    match refusal {
        Refusal::UnexpectedEof {
            expected,
            available,
        } if (expected, available) != (1, 0) => {
            let in_heap = expected <= available || ids_end == Some(expected);
            Refusal::UnexpectedEof {
                expected: expected.saturating_add(if in_heap { 0 } else { base }),
                available: available.saturating_add(base),
            }
        }
        other => other,
    }
}

#[cfg(test)]
mod tests {
    use super::*;

    fn eof(expected: u64, available: u64) -> Refusal {
        Refusal::UnexpectedEof {
            expected,
            available,
        }
    }

    #[test]
    fn positions_are_in_the_file() {
        assert_eq!(in_file(eof(1289, 1200), 512, None), eof(1801, 1712));
        assert_eq!(in_file(eof(1289, 1200), 512, Some(7)), eof(1801, 1712));
        assert_eq!(in_file(eof(u64::MAX, 9), 512, None), eof(u64::MAX, 521));
        assert_eq!(in_file(eof(1289, 1200), 0, None), eof(1289, 1200));
    }

    #[test]
    fn places_in_the_heap_and_addresses_stay() {
        let id_past_every_block = in_file(eof(10_240, 2312), 512, Some(10_240));
        assert_eq!(id_past_every_block, eof(10_240, 2824));
        assert_eq!(in_file(eof(23, 4096), 512, Some(23)), eof(23, 4608));
        assert_eq!(in_file(eof(1, 0), 512, Some(1)), eof(1, 0));
        let address = Refusal::new(9, u64::MAX - 15, 22);
        assert_eq!(in_file(address, 512, None), address);
    }
}
