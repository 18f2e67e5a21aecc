//! The superblock: II.A. 'Superblock (Versions 2 and 3)' is written, and all versions are read.
use crate::cursor::Bytes;
use crate::{LENGTH_SIZE, OFFSET_SIZE, UNDEFINED, Unreadable, sealed};

const SIGNATURE: &[u8] = fractal_heap::Superblock::SIGNATURE;
/// Version 3 only adds flags of a file that several processes have open.
const VERSION: u8 = 2;
/// Bytes of it.
pub const LENGTH: u64 = 48;

/// The superblock of a file that ends at `end`, exactly, with the root group's object header at `root`.
pub fn superblock(root: u64, end: u64) -> Vec<u8> {
    let mut bytes = SIGNATURE.to_vec();
    let consistency_flags = 0;
    bytes.extend([VERSION, OFFSET_SIZE, LENGTH_SIZE, consistency_flags]);
    let (base, extension) = (0, UNDEFINED);
    for address in [base, extension, end, root] {
        bytes.extend(u64::to_le_bytes(address));
    }
    sealed(bytes)
}

const WHAT: &str = "superblock";

/// What a superblock says.
pub struct Superblock<'f> {
    /// The file from there on.
    pub bytes: Bytes<'f>,
    /// Where it is in the file.
    pub at: u64,
    /// The address at which the file ends: what stands behind is none of its bytes.
    pub end: u64,
    /// What its extension is, if it has one, or in versions 0 and 1 what stands for it.
    pub extension: Option<&'static str>,
    /// The address of the root group's object header.
    pub root: u64,
}

/// So many bytes of a signature make a place one of a damaged superblock: more than those that PNG's has, which are five.
const MOST: usize = 6;

/// Whether most of a signature stands at a place where it is sought before this one.
fn is_behind_a_damaged_one(file: &[u8], at: u64) -> bool {
    let places = std::iter::successors(Some(0), |&place: &u64| Some((2 * place).max(512)));
    let most = |place: u64| {
        let stored = &file[place as usize..];
        stored.iter().zip(SIGNATURE).filter(|(a, b)| a == b).count() >= MOST
    };
    places.take_while(|&place| place < at).any(most)
}

/// A file's superblock. II.A, 'Superblock (Versions 0 and 1)' and '(Versions 2 and 3)'. One behind the start of the file may
/// lie in another file, as its value, and that file's own superblock be damaged. So its base address has to be its place,
/// which it is behind a user block that HDF5 made, and no place before may look like one of a superblock.
pub fn open(file: &[u8]) -> Result<Superblock<'_>, Unreadable> {
    let found = fractal_heap::Superblock::find(file).ok_or(Unreadable::NoSuperblock)?;
    if is_behind_a_damaged_one(file, found.at) {
        return contradicts(
            "most of a signature stands at a place before: the file's own is damaged",
        );
    }
    parse(file, found, Base::IsPlace)
}

/// The superblock that stands behind a user block of so many bytes, whatever its base address says, and whatever stands
/// before it.
pub fn open_behind(file: &[u8], user_block: u64) -> Result<Superblock<'_>, Unreadable> {
    let rest = usize::try_from(user_block)
        .ok()
        .and_then(|at| file.get(at..));
    match rest.and_then(fractal_heap::Superblock::find) {
        Some(mut found) if found.at == 0 => {
            found.at = user_block;
            parse(file, found, Base::Any)
        }
        _ => Err(Unreadable::NotBehind {
            user_block,
            found: fractal_heap::Superblock::find(file).map(|found| found.at),
        }),
    }
}

fn contradicts<T>(why: &'static str) -> Result<T, Unreadable> {
    Err(Unreadable::Contradicts { what: WHAT, why })
}

/// What is asked of the base address of a superblock behind the start of the file.
#[derive(PartialEq, Eq)]
enum Base {
    IsPlace,
    Any,
}

/// What a superblock says that was found in a file.
fn parse(
    file: &[u8],
    found: fractal_heap::Superblock,
    due: Base,
) -> Result<Superblock<'_>, Unreadable> {
    let base_at = found.base_at().ok_or(Unreadable::Unknown {
        what: "version of the superblock",
        number: found.version.into(),
    })?;
    let (offset_size, length_size) = found.sizes.ok_or(Unreadable::EndsEarly {
        what: WHAT,
        at: 0,
        needed: LENGTH,
        there: file.len() as u64 - found.at,
    })?;
    for (what, size) in [("offset size", offset_size), ("length size", length_size)] {
        if !matches!(size, 2 | 4 | 8) {
            let number = size.into();
            return Err(Unreadable::Unknown { what, number });
        }
    }
    let all = &file[found.at as usize..];
    let bytes = Bytes {
        all,
        offset_size,
        length_size,
    };
    let start = bytes.at(WHAT, 0)?;
    let mut at = start.clone();
    at.take(base_at)?;
    let base = at.number(offset_size.into())?;
    let second = at.address()?;
    let end = at.number(offset_size.into())?;
    let (root, extension) = match found.version {
        0 | 1 => {
            let free_space = second.map(|_| "an index of free space");
            let driver = at.address()?.map(|_| "a driver's information block");
            at.address()?; // of the root group's name, III.C
            (at.defined()?, free_space.or(driver))
        }
        _ => {
            let root = at.defined()?;
            at.checksum(&start)?;
            (root, second.map(|_| "a superblock extension"))
        }
    };
    if due == Base::IsPlace && found.at > 0 && base != found.at {
        let at = found.at;
        return Err(Unreadable::OtherBase { at, base });
    }
    let there = all.len() as u64;
    match end.checked_sub(base) {
        Some(end) if end <= there => Ok(Superblock {
            bytes,
            at: found.at,
            end,
            extension,
            root,
        }),
        Some(due) => Err(Unreadable::Cut { due, there }),
        None => contradicts("the file ends before its addresses begin"),
    }
}
