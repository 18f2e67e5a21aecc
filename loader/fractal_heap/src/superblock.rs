//! The superblock of an HDF5 file: where it is, which is the base of the file's addresses, and what it says of sizes.
//! HDF5 File Format Specification, II.A.
use crate::{Heap, little_endian};

/// Where a file's superblock is, and what it says that matters here.
///
/// In front of it may be a user block, which HDF5 passes over: its addresses count from the superblock on.
///
/// ```no_run
/// use fractal_heap::Superblock;
///
/// let bytes = std::fs::read("gauges.h5")?;
/// let superblock = Superblock::find(&bytes).ok_or("no HDF5 file")?;
/// // The address of the heap's header, as HDF5 and its tools tell it.
/// let heap = superblock.heap(&bytes, 1064).ok_or("a superblock that is not known here")?;
/// let id = [0x00, 0x16, 0x00, 0x00, 0x00, 0x00, 0x1C, 0x00];
/// let object = heap.read_managed_object(&id, heap.header_at)?;
/// # Ok::<(), Box<dyn std::error::Error>>(())
/// ```
#[derive(Debug, Clone, Copy, PartialEq, Eq)]
#[non_exhaustive]
pub struct Superblock {
    /// Where it is in the file: HDF5 takes this for the base, whatever the field says.
    pub at: u64,
    /// Its version; 0 to 3 are known here.
    pub version: u8,
    /// Offset size and length size; None where the version is not known, or the file ends before.
    pub sizes: Option<(u8, u8)>,
    /// The base address field; None where it is not known.
    pub base: Option<u64>,
    /// The file is marked as open for writing.
    pub open_for_writing: bool,
}

/// Where the two sizes, the flags and the base address stand in a superblock of this version.
struct Layout {
    sizes: usize,
    flags: Option<usize>,
    base: usize,
}

fn layout(version: u8) -> Option<Layout> {
    let (sizes, flags, base) = match version {
        0 => (13, None, 24),
        1 => (13, None, 28),
        2 | 3 => (9, Some(11), 12),
        _ => return None,
    };
    Some(Layout { sizes, flags, base })
}

/// A little-endian field of 2, 4 or 8 bytes.
fn field(bytes: &[u8], at: usize, width: u8) -> Option<u64> {
    let bytes = match width {
        2 | 4 | 8 => bytes.get(at..at + usize::from(width))?,
        _ => return None,
    };
    Some(little_endian(bytes))
}

impl Superblock {
    /// What a superblock begins with.
    pub const SIGNATURE: &[u8] = b"\x89HDF\r\n\x1a\n";

    /// The superblock of a whole file: the first signature at 0, 512, 1,024, 2,048 .., if there is one.
    pub fn find(file: &[u8]) -> Option<Self> {
        let mut at = 0;
        while let Some(rest) = file.get(at..) {
            if rest.starts_with(Self::SIGNATURE) {
                return Self::parse(rest, at as u64);
            }
            at = at.checked_mul(2)?.max(512);
        }
        None
    }

    /// The heap whose header is at an address of this superblock's file, which is given whole; None where the sizes are
    /// not known, or the file ends before the superblock.
    pub fn heap<'f>(&self, file: &'f [u8], address: u64) -> Option<Heap<'f>> {
        let (offset_size, length_size) = self.sizes?;
        Some(Heap {
            file: file.get(usize::try_from(self.at).ok()?..)?,
            header_at: address,
            offset_size,
            length_size,
        })
    }

    /// Where its base address stands in it, which all its other addresses follow; None where the version is not known.
    pub fn base_at(&self) -> Option<u64> {
        layout(self.version).map(|layout| layout.base as u64)
    }

    fn parse(bytes: &[u8], at: u64) -> Option<Self> {
        let version = *bytes.get(8)?;
        let layout = layout(version);
        let byte = |place: usize| bytes.get(place).copied();
        let sizes = layout
            .as_ref()
            .and_then(|l| Some((byte(l.sizes)?, byte(l.sizes + 1)?)));
        let flags = layout.as_ref().and_then(|l| byte(l.flags?));
        Some(Superblock {
            at,
            version,
            sizes,
            base: layout.and_then(|l| field(bytes, l.base, sizes?.0)),
            open_for_writing: flags.is_some_and(|flags| flags & 1 != 0),
        })
    }
}

#[cfg(test)]
mod tests {
    use super::*;

    /// A file with a superblock of this version behind a user block; the base address field has this width.
    fn file(version: u8, at: usize, width: u8, base: u64) -> Vec<u8> {
        let mut file = vec![0x55; at + 96];
        file[at..at + 8].copy_from_slice(Superblock::SIGNATURE);
        file[at + 8] = version;
        let (sizes, base_at) = match version {
            0 => (13, 24),
            1 => (13, 28),
            _ => (9, 12),
        };
        file[at + sizes] = width;
        file[at + sizes + 1] = 4;
        file[at + 11] = 0;
        let field = at + base_at;
        file[field..field + usize::from(width)]
            .copy_from_slice(&base.to_le_bytes()[..width.into()]);
        file
    }

    #[test]
    fn every_version_at_every_place() {
        for version in 0..=3 {
            for at in [0, 512, 1024, 2048, 4096] {
                for (width, base) in [(2, 512), (4, 70_000), (8, 1 << 40)] {
                    let found = Superblock::find(&file(version, at, width, base));
                    let due = Superblock {
                        at: at as u64,
                        version,
                        sizes: Some((width, 4)),
                        base: Some(base),
                        open_for_writing: false,
                    };
                    assert_eq!(found, Some(due));
                    let base_at = if version < 2 {
                        24 + 4 * u64::from(version)
                    } else {
                        12
                    };
                    assert_eq!(due.base_at(), Some(base_at));
                }
            }
        }
    }

    #[test]
    fn a_heap_is_in_the_file_from_the_superblock_on() {
        let bytes = file(3, 512, 4, 512);
        let superblock = Superblock::find(&bytes).unwrap();
        let heap = superblock.heap(&bytes, 48).unwrap();
        assert_eq!(
            (
                heap.file,
                heap.header_at,
                heap.offset_size,
                heap.length_size
            ),
            (&bytes[512..], 48, 4, 4)
        );
        assert!(superblock.heap(&bytes[..511], 48).is_none());
        let unknown = Superblock::find(&file(9, 512, 8, 512)).unwrap();
        assert!(unknown.heap(&bytes, 48).is_none());
    }

    #[test]
    fn only_versions_2_and_3_are_marked_as_open_for_writing() {
        for (version, due) in [(0, false), (1, false), (2, true), (3, true)] {
            let mut bytes = file(version, 512, 8, 512);
            bytes[512 + 11] = 5;
            let found = Superblock::find(&bytes).unwrap();
            assert_eq!(found.open_for_writing, due, "{version}");
        }
    }

    #[test]
    fn no_superblock_at_another_place() {
        assert_eq!(Superblock::find(&file(0, 1536, 8, 0)), None);
        assert_eq!(Superblock::find(&file(0, 256, 8, 0)), None);
        assert_eq!(Superblock::find(b""), None);
        assert_eq!(Superblock::find(Superblock::SIGNATURE), None);
    }

    #[test]
    fn what_is_not_known_is_none() {
        let unknown = Superblock::find(&file(9, 512, 8, 512)).unwrap();
        assert_eq!((unknown.at, unknown.sizes, unknown.base), (512, None, None));
        assert_eq!(unknown.base_at(), None);
        let cut = &file(2, 0, 8, 0)[..14];
        let cut = Superblock::find(cut).unwrap();
        assert_eq!((cut.sizes, cut.base), (Some((8, 4)), None));
        let odd = Superblock::find(&file(0, 0, 3, 0)).unwrap();
        assert_eq!((odd.sizes, odd.base), (Some((3, 4)), None));
    }
}
