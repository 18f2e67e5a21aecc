//! A file image: a heap's header and its region, each at its place, and nothing around them.
use crate::failure::Failure;
use crate::memory::{self, no_room};
use fractal_heap::{Header, Heap, Refusal, grouped};
use memmap2::{Mmap, MmapMut};
use std::fs::File;
use std::io;
use std::ops::Range;
use std::os::fd::AsRawFd;
use std::os::unix::fs::FileExt;

/// What begins a heap's header.
pub const SIGNATURE: &[u8] = b"FRHP";

/// The fixed geometry.
pub const STARTING: u64 = 1024;
pub const LARGEST_DIRECT: u64 = 65_536;
pub const WIDTH: u64 = 4;

/// Where a heap lies, and the two sizes of its file.
#[derive(Clone, Copy)]
pub struct Place {
    pub header_at: u64,
    pub region_at: u64,
    pub offset_size: u8,
    pub length_size: u8,
}

impl Place {
    /// The place of a region of so many bytes.
    pub fn region(&self, size: u64) -> Range<u64> {
        self.region_at..self.region_at.saturating_add(size)
    }

    /// A file with the heap's header at a position of it.
    pub fn heap<'f>(&self, file: &'f [u8], header_at: u64) -> Heap<'f> {
        Heap {
            file,
            header_at,
            offset_size: self.offset_size,
            length_size: self.length_size,
        }
    }
}

/// Bytes of a direct block before its body.
pub fn block_header(offset_size: u8) -> u64 {
    Header::direct_block_front(offset_size).into()
}

/// Bytes of the largest object: the body of a largest block.
pub fn largest_object(offset_size: u8) -> u64 {
    LARGEST_DIRECT - block_header(offset_size)
}

/// The bytes of a header, by the writer that is proved.
pub fn header_bytes(header: &Header, place: &Place) -> Result<Vec<u8>, Refusal> {
    let mut bytes = vec![0; Header::length(place.offset_size, place.length_size)];
    header.write(place.offset_size, place.length_size, &mut bytes)?;
    Ok(bytes)
}

/// As many bytes as an image may have together with those of the objects, to be put into its file at once: to write
/// into a file that is mapped takes longer, since the system has to take note of each page, but no memory.
const MOST_AT_ONCE: u64 = 64_000_000;

/// Bytes of an image beside the region: the header, and what may be around the heap.
pub struct Part {
    pub at: u64,
    pub bytes: Vec<u8>,
}

impl Part {
    fn range(&self) -> Range<u64> {
        self.at..self.at.saturating_add(self.bytes.len() as u64)
    }
}

/// Where the region of a written heap and all other parts lie in an image, and how large that is.
pub struct Layout {
    region: Range<u64>,
    parts: Vec<Range<u64>>,
    pub size: u64,
}

impl Layout {
    pub fn new(region: Range<u64>, parts: &[Part]) -> Result<Self, Failure> {
        let parts: Vec<_> = parts.iter().map(Part::range).collect();
        let size = size(&region, &parts)?;
        Ok(Layout {
            region,
            parts,
            size,
        })
    }

    /// An image in memory, of which only what is written takes room.
    pub fn in_memory(&self) -> Result<Image, Failure> {
        match MmapMut::map_anon(self.size as usize) {
            Ok(map) => Ok(self.image(map)),
            Err(_) => Err(no_room(self.size)),
        }
    }

    /// An image in a new file, which takes no room on the disk where nothing is written. The rest of the room is taken
    /// now: a disk that is full could say so by a signal alone when the bytes are put. The objects have so many bytes.
    pub fn in_file(&self, file: &File, objects: u64) -> io::Result<Image> {
        file.set_len(self.size)?;
        for part in self.parts.iter().chain([&self.region]) {
            take_room(file, part)?;
        }
        if self.size.saturating_add(objects) <= MOST_AT_ONCE
            && let Ok(image) = self.to_be_put(file)
        {
            return Ok(image);
        }
        // SAFETY: the file is new, nobody else writes into it, and what its disk does is met by the signal's handler.
        match unsafe { MmapMut::map_mut(file) } {
            Ok(map) => Ok(self.image(map)),
            Err(error) if maps_not(&error) => self.to_be_put(file),
            Err(error) => Err(error),
        }
    }

    /// An image in memory, which is put into the file when it is whole.
    fn to_be_put(&self, file: &File) -> io::Result<Image> {
        let mut map = MmapMut::map_anon(memory::in_whole_pages(self.size as usize))?;
        memory::in_large_pages(&mut map);
        Ok(Image {
            file: Some(file.try_clone()?),
            ..self.image(map)
        })
    }

    fn image(&self, map: MmapMut) -> Image {
        let part = |part: &Range<u64>| part.start as usize..part.end as usize;
        Image {
            file: None,
            map,
            region: part(&self.region),
            size: self.size as usize,
        }
    }
}

/// How a file system refuses to map a file, as some that are shared over a network do, most of them for writing.
fn maps_not(error: &io::Error) -> bool {
    matches!(error.raw_os_error(), Some(libc::ENODEV | libc::EINVAL))
}

/// Has the disk keep room for this part of a file.
fn take_room(file: &File, part: &Range<u64>) -> io::Result<()> {
    let (start, length) = (part.start as i64, (part.end - part.start) as i64);
    if length == 0 {
        return Ok(());
    }
    loop {
        // SAFETY: the call is about an open file, and no memory.
        match unsafe { libc::posix_fallocate64(file.as_raw_fd(), start, length) } {
            // Where a disk cannot promise it, the signal's handler has the word.
            0 | libc::EOPNOTSUPP => return Ok(()),
            libc::EINTR => {}
            error => return Err(io::Error::from_raw_os_error(error)),
        }
    }
}

/// An image that is being written: zeros but for its parts and its region.
pub struct Image {
    /// Where it is to be put, where it is not mapped from there.
    file: Option<File>,
    /// Where it is to be put into a file, there may be more than the image.
    map: MmapMut,
    region: Range<usize>,
    size: usize,
}

impl Image {
    /// The place of the region.
    pub fn region(&mut self) -> &mut [u8] {
        &mut self.map[self.region.clone()]
    }

    /// The image with these parts, those of its layout, whole; of one in a file, what that gives back where it can be
    /// mapped.
    pub fn finish(mut self, parts: &[Part]) -> io::Result<Mmap> {
        for part in parts {
            let at = part.at as usize;
            self.map[at..at + part.bytes.len()].copy_from_slice(&part.bytes);
        }
        let Some(file) = &self.file else {
            return self.map.make_read_only();
        };
        file.write_all_at(&self.map[self.region.clone()], self.region.start as u64)?;
        for part in parts {
            file.write_all_at(&part.bytes, part.at)?;
        }
        // SAFETY: nobody else writes into the file, and what its disk does is met by the signal's handler.
        match unsafe { Mmap::map(file) } {
            Err(error) if maps_not(&error) => {
                let mut whole = MmapMut::map_anon(self.size)?;
                whole.copy_from_slice(&self.map[..self.size]);
                whole.make_read_only()
            }
            mapped => mapped,
        }
    }
}

/// The size of the image. The header may be put anywhere but where the region is.
fn size(region: &Range<u64>, parts: &[Range<u64>]) -> Result<u64, Failure> {
    let overlaps = |part: &&Range<u64>| part.start < region.end && region.start < part.end;
    if let Some(header) = parts.iter().find(overlaps) {
        return Err(Failure::Use(format!(
            "the header, {} to {}, and the region, {} to {}, overlap",
            grouped(header.start),
            grouped(header.end),
            grouped(region.start),
            grouped(region.end)
        )));
    }
    let ends = parts.iter().chain([region]).map(|part| part.end);
    let size = ends.max().unwrap_or(0);
    if i64::try_from(size).is_err() {
        let size = grouped(size);
        return Err(Failure::Use(format!(
            "an image of {size} bytes is larger than a file can be"
        )));
    }
    Ok(size)
}

#[cfg(test)]
mod tests {
    use super::*;
    use std::fs;

    #[test]
    fn an_image_is_the_same_mapped_and_put_at_once() {
        let part = |at, bytes: &[u8]| Part {
            at,
            bytes: bytes.into(),
        };
        let parts = [part(3, b"front"), part(5_000_000, b"end")];
        let layout = Layout::new(100..3_000_100, &parts).unwrap();
        let mut due = vec![0; 5_000_003];
        due[3..8].copy_from_slice(b"front");
        due[100..3_000_100].fill(7);
        due[5_000_000..].copy_from_slice(b"end");
        for objects in [0, MOST_AT_ONCE] {
            let file = tempfile::NamedTempFile::new().unwrap();
            let mut image = layout.in_file(file.as_file(), objects).unwrap();
            assert_eq!(image.file.is_some(), objects == 0);
            image.region().fill(7);
            let whole = image.finish(&parts).unwrap();
            assert!(whole[..] == due, "beside {objects}");
            assert!(fs::read(file.path()).unwrap() == due, "beside {objects}");
        }
    }
}
