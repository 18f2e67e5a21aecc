//! Bytes that are joined piece by piece: in memory or, where they become many, in a file without a name.
use crate::failure::Failure;
use crate::inputs::Bytes;
use crate::memory;
use crate::quoting::shown;
use crate::signals;
use memmap2::Mmap;
use std::fs::File;
use std::io::{self, Write};
use std::path::{Path, PathBuf};

/// No more is kept in memory where a folder is named.
pub const MOST_IN_MEMORY: u64 = 256_000_000;

/// Room that is asked for at once: little beside what is there, so that little is asked for in vain. The system moves
/// large pieces without copying them.
fn step(there: usize) -> usize {
    (there / 32).max(1 << 16)
}

pub struct Joined {
    /// Where a file may be; none where all stays in memory.
    folder: Option<PathBuf>,
    memory: Vec<u8>,
    file: Option<File>,
    size: u64,
    most: u64,
}

impl Joined {
    pub fn in_memory() -> Self {
        Joined {
            folder: None,
            memory: Vec::new(),
            file: None,
            size: 0,
            most: MOST_IN_MEMORY,
        }
    }

    /// In memory while they are few, else in a file in this folder.
    pub fn in_folder(folder: &Path) -> Self {
        Joined {
            folder: Some(folder.into()),
            ..Joined::in_memory()
        }
    }

    pub fn size(&self) -> u64 {
        self.size
    }

    /// Asks for room for so many bytes at once, where they are to be in memory. What is not given now is asked for as the
    /// bytes come.
    pub fn expect(&mut self, bytes: u64) {
        let fits = self.folder.is_none() || bytes <= self.most;
        if let (true, Ok(bytes)) = (fits, usize::try_from(bytes))
            && memory::reserve(&mut self.memory, memory::in_whole_pages_of_list(bytes)).is_ok()
        {
            memory::in_large_pages(self.memory.spare_capacity_mut());
        }
    }

    pub fn add(&mut self, bytes: &[u8]) -> Result<(), Failure> {
        self.size += bytes.len() as u64;
        if let (true, None, Some(folder)) = (self.size > self.most, &self.file, &self.folder) {
            let file = begun(folder, &self.memory).map_err(|error| no_file(folder, error))?;
            self.file = Some(file);
            self.memory = Vec::new();
        }
        if let (Some(file), Some(folder)) = (&mut self.file, &self.folder) {
            return file
                .write_all(bytes)
                .map_err(|error| no_file(folder, error));
        }
        if self.memory.capacity() - self.memory.len() < bytes.len() {
            let more = bytes.len().max(step(self.memory.len()));
            memory::reserve(&mut self.memory, more)?;
        }
        self.memory.extend_from_slice(bytes);
        Ok(())
    }

    /// All of them, one after another.
    pub fn finish(self) -> Result<Bytes, Failure> {
        let (Some(file), Some(folder)) = (&self.file, &self.folder) else {
            return Ok(Bytes::Read(self.memory));
        };
        signals::set_mapped(&no_file(folder, io::Error::other("its disk failed")));
        // SAFETY: the file has no name and is written no more.
        let map = unsafe { Mmap::map(file) };
        map.map(Bytes::Memory)
            .map_err(|error| no_file(folder, error))
    }
}

/// A file without a name, with these bytes.
fn begun(folder: &Path, bytes: &[u8]) -> io::Result<File> {
    let mut file = unnamed(folder)?;
    file.write_all(bytes)?;
    Ok(file)
}

/// A file without a name. Where a file system has none, it has one for a moment.
pub fn unnamed(folder: &Path) -> io::Result<File> {
    signals::uninterrupted(|| tempfile::tempfile_in(folder))
}

/// Why a file without a name cannot be used.
pub fn no_file(folder: &Path, error: io::Error) -> Failure {
    Failure::Use(format!(
        "what does not fit into memory cannot be put into a file in {}: {error}",
        shown(folder)
    ))
}

#[cfg(test)]
mod tests {
    use super::*;

    #[test]
    fn in_memory_and_in_a_file() {
        let folder = tempfile::tempdir().unwrap();
        for most in [0, 7, 8, 9, 1000, MOST_IN_MEMORY] {
            let mut joined = Joined::in_folder(folder.path());
            joined.most = most;
            let mut due = Vec::new();
            for piece in 0..200 {
                let piece = vec![piece; piece as usize * 3];
                joined.add(&piece).unwrap();
                due.extend(piece);
            }
            assert_eq!(joined.file.is_some(), most < due.len() as u64);
            assert_eq!(joined.size(), due.len() as u64);
            assert_eq!(&*joined.finish().unwrap(), due);
            assert_eq!(std::fs::read_dir(folder.path()).unwrap().count(), 0);
        }
    }

    #[test]
    fn little_room_is_asked_for_in_vain() {
        let mut joined = Joined::in_memory();
        for _ in 0..1000 {
            joined.add(&[7; 65_514]).unwrap();
        }
        let (room, size) = (joined.memory.capacity(), joined.memory.len());
        assert!(room <= size + step(size), "{room} for {size}");
    }
}
