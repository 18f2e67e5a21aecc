//! What was found in a file goes out: printed, put into one file, or each part into a file of its own.
use crate::dump::dump;
use crate::failure::Failure;
use crate::inputs::{self, Identity};
use crate::output::{self, Output};
use crate::progress::Progress;
use crate::streams;
use std::ffi::{OsStr, OsString};
use std::io::{self, Write};
use std::path::Path;

/// Bytes that are printed at once. They are copied first, since the system is not handed what a file's memory has: of bytes
/// that nobody had looked at it would return an error, where the copy has them read.
const STRIDE: usize = 1 << 16;

/// How parts of a file are given out.
pub struct Giving<'a> {
    pub name: &'a OsStr,
    /// A list that was read, too, if there is one.
    pub list: Option<&'a OsStr>,
    /// As a dump.
    pub hex: bool,
    /// Over files that are there.
    pub force: bool,
}

impl Giving<'_> {
    /// Puts bytes, part by part.
    fn put(
        &self,
        bytes: &[u8],
        to: &mut impl Write,
        failed: impl Fn(io::Error) -> Failure,
    ) -> Result<(), Failure> {
        let mut copy = Vec::with_capacity(STRIDE.min(bytes.len()));
        for (i, part) in bytes.chunks(STRIDE).enumerate() {
            copy.clear();
            match self.hex {
                true => copy.extend(dump(part, i * STRIDE).bytes()),
                false => copy.extend_from_slice(part),
            }
            to.write_all(&copy).map_err(&failed)?;
        }
        Ok(())
    }

    fn is_input(&self, file: Identity) -> bool {
        inputs::is_among(file, self.list.into_iter().chain([self.name]))
    }

    /// Puts parts into a file that has no name yet.
    fn fill(&self, output: &Output, parts: &[&[u8]]) -> Result<(), Failure> {
        for bytes in parts {
            self.put(bytes, &mut output.file(), |error| output.unwritten(error))?;
        }
        Ok(())
    }

    /// Puts parts into one file.
    pub fn keep(&self, name: &Path, parts: &[&[u8]]) -> Result<(), Failure> {
        let output = Output::begin(name, self.force, |file| self.is_input(file))?;
        self.fill(&output, parts)?;
        output.finish(|file| self.is_input(file)).map(|_| ())
    }

    /// Puts each part into a file of its own, of a name that no other has. All names are looked at before the first is
    /// written.
    pub fn keep_each(&self, folder: &Path, parts: &[(OsString, &[u8])]) -> Result<(), Failure> {
        output::make_folder(folder)?;
        for (name, _) in parts {
            let is_input = |file| self.is_input(file);
            output::may_go(&folder.join(name), self.force, is_input)?;
        }
        let mut progress = Progress::new("writing the files", parts.len() as u64);
        let kept = parts.iter().try_for_each(|(name, bytes)| {
            let is_input = |file| self.is_input(file);
            let output = Output::begin_in_folder(&folder.join(name), self.force, is_input)?;
            self.fill(&output, &[bytes])?;
            output.give_name(|file| self.is_input(file))?;
            progress.step();
            Ok(())
        });
        output::sync_folder(folder);
        kept
    }

    /// Prints parts.
    pub fn print(&self, parts: &[&[u8]]) -> Result<(), Failure> {
        let failed = |error| Failure::printing(&error);
        streams::check_output().map_err(failed)?;
        let mut out = io::stdout().lock();
        for bytes in parts {
            self.put(bytes, &mut out, failed)?;
        }
        out.flush().map_err(failed)
    }
}
