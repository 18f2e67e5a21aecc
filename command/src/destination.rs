//! Where the image of a heap, or the file around it, goes.
use crate::failure::Failure;
use crate::image::{Image, Layout};
use crate::inputs::{self, Identity};
use crate::joined::{self, Joined};
use crate::locks::Patience;
use crate::output::Output;
use crate::signals;
use std::env;
use std::io;
use std::path::Path;

/// Where the image goes.
pub enum Destination {
    Nowhere,
    Standard,
    File(Box<Output>),
}

impl Destination {
    /// Begins the file of this name, before anything is taken in; an input is never the output. A program that has open
    /// for writing what is to be replaced is waited for as long as patience lasts.
    pub fn named(
        name: &Path,
        force: bool,
        patience: Option<Patience>,
        is_input: impl Fn(Identity) -> bool,
    ) -> Result<Self, Failure> {
        match inputs::is_standard(name.as_os_str()) {
            true => Ok(Destination::Standard),
            false => {
                let output = Output::begin_patiently(name, force, patience, is_input)?;
                Ok(Destination::File(Box::new(output)))
            }
        }
    }

    /// For the objects, which are many only where the image is kept: what is only tried leaves the disks alone.
    pub fn joined(&self) -> Joined {
        match self {
            Destination::Nowhere => Joined::in_memory(),
            Destination::Standard => Joined::in_folder(&env::temp_dir()),
            Destination::File(output) => Joined::in_folder(output.folder()),
        }
    }

    /// Why the image cannot be where it is to be.
    pub fn no_image(&self, error: io::Error) -> Failure {
        match self {
            Destination::File(output) => output.unwritten(error),
            _ => joined::no_file(&env::temp_dir(), error),
        }
    }

    /// The image, beside objects of so many bytes: in the file, from which it is read back, or where there is none in
    /// memory. One that is only handed on is in a file without a name where it is large, together with the objects.
    pub fn image(&self, layout: &Layout, objects: u64) -> Result<Image, Failure> {
        match self {
            Destination::Nowhere => return layout.in_memory(),
            Destination::Standard
                if layout.size.saturating_add(objects) <= joined::MOST_IN_MEMORY =>
            {
                return layout.in_memory();
            }
            _ => {}
        }
        let no_image = |error| self.no_image(error);
        signals::set_mapped(&no_image(io::Error::other(DISK_FAILED)));
        let image = match self {
            Destination::File(output) => layout.in_file(output.file(), objects),
            _ => joined::unnamed(&env::temp_dir()).and_then(|file| layout.in_file(&file, objects)),
        };
        image.map_err(no_image)
    }
}

/// Why the bytes of a mapped file of our own cannot be put or had.
const DISK_FAILED: &str = "its disk is full, or failed";
