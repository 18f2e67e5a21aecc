//! What `poilures write` is measured by: reads files as it does, takes the checksum of each, and writes their bytes into one
//! file, one behind the other.
//!     hash_files [--sync] OUT <NAMES
//! Names on standard input are ended by zero bytes. With --sync the end waits until all bytes are on the disk.
use std::ffi::OsStr;
use std::fs::{self, File};
use std::io::{self, Read, Write};
use std::os::unix::ffi::OsStrExt;

fn main() -> io::Result<()> {
    let mut words: Vec<_> = std::env::args_os().skip(1).collect();
    let synced = words.first().is_some_and(|word| word == "--sync");
    if synced {
        words.remove(0);
    }
    let [out] = &words[..] else {
        return Err(io::Error::other("usage: hash_files [--sync] OUT <NAMES"));
    };
    let mut names = Vec::new();
    io::stdin().read_to_end(&mut names)?;
    let mut file = File::create(out)?;
    let mut sums = 0;
    for name in names
        .split(|&byte| byte == 0)
        .filter(|name| !name.is_empty())
    {
        let bytes = fs::read(OsStr::from_bytes(name))?;
        sums ^= fractal_heap::checksum(&bytes);
        file.write_all(&bytes)?;
    }
    if synced {
        file.sync_all()?;
    }
    println!("{sums:08X}");
    Ok(())
}
