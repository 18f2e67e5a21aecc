//! Prints managed objects of a heap in an HDF5 file, which may have a user block. Of a damaged one it says at which block.
//!     read_file FILE ADDRESS ID...
//! ADDRESS is that of the heap's header, in decimal as HDF5's tools tell it; an ID is hexadecimal digits, two a byte.
use fractal_heap::{Error::Refused, Heap, Superblock};
use std::error::Error;
use std::io::Write;
use std::process::ExitCode;
use std::{env, fs, io};

fn id_of(digits: &str) -> Result<Vec<u8>, Box<dyn Error>> {
    if digits.len() % 2 != 0 || !digits.bytes().all(|digit| digit.is_ascii_hexdigit()) {
        return Err(format!("{digits:?} has not two hexadecimal digits a byte").into());
    }
    let byte = |i| u8::from_str_radix(&digits[i..i + 2], 16);
    Ok((0..digits.len())
        .step_by(2)
        .map(byte)
        .collect::<Result<_, _>>()?)
}

/// An object's bytes, or why there are none, and at which block, if it is refused at one.
fn object<'f>(heap: &Heap<'f>, id: &[u8]) -> Result<&'f [u8], Box<dyn Error>> {
    // The blocks of a file that is as HDF5 wrote it have the heap's address.
    let error = match heap.read_managed_object(id, heap.header_at) {
        Ok(bytes) => return Ok(bytes),
        Err(error) => error,
    };
    match (error, heap.stopping_block(id, heap.header_at)) {
        (Refused(refusal), Ok(block)) => {
            let (address, offset) = (block.address, block.heap_offset);
            Err(format!("{refusal}; the block at address {address}, heap offset {offset}").into())
        }
        _ => Err(error.into()),
    }
}

fn print(words: &[String]) -> Result<(), Box<dyn Error>> {
    let [_, name, address, ids @ ..] = words else {
        return Err("read_file FILE ADDRESS ID...".into());
    };
    let file = fs::read(name)?;
    let superblock = Superblock::find(&file).ok_or("it is no HDF5 file")?;
    let address = address
        .parse()
        .map_err(|error| format!("the address {address:?}: {error}"))?;
    let heap = superblock
        .heap(&file, address)
        .ok_or("the superblock's version is not known here")?;
    let mut out = io::stdout().lock();
    for digits in ids {
        out.write_all(object(&heap, &id_of(digits)?)?)?;
    }
    // What is kept until the end may not arrive either, on a full disk say.
    Ok(out.flush()?)
}

fn main() -> ExitCode {
    let words: Vec<String> = env::args().collect();
    let Err(error) = print(&words) else {
        return ExitCode::SUCCESS;
    };
    eprintln!("read_file: {error}");
    ExitCode::FAILURE
}
