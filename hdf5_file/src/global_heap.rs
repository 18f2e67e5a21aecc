//! Values of variable length: III.E, 'Global Heap', version 1.
use crate::Unreadable;
use crate::cursor::{Bytes, Cursor};

const WHAT: &str = "collection of the global heap";

/// A structure of a collection takes a multiple of eight bytes.
const UNIT: u64 = 8;

/// Bytes of the place of a value: of its length, of a collection's address, of an object's number in it.
pub fn place_size(bytes: &Bytes) -> u64 {
    4 + u64::from(bytes.offset_size) + 4
}

/// The value whose place this is. One of no bytes is in no collection. There is no checksum.
pub fn value<'f>(bytes: &Bytes<'f>, mut place: Cursor) -> Result<&'f [u8], Unreadable> {
    let (length, collection) = (place.number(4)?, place.address()?);
    let index = place.number(4)?;
    if length == 0 {
        return Ok(&[]);
    }
    let why = "the place of a value has no address";
    let none = Unreadable::Contradicts { what: WHAT, why };
    let (object, at) = object(bytes, collection.ok_or(none)?, index)?;
    let mut object = bytes.over("object of the global heap", at, object);
    object.take(length)
}

/// The object of a number in the collection at an address, and where it begins. Number 0 is the free space behind them.
fn object<'f>(bytes: &Bytes<'f>, at: u64, index: u64) -> Result<(&'f [u8], u64), Unreadable> {
    let whole = bytes.at(WHAT, at)?;
    let mut head = whole.clone();
    head.signature(b"GCOL")?;
    head.version("version of a collection of the global heap", &[1])?;
    head.take(3)?; // reserved
    let size = head.length()?;
    let mut rest = whole.clone();
    rest.rest = rest.take(size)?;
    let length_size = u64::from(bytes.length_size);
    rest.take((8 + length_size).next_multiple_of(UNIT))?;
    let head_length = (2 + 2 + 4 + length_size).next_multiple_of(UNIT);
    while rest.rest.len() as u64 >= head_length {
        let mut head = rest.clone();
        let number = head.number(2)?;
        head.take(2 + 4)?; // how often it is referred to; reserved
        let length = head.length()?;
        rest.take(head_length)?;
        let place = at + (size - rest.rest.len() as u64);
        match number {
            0 => break,
            _ if number == index => return Ok((rest.take(length)?, place)),
            _ => rest.take(length.checked_next_multiple_of(UNIT).unwrap_or(u64::MAX))?,
        };
    }
    Err(Unreadable::Contradicts {
        what: WHAT,
        why: "it has no object of the number that a value has",
    })
}

#[cfg(test)]
mod tests {
    use super::*;

    /// A collection at 8 with these objects, at a length size of 4; where a value of variable length has its place.
    fn file(objects: &[(u16, &[u8])]) -> Vec<u8> {
        let mut body = vec![];
        for (number, data) in objects {
            body.extend(number.to_le_bytes());
            body.extend([1, 0, 0, 0, 0, 0]);
            body.extend((data.len() as u32).to_le_bytes());
            body.extend([0; 4]);
            body.extend(*data);
            body.resize(body.len().next_multiple_of(8), 0);
        }
        let mut bytes = vec![0; 8];
        bytes.extend(b"GCOL\x01\0\0\0");
        bytes.extend((16 + body.len() as u32).to_le_bytes());
        bytes.extend([0; 4]);
        bytes.extend(body);
        bytes
    }

    fn read(file: &[u8], length: u32, index: u32) -> Result<&[u8], Unreadable> {
        let bytes = Bytes {
            all: file,
            offset_size: 2,
            length_size: 4,
        };
        let place = [&length.to_le_bytes()[..], &[8, 0], &index.to_le_bytes()].concat();
        value(&bytes, bytes.over("place", 0, &place))
    }

    #[test]
    fn an_object_is_found_by_its_number() {
        let file = file(&[(2, b"second"), (1, b"the first one"), (0, b"free")]);
        assert_eq!(read(&file, 13, 1), Ok(&b"the first one"[..]));
        assert_eq!(read(&file, 6, 2), Ok(&b"second"[..]));
        assert_eq!(read(&file, 3, 2), Ok(&b"sec"[..]));
        assert_eq!(read(&file, 0, 9), Ok(&b""[..]));
        assert!(read(&file, 7, 2).is_err(), "more than it has");
        for number in [0, 3, 0x1_0001] {
            assert!(read(&file, 1, number).is_err(), "{number}");
        }
    }

    #[test]
    fn what_is_cut_or_says_too_much_is_refused() {
        let whole = file(&[(1, b"the first one")]);
        for cut in 0..whole.len() {
            assert!(read(&whole[..cut], 13, 1).is_err(), "{cut}");
        }
        for (at, width) in [(16, 4), (32, 4), (8, 1), (12, 1)] {
            let mut file = whole.clone();
            file[at..at + width].fill(0xFF);
            assert!(read(&file, 13, 1).is_err(), "{at}");
        }
    }
}
