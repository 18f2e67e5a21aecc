//! An attribute's message that is read: IV.A.2.m, versions 1 to 3, with IV.A.2.b and d.
use crate::cursor::{Bytes, Cursor};
use crate::fixed_text::VariableText;
use crate::{Uncovered, Unreadable, global_heap};

const WHAT: &str = "attribute's message";

/// An attribute.
#[derive(Debug, Clone, PartialEq, Eq)]
pub struct Attribute<'f> {
    /// Its name, without the zero byte behind it; of files of other programs it may be no UTF-8.
    pub name: &'f [u8],
    /// Its value's bytes as they lie in the file, or why there are none to give.
    pub value: Result<&'f [u8], Unreadable>,
    /// Its message up to the end of its value, where that lies in it, also where its bytes are not given: another file of
    /// the same two sizes can have it as it is.
    pub message: Option<&'f [u8]>,
    /// Of one string of variable length that is there, how it can be one of fixed length.
    pub variable_text: Option<VariableText<'f>>,
    /// Where its value lies if no checksum covers every byte of that.
    pub uncovered: Option<Uncovered>,
}

impl Attribute<'_> {
    /// The same, of a message that lies where no checksum covers it, if so.
    pub(crate) fn with_uncovered(self, uncovered: Option<Uncovered>) -> Self {
        let uncovered = uncovered.or(self.uncovered);
        Attribute { uncovered, ..self }
    }
}

/// The attribute that a message is.
pub fn attribute<'f>(bytes: &Bytes<'f>, message: &'f [u8]) -> Result<Attribute<'f>, Unreadable> {
    let mut at = bytes.over(WHAT, 0, message);
    let version = at.version("version of an attribute's message", &[1, 2, 3])?;
    let flags = at.byte()?;
    let [name, datatype, dataspace] = [at.number(2)?, at.number(2)?, at.number(2)?];
    at.take(u64::from(version == 3))?; // the name's character set
    let mut part = |length: u64| {
        let start = at.clone();
        let part = at.take(length)?;
        let padding = if version == 1 {
            length.next_multiple_of(8) - length
        } else {
            0
        };
        at.take(padding)?;
        let padded = &start.rest[..start.rest.len() - at.rest.len()];
        Ok((part, padded))
    };
    let name = name_of(part(name)?.0)?;
    let (datatype, padded_datatype) = part(datatype)?;
    let (dataspace, padded_dataspace) = part(dataspace)?;
    let value_at = message.len() - at.rest.len();
    let datatype_at = value_at - padded_dataspace.len() - padded_datatype.len();
    let shape = Shape::of(
        version,
        flags,
        bytes.over("datatype", 0, datatype),
        bytes.over("dataspace", 0, dataspace),
    );
    let is_elsewhere = matches!(shape, Ok(Shape::Elsewhere));
    let (value, is_in_message) = match shape {
        Ok(Shape::Bytes(size)) => {
            let value = at.take(size);
            (value, value.is_ok())
        }
        Ok(Shape::Other { size, why }) => {
            let is_there = at.take(size).is_ok();
            (Err(Unreadable::NotHere { why }), is_there)
        }
        Ok(Shape::Elsewhere) => (global_heap::value(bytes, at.clone()), false),
        Err(why) => (Err(why), false),
    };
    let end = message.len() - at.rest.len();
    let variable_text = value.ok().filter(|_| is_elsewhere);
    // A text of no bytes is not in the global heap: its message says all of it.
    let is_text_elsewhere = is_elsewhere && value != Ok(&[]);
    Ok(Attribute {
        name,
        message: is_in_message.then_some(&message[..end]),
        variable_text: variable_text.map(|text| VariableText {
            head: &message[..datatype_at],
            datatype,
            dataspace: padded_dataspace,
            text,
        }),
        value,
        uncovered: is_text_elsewhere.then_some(Uncovered::GlobalHeap),
    })
}

/// A name as it is stored, with its one zero byte at the end.
fn name_of(stored: &[u8]) -> Result<&[u8], Unreadable> {
    match stored.split_last() {
        Some((0, name)) if !name.contains(&0) => Ok(name),
        _ => Err(Unreadable::Contradicts {
            what: WHAT,
            why: "its name does not end with its one zero byte",
        }),
    }
}

/// How a value lies in its message.
enum Shape {
    /// It is the next bytes, as many.
    Bytes(u64),
    /// So it is, but of a type whose bytes are not given.
    Other { size: u64, why: &'static str },
    /// The next bytes are the place of one string of variable length.
    Elsewhere,
}

/// What one element of a type is.
enum Element {
    /// So many bytes of the value.
    Bytes(u64),
    /// As many, which are not given.
    Other { size: u64, why: &'static str },
    /// The place of a string of variable length.
    String,
}

impl Shape {
    fn of(version: u8, flags: u8, datatype: Cursor, dataspace: Cursor) -> Result<Self, Unreadable> {
        let not_here = |why| Err(Unreadable::NotHere { why });
        // Version 1 has no flags.
        match flags & if version == 1 { 0 } else { 3 } {
            0 => {}
            1 => return not_here("its type is shared with other objects"),
            _ => return not_here("its space is shared with other objects"),
        }
        let (element, elements) = (element(datatype)?, elements(dataspace)?);
        let bytes = |size: u64| {
            let (what, why) = ("dataspace", "the value has more than 2^64 - 1 bytes");
            let bytes = elements.checked_mul(size);
            bytes.ok_or(Unreadable::Contradicts { what, why })
        };
        match (element, elements) {
            (Element::Bytes(size), _) => bytes(size).map(Shape::Bytes),
            (Element::Other { size, why }, _) => {
                let size = bytes(size)?;
                Ok(Shape::Other { size, why })
            }
            (Element::String, 0) => Ok(Shape::Bytes(0)),
            (Element::String, 1) => Ok(Shape::Elsewhere),
            (Element::String, _) => not_here("it is a list of strings of variable length"),
        }
    }
}

/// 'Datatype Message': whether the bytes of an element are the value's, and how many there are.
fn element(mut at: Cursor) -> Result<Element, Unreadable> {
    let class = at.byte()?;
    let bits = at.number(3)?;
    let size = at.number(4)?;
    match class >> 4 {
        1..=4 => {} // 4 has other references than 3, and nothing else
        number => {
            let what = "version of a datatype";
            return Err(Unreadable::Unknown {
                what,
                number: number.into(),
            });
        }
    }
    let string = 1;
    let why = match class & 0xF {
        0 | 1 | 3 => return Ok(Element::Bytes(size)), // fixed-point, floating-point, string
        9 if bits & 0xF == string && size == global_heap::place_size(&at.bytes) => {
            return Ok(Element::String);
        }
        9 => "it has elements of variable length that are no strings",
        6 => "it is a compound of several values",
        7 => "it is a reference to another object",
        // Times, bits, opaque bytes and enumerations, a truth value among them, are all there.
        2 | 4 | 5 | 8 => {
            let why = "its type is none of numbers and strings";
            return Ok(Element::Other { size, why });
        }
        _ => "its type is none of numbers and strings",
    };
    Err(Unreadable::NotHere { why })
}

/// The number of elements. 'Dataspace Message', versions 1 and 2; largest sizes behind the sizes say nothing of it.
fn elements(mut at: Cursor) -> Result<u64, Unreadable> {
    let version = at.version("version of a dataspace", &[1, 2])?;
    let rank = at.byte()?;
    at.byte()?; // flags
    let kind = at.byte()?;
    // Version 1 knows no kinds: without dimensions there is one element. Five bytes are reserved, the first by now.
    at.take(if version == 1 { 4 } else { 0 })?;
    match (version, kind) {
        (1, _) | (2, 0 | 1) => {}
        (_, 2) => return Ok(0),
        (_, number) => {
            let what = "kind of a dataspace";
            return Err(Unreadable::Unknown {
                what,
                number: number.into(),
            });
        }
    }
    let mut product = 1u64;
    for _ in 0..rank {
        let size = at.length()?;
        product = product.checked_mul(size).ok_or(Unreadable::Contradicts {
            what: "dataspace",
            why: "it has more than 2^64 - 1 elements",
        })?;
    }
    Ok(product)
}

#[cfg(test)]
mod tests {
    use super::*;
    use crate::{Kind, message_head};

    const BYTES: Bytes = Bytes {
        all: &[],
        offset_size: 8,
        length_size: 8,
    };

    #[test]
    fn what_is_written_is_read() {
        for (kind, value) in [
            (Kind::Bytes, &b""[..]),
            (Kind::Bytes, b"a\0b"),
            (Kind::Text, b"text"),
        ] {
            let mut message = message_head("größe", kind, value.len() as u64).unwrap();
            message.extend(value);
            let read = attribute(&BYTES, &message).unwrap();
            assert_eq!(read.name, "größe".as_bytes());
            assert_eq!(read.value, Ok(value));
            for cut in 0..message.len() {
                let read = attribute(&BYTES, &message[..cut]);
                assert!(read.is_err() || read.unwrap().value.is_err(), "{cut}");
            }
        }
    }

    /// A message of version 1, with its three parts padded to eight bytes.
    fn old(name: &[u8], datatype: &[u8], dataspace: &[u8], data: &[u8]) -> Vec<u8> {
        let mut bytes = vec![1, 0];
        for part in [name, datatype, dataspace] {
            bytes.extend((part.len() as u16).to_le_bytes());
        }
        for part in [name, datatype, dataspace] {
            bytes.extend(part);
            bytes.resize(bytes.len().next_multiple_of(8), 0);
        }
        bytes.extend(data);
        bytes
    }

    #[test]
    fn version_1_is_padded() {
        let float = b"\x11\x20\x3F\0\x08\0\0\0\0\0\x40\0\x34\x0B\0\x34\xFF\x03\0\0";
        let (scalar, three) = (
            &b"\x01\0\0\0\0\0\0\0"[..],
            &b"\x01\x01\0\0\0\0\0\0\x03\0\0\0\0\0\0\0"[..],
        );
        for (space, length) in [(scalar, 8), (three, 24)] {
            let data: Vec<u8> = (0..length).collect();
            let message = old(b"name\0", float, space, &data);
            let read = attribute(&BYTES, &message).unwrap();
            assert_eq!((read.name, read.value), (&b"name"[..], Ok(&data[..])));
        }
    }

    /// A message of this version with one string of variable length, and the collection that has its text at 0.
    fn variable(version: u8, bits: [u8; 3], space: &[u8], text: &[u8]) -> (Vec<u8>, Vec<u8>) {
        let size = (16 + 16 + text.len()).next_multiple_of(8) as u64;
        let mut file = [
            b"GCOL\x01\0\0\0",
            &size.to_le_bytes()[..],
            &[1, 0, 1, 0, 0, 0, 0, 0],
        ]
        .concat();
        file.extend((text.len() as u64).to_le_bytes());
        file.extend(text);
        file.resize(size as usize, 0);
        let mut datatype = vec![0x19, bits[0], bits[1], bits[2], 16, 0, 0, 0];
        datatype.extend(b"\x13\0\0\0\x01\0\0\0"); // its base, a string of one byte
        let place = [
            &(text.len() as u32).to_le_bytes()[..],
            &[0; 8],
            &[1, 0, 0, 0],
        ]
        .concat();
        let message = match version {
            1 => old(b"text\0", &datatype, space, &place),
            _ => [
                &[3, 0, 5, 0, 16, 0, space.len() as u8, 0, 1][..],
                b"text\0",
                &datatype,
                space,
                &place,
            ]
            .concat(),
        };
        (file, message)
    }

    // By the format: class 9 has the kind (1, a string) in bits 0 to 3, the padding in 4 to 7, the character set in 8 to
    // 11; class 3 the padding (1: with zeros) in bits 0 to 3, the character set in 4 to 7.
    #[test]
    fn a_text_of_variable_length_as_one_of_fixed_length() {
        let (scalar, one) = (&b"\x02\0\0\0"[..], &b"\x02\x01\0\x01\x01\0\0\0\0\0\0\0"[..]);
        for (bits, characters) in [
            ([0x01, 1, 0], 0x11),
            ([0x11, 0, 0], 0x01),
            ([0x21, 1, 0], 0x11),
        ] {
            for (space, text, due) in [
                (scalar, &b"AB"[..], &b"AB"[..]),
                (one, b"A ", b"A "),
                (scalar, b"", b"\0"),
            ] {
                let (file, message) = variable(3, bits, space, text);
                let bytes = Bytes {
                    all: &file,
                    ..BYTES
                };
                let read = attribute(&bytes, &message).unwrap();
                assert_eq!((read.value, read.message), (Ok(text), None));
                let mut whole = vec![3, 0, 5, 0, 8, 0, space.len() as u8, 0, 1];
                whole.extend(b"text\0");
                whole.extend([0x13, characters, 0, 0, due.len() as u8, 0, 0, 0]);
                whole.extend([space, due].concat());
                assert_eq!(read.variable_text.unwrap().fixed().unwrap(), whole);
                let read = attribute(&BYTES, &whole).unwrap();
                assert_eq!((read.value, read.message), (Ok(due), Some(&whole[..])));
                assert_eq!(read.variable_text, None, "it is none any more");
            }
        }
    }

    #[test]
    fn a_text_in_a_padded_message() {
        let space = b"\x01\0\0\0\0\0\0\0";
        let (file, message) = variable(1, [1, 1, 0], space, b"a text");
        let bytes = Bytes {
            all: &file,
            ..BYTES
        };
        let read = attribute(&bytes, &message).unwrap();
        let due = old(b"text\0", b"\x13\x11\0\0\x06\0\0\0", space, b"a text");
        assert_eq!(read.variable_text.unwrap().fixed().unwrap(), due);
    }

    #[test]
    fn what_is_no_text_that_is_there_stays() {
        let lists = [
            &b"\x02\x01\0\x01\x02\0\0\0\0\0\0\0"[..],
            b"\x02\x01\0\x01\0\0\0\0\0\0\0\0",
        ];
        for space in lists {
            let (file, message) = variable(3, [1, 1, 0], space, b"AB");
            let bytes = Bytes {
                all: &file,
                ..BYTES
            };
            assert_eq!(attribute(&bytes, &message).unwrap().variable_text, None);
        }
        let (_, message) = variable(3, [1, 1, 0], b"\x02\0\0\0", b"AB");
        let read = attribute(&BYTES, &message).unwrap();
        assert!(
            read.value.is_err() && read.variable_text.is_none(),
            "there is no collection"
        );
    }

    #[test]
    fn what_is_not_here_is_said() {
        let scalar = b"\x02\0\0\0";
        for class in [2, 4, 5, 6, 7, 8, 9, 10, 11] {
            let message = old(
                b"n\0",
                &[0x10 | class, 0, 0, 0, 16, 0, 0, 0],
                scalar,
                &[0; 16],
            );
            let read = attribute(&BYTES, &message).unwrap();
            assert!(
                matches!(read.value, Err(Unreadable::NotHere { .. })),
                "{class}"
            );
        }
        let whole = message_head("n", Kind::Bytes, 0).unwrap();
        for flags in [1, 2, 3] {
            let mut message = whole.clone();
            message[1] = flags;
            let read = attribute(&BYTES, &message).unwrap();
            assert!(
                matches!(read.value, Err(Unreadable::NotHere { .. })),
                "{flags}"
            );
        }
    }

    /// A string of variable length, of class 9, whose place is in the message: 4 bytes of its length, the address of a
    /// collection of the global heap, the number of an object in it.
    #[test]
    fn a_text_elsewhere_has_no_checksum_but_an_empty_one_is_here() {
        let mut all = vec![0; 8];
        all.extend(b"GCOL\x01\0\0\0");
        all.extend(40u64.to_le_bytes());
        all.extend([1, 0, 1, 0, 0, 0, 0, 0]);
        all.extend(4u64.to_le_bytes());
        all.extend(b"text\0\0\0\0");
        let bytes = Bytes { all: &all, ..BYTES };
        for (value, due) in [(&b"text"[..], Some(Uncovered::GlobalHeap)), (b"", None)] {
            let mut place = (value.len() as u32).to_le_bytes().to_vec();
            place.extend(8u64.to_le_bytes());
            place.extend(1u32.to_le_bytes());
            let kind = [0x19, 1, 0, 0, 16, 0, 0, 0];
            let message = old(b"n\0", &kind, b"\x02\0\0\0", &place);
            let read = attribute(&bytes, &message).unwrap();
            assert_eq!((read.value, read.uncovered), (Ok(value), due));
            let read = read.with_uncovered(Some(Uncovered::HugeObject));
            assert_eq!(read.uncovered, Some(Uncovered::HugeObject));
        }
    }

    #[test]
    fn sizes_past_every_number_are_refused() {
        let byte = &[0x10, 0, 0, 0, 255, 255, 255, 255, 0, 0, 8, 0][..];
        let sizes = [&[2, 2, 0, 1][..], &[0xFF; 16]].concat();
        for space in [&sizes[..], &[&[2, 1, 0, 1][..], &[0xFF; 8]].concat()] {
            let message = old(b"n\0", byte, space, &[]);
            let read = attribute(&BYTES, &message).unwrap().value;
            assert!(
                matches!(read, Err(Unreadable::Contradicts { .. })),
                "{read:?}"
            );
        }
    }

    #[test]
    fn a_name_has_one_zero_byte() {
        for name in [&b""[..], b"n", b"\0\0", b"a\0b\0"] {
            assert!(
                attribute(&BYTES, &old(name, b"", b"", b"")).is_err(),
                "{name:?}"
            );
        }
        assert!(attribute(&BYTES, &old(b"\0", b"", b"", b"")).is_ok());
    }
}
