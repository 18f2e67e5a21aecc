//! An attribute: IV.A.2.m, 'Attribute Message (Version 3)', with its datatype, IV.A.2.d, and its dataspace,
//! IV.A.2.b.

/// What the bytes of a value are to HDF5.
#[derive(Debug, Clone, Copy, PartialEq, Eq)]
pub enum Kind {
    /// A list of unsigned bytes: any bytes, none too.
    Bytes,
    /// One string in UTF-8, of just these bytes.
    Text,
}

impl Kind {
    /// Text, where a string of HDF5 gives back just these bytes: it has one byte at least, and its readers take zero
    /// bytes for padding.
    pub fn of_text(bytes: &[u8]) -> Self {
        match !bytes.is_empty() && !bytes.contains(&0) && std::str::from_utf8(bytes).is_ok() {
            true => Kind::Text,
            false => Kind::Bytes,
        }
    }

    /// Bytes of the datatype and of the dataspace.
    fn sizes(self) -> [usize; 2] {
        match self {
            Kind::Bytes => [12, 12],
            Kind::Text => [8, 4],
        }
    }

    /// 'Datatype Message', version 1.
    fn put_datatype(self, length: u64, to: &mut Vec<u8>) -> Option<()> {
        match self {
            Kind::Bytes => {
                // Class 0, fixed-point: little-endian, without a sign; one byte, bits 0 to 7.
                // Size, first bit, bits: 4, 2 and 2 bytes.
                to.extend([0x10, 0, 0, 0, 1, 0, 0, 0, 0, 0, 8, 0]);
            }
            Kind::Text => {
                // Class 3, string: padded with zero bytes, of which it needs none; UTF-8.
                to.extend([0x13, 0x11, 0, 0]);
                to.extend(u32::try_from(length).ok()?.to_le_bytes());
            }
        }
        Some(())
    }

    /// 'Dataspace Message', version 2: without maximum sizes.
    fn put_dataspace(self, length: u64, to: &mut Vec<u8>) {
        match self {
            Kind::Bytes => {
                let (dimensions, flags, simple) = (1, 0, 1);
                to.extend([2, dimensions, flags, simple]);
                to.extend(length.to_le_bytes());
            }
            Kind::Text => {
                let (dimensions, flags, scalar) = (0, 0, 0);
                to.extend([2, dimensions, flags, scalar]);
            }
        }
    }
}

/// What stands before a value of so many bytes in its message; None where the name or the value is longer than the
/// message can say: a name has 65,534 bytes at most.
pub fn message_head(name: &str, kind: Kind, length: u64) -> Option<Vec<u8>> {
    let name_size = name.len() + 1;
    let [datatype_size, dataspace_size] = kind.sizes();
    let sizes = [name_size, datatype_size, dataspace_size];
    let (version, flags, utf8) = (3, 0, 1);
    let mut bytes = Vec::with_capacity(9 + sizes.iter().sum::<usize>());
    bytes.extend([version, flags]);
    for size in sizes {
        bytes.extend(u16::try_from(size).ok()?.to_le_bytes());
    }
    bytes.push(utf8);
    bytes.extend(name.as_bytes());
    bytes.push(0);
    kind.put_datatype(length, &mut bytes)?;
    kind.put_dataspace(length, &mut bytes);
    Some(bytes)
}

#[cfg(test)]
mod tests {
    use super::*;

    // By the format: 9 bytes, the name and its zero byte, the type, the space.
    #[test]
    fn a_message_of_bytes_and_one_of_text() {
        let due = b"\x03\0\x05\0\x0c\0\x0c\0\x01note\0\x10\0\0\0\x01\0\0\0\0\0\x08\0\x02\x01\0\x01\x07\0\0\0\0\0\0\0";
        assert_eq!(message_head("note", Kind::Bytes, 7).unwrap(), due);
        let due = b"\x03\0\x05\0\x08\0\x04\0\x01note\0\x13\x11\0\0\x07\0\0\0\x02\0\0\0";
        assert_eq!(message_head("note", Kind::Text, 7).unwrap(), due);
    }

    #[test]
    fn text_has_bytes_and_no_zero() {
        for (bytes, due) in [
            (&b"a text\n"[..], Kind::Text),
            ("größe".as_bytes(), Kind::Text),
            (b"", Kind::Bytes),
            (b"a\0", Kind::Bytes),
            (b"\0", Kind::Bytes),
            (b"\xff", Kind::Bytes),
        ] {
            assert_eq!(Kind::of_text(bytes), due, "{bytes:?}");
        }
    }

    #[test]
    fn a_name_has_a_longest_length() {
        let longest = "n".repeat(65_534);
        for kind in [Kind::Bytes, Kind::Text] {
            assert!(message_head(&longest, kind, 1).is_some());
            assert!(message_head(&format!("{longest}n"), kind, 1).is_none());
        }
        assert!(message_head("n", Kind::Text, 1 << 32).is_none());
    }
}
