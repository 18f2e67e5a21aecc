//! HDF5's messages, which are the objects of the heaps of an HDF5 file: whether bytes begin as one does. HDF5 File
//! Format Specification, IV.A.2.m.

/// Whether these bytes are those of an attribute's message: a version, flags or zero, and the sizes of name, type and
/// space, which stand behind them, each in two bytes. Version 3 has a character set before the name; version 1 pads the
/// three to eight bytes.
pub fn is_attribute(bytes: &[u8]) -> bool {
    let &[version, flags, n0, n1, t0, t1, s0, s1, ..] = bytes else {
        return false;
    };
    let sizes = [[n0, n1], [t0, t1], [s0, s1]].map(|size| usize::from(u16::from_le_bytes(size)));
    let [name, kind, space] = sizes;
    let (head, unit, most_flags) = match version {
        1 => (8, 8, 0),
        2 => (8, 1, 3),
        3 => (9, 1, 3),
        _ => return false,
    };
    let end = sizes
        .iter()
        .fold(head, |end, size: &usize| end + size.next_multiple_of(unit));
    let ends_with_zero = name > 0 && bytes.get(head + name - 1) == Some(&0);
    flags <= most_flags && ends_with_zero && kind > 0 && space > 0 && end <= bytes.len()
}

#[cfg(test)]
mod tests {
    use super::*;

    /// An attribute by the format: a name, a string of 28 bytes, one of them.
    fn attribute(version: u8, name: &[u8]) -> Vec<u8> {
        let mut bytes = vec![version, 0, name.len() as u8, 0, 8, 0, 4, 0];
        let unit = if version == 1 { 8 } else { 1 };
        if version == 3 {
            bytes.push(0);
        }
        for part in [name, &[0x13, 0, 0, 0, 28, 0, 0, 0], &[2, 0, 0, 0]] {
            let end = bytes.len() + part.len().next_multiple_of(unit);
            bytes.extend(part);
            bytes.resize(end, 0);
        }
        bytes.extend(b"gauge 7 was replaced at noon");
        bytes
    }

    #[test]
    fn attributes_of_every_version() {
        for version in 1..=3 {
            let whole = attribute(version, b"note\0");
            assert!(is_attribute(&whole), "{version}");
            assert!(!is_attribute(&whole[1..]), "{version}");
            assert!(!is_attribute(&whole[..20]), "{version}");
            assert!(!is_attribute(&attribute(version, b"note!")), "{version}");
        }
    }

    #[test]
    fn what_is_none() {
        for bytes in [
            &b""[..],
            b"gauge 7 was replaced at noon",
            &[0; 40],
            &[1; 40],
            &attribute(0, b"note\0"),
            &attribute(4, b"note\0"),
            &attribute(3, b""),
        ] {
            assert!(!is_attribute(bytes), "{bytes:?}");
        }
    }
}
