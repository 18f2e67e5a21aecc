//! Bytes in hexadecimal, for a person.
use crate::id::hex;

/// Lines of sixteen bytes: their position, of which that of the first is told, in hexadecimal, as text.
pub fn dump(bytes: &[u8], first: usize) -> String {
    let mut text = String::new();
    for (i, line) in bytes.chunks(16).enumerate() {
        let plain = |&byte: &u8| match byte {
            b' '..=b'~' => char::from(byte),
            _ => '.',
        };
        let plain: String = line.iter().map(plain).collect();
        let hex = hex(line, " ");
        text += &format!("{:08X}  {hex:<47}  |{plain}|\n", first + 16 * i);
    }
    text
}

#[cfg(test)]
mod tests {
    use super::*;

    #[test]
    fn a_dump_counts_on_from_its_first_byte() {
        assert_eq!(
            dump(b"ABCDEFGHIJKLMNOP\x00\x7f", 1 << 16),
            "00010000  41 42 43 44 45 46 47 48 49 4A 4B 4C 4D 4E 4F 50  |ABCDEFGHIJKLMNOP|\n\
             00010010  00 7F                                            |..|\n"
        );
    }
}
