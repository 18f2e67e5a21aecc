//! Heap IDs as one word, to print and to take back; lists of them.
use serde_json::Value;
use std::fmt;
use std::str::FromStr;

/// A heap's ID: bytes, printed as pairs of hexadecimal digits with colons between.
#[derive(Clone, Debug, PartialEq, Eq, Hash)]
pub struct HeapId(Vec<u8>);

impl HeapId {
    pub fn new(bytes: &[u8]) -> Self {
        HeapId(bytes.to_vec())
    }

    pub fn bytes(&self) -> &[u8] {
        &self.0
    }

    /// Its bytes in the other order.
    pub fn reversed(&self) -> Self {
        HeapId(self.0.iter().rev().copied().collect())
    }

    /// Its digits alone, which any file system takes for a name.
    pub fn digits(&self) -> String {
        self.to_string().replace(':', "")
    }
}

/// Bytes as pairs of hexadecimal digits.
pub fn hex(bytes: &[u8], between: &str) -> String {
    const DIGITS: &[u8; 16] = b"0123456789ABCDEF";
    let mut text = String::with_capacity(bytes.len() * (2 + between.len()));
    for (i, &byte) in bytes.iter().enumerate() {
        if i > 0 {
            text += between;
        }
        for digit in [byte >> 4, byte & 0xF] {
            text.push(char::from(DIGITS[usize::from(digit)]));
        }
    }
    text
}

impl fmt::Display for HeapId {
    fn fmt(&self, f: &mut fmt::Formatter<'_>) -> fmt::Result {
        f.write_str(&hex(&self.0, ":"))
    }
}

/// Two digits a byte; colons or spaces may stand between bytes.
impl FromStr for HeapId {
    type Err = String;

    fn from_str(word: &str) -> Result<Self, String> {
        let mut bytes = Vec::new();
        for part in word.trim().split([':', ' ']) {
            let digit = |c: char| {
                let digit = c.to_digit(16);
                digit.ok_or_else(|| format!("an ID has hexadecimal digits, and {c:?} is none"))
            };
            let digits: Vec<u32> = part.chars().map(digit).collect::<Result<_, _>>()?;
            if digits.is_empty() || digits.len() % 2 != 0 {
                return Err(format!(
                    "an ID has two hexadecimal digits a byte, and here are {}",
                    digits.len()
                ));
            }
            bytes.extend(digits.chunks(2).map(|d| (d[0] << 4 | d[1]) as u8));
        }
        Ok(HeapId(bytes))
    }
}

/// The IDs in a list: one a line, as a word or as the `id` of a line of JSON. Empty lines are passed over.
pub fn listed(list: &[u8]) -> Result<Vec<HeapId>, String> {
    let mut ids = Vec::new();
    for (i, line) in list.split(|&byte| byte == b'\n').enumerate() {
        match line.trim_ascii() {
            b"" => {}
            line => ids.push(in_line(line).map_err(|why| format!("line {}: {why}", i + 1))?),
        }
    }
    Ok(ids)
}

fn in_line(line: &[u8]) -> Result<HeapId, String> {
    if !line.starts_with(b"{") {
        let word = std::str::from_utf8(line).map_err(|_| "it is no text")?;
        return word.parse();
    }
    let value: Result<Value, _> = serde_json::from_slice(line);
    let value = value.map_err(|why| format!("it is no JSON from column {} on", why.column()))?;
    let id = value.get("id").and_then(Value::as_str);
    id.ok_or("no id with an ID's digits is in it")?.parse()
}

#[cfg(test)]
mod tests {
    use super::*;

    #[test]
    fn what_is_printed_is_taken_back() {
        let id = HeapId::new(&[0, 0x16, 0x20, 0, 0, 0, 0xEB, 3]);
        assert_eq!(id.to_string(), "00:16:20:00:00:00:EB:03");
        assert_eq!(id.digits(), "001620000000EB03");
        for word in [
            "00:16:20:00:00:00:EB:03",
            "001620000000eb03",
            "00 16 20 00 00 00 EB 03",
            "0016:2000 0000:EB03",
        ] {
            assert_eq!(word.parse(), Ok(id.clone()), "{word}");
        }
    }

    #[test]
    fn what_is_no_id() {
        for word in [
            "", " ", ":", "0", "001", "0:01", "00:", "00::01", "0g", "00-01", "00  01",
        ] {
            assert!(word.parse::<HeapId>().is_err(), "{word:?}");
        }
    }

    #[test]
    fn a_list_has_words_or_lines_of_json() {
        let list = b"00:16\n\n 0020\r\n{\"name\":\"a\\nb\",\"id\":\"00:30\"}\n{\"id\": \"0040\"}";
        let due = [[0, 0x16], [0, 0x20], [0, 0x30], [0, 0x40]];
        assert_eq!(listed(list), Ok(due.map(|id| HeapId::new(&id)).to_vec()));
        assert_eq!(listed(b""), Ok(vec![]));
        assert_eq!(listed(b"\n"), Ok(vec![]));
    }

    #[test]
    fn a_list_says_which_line_is_wrong() {
        for line in [
            "x",
            "00:1",
            "\u{e9}",
            "{",
            "{}",
            r#"{"id":7}"#,
            r#"{"id":"x"}"#,
        ] {
            let list = format!("00:16\n\n{line}\n00:20\n");
            let why = listed(list.as_bytes()).unwrap_err();
            assert!(why.starts_with("line 3: "), "{why}");
        }
        assert_eq!(listed(b"\xff"), Err("line 1: it is no text".into()));
    }
}
