//! Numbers for a person, as the refusals print them, and numbers as a file has them.

/// A number in groups of three digits.
///
/// ```
/// assert_eq!(fractal_heap::grouped(5120), "5,120");
/// ```
pub fn grouped(number: u64) -> String {
    let digits = number.to_string();
    let mut text = String::new();
    for (i, digit) in digits.chars().enumerate() {
        if i > 0 && (digits.len() - i) % 3 == 0 {
            text.push(',');
        }
        text.push(digit);
    }
    text
}

/// A number with its word.
///
/// ```
/// assert_eq!(fractal_heap::count(1, "byte"), "1 byte");
/// assert_eq!(fractal_heap::count(2000, "byte"), "2,000 bytes");
/// ```
pub fn count(number: u64, word: &str) -> String {
    let ending = if number == 1 { "" } else { "s" };
    format!("{} {word}{ending}", grouped(number))
}

/// A little-endian number: of more than eight bytes the first eight count.
///
/// ```
/// assert_eq!(fractal_heap::little_endian(&[0x16, 0x20]), 0x2016);
/// assert_eq!(fractal_heap::little_endian(&[]), 0);
/// ```
pub fn little_endian(bytes: &[u8]) -> u64 {
    let highest_first = bytes.iter().take(8).rev();
    highest_first.fold(0, |number, &byte| number << 8 | u64::from(byte))
}
