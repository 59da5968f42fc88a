//! Texts for several groups.

use crate::random::Random;

/// Bytes that are easily taken for something else, and the ends of the
/// ranges of each length.
const NOTABLE: [&str; 20] = [
    "\0",
    "\t",
    "\"",
    "\\",
    "\u{b}",
    "\u{c}",
    "\u{7f}", // one byte
    "\u{80}",
    "\u{85}",
    "\u{301}",
    "\u{7ff}", // two bytes
    "\u{800}",
    "\u{2028}",
    "\u{2029}",
    "\u{d7ff}",
    "\u{e000}",
    "\u{feff}",
    "\u{ffff}", // three bytes
    "\u{10000}",
    "\u{10ffff}", // four bytes
];

const LINE_ENDS: [&str; 3] = ["\n", "\r", "\r\n"];

/// A text of fewer than `end` characters and line ends.
pub fn random_text(random: &mut Random, end: usize) -> String {
    let count = random.below(end);
    (0..count).map(|_| random_piece(random)).collect()
}

fn random_piece(random: &mut Random) -> String {
    match random.below(10) {
        0..=1 => random.pick(&LINE_ENDS).into(),
        2 => random.pick(&NOTABLE).into(),
        3..=5 => char::from(b'a' + random.below(26) as u8).into(),
        _ => random.scalar().into(),
    }
}

/// A text with one byte replaced by another, which most often makes it
/// ill-formed. It has at least one byte.
pub fn damaged(random: &mut Random, text: String) -> Vec<u8> {
    let mut bytes = text.into_bytes();
    let at = random.below(bytes.len());
    // From 1 up, so that the byte is never the same one.
    bytes[at] = bytes[at].wrapping_add(1 + random.below(255) as u8);
    bytes
}

/// Every string of up to `most` of the letters.
pub fn words(letters: &[&str], most: usize) -> Vec<String> {
    let mut words = vec![String::new()];
    let mut first_of_length = 0;
    for _ in 0..most {
        let shorter = words[first_of_length..].to_vec();
        first_of_length = words.len();
        for word in shorter {
            words.extend(letters.iter().map(|letter| word.clone() + letter));
        }
    }
    words
}

/// A text of exactly `length` bytes: lines that begin with characters of two,
/// three and four bytes, and as many dots as are left.
pub fn filled(length: usize) -> String {
    const LINE: &str = "\u{e9}\u{20ac}\u{1f321} two, three and four bytes\r\n";
    let mut text = LINE.repeat(length / LINE.len());
    let left = length - text.len();
    text.push_str(&".".repeat(left));
    text
}

#[cfg(test)]
mod tests {
    use super::*;

    #[test]
    fn words_are_all_there_once() {
        let words = words(&["a", "b"], 2);
        assert_eq!(words, ["", "a", "b", "aa", "ab", "ba", "bb"]);
    }

    #[test]
    fn filled_has_its_length() {
        for length in [0, 1, 100, 8191, 8192, 8193] {
            assert_eq!(filled(length).len(), length);
        }
    }
}
