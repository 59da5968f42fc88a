//! Texts to be split into lines.

use super::texts::{random_text, words};
use crate::case::Case;
use crate::random::Random;
use crate::utf8::LIMIT;

/// What ends no line, though some call it a line end.
const NO_ENDS: [&str; 8] =
    ["a\u{b}b", "a\u{c}b", "a\u{85}b", "a\u{2028}b", "a\u{2029}b", "a\u{1c}\u{1d}\u{1e}b", "a\0b", "a\tb"];

/// Characters whose bytes or scalar values hold 0A or 0D only in part.
const LIKE_ENDS: [&str; 4] = ["\u{8a}\u{8d}", "\u{10a}\u{10d}", "\u{a0a}\r\u{d0d}\n\u{a0d}", "\u{1000a}\u{1000d}\r\n"];

pub fn cases() -> Vec<Case> {
    let groups = [small(), wide(), special(), random(), most_lines()];
    groups.into_iter().flatten().map(|text| Case::Lines(text.into_bytes())).collect()
}

/// Every mixture of line ends and something else.
fn small() -> Vec<String> {
    words(&["a", "\n", "\r"], 5)
}

/// The same with characters of several bytes at each side of the ends.
fn wide() -> Vec<String> {
    let ends = words(&["\n", "\r"], 3);
    ends.iter().map(|end| format!("\u{e9}{end}\u{20ac}{end}\u{1f321}")).collect()
}

fn special() -> Vec<String> {
    NO_ENDS.iter().chain(&LIKE_ENDS).map(|text| text.to_string()).collect()
}

fn random() -> Vec<String> {
    let mut random = Random::new(0x11e5);
    (0..200).map(|_| random_text(&mut random, 40)).collect()
}

/// No text has more lines than this one.
fn most_lines() -> Vec<String> {
    vec!["\n".repeat(LIMIT)]
}
