//! Places and cut characters of positions.

use super::texts::random_text;
use crate::case::Case;
use crate::position::{self, Encoding, Position};
use crate::random::Random;

const TEXTS: [&str; 20] = [
    "",
    "a",
    "; \u{1f321}",
    "a\u{e9}\u{20ac}\u{1f321}z",
    "\u{1f321}\u{20ac}\u{e9}a",
    "\u{7f}\u{80}\u{7ff}\u{800}\u{ffff}\u{10000}\u{10ffff}",
    "a\nb",
    "\r\n",
    "\n\r",
    "a\rb\r",
    "\u{e9}\r\n\u{20ac}\r\n",
    "x\r\n\ny",
    "x\r\r\ny",
    "\n\r\r\n\n\r",
    "\u{1f321}\r\u{1f321}\u{1f321}\n\u{1f321}\r\n\u{1f321}",
    "ab\u{2028}c\u{85}d\u{b}e\u{c}f",
    // Joined on the screen, yet counted one by one.
    "e\u{301}\u{1f469}\u{200d}\u{1f680}",
    "\u{feff}a",
    "\"\\\t\0",
    "\u{65e5}\u{672c}\u{8a9e}\r\n\r\n\u{233b4}\n",
];

const LARGEST: u64 = u32::MAX as u64;

/// Numbers that are 0 or 1 for those who keep fewer bits.
const WRAPPING: [u64; 6] = [256, 257, 65536, 65537, 1 << 31, (1 << 31) + 1];

pub fn cases() -> Vec<Case> {
    let mut cases = Vec::new();
    for text in TEXTS {
        for encoding in Encoding::ALL {
            for position in positions(text, encoding) {
                push_both(&mut cases, encoding, position, text);
            }
        }
    }
    push_random(&mut cases);
    cases
}

fn push_both(cases: &mut Vec<Case>, encoding: Encoding, position: Position, text: &str) {
    cases.push(Case::Place(encoding, position, text.into()));
    cases.push(Case::Cut(encoding, position, text.into()));
}

/// Every character of every line and a little past it, and lines that are
/// not there.
fn positions(text: &str, encoding: Encoding) -> Vec<Position> {
    let lines = position::lines(text.as_bytes());
    let mut positions = Vec::new();
    for (number, line) in (0..).zip(&lines) {
        let past = line.units(text.as_bytes(), encoding) + 2;
        positions.extend((0..=past).chain([LARGEST]).map(|character| at(number, character)));
    }
    positions.extend(WRAPPING.map(|character| at(0, character)));
    let count = lines.len() as u64;
    positions.extend([0, 1, LARGEST].map(|character| at(count, character)));
    positions.extend(WRAPPING.map(|line| at(line, 0)));
    positions.extend([at(LARGEST, 0), at(LARGEST, LARGEST)]);
    positions
}

fn at(line: u64, character: u64) -> Position {
    Position { line, character }
}

fn push_random(cases: &mut Vec<Case>) {
    let mut random = Random::new(0x9051);
    for _ in 0..300 {
        let text = random_text(&mut random, 40);
        for encoding in Encoding::ALL {
            let position = random_position(&mut random, &text, encoding);
            push_both(cases, encoding, position, &text);
        }
    }
}

/// A position in some line, or in the one after the last.
fn random_position(random: &mut Random, text: &str, encoding: Encoding) -> Position {
    let lines = position::lines(text.as_bytes());
    let number = random.below(lines.len() + 1);
    let units = lines.get(number).map_or(0, |line| line.units(text.as_bytes(), encoding));
    at(number as u64, random.below(units as usize + 3) as u64)
}
