//! Lines, and positions in them. The texts here are well-formed.

use crate::refusal::Refusal;
use crate::utf8;
use std::fmt;

/// What a position's character counts.
#[derive(Clone, Copy, Debug, PartialEq, Eq)]
pub enum Encoding {
    Utf8,
    Utf16,
    Utf32,
}

impl Encoding {
    pub const ALL: [Encoding; 3] = [Encoding::Utf8, Encoding::Utf16, Encoding::Utf32];

    pub fn name(self) -> &'static str {
        match self {
            Encoding::Utf8 => "utf-8",
            Encoding::Utf16 => "utf-16",
            Encoding::Utf32 => "utf-32",
        }
    }

    /// The units of a character of `length` bytes in UTF-8.
    fn units(self, length: usize) -> u64 {
        match self {
            Encoding::Utf8 => length as u64,
            // Just the scalar values from U+10000 up have four bytes.
            Encoding::Utf16 => 1 + u64::from(length == 4),
            Encoding::Utf32 => 1,
        }
    }

    /// The units of whole characters.
    pub fn count(self, characters: &[u8]) -> u64 {
        utf8::lengths(characters).map(|length| self.units(length)).sum()
    }
}

#[derive(Clone, Copy, Debug, PartialEq, Eq)]
pub struct Position {
    pub line: u64,
    pub character: u64,
}

impl fmt::Display for Position {
    fn fmt(&self, f: &mut fmt::Formatter) -> fmt::Result {
        write!(f, "{}:{}", self.line, self.character)
    }
}

/// A line's content: its end is left out.
#[derive(Clone, Copy, Debug, PartialEq, Eq)]
pub struct Line {
    pub start: usize,
    pub length: usize,
}

impl Line {
    fn content(self, text: &[u8]) -> &[u8] {
        &text[self.start..self.start + self.length]
    }

    /// The length of the content in units.
    pub fn units(self, text: &[u8], encoding: Encoding) -> u64 {
        encoding.count(self.content(text))
    }

    /// The place after `character` units of the line.
    pub fn place(self, text: &[u8], encoding: Encoding, character: u64) -> Result<usize, Refusal> {
        let mut place = self.start;
        let mut units = 0;
        for length in utf8::lengths(self.content(text)) {
            if units == character {
                return Ok(place);
            }
            units += encoding.units(length);
            if units > character {
                return Err(Refusal::InsideCharacter);
            }
            place += length;
        }
        // The content is used up: `character` is its length, or past it.
        Ok(place)
    }
}

/// All lines; always one more than there are line ends.
pub fn lines(text: &[u8]) -> Vec<Line> {
    let mut lines = Vec::new();
    let mut start = 0;
    let mut at = 0;
    while at < text.len() {
        match end_length(&text[at..]) {
            0 => at += 1,
            end => {
                lines.push(Line { start, length: at - start });
                at += end;
                start = at;
            }
        }
    }
    lines.push(Line { start, length: at - start });
    lines
}

/// The length of the line end that `rest` begins with, 0 where it begins with
/// none. Bytes will do: no character of several bytes holds 0A or 0D.
fn end_length(rest: &[u8]) -> usize {
    match rest {
        [b'\r', b'\n', ..] => 2,
        [b'\r' | b'\n', ..] => 1,
        _ => 0,
    }
}

pub fn line(text: &[u8], number: u64) -> Result<Line, Refusal> {
    let number = usize::try_from(number).map_err(|_| Refusal::NoSuchLine)?;
    lines(text).get(number).copied().ok_or(Refusal::NoSuchLine)
}

/// The byte offset of a position.
pub fn place(text: &[u8], encoding: Encoding, position: Position) -> Result<usize, Refusal> {
    line(text, position.line)?.place(text, encoding, position.character)
}

/// A position's character, cut to the length of its line.
pub fn cut(text: &[u8], encoding: Encoding, position: Position) -> Result<u64, Refusal> {
    let units = line(text, position.line)?.units(text, encoding);
    Ok(position.character.min(units))
}

#[cfg(test)]
mod tests {
    use super::*;
    use Encoding::{Utf16, Utf32, Utf8};

    const THERMOMETER: &[u8] = &[0x3B, 0x20, 0xF0, 0x9F, 0x8C, 0xA1];

    fn place_at(text: &[u8], encoding: Encoding, line: u64, character: u64) -> Result<usize, Refusal> {
        place(text, encoding, Position { line, character })
    }

    fn cut_at(text: &[u8], encoding: Encoding, line: u64, character: u64) -> Result<u64, Refusal> {
        cut(text, encoding, Position { line, character })
    }

    fn starts_and_lengths(text: &str) -> Vec<(usize, usize)> {
        lines(text.as_bytes()).iter().map(|line| (line.start, line.length)).collect()
    }

    #[test]
    fn line_ends() {
        assert_eq!(starts_and_lengths(""), [(0, 0)]);
        assert_eq!(starts_and_lengths("a"), [(0, 1)]);
        assert_eq!(starts_and_lengths("a\n"), [(0, 1), (2, 0)]);
        assert_eq!(starts_and_lengths("a\r\n"), [(0, 1), (3, 0)]);
        assert_eq!(starts_and_lengths("a\rb"), [(0, 1), (2, 1)]);
        assert_eq!(starts_and_lengths("\n\r"), [(0, 0), (1, 0), (2, 0)]);
        assert_eq!(starts_and_lengths("\r\r\n\n"), [(0, 0), (1, 0), (3, 0), (4, 0)]);
        assert_eq!(starts_and_lengths("\u{2028}\u{85}\u{b}\u{c}"), [(0, 7)]);
    }

    #[test]
    fn lines_agree_with_a_split_of_std() {
        let mut random = crate::random::Random::new(0x11e5);
        for _ in 0..20_000 {
            let count = random.below(12);
            let text: String = (0..count).map(|_| random.pick(&["a", "\u{e9}", "\r", "\n", "\r\n"])).collect();
            let split: Vec<String> = text.replace("\r\n", "\n").split(['\r', '\n']).map(String::from).collect();
            let contents: Vec<String> = lines(text.as_bytes())
                .iter()
                .map(|line| String::from_utf8(line.content(text.as_bytes()).to_vec()).unwrap())
                .collect();
            assert_eq!(contents, split, "{text:?}");
        }
    }

    #[test]
    fn inside_a_character_and_past_the_content() {
        assert_eq!(place_at(THERMOMETER, Utf16, 0, 2), Ok(2));
        assert_eq!(place_at(THERMOMETER, Utf16, 0, 3), Err(Refusal::InsideCharacter));
        assert_eq!(place_at(THERMOMETER, Utf16, 0, 4), Ok(6));
        assert_eq!(place_at(THERMOMETER, Utf16, 0, 9), Ok(6));
        for character in 3..6 {
            assert_eq!(place_at(THERMOMETER, Utf8, 0, character), Err(Refusal::InsideCharacter));
        }
        assert_eq!(place_at(THERMOMETER, Utf8, 0, 6), Ok(6));
        assert_eq!(place_at(THERMOMETER, Utf32, 0, 3), Ok(6));
    }

    #[test]
    fn a_line_that_is_not_there() {
        assert_eq!(place_at(b"a", Utf16, 1, 0), Err(Refusal::NoSuchLine));
        assert_eq!(cut_at(b"a", Utf16, 1, 0), Err(Refusal::NoSuchLine));
        assert_eq!(place_at(b"", Utf8, u64::MAX, 0), Err(Refusal::NoSuchLine));
    }

    #[test]
    fn a_place_never_lies_in_a_line_end() {
        assert_eq!(place_at(b"a\r\nb", Utf8, 0, 2), Ok(1));
        assert_eq!(place_at(b"a\r\nb", Utf8, 1, 0), Ok(3));
    }

    #[test]
    fn cut_to_the_content() {
        assert_eq!(cut_at(THERMOMETER, Utf16, 0, 3), Ok(3));
        assert_eq!(cut_at(THERMOMETER, Utf8, 0, 9), Ok(6));
        assert_eq!(cut_at(THERMOMETER, Utf16, 0, 9), Ok(4));
        assert_eq!(cut_at(THERMOMETER, Utf32, 0, 9), Ok(3));
        assert_eq!(cut_at(b"ab\r\n", Utf32, 0, 3), Ok(2));
        assert_eq!(cut_at(b"ab\r\n", Utf32, 1, u64::MAX), Ok(0));
    }

    #[test]
    fn units_agree_with_std_on_every_scalar_value() {
        for character in '\0'..=char::MAX {
            let length = character.len_utf8();
            assert_eq!(Utf8.units(length), length as u64);
            assert_eq!(Utf16.units(length), character.len_utf16() as u64);
            assert_eq!(Utf32.units(length), 1);
        }
    }
}
