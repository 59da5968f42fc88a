//! Tokens as numbers, five for each, most of them counted from the token
//! before.

use crate::language::{Language, Token};
use crate::position::{self, Encoding, Line};
use crate::refusal::Refusal;
use crate::utf8;
use std::fmt;

pub const MOST_TOKENS: usize = 512;

/// So many numbers of a coding are looked at.
pub const MOST_NUMBERS: usize = 5 * MOST_TOKENS;

/// A token by line and units. Decoded from any numbers, it may have a type
/// and modifiers that no language knows.
#[derive(Clone, Copy, Debug, PartialEq, Eq)]
pub struct Placed {
    pub line: u64,
    pub column: u64,
    pub units: u64,
    pub kind: u64,
    pub modifiers: u64,
}

impl fmt::Display for Placed {
    fn fmt(&self, f: &mut fmt::Formatter) -> fmt::Result {
        let Placed { line, column, units, kind, modifiers } = self;
        write!(f, "{line}:{column}+{units}:{kind}:{modifiers}")
    }
}

/// The numbers of a text's tokens, or the first refusal in the order of the
/// checks.
pub fn code(language: Language, encoding: Encoding, text: &[u8]) -> Result<Vec<u64>, Refusal> {
    utf8::check(text)?;
    let tokens = language.tokens(text);
    if tokens.len() > MOST_TOKENS {
        return Err(Refusal::TooManyTokens);
    }
    let lines = position::lines(text);
    let placed = tokens.iter().map(|token| placed(text, &lines, encoding, token));
    Ok(numbers(placed))
}

fn placed(text: &[u8], lines: &[Line], encoding: Encoding, token: &Token) -> Placed {
    // The last of the lines that start before the token or with it.
    let line = lines.partition_point(|line| line.start <= token.place) - 1;
    Placed {
        line: line as u64,
        column: encoding.count(&text[lines[line].start..token.place]),
        units: encoding.count(&text[token.place..token.end()]),
        kind: token.kind as u64,
        modifiers: token.modifiers.into(),
    }
}

fn numbers(tokens: impl Iterator<Item = Placed>) -> Vec<u64> {
    let mut numbers = Vec::new();
    // Before the first token, it is as if one stood at 0:0.
    let (mut line, mut column) = (0, 0);
    for token in tokens {
        let from = if token.line == line { column } else { 0 };
        numbers.extend([token.line - line, token.column - from, token.units, token.kind, token.modifiers]);
        (line, column) = (token.line, token.column);
    }
    numbers
}

/// The tokens of any numbers. Those behind the last whole five are none.
pub fn decode(numbers: &[u64]) -> Vec<Placed> {
    let (mut line, mut column) = (0, 0);
    let fives = numbers[..numbers.len().min(MOST_NUMBERS)].chunks_exact(5);
    fives
        .map(|five| {
            column = if five[0] == 0 { column + five[1] } else { five[1] };
            line += five[0];
            Placed { line, column, units: five[2], kind: five[3], modifiers: five[4] }
        })
        .collect()
}

#[cfg(test)]
mod tests {
    use super::*;
    use crate::cases::sources;
    use crate::utf8::LIMIT;
    use Encoding::{Utf16, Utf32, Utf8};
    use Language::{Routes, Settings};

    fn coded(language: Language, encoding: Encoding, text: &str) -> Vec<u64> {
        code(language, encoding, text.as_bytes()).unwrap()
    }

    #[test]
    fn worked_examples() {
        let routes = "route a/+ ; \u{1f321}\nto 12";
        let expected = [0, 0, 5, 1, 0, 0, 6, 1, 2, 0, 0, 2, 1, 4, 0, 0, 2, 4, 0, 0, 1, 0, 2, 1, 0, 0, 3, 2, 3, 0];
        assert_eq!(coded(Routes, Utf16, routes), expected);
        let settings = "  x = on 25";
        let expected = [0, 2, 1, 6, 2, 0, 2, 1, 4, 0, 0, 2, 2, 1, 1, 0, 3, 2, 3, 0];
        for encoding in Encoding::ALL {
            assert_eq!(coded(Settings, encoding, settings), expected);
        }
    }

    #[test]
    fn units_of_columns_and_lengths() {
        let text = "\u{e9}\u{20ac}\u{1f321}\"\u{e9}\u{20ac}\u{1f321}\"a";
        assert_eq!(coded(Routes, Utf8, text), [0, 9, 11, 5, 0, 0, 11, 1, 2, 0]);
        assert_eq!(coded(Routes, Utf16, text), [0, 4, 6, 5, 0, 0, 6, 1, 2, 0]);
        assert_eq!(coded(Routes, Utf32, text), [0, 3, 5, 5, 0, 0, 5, 1, 2, 0]);
    }

    #[test]
    fn lines_between_tokens() {
        assert_eq!(coded(Routes, Utf8, "\r\n\n a\r\r\n  b"), [2, 1, 1, 2, 0, 2, 2, 1, 2, 0]);
        assert_eq!(coded(Routes, Utf8, "\r\n\n\n"), []);
    }

    #[test]
    fn refuses_by_the_first_number_that_fits() {
        let number = |text: &[u8]| code(Routes, Utf16, text).map_or_else(Refusal::number, |_| 0);
        let mut text = vec![b'+'; LIMIT + 1];
        text[0] = 0x80;
        assert_eq!(number(&text), 7);
        text.pop();
        assert_eq!(number(&text), 8);
        text[0] = b'+';
        assert_eq!(number(&text), 18);
        assert_eq!(number(&text[..MOST_TOKENS + 1]), 18);
        assert_eq!(number(&text[..MOST_TOKENS]), 0);
        text[MOST_TOKENS] = b';';
        assert_eq!(number(&text), 18);
        text[MOST_TOKENS - 1] = b';';
        assert_eq!(number(&text), 0);
    }

    #[test]
    fn decodes_any_numbers() {
        let decoded = |numbers: &[u64]| decode(numbers).iter().map(Placed::to_string).collect::<Vec<_>>().join(" ");
        assert_eq!(decoded(&[]), "");
        assert_eq!(decoded(&[1, 2, 3, 4]), "");
        assert_eq!(decoded(&[0, 2, 1, 6, 2, 0, 2, 1, 4, 0, 0]), "0:2+1:6:2 0:4+1:4:0");
        assert_eq!(decoded(&[1, 2, 3, 4, 5, 2, 1, 0, 0, 0]), "1:2+3:4:5 3:1+0:0:0");
        let largest = u64::from(u32::MAX);
        let sums = decode(&[largest; MOST_NUMBERS + 5]);
        assert_eq!(sums.len(), MOST_TOKENS);
        assert_eq!(sums[MOST_TOKENS - 1].line, largest * MOST_TOKENS as u64);
        assert_eq!(sums[MOST_TOKENS - 1].column, largest);
    }

    /// Where `std` sees the token.
    fn by_std(text: &str, encoding: Encoding, token: &Token) -> Placed {
        let count = |part: &str| match encoding {
            Utf8 => part.len() as u64,
            Utf16 => part.encode_utf16().count() as u64,
            Utf32 => part.chars().count() as u64,
        };
        let before = text[..token.place].replace("\r\n", "\n");
        let mut lines = before.split(['\r', '\n']).rev();
        let column = count(lines.next().unwrap());
        Placed {
            line: lines.count() as u64,
            column,
            units: count(&text[token.place..token.end()]),
            kind: token.kind as u64,
            modifiers: token.modifiers.into(),
        }
    }

    #[test]
    fn decoding_gives_back_the_tokens_where_std_sees_them() {
        for text in sources::many(5_000) {
            for language in Language::ALL {
                let tokens = language.tokens(text.as_bytes());
                for encoding in Encoding::ALL {
                    let seen: Vec<Placed> = tokens.iter().map(|token| by_std(&text, encoding, token)).collect();
                    assert_eq!(decode(&coded(language, encoding, &text)), seen, "{text:?}");
                }
            }
        }
    }

    #[test]
    fn coding_gives_back_the_numbers() {
        for text in sources::many(1_000) {
            let coded = coded(Routes, Utf16, &text);
            assert_eq!(numbers(decode(&coded).into_iter()), coded, "{text:?}");
        }
    }
}
