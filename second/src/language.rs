//! The languages, and the tokens of texts in them. The texts here are
//! well-formed.

use std::{fmt, iter};

#[derive(Clone, Copy, Debug, PartialEq, Eq)]
pub enum Language {
    Routes,
    Settings,
}

/// The types of tokens by their numbers.
#[derive(Clone, Copy, Debug, PartialEq, Eq)]
pub enum Type {
    Comment = 0,
    Keyword = 1,
    Variable = 2,
    Number = 3,
    Operator = 4,
    String = 5,
    Property = 6,
}

/// The modifiers; a token has their sum.
const NONE: u8 = 0;
const READONLY: u8 = 1;
const DECLARATION: u8 = 2;

/// A token lies in one line.
#[derive(Clone, Copy, Debug, PartialEq, Eq)]
pub struct Token {
    pub place: usize,
    /// In bytes.
    pub length: usize,
    pub kind: Type,
    pub modifiers: u8,
}

impl Token {
    pub fn end(self) -> usize {
        self.place + self.length
    }
}

impl fmt::Display for Token {
    fn fmt(&self, f: &mut fmt::Formatter) -> fmt::Result {
        write!(f, "{}+{}:{}:{}", self.place, self.length, self.kind as u8, self.modifiers)
    }
}

impl Language {
    pub const ALL: [Language; 2] = [Language::Routes, Language::Settings];

    pub fn name(self) -> &'static str {
        match self {
            Language::Routes => "routes",
            Language::Settings => "settings",
        }
    }

    pub fn tokens(self, text: &[u8]) -> Vec<Token> {
        let first = self.next(text, 0);
        iter::successors(first, |token| self.next(text, token.end())).collect()
    }

    /// The next token from a place. Bytes will do: no character of several
    /// bytes holds one that starts a token.
    fn next(self, text: &[u8], from: usize) -> Option<Token> {
        (from..text.len()).find_map(|place| self.token_at(text, place))
    }

    /// The token that the byte at a place starts, if it starts one.
    fn token_at(self, text: &[u8], place: usize) -> Option<Token> {
        let (before, rest) = text.split_at(place);
        let (length, kind, modifiers) = match self {
            Language::Routes => routes(rest),
            Language::Settings => settings(before, rest),
        }?;
        Some(Token { place, length, kind, modifiers })
    }
}

/// Length, type and modifiers.
type Found = (usize, Type, u8);

fn routes(rest: &[u8]) -> Option<Found> {
    let (length, kind) = match rest[0] {
        b';' => (content(rest).len(), Type::Comment),
        b'"' => (string_length(rest), Type::String),
        b'+' | b'#' => (1, Type::Operator),
        b'0'..=b'9' => (digits(rest), Type::Number),
        first if begins_word(first) => {
            let word = word(rest);
            (word.len(), routes_word(word))
        }
        _ => return None,
    };
    Some((length, kind, NONE))
}

fn routes_word(word: &[u8]) -> Type {
    match word {
        b"route" | b"to" | b"drop" => Type::Keyword,
        _ => Type::Variable,
    }
}

fn settings(before: &[u8], rest: &[u8]) -> Option<Found> {
    match rest[0] {
        b'=' => Some((1, Type::Operator, NONE)),
        b'0'..=b'9' => Some((digits(rest), Type::Number, NONE)),
        first if begins_word(first) => {
            let word = word(rest);
            let (kind, modifiers) = settings_word(before, word);
            Some((word.len(), kind, modifiers))
        }
        _ => None,
    }
}

fn settings_word(before: &[u8], word: &[u8]) -> (Type, u8) {
    if ends_in_blanks_only(before) {
        return (Type::Property, DECLARATION);
    }
    match word {
        b"on" | b"off" => (Type::Keyword, READONLY),
        _ => (Type::Variable, NONE),
    }
}

/// Whether the last line of `before` has spaces and tabs only.
fn ends_in_blanks_only(before: &[u8]) -> bool {
    let in_line = before.iter().rev().take_while(|&&byte| !in_line_end(byte));
    in_line.copied().all(|byte| matches!(byte, b' ' | b'\t'))
}

/// Up to the next `"` of the line, which is in it, or to the line's end.
fn string_length(rest: &[u8]) -> usize {
    let content = content(rest);
    let between = content[1..].iter().position(|&byte| byte == b'"');
    between.map_or(content.len(), |between| between + 2)
}

/// What is left of the line's content.
fn content(rest: &[u8]) -> &[u8] {
    &rest[..run(rest, |byte| !in_line_end(byte))]
}

fn word(rest: &[u8]) -> &[u8] {
    &rest[..run(rest, |byte| begins_word(byte) || byte.is_ascii_digit())]
}

fn digits(rest: &[u8]) -> usize {
    run(rest, |byte| byte.is_ascii_digit())
}

/// How many bytes from the first one on are such ones.
fn run(rest: &[u8], is_such: fn(u8) -> bool) -> usize {
    rest.iter().take_while(|&&byte| is_such(byte)).count()
}

fn begins_word(byte: u8) -> bool {
    matches!(byte, b'A'..=b'Z' | b'a'..=b'z' | b'_')
}

fn in_line_end(byte: u8) -> bool {
    matches!(byte, b'\n' | b'\r')
}

#[cfg(test)]
mod tests {
    use super::*;
    use crate::cases::sources;
    use Language::{Routes, Settings};

    fn listed(language: Language, text: &str) -> String {
        let tokens = language.tokens(text.as_bytes());
        tokens.iter().map(Token::to_string).collect::<Vec<_>>().join(" ")
    }

    #[test]
    fn routes_tokens() {
        assert_eq!(listed(Routes, ""), "");
        assert_eq!(
            listed(Routes, "route a/+ ; \u{1f321}\nto 12"),
            "0+5:1:0 6+1:2:0 8+1:4:0 10+6:0:0 17+2:1:0 20+2:3:0"
        );
        assert_eq!(listed(Routes, "drop dropp Drop"), "0+4:1:0 5+5:2:0 11+4:2:0");
        assert_eq!(listed(Routes, "12ab a12 _1"), "0+2:3:0 2+2:2:0 5+3:2:0 9+2:2:0");
        assert_eq!(listed(Routes, "+#=\u{e9}a"), "0+1:4:0 1+1:4:0 5+1:2:0");
        assert_eq!(listed(Routes, "on off"), "0+2:2:0 3+3:2:0");
    }

    #[test]
    fn strings_and_comments_end_with_their_line() {
        assert_eq!(listed(Routes, "\"a;b\";c\"\rd"), "0+5:5:0 5+3:0:0 9+1:2:0");
        assert_eq!(listed(Routes, "\"a\r\n\"\"\n\""), "0+2:5:0 4+2:5:0 7+1:5:0");
        assert_eq!(listed(Routes, ";\r\r\n;a\n\r;"), "0+1:0:0 4+2:0:0 8+1:0:0");
        assert_eq!(listed(Routes, "\"\u{1f321}\u{2028}\"\""), "0+9:5:0 9+1:5:0");
    }

    #[test]
    fn settings_tokens() {
        assert_eq!(listed(Settings, "  x = on 25"), "2+1:6:2 4+1:4:0 6+2:1:1 9+2:3:0");
        assert_eq!(listed(Settings, "on on off offf"), "0+2:6:2 3+2:1:1 6+3:1:1 10+4:2:0");
        assert_eq!(listed(Settings, "\t a\r b\r\n\tc\nd e"), "2+1:6:2 5+1:6:2 9+1:6:2 11+1:6:2 13+1:2:0");
        assert_eq!(listed(Settings, "1a\n=on\n\u{a0}a\n;a"), "0+1:3:0 1+1:2:0 3+1:4:0 4+2:1:1 9+1:2:0 12+1:2:0");
        assert_eq!(listed(Settings, "+#\"\";/\u{b}"), "");
    }

    /// The tokens by another way: line by line, and by the parts that `std`
    /// splits off.
    fn by_lines(language: Language, text: &str) -> Vec<Token> {
        let mut tokens = Vec::new();
        let mut start = 0;
        // Taking CR LF for two line ends gives an empty line more, no token.
        for line in text.split(['\r', '\n']) {
            let mut rest = line;
            while let Some(first) = rest.chars().next() {
                let place = start + line.len() - rest.len();
                let before = &line[..line.len() - rest.len()];
                let (length, kind) = by_first(language, first, before, rest);
                if let Some((kind, modifiers)) = kind {
                    tokens.push(Token { place, length, kind, modifiers });
                }
                rest = &rest[length..];
            }
            start += line.len() + 1;
        }
        tokens
    }

    fn by_first(language: Language, first: char, before: &str, rest: &str) -> (usize, Option<(Type, u8)>) {
        let up_to = |end: &dyn Fn(char) -> bool| rest.find(end).unwrap_or(rest.len());
        let plain = |kind| Some((kind, 0));
        match (language, first) {
            (_, '0'..='9') => (up_to(&|c| !c.is_ascii_digit()), plain(Type::Number)),
            (_, first) if first.is_ascii_alphabetic() || first == '_' => {
                let length = up_to(&|c| !c.is_ascii_alphanumeric() && c != '_');
                (length, Some(word_by_sets(language, before, &rest[..length])))
            }
            (Routes, '+' | '#') | (Settings, '=') => (1, plain(Type::Operator)),
            (Routes, ';') => (rest.len(), plain(Type::Comment)),
            (Routes, '"') => {
                let inner = rest[1..].split('"').next().unwrap();
                (rest.len().min(inner.len() + 2), plain(Type::String))
            }
            _ => (first.len_utf8(), None),
        }
    }

    fn word_by_sets(language: Language, before: &str, word: &str) -> (Type, u8) {
        if language == Settings && before.trim_matches([' ', '\t']).is_empty() {
            (Type::Property, 2)
        } else if language == Settings && ["on", "off"].contains(&word) {
            (Type::Keyword, 1)
        } else if language == Routes && ["route", "to", "drop"].contains(&word) {
            (Type::Keyword, 0)
        } else {
            (Type::Variable, 0)
        }
    }

    #[test]
    fn tokens_agree_with_those_by_lines() {
        for text in sources::many(20_000) {
            for language in Language::ALL {
                assert_eq!(language.tokens(text.as_bytes()), by_lines(language, &text), "{language:?} {text:?}");
            }
        }
    }

    #[test]
    fn tokens_are_apart_and_in_one_line() {
        for text in sources::many(2_000) {
            for language in Language::ALL {
                let tokens = language.tokens(text.as_bytes());
                assert!(tokens.windows(2).all(|two| two[0].end() <= two[1].place), "{text:?}");
                for token in tokens {
                    // Cutting it out would panic inside of a character.
                    let part = &text[token.place..token.end()];
                    assert!(!part.is_empty() && !part.contains(['\r', '\n']), "{text:?}");
                }
            }
        }
    }

    #[test]
    fn a_place_behind_the_start_gives_what_starts_there() {
        let text = b"ab \"c\" d";
        assert_eq!(Routes.next(text, 1).unwrap().to_string(), "1+1:2:0");
        assert_eq!(Routes.next(text, 5).unwrap().to_string(), "5+3:5:0");
        assert_eq!(Settings.next(text, 1).unwrap().to_string(), "1+1:2:0");
        assert_eq!(Settings.next(text, 8), None);
    }
}
