//! Texts with many tokens, and of about as many bytes as there may be.

use crate::utf8::LIMIT;

pub fn repeated(token: &str, count: usize) -> Vec<u8> {
    token.repeat(count).into_bytes()
}

/// 512 lines of 16 bytes with one token each, in both languages, and one
/// empty line. The last three bytes of a line are a word in settings.
pub fn at_both_limits() -> Vec<u8> {
    "; \u{1f321}\u{20ac}\u{e9}abc\r\n".repeat(LIMIT / 16).into_bytes()
}

/// As many bytes as there may be, all the same.
pub fn full_of(byte: &str) -> Vec<u8> {
    repeated(byte, LIMIT)
}

/// One letter, behind as many bytes as there may be before it.
pub fn at_the_end_of(byte: &str) -> Vec<u8> {
    (byte.repeat(LIMIT - 1) + "a").into_bytes()
}

/// A token that begins with `start` and goes on in characters of four bytes,
/// up to the limit.
pub fn wide(start: &str) -> Vec<u8> {
    let left = LIMIT - start.len();
    (start.to_string() + &"\u{1f321}".repeat(left / 4) + &".".repeat(left % 4)).into_bytes()
}

/// One byte too long.
pub fn over(byte: &str) -> Vec<u8> {
    repeated(byte, LIMIT + 1)
}

pub fn over_and_ill_formed() -> Vec<u8> {
    [b"\x80", &over("+")[1..]].concat()
}

/// As long as may be, and well-formed but for the last byte.
pub fn ill_formed_at_the_end() -> Vec<u8> {
    [&full_of("+")[1..], b"\xC3"].concat()
}

#[cfg(test)]
mod tests {
    use super::*;
    use crate::language::Language;

    #[test]
    fn lengths() {
        for text in
            [at_both_limits(), full_of("+"), at_the_end_of("\n"), wide("; "), wide("\""), ill_formed_at_the_end()]
        {
            assert_eq!(text.len(), LIMIT);
        }
        for text in [over("a"), over_and_ill_formed()] {
            assert_eq!(text.len(), LIMIT + 1);
        }
    }

    #[test]
    fn as_many_tokens_as_there_may_be() {
        for language in Language::ALL {
            assert_eq!(language.tokens(&at_both_limits()).len(), 512);
        }
    }
}
