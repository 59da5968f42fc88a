//! Well-formed UTF-8 as in RFC 3629, decided by the bytes alone.

use crate::refusal::Refusal;

/// The most bytes that a text may have.
pub const LIMIT: usize = 8192;

/// What a first byte asks of its character.
struct First {
    /// Bytes of the whole character.
    length: usize,
    /// The lowest and the highest second byte.
    second: (u8, u8),
}

fn first(byte: u8) -> Option<First> {
    let length = match byte.leading_ones() {
        0 => 1,
        count @ 2..=4 => count as usize,
        _ => return None,
    };
    let second = match byte {
        // Overlong whatever follows, or above U+10FFFF whatever follows.
        0xC0 | 0xC1 | 0xF5..=0xFF => return None,
        0xE0 => (0xA0, 0xBF), // lower ones are overlong
        0xED => (0x80, 0x9F), // higher ones are surrogates
        0xF0 => (0x90, 0xBF), // lower ones are overlong
        0xF4 => (0x80, 0x8F), // higher ones are above U+10FFFF
        _ => (0x80, 0xBF),
    };
    Some(First { length, second })
}

/// The length of the well-formed character that `bytes` begin with, if they
/// begin with one.
fn character_length(bytes: &[u8]) -> Option<usize> {
    let First { length, second } = first(*bytes.first()?)?;
    let further = bytes.get(1..length)?;
    let allowed = |index: usize, byte: u8| {
        let (low, high) = if index == 0 { second } else { (0x80, 0xBF) };
        (low..=high).contains(&byte)
    };
    let fits = further.iter().enumerate().all(|(i, &byte)| allowed(i, byte));
    fits.then_some(length)
}

pub fn is_well_formed(bytes: &[u8]) -> bool {
    let mut rest = bytes;
    while !rest.is_empty() {
        match character_length(rest) {
            Some(length) => rest = &rest[length..],
            None => return false,
        }
    }
    true
}

/// Whether the bytes are a text: not too long, and well-formed.
pub fn check(bytes: &[u8]) -> Result<(), Refusal> {
    if bytes.len() > LIMIT {
        Err(Refusal::TooLong)
    } else if !is_well_formed(bytes) {
        Err(Refusal::IllFormed)
    } else {
        Ok(())
    }
}

/// The lengths in bytes of the characters of a well-formed text.
pub fn lengths(text: &[u8]) -> impl Iterator<Item = usize> + '_ {
    let mut rest = text;
    std::iter::from_fn(move || {
        if rest.is_empty() {
            return None;
        }
        let length = character_length(rest).expect("a well-formed text");
        rest = &rest[length..];
        Some(length)
    })
}

#[cfg(test)]
mod tests {
    use super::*;
    use crate::random::Random;

    fn agree(bytes: &[u8]) {
        let std = std::str::from_utf8(bytes).is_ok();
        assert_eq!(is_well_formed(bytes), std, "{bytes:02X?}");
    }

    #[test]
    fn agrees_with_std_on_all_strings_of_up_to_three_bytes() {
        agree(&[]);
        for a in 0..=255 {
            agree(&[a]);
            for b in 0..=255 {
                agree(&[a, b]);
                for c in 0..=255 {
                    agree(&[a, b, c]);
                }
            }
        }
    }

    #[test]
    fn agrees_with_std_on_four_to_six_bytes_around_the_boundaries() {
        const EDGES: [u8; 10] = [0x00, 0x7F, 0x80, 0x8F, 0x90, 0x9F, 0xA0, 0xBF, 0xC0, 0xFF];
        for a in 0x7F..=0xFF {
            for b in 0..=255 {
                for c in EDGES {
                    for d in EDGES {
                        agree(&[a, b, c, d]);
                        agree(&[a, b, c, d, 0x80]);
                        agree(&[a, b, c, d, 0x80, 0x80]);
                    }
                }
            }
        }
    }

    #[test]
    fn takes_every_scalar_value() {
        for character in '\0'..=char::MAX {
            let text = character.to_string();
            assert!(is_well_formed(text.as_bytes()), "{character:?}");
            let lengths: Vec<usize> = lengths(text.as_bytes()).collect();
            assert_eq!(lengths, [character.len_utf8()], "{character:?}");
        }
    }

    #[test]
    fn agrees_with_std_on_random_strings() {
        let mut random = Random::new(0x7e57);
        for _ in 0..300_000 {
            let length = random.below(12);
            let bytes: Vec<u8> = (0..length).map(|_| random.byte()).collect();
            agree(&bytes);
            let high: Vec<u8> = bytes.iter().map(|byte| byte | 0x80).collect();
            agree(&high);
        }
    }

    #[test]
    fn agrees_with_std_on_damaged_texts() {
        let mut random = Random::new(0xda3a6e);
        for _ in 0..100_000 {
            let scalars = (0..8).map(|_| random.scalar());
            let mut bytes = scalars.collect::<String>().into_bytes();
            agree(&bytes);
            let at = random.below(bytes.len());
            bytes[at] = random.byte();
            agree(&bytes);
        }
    }
}
