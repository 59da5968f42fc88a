//! Well-formed and ill-formed byte strings.

use super::texts::{damaged, random_text};
use crate::case::Case;
use crate::random::Random;

/// RFC 3629 section 7.
const RFC_EXAMPLES: [&[u8]; 4] = [
    &[0x41, 0xE2, 0x89, 0xA2, 0xCE, 0x91, 0x2E],
    &[0xED, 0x95, 0x9C, 0xEA, 0xB5, 0xAD, 0xEC, 0x96, 0xB4],
    &[0xE6, 0x97, 0xA5, 0xE6, 0x9C, 0xAC, 0xE8, 0xAA, 0x9E],
    &[0xEF, 0xBB, 0xBF, 0xF0, 0xA3, 0x8E, 0xB4],
];

/// The first and the last scalar value of each length, and of both sides of
/// the surrogates.
const FIRSTS_AND_LASTS: [char; 10] =
    ['\0', '\u{7f}', '\u{80}', '\u{7ff}', '\u{800}', '\u{d7ff}', '\u{e000}', '\u{ffff}', '\u{10000}', '\u{10ffff}'];

/// Scalar values that are no characters are well-formed all the same.
const NONCHARACTERS: [char; 6] = ['\u{fdd0}', '\u{fdef}', '\u{fffe}', '\u{1fffe}', '\u{1ffff}', '\u{10fffe}'];

const ILL_FORMED: [&[u8]; 24] = [
    // Overlong: the lowest and the highest of each length.
    &[0xC0, 0x80],
    &[0xC0, 0xAF],
    &[0xC1, 0xBF],
    &[0xE0, 0x80, 0x80],
    &[0xE0, 0x80, 0xAF],
    &[0xE0, 0x9F, 0xBF],
    &[0xF0, 0x80, 0x80, 0x80],
    &[0xF0, 0x80, 0x80, 0xAF],
    &[0xF0, 0x8F, 0xBF, 0xBF],
    // A pair of surrogates, as in CESU-8.
    &[0xED, 0xA0, 0x80, 0xED, 0xB0, 0x80],
    &[0xED, 0xAF, 0xBF, 0xED, 0xBF, 0xBF],
    // Above U+10FFFF.
    &[0xF4, 0x90, 0x80, 0x80],
    &[0xF5, 0x80, 0x80, 0x80],
    &[0xF7, 0xBF, 0xBF, 0xBF],
    // Five and six bytes, overlong and not.
    &[0xF8, 0x80, 0x80, 0x80, 0x80],
    &[0xF8, 0x88, 0x80, 0x80, 0x80],
    &[0xFB, 0xBF, 0xBF, 0xBF, 0xBF],
    &[0xFC, 0x80, 0x80, 0x80, 0x80, 0x80],
    &[0xFC, 0x84, 0x80, 0x80, 0x80, 0x80],
    &[0xFD, 0xBF, 0xBF, 0xBF, 0xBF, 0xBF],
    // A byte order mark of UTF-16.
    &[0xFE, 0xFF],
    &[0xFF, 0xFE],
    // A character cut off by the next one.
    &[0xE2, 0x82, 0x41],
    &[0xF0, 0x9F, 0x8C, 0xE2, 0x82, 0xAC],
];

pub fn cases() -> Vec<Case> {
    let groups = [
        examples(),
        single_bytes(),
        second_bytes(),
        third_bytes(),
        fourth_bytes(),
        surrogates(),
        ill_formed_within(),
        truncated(),
        random_bytes(),
        random_texts(),
        damaged_texts(),
    ];
    groups.into_iter().flatten().map(Case::Utf8).collect()
}

fn well_formed_examples() -> Vec<Vec<u8>> {
    let rfc = RFC_EXAMPLES.iter().map(|bytes| bytes.to_vec());
    let scalars = FIRSTS_AND_LASTS.iter().chain(&NONCHARACTERS);
    let alone = scalars.clone().map(|scalar| scalar.to_string().into_bytes());
    let together = scalars.collect::<String>().into_bytes();
    rfc.chain(alone).chain([together]).collect()
}

fn examples() -> Vec<Vec<u8>> {
    let ill_formed = ILL_FORMED.iter().map(|bytes| bytes.to_vec());
    [vec![]].into_iter().chain(well_formed_examples()).chain(ill_formed).collect()
}

fn single_bytes() -> Vec<Vec<u8>> {
    (0..=255).map(|byte| vec![byte]).collect()
}

/// Each first byte with second bytes on both sides of every boundary, and
/// with the right number of further bytes, one fewer and one more.
fn second_bytes() -> Vec<Vec<u8>> {
    let mut all = Vec::new();
    for first in 0xC0..=0xFF_u8 {
        for second in [0x7F, 0x80, 0x8F, 0x90, 0x9F, 0xA0, 0xBF, 0xC0] {
            // Also for the forms of five to eight bytes that never were allowed.
            let further = first.leading_ones() as usize - 2;
            for count in further.saturating_sub(1)..=further + 1 {
                for filler in [0x80, 0xBF] {
                    let mut bytes = vec![first, second];
                    bytes.resize(2 + count, filler);
                    all.push(bytes);
                }
            }
        }
    }
    all
}

const FURTHER_EDGES: [u8; 4] = [0x7F, 0x80, 0xBF, 0xC0];

/// The lowest and the highest second byte that is allowed.
fn allowed_seconds(first: u8) -> [u8; 2] {
    match first {
        0xE0 => [0xA0, 0xBF],
        0xED => [0x80, 0x9F],
        0xF0 => [0x90, 0xBF],
        0xF4 => [0x80, 0x8F],
        _ => [0x80, 0xBF],
    }
}

fn third_bytes() -> Vec<Vec<u8>> {
    let mut all = Vec::new();
    for first in 0xE0..=0xEF {
        for second in allowed_seconds(first) {
            for third in FURTHER_EDGES {
                all.push(vec![first, second, third]);
            }
        }
    }
    all
}

fn fourth_bytes() -> Vec<Vec<u8>> {
    let mut all = Vec::new();
    for first in 0xF0..=0xF4 {
        for second in allowed_seconds(first) {
            for third in FURTHER_EDGES {
                for fourth in FURTHER_EDGES {
                    all.push(vec![first, second, third, fourth]);
                }
            }
        }
    }
    all
}

fn surrogates() -> Vec<Vec<u8>> {
    let seconds = 0xA0..=0xBF;
    seconds.flat_map(|second| [vec![0xED, second, 0x80], vec![0xED, second, 0xBF]]).collect()
}

/// What is ill-formed is so at the start, in the middle and at the end.
fn ill_formed_within() -> Vec<Vec<u8>> {
    let euro = "\u{20ac}".as_bytes();
    let within = |bytes: &&[u8]| [[*bytes, euro].concat(), [b"a", *bytes, b"z"].concat(), [euro, *bytes].concat()];
    ILL_FORMED.iter().flat_map(within).collect()
}

/// Each well-formed example up to each of its bytes.
fn truncated() -> Vec<Vec<u8>> {
    let up_to_each = |bytes: Vec<u8>| (0..bytes.len()).map(move |end| bytes[..end].to_vec());
    well_formed_examples().into_iter().flat_map(up_to_each).collect()
}

fn random_bytes() -> Vec<Vec<u8>> {
    let mut random = Random::new(0x0b17e5);
    (0..200).map(|_| random_string(&mut random)).collect()
}

fn random_string(random: &mut Random) -> Vec<u8> {
    let count = 1 + random.below(10);
    // Half of them without ASCII: these are wrong in more ways.
    let set = if random.once_in(2) { 0x80 } else { 0 };
    (0..count).map(|_| random.byte() | set).collect()
}

fn random_texts() -> Vec<Vec<u8>> {
    let mut random = Random::new(0x7e7);
    (0..150).map(|_| random_text(&mut random, 16).into_bytes()).collect()
}

fn damaged_texts() -> Vec<Vec<u8>> {
    let mut random = Random::new(0xdead);
    let mut damaged_text = || {
        let text = random_text(&mut random, 12) + "\u{20ac}";
        damaged(&mut random, text)
    };
    (0..300).map(|_| damaged_text()).collect()
}

#[cfg(test)]
mod tests {
    use super::*;

    #[test]
    fn examples_are_what_they_are_called() {
        for bytes in well_formed_examples() {
            assert!(std::str::from_utf8(&bytes).is_ok(), "{bytes:02X?}");
        }
        for bytes in ILL_FORMED.iter().map(|bytes| bytes.to_vec()).chain(ill_formed_within()).chain(surrogates()) {
            assert!(std::str::from_utf8(&bytes).is_err(), "{bytes:02X?}");
        }
    }

    #[test]
    fn all_answers_agree_with_std() {
        for case in cases() {
            let Case::Utf8(bytes) = &case else { panic!("{case:?}") };
            let std = std::str::from_utf8(bytes).map_or("ill-formed", |_| "well-formed");
            assert_eq!(case.answer(), std, "{case:?}");
        }
    }
}
