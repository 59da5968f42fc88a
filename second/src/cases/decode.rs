//! Codings, and other numbers, to be decoded.

use super::sources;
use crate::case::Case;
use crate::coding::{self, MOST_NUMBERS};
use crate::language::Language;
use crate::position::Encoding;
use crate::random::Random;

const LARGEST: u64 = u32::MAX as u64;

/// Numbers that are 0 or 1 for those who keep fewer bits, and the largest.
const WRAPPING: [u64; 8] = [256, 257, 65536, 65537, 1 << 31, (1 << 31) + 1, LARGEST - 1, LARGEST];

pub fn cases() -> Vec<Case> {
    let groups = [prefixes(), codings(), large(), random(), long()];
    groups.into_iter().flatten().map(Case::Decode).collect()
}

/// Every beginning of two codings, with and without all their fives.
fn prefixes() -> Vec<Vec<u64>> {
    let routes = coding::code(Language::Routes, Encoding::Utf16, "route a/+ ; \u{1f321}\nto 12".as_bytes());
    let settings = coding::code(Language::Settings, Encoding::Utf8, b"  x = on 25");
    let up_to_each = |numbers: Vec<u64>| (0..=numbers.len()).map(move |end| numbers[..end].to_vec());
    [routes, settings].into_iter().flatten().flat_map(up_to_each).collect()
}

/// Codings of some of the texts, in one language and encoding after the other.
fn codings() -> Vec<Vec<u64>> {
    let languages = Language::ALL.into_iter().cycle();
    let encodings = Encoding::ALL.into_iter().cycle();
    let texts = sources::all().into_iter().step_by(3);
    let turns = texts.zip(languages.zip(encodings));
    turns.filter_map(|(text, (language, encoding))| coding::code(language, encoding, &text).ok()).collect()
}

/// Each large number at each place of a token and of the one after it.
fn large() -> Vec<Vec<u64>> {
    let mut lists = Vec::new();
    for number in WRAPPING {
        for at in 0..10 {
            let mut numbers = vec![0, 3, 1, 2, 0, 0, 5, 1, 2, 0, 0, 7, 1, 2, 0];
            numbers[at] = number;
            lists.push(numbers);
        }
    }
    // Sums of more than 32 bits.
    lists.push(vec![LARGEST; 15]);
    lists.push([0, LARGEST, LARGEST, LARGEST, LARGEST].repeat(4));
    lists.push([LARGEST, 0, 0, 0, 0].repeat(4));
    lists.push([[1, LARGEST, 1, 0, 0], [0, LARGEST, 1, 0, 0], [LARGEST, 2, 1, 0, 0], [0, 1, 1, 0, 0]].concat());
    lists
}

fn random() -> Vec<Vec<u64>> {
    let mut random = Random::new(0xdec0de);
    (0..250).map(|_| random_list(&mut random)).collect()
}

fn random_list(random: &mut Random) -> Vec<u64> {
    let count = random.below(33);
    (0..count).map(|_| random_number(random)).collect()
}

fn random_number(random: &mut Random) -> u64 {
    match random.below(12) {
        0 => WRAPPING[random.below(WRAPPING.len())],
        1 => random.below(1 << 32) as u64,
        2..=5 => 0,
        _ => random.below(12) as u64,
    }
}

/// Around the most numbers that are looked at.
fn long() -> Vec<Vec<u64>> {
    let counting = |count: usize| (0..count as u64).map(|index| index % 7).collect();
    vec![
        counting(MOST_NUMBERS - 1),
        counting(MOST_NUMBERS),
        // One token more.
        counting(MOST_NUMBERS + 5),
        vec![LARGEST; MOST_NUMBERS + 9],
    ]
}

#[cfg(test)]
mod tests {
    use super::*;

    #[test]
    fn numbers_have_32_bits() {
        for case in cases() {
            let Case::Decode(numbers) = &case else { panic!("{case:?}") };
            assert!(numbers.iter().all(|&number| number <= LARGEST), "{case:?}");
        }
    }

    #[test]
    fn long_ones_are_cut() {
        let counts: Vec<usize> = long().iter().map(|numbers| coding::decode(numbers).len()).collect();
        assert_eq!(counts, [511, 512, 512, 512]);
    }

    #[test]
    fn many_are_whole_and_many_are_not() {
        let whole = random().iter().filter(|numbers| numbers.len() % 5 == 0).count();
        assert!((30..200).contains(&whole), "{whole}");
    }
}
