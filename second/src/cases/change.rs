//! Changes: all that is refused, all around line ends, and random ones.

use super::texts::{damaged, filled, random_text, words};
use crate::case::Case;
use crate::change::Change;
use crate::position::{self, Encoding, Position};
use crate::random::Random;
use crate::utf8::LIMIT;
use Encoding::{Utf16, Utf32, Utf8};

pub fn cases() -> Vec<Case> {
    let groups = [taken(), line_ends(), refused(), in_order(), huge(), around_line_ends(), random()];
    groups.into_iter().flatten().map(Case::Change).collect()
}

fn at(line: u64, character: u64) -> Position {
    Position { line, character }
}

/// A change in the shortest memory that will do.
fn change(
    encoding: Encoding,
    start: Position,
    end: Position,
    old: impl AsRef<[u8]>,
    inserted: impl AsRef<[u8]>,
) -> Change {
    let (old, inserted) = (old.as_ref().to_vec(), inserted.as_ref().to_vec());
    Change { encoding, lent: LIMIT, start, end, old, inserted }
}

fn lent(lent: usize, change: Change) -> Change {
    Change { lent, ..change }
}

fn taken() -> Vec<Change> {
    let wide = "a\u{e9}\u{20ac}\u{1f321}z";
    vec![
        change(Utf8, at(0, 0), at(0, 0), "", ""),
        change(Utf16, at(0, 0), at(0, 0), "", "a"),
        change(Utf32, at(0, 0), at(0, 1), "a", ""),
        change(Utf32, at(0, 0), at(0, 0), "b", "a"),
        change(Utf32, at(0, 1), at(0, 1), "a", "b"),
        // The same characters in each encoding.
        change(Utf8, at(0, 1), at(0, 10), wide, "-"),
        change(Utf16, at(0, 1), at(0, 5), wide, "-"),
        change(Utf32, at(0, 1), at(0, 4), wide, "-"),
        change(Utf8, at(0, 6), at(0, 10), wide, "\u{10ffff}"),
        change(Utf16, at(0, 3), at(0, 5), wide, "\u{10ffff}"),
        change(Utf32, at(0, 3), at(0, 4), wide, "\u{10ffff}"),
        // Past the content is its end, which lies before the line end.
        change(Utf16, at(0, 99), at(0, 99), "a\r\nb", "-"),
        change(Utf16, at(0, 0), at(0, u32::MAX.into()), "a\r\nb", ""),
        change(Utf16, at(1, 99), at(1, 99), "a\r\n", "b"),
        // Places count, not characters: all of these are at the end.
        change(Utf8, at(0, 9), at(0, 5), "abc", "d"),
        change(Utf8, at(0, 9), at(0, 3), "abc", "d"),
        // Everything away, and everything replaced.
        change(Utf16, at(0, 0), at(2, 1), "a\nb\r\nc", ""),
        change(Utf16, at(0, 0), at(2, 1), "a\nb\r\nc", "\u{1f321}\r"),
        // More memory than is needed.
        lent(LIMIT + 1, change(Utf8, at(0, 1), at(0, 1), "ac", "b")),
        lent(9000, change(Utf8, at(0, 1), at(0, 1), "ac", "b")),
        lent(65536, change(Utf8, at(0, 1), at(0, 2), "abc", "")),
        // NUL is a character as others are.
        change(Utf8, at(0, 1), at(0, 1), "a\0c", "\0"),
        change(Utf8, at(0, 0), at(0, 2), "\"\\", "\\\""),
        change(Utf8, at(0, 0), at(0, 0), "a", "\u{feff}"),
    ]
}

/// Line ends that are joined, parted, made and taken away.
fn line_ends() -> Vec<Change> {
    vec![
        // An LF typed between a CR and what follows it.
        change(Utf16, at(1, 0), at(1, 0), "a\rb", "\n"),
        change(Utf16, at(1, 0), at(1, 0), "a\r", "\n"),
        change(Utf16, at(1, 0), at(1, 0), "a\r\rb", "\n"),
        change(Utf16, at(1, 0), at(1, 0), "a\r\nb", "\n"),
        change(Utf16, at(1, 0), at(1, 0), "\u{1f321}\r\u{20ac}", "\n\u{e9}"),
        // An LF deleted out of a CR LF: both are replaced by a CR.
        change(Utf16, at(0, 1), at(1, 0), "a\r\nb", "\r"),
        change(Utf16, at(0, 1), at(1, 0), "a\r\n", "\r"),
        // A CR deleted out of it.
        change(Utf16, at(0, 1), at(1, 0), "a\r\nb", "\n"),
        // Something comes between the two.
        change(Utf16, at(0, 1), at(1, 0), "a\r\nb", "\r-\n"),
        // An LF deleted after a CR LF, and before one.
        change(Utf16, at(1, 0), at(2, 0), "a\r\n\nb", ""),
        change(Utf16, at(0, 1), at(1, 0), "a\n\r\nb", ""),
        // A CR and an LF come together because what stood between them goes.
        change(Utf16, at(1, 0), at(1, 1), "a\r-\nb", ""),
        change(Utf16, at(1, 0), at(2, 0), "a\r\r\nb", ""),
        change(Utf16, at(0, 1), at(0, 1), "a\nb", "\r"),
        change(Utf16, at(0, 1), at(0, 2), "a-\nb", "\r"),
        // Lines made and joined.
        change(Utf16, at(0, 1), at(0, 1), "ab", "\r\n"),
        change(Utf16, at(0, 1), at(1, 0), "a\r\nb", ""),
        change(Utf16, at(0, 1), at(1, 0), "a\rb", ""),
        change(Utf16, at(0, 1), at(1, 0), "a\nb", ""),
    ]
}

/// One cause at a time.
fn refused() -> Vec<Change> {
    let thermometer = "; \u{1f321}";
    vec![
        lent(0, change(Utf8, at(0, 0), at(0, 0), "", "")),
        lent(LIMIT - 1, change(Utf8, at(0, 0), at(0, 0), "", "")),
        lent(LIMIT - 1, change(Utf16, at(0, 1), at(0, 1), "ac", "b")),
        change(Utf8, at(0, 0), at(0, 0), b"\x80", ""),
        change(Utf8, at(0, 0), at(0, 0), b"a\xF0\x9F\x8C", ""),
        change(Utf8, at(0, 0), at(0, 0), b"a\n\xC0\x80", "b"),
        change(Utf16, at(0, 0), at(0, 0), b"\xED\xA0\x80", "b"),
        lent(9000, change(Utf32, at(0, 0), at(0, 1), b"a\xFF", "b")),
        change(Utf8, at(0, 0), at(0, 0), "", b"\x80"),
        change(Utf8, at(0, 1), at(0, 1), "ab", b"\xF0\x9F\x8C"),
        change(Utf16, at(0, 1), at(0, 1), "ab", b"\xED\xBF\xBF"),
        change(Utf32, at(0, 1), at(0, 1), "ab", b"c\xF4\x90\x80\x80"),
        // The byte that is missing is not looked for in the old text.
        change(Utf8, at(0, 0), at(0, 0), "\u{e9}", b"\xC3"),
        change(Utf8, at(1, 0), at(1, 0), "a", ""),
        change(Utf8, at(0, 0), at(1, 0), "a", ""),
        change(Utf8, at(0, 0), at(2, 0), "a\r\n", ""),
        change(Utf8, at(u32::MAX.into(), 0), at(u32::MAX.into(), 0), "a\n", ""),
        change(Utf16, at(0, 3), at(0, 4), thermometer, ""),
        change(Utf16, at(0, 2), at(0, 3), thermometer, ""),
        change(Utf16, at(0, 3), at(0, 3), thermometer, "-"),
        change(Utf8, at(0, 3), at(0, 6), thermometer, ""),
        change(Utf8, at(0, 2), at(0, 4), thermometer, ""),
        change(Utf8, at(0, 5), at(0, 5), thermometer, "-"),
        change(Utf8, at(1, 1), at(1, 2), "a\n\u{e9}", ""),
        change(Utf8, at(0, 0), at(1, 2), "a\n\u{20ac}", ""),
        change(Utf8, at(0, 1), at(0, 0), "a", ""),
        change(Utf16, at(1, 0), at(0, 1), "a\r\nb", "-"),
        change(Utf32, at(1, 0), at(0, 99), "a\r\nb", "-"),
    ]
}

/// Several causes at once: the first in the order of the checks is given.
fn in_order() -> Vec<Change> {
    let thermometer = "\u{1f321}\nb";
    let (bad, inside, missing) = (b"\xFF", at(0, 1), at(9, 0));
    let (first, last) = (at(0, 0), at(1, 1));
    vec![
        // 1 and 8, 12, 13, 14.
        change(Utf8, first, first, bad, bad),
        lent(LIMIT - 1, change(Utf8, first, first, thermometer, bad)),
        lent(LIMIT - 1, change(Utf8, missing, first, thermometer, "")),
        change(Utf8, first, missing, b"a\xFF", ""),
        lent(LIMIT - 1, change(Utf8, inside, last, thermometer, "")),
        lent(LIMIT - 1, change(Utf8, last, first, thermometer, "")),
        lent(LIMIT - 1, change(Utf8, missing, inside, thermometer, bad)),
        // 8 and 12, 13, 14.
        change(Utf8, missing, first, thermometer, bad),
        change(Utf8, first, missing, thermometer, bad),
        change(Utf8, inside, last, thermometer, bad),
        change(Utf16, first, inside, thermometer, bad),
        change(Utf8, last, first, thermometer, bad),
        // 12 and 13, whichever of the two positions comes first.
        change(Utf8, inside, missing, thermometer, ""),
        change(Utf16, inside, missing, thermometer, ""),
        change(Utf8, missing, inside, thermometer, ""),
        change(Utf16, missing, inside, thermometer, ""),
        // 12 and 14.
        change(Utf8, missing, first, thermometer, ""),
        change(Utf8, missing, at(8, 0), thermometer, ""),
        // 13 and 14.
        change(Utf8, last, inside, thermometer, ""),
        change(Utf16, last, inside, thermometer, ""),
        change(Utf8, inside, first, thermometer, ""),
        change(Utf8, at(0, 3), at(0, 1), thermometer, ""),
    ]
}

/// At the limit and past it. Such lines are long, so there are few of them.
fn huge() -> Vec<Change> {
    let full = filled(LIMIT);
    let over = "a".repeat(LIMIT + 1);
    let over_and_bad = [b"\xFF", &over.as_bytes()[1..]].concat();
    let lines = "\n".repeat(LIMIT);
    vec![
        // Exactly the limit: one more byte, all new, and all replaced.
        change(Utf16, at(100, 2), at(100, 2), filled(LIMIT - 1), "-"),
        change(Utf8, at(0, 0), at(0, 0), "", "\u{1f321}".repeat(LIMIT / 4)),
        change(Utf8, at(0, 0), at(LIMIT as u64, 0), &lines, &full),
        // One byte past it, where more memory makes no difference, and far past it.
        lent(9000, change(Utf32, at(0, 1), at(0, 2), &full, "\u{1f321}")),
        change(Utf16, at(LIMIT as u64, 0), at(LIMIT as u64, 0), &lines, &full),
        // 7, alone and with 8 and 12.
        change(Utf16, at(0, 0), at(0, 1), "a", &over),
        lent(16384, change(Utf16, at(0, 0), at(1, 0), "a", over_and_bad)),
        // 1 and 7.
        lent(9000, change(Utf8, at(0, 0), at(0, 0), &over, &over)),
        // 14 and 15.
        change(Utf8, at(5, 0), at(3, 0), &full, "ab"),
    ]
}

/// Every small text of line ends and something else, every range in it, and
/// nothing, LF or CR in its place.
fn around_line_ends() -> Vec<Change> {
    let mut changes = Vec::new();
    for old in words(&["a", "\n", "\r"], 3) {
        let positions = all_positions(&old);
        for (index, &start) in positions.iter().enumerate() {
            for &end in &positions[index..] {
                // All are ASCII, so that any encoding will do: take turns.
                let encoding = Encoding::ALL[changes.len() / 3 % 3];
                for inserted in ["", "\n", "\r"] {
                    changes.push(change(encoding, start, end, &old, inserted));
                }
            }
        }
    }
    changes
}

/// The positions of an ASCII text in ascending order, each place once.
fn all_positions(text: &str) -> Vec<Position> {
    let lines = position::lines(text.as_bytes());
    let of_line =
        |(number, line): (u64, &position::Line)| (0..=line.length as u64).map(move |character| at(number, character));
    (0..).zip(&lines).flat_map(of_line).collect()
}

fn random() -> Vec<Change> {
    let mut random = Random::new(0xc4a46e);
    (0..1200).map(|_| random_change(&mut random)).collect()
}

fn random_change(random: &mut Random) -> Change {
    let encoding = Encoding::ALL[random.below(3)];
    let old = random_text(random, 24);
    let start = random_position(random, &old, encoding);
    let end = random_position(random, &old, encoding);
    let (start, end) = mostly_in_order(random, &old, encoding, start, end);
    let inserted = random_text(random, 10);
    let old = seldom_damaged(random, old);
    let inserted = seldom_damaged(random, inserted);
    let lent = random_lent(random, old.len());
    Change { encoding, lent, start, end, old, inserted }
}

/// Mostly before or after a character; at times anywhere, past the line, or
/// in the line after the last.
fn random_position(random: &mut Random, text: &str, encoding: Encoding) -> Position {
    let lines = position::lines(text.as_bytes());
    if random.once_in(25) {
        return at(lines.len() as u64, random.below(3) as u64);
    }
    let number = random.below(lines.len());
    let line = lines[number];
    let units = line.units(text.as_bytes(), encoding);
    let mut character = random.below(units as usize + 3) as u64;
    if !random.once_in(10) {
        while line.place(text.as_bytes(), encoding, character).is_err() {
            character += 1;
        }
    }
    at(number as u64, character)
}

fn mostly_in_order(
    random: &mut Random,
    text: &str,
    encoding: Encoding,
    start: Position,
    end: Position,
) -> (Position, Position) {
    let place = |position| position::place(text.as_bytes(), encoding, position).ok();
    if place(start) > place(end) && !random.once_in(10) {
        (end, start)
    } else {
        (start, end)
    }
}

fn seldom_damaged(random: &mut Random, text: String) -> Vec<u8> {
    if text.is_empty() || !random.once_in(30) {
        text.into_bytes()
    } else {
        damaged(random, text)
    }
}

/// Always enough to hold the old text.
fn random_lent(random: &mut Random, old: usize) -> usize {
    match random.below(40) {
        0 => old + random.below(LIMIT - old),
        1..=9 => LIMIT + random.below(LIMIT),
        _ => LIMIT,
    }
}

#[cfg(test)]
mod tests {
    use super::*;

    fn numbers(changes: Vec<Change>) -> Vec<u8> {
        let number = |change: &Change| change.new_text().map_or_else(|refusal| refusal.number(), |_| 0);
        changes.iter().map(number).collect()
    }

    #[test]
    fn groups_are_what_they_are_called() {
        assert!(numbers(taken()).iter().all(|&number| number == 0));
        assert!(numbers(line_ends()).iter().all(|&number| number == 0));
        assert!(numbers(around_line_ends()).iter().all(|&number| number == 0));
        assert_eq!(numbers(refused()), [&[1; 8][..], &[8; 5], &[12; 4], &[13; 8], &[14; 3]].concat());
        assert_eq!(numbers(in_order()), [&[1; 7][..], &[8; 5], &[12; 6], &[13; 4]].concat());
        assert_eq!(numbers(huge()), [0, 0, 0, 15, 15, 7, 7, 1, 14]);
    }

    #[test]
    fn huge_results_are_at_the_limit() {
        for change in huge() {
            if let Ok(text) = change.new_text() {
                assert_eq!(text.len(), LIMIT);
            }
        }
    }

    #[test]
    fn over_half_of_the_random_changes_are_taken() {
        let numbers = numbers(random());
        let taken = numbers.iter().filter(|&&number| number == 0).count();
        assert!(taken * 2 > numbers.len(), "{taken}");
        for number in [1, 8, 12, 13, 14] {
            assert!(numbers.contains(&number), "{number}");
        }
    }
}
