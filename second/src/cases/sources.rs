//! Texts in the languages, and such as are nearly in them, for several groups.

use super::texts::{damaged, words};
use crate::random::Random;

const KEYWORDS: [&str; 5] = ["route", "to", "drop", "on", "off"];

/// Words that are nearly keywords.
const NEARLY: [&str; 24] = [
    "routes", "toto", "Route", "on1", "offf", "_to", "rout", "r", "TO", "tO", "t", "dropped", "drop_", "Drop", "On",
    "ON", "o", "of", "OFF", "off0", "_on", "on_off", "_", "__",
];

/// Numbers, and digits that words take or leave.
const DIGITS: [&str; 14] =
    ["0", "12", "25", "007", "4294967296", "12ab", "a12", "1to", "2on", "3route4", "9_", "_9", "0x1F", "1e5"];

/// What starts no token though it stands next to something that does, in the
/// table of ASCII or as a blank.
const NOTHING: [&str; 24] = [
    "!", "$", "*", ",", "/", ":", "<", ">", "@", "[", "^", "`", "{", "'", "\\", "-", ".", "%", "\0", "\u{b}", "\u{c}",
    "\u{1f}", "\u{7f}", "//",
];

/// Characters of several bytes that are easily taken for others.
const WIDE: [&str; 30] = [
    "\u{e9}",
    "\u{20ac}",
    "\u{1f321}",
    // Letters, digits and signs to others.
    "\u{aa}",
    "\u{17f}",
    "\u{212a}",
    "\u{ff41}",
    "\u{660}",
    "\u{b2}",
    "\u{ff11}",
    "\u{1d7ce}",
    "\u{1d41a}",
    "\u{37e}",
    "\u{ff0b}",
    "\u{201c}",
    "\u{ff02}",
    // Blanks and line ends to others.
    "\u{85}",
    "\u{a0}",
    "\u{2003}",
    "\u{2028}",
    "\u{3000}",
    "\u{feff}",
    // A scalar value that holds the one of `"`, `;`, `a`, `=`, LF or CR.
    "\u{122}",
    "\u{13b}",
    "\u{2061}",
    "\u{1003d}",
    "\u{10a}",
    "\u{1000d}",
    // Joined with the character before on the screen.
    "\u{301}",
    "\u{10ffff}",
];

const BLANKS: [&str; 6] = [" ", " ", " ", "\t", "  ", " \t "];

const LINE_ENDS: [&str; 8] = ["\n", "\n", "\r", "\r", "\r\n", "\r\n", "\n\r", "\r\r\n"];

const NASTY: [&str; 92] = [
    // The worked examples.
    "route a/+ ; \u{1f321}\nto 12",
    "  x = on 25",
    // Nothing, blanks and line ends only.
    "",
    " ",
    "\t",
    "\n",
    "\r",
    "\r\n",
    "\n\r",
    "\r\r\n",
    "\r\n\r\n\n\r\r",
    " \n\t\r \r\n\t",
    // Strings that end with the text, and with their line.
    "\"",
    "\"\"",
    "\"\"\"",
    "a\"",
    "to \"",
    "route \"a",
    "route \"a\"",
    "\"a\nb\"c",
    "\"a\rb\"c",
    "\"a\r\nb\"c",
    "\"\ra",
    "\"\r\na",
    "\"\r\r\n\"",
    "\"\n\r\"",
    "\"a\\\"b\"c",
    "\"a\tb \"to",
    "\"\u{e9}\u{20ac}\u{1f321}",
    "\"\u{e9}\u{20ac}\u{1f321}\r\nto",
    "\"\u{1f321}\"\u{1f321}\"\u{1f321}\"",
    "\"\u{2028}\"to",
    // Comments that end with the text, and with their line.
    ";",
    ";;",
    "; a",
    "drop;to",
    ";\n;\r;\r\n;",
    ";\r\r\n;\n\r;",
    "; \u{1f321}",
    "; \u{e9}\u{20ac}\u{1f321}\rto",
    ";\u{85}to\u{2028}to\u{b}to",
    // One in the other.
    "\";\"to",
    "\"a;b",
    ";\"a\nto\"",
    "; \"a\" b",
    "\"a\";\"b\"\r\"c;",
    "\";\r;\"\r\";\"",
    // CR in odd places.
    "\rto",
    "to\r",
    "to\rto\r\rto",
    "to\r\r\nto",
    "to\n\rto",
    "a=\ron\r=off\ra",
    "on\r\non\non\ron",
    "\r on\r\n\toff\n\ron\r\r\noff",
    "\u{1f321}\ron\u{1f321}\r\non",
    // Properties, and words that are none.
    "\ta",
    "\t \ta=b",
    " \tx\t=\toff",
    "on",
    "on=on",
    "on on off off",
    "off = off\non = on",
    "=on",
    "= on\n= a",
    "1on",
    "1 on\n2 a",
    "a=1on",
    "\u{a0}on",
    "\u{3000}a = on",
    "\u{feff}a = on",
    "\u{e9}on = off",
    "a\u{e9}on = off",
    "\u{b}on\n\u{c}off",
    "\0a",
    ";a = on",
    "#on\n+on\n\"on\"",
    "x = \"on\" ; off",
    "on/off\non.off",
    "x == on=off",
    "a\n b\n\tc\nd e",
    // Words, numbers and operators without anything between.
    "++##+#",
    "+a#1+\"#\"+;+",
    "a=b=1=on",
    "12ab34",
    "a12_b",
    "route/to/drop",
    "routeto drop1 1drop _drop drop_",
    "Route ROUTE rOUTE route",
    "on1 offf on off On OFF",
    "az AZ az09 AZ_ @[`{/:",
    "\u{e9}a\u{e9}1\u{e9}+\u{e9}",
];

/// Texts that are ill-formed in a token, before one, between two, or after
/// the last one.
const ILL_FORMED: [&[u8]; 14] = [
    b"\x80",
    b"\xFF",
    b"a\xC3",
    b"\xC3a",
    b"route \xF0\x9F\x8C",
    b"route a\x80b to 12",
    b"; \xF0\x9F\x8C\nto",
    b"\"\xED\xA0\x80\"",
    b"\"\xC0\xA2 to",
    b"x = on\xC0\x8A",
    b"\xFEx = on",
    b"x\xA0= on",
    b"x = 25 \xF4\x90\x80\x80",
    b"\xEF\xBB x = on",
];

/// Every mixture of a few characters that matter in routes.
pub fn small_routes() -> Vec<String> {
    words(&["a", "1", "\"", ";", "\n", "\r"], 3)
}

/// The same in settings.
pub fn small_settings() -> Vec<String> {
    words(&["on", " ", "=", "\t", "\n", "\r"], 3)
}

/// All others but the long ones: about 1,100.
pub fn all() -> Vec<Vec<u8>> {
    let nasty = NASTY.iter().map(|text| text.as_bytes().to_vec());
    let ill_formed = ILL_FORMED.iter().map(|text| text.to_vec());
    let many = many(960).into_iter().map(String::into_bytes);
    nasty.chain(ill_formed).chain(damaged_sources()).chain(many).collect()
}

/// So many random texts. Fewer are the first of more.
pub fn many(count: usize) -> Vec<String> {
    let mut random = Random::new(0x50c5);
    (0..count).map(|_| random_source(&mut random)).collect()
}

fn damaged_sources() -> Vec<Vec<u8>> {
    let mut random = Random::new(0xba5e);
    let mut damaged_source = || {
        let text = random_source(&mut random) + "\u{e9}";
        damaged(&mut random, text)
    };
    (0..40).map(|_| damaged_source()).collect()
}

/// Lines in one of the languages, as they are or with something put in; or
/// pieces in any order.
fn random_source(random: &mut Random) -> String {
    match random.below(8) {
        0 => routes(random),
        1 => settings(random),
        2..=3 => twisted(random, routes),
        4..=5 => twisted(random, settings),
        _ => several(random, 1, 18, piece),
    }
}

/// From `least` up to, without, `end` parts, one after the other.
fn several(random: &mut Random, least: usize, end: usize, part: fn(&mut Random) -> String) -> String {
    let count = least + random.below(end - least);
    (0..count).map(|_| part(random)).collect()
}

fn routes(random: &mut Random) -> String {
    several(random, 1, 4, route_line)
}

fn settings(random: &mut Random) -> String {
    several(random, 1, 5, setting_line)
}

/// A route as `route a/+ to "b" ; remark`, or a drop.
fn route_line(random: &mut Random) -> String {
    let topic = topic(random);
    let rest = match random.below(4) {
        0 => format!("drop {topic}"),
        1 => String::new(),
        _ => format!("route {topic} to {}", target(random)),
    };
    let remark = if random.once_in(3) { format!("; {}", wide_word(random)) } else { String::new() };
    seldom_indented(random) + &rest + &remark + random.pick(&LINE_ENDS)
}

/// Levels with `/` between them.
fn topic(random: &mut Random) -> String {
    let levels: Vec<String> = (0..1 + random.below(3)).map(|_| level(random)).collect();
    levels.join("/")
}

fn level(random: &mut Random) -> String {
    match random.below(4) {
        0 => "+".into(),
        1 => "#".into(),
        _ => word(random),
    }
}

fn target(random: &mut Random) -> String {
    match random.below(3) {
        0 => random.below(1000).to_string(),
        1 => format!("\"{}\"", wide_word(random)),
        _ => word(random),
    }
}

/// A setting as `x = on`.
fn setting_line(random: &mut Random) -> String {
    let name = word(random);
    let equals = random.pick(&["=", " = ", "\t= ", " =\t"]);
    let value = value(random);
    let more = if random.once_in(4) { format!(" {}", piece(random)) } else { String::new() };
    seldom_indented(random) + &name + equals + &value + &more + random.pick(&LINE_ENDS)
}

fn value(random: &mut Random) -> String {
    match random.below(4) {
        0 => "on".into(),
        1 => "off".into(),
        2 => random.below(100).to_string(),
        _ => word(random),
    }
}

fn seldom_indented(random: &mut Random) -> String {
    let blanks = if random.once_in(3) { random.pick(&BLANKS) } else { "" };
    blanks.into()
}

/// Lines with one to three pieces put in between any two characters.
fn twisted(random: &mut Random, lines: fn(&mut Random) -> String) -> String {
    let mut text: Vec<char> = lines(random).chars().collect();
    for _ in 0..1 + random.below(3) {
        let at = random.below(text.len() + 1);
        text.splice(at..at, piece(random).chars());
    }
    text.into_iter().collect()
}

fn piece(random: &mut Random) -> String {
    match random.below(22) {
        0..=3 => word(random),
        4 => random.pick(&DIGITS).into(),
        5..=7 => random.pick(&["+", "#", "="]).into(),
        8..=9 => "\"".into(),
        10 => ";".into(),
        11..=13 => random.pick(&BLANKS).into(),
        14..=16 => random.pick(&LINE_ENDS).into(),
        17 => random.pick(&NOTHING).into(),
        18..=19 => random.pick(&WIDE).into(),
        _ => random.scalar().into(),
    }
}

fn word(random: &mut Random) -> String {
    match random.below(4) {
        0 => random.pick(&KEYWORDS).into(),
        1 => random.pick(&NEARLY).into(),
        _ => several(random, 1, 5, word_character),
    }
}

/// Digits too, so that some of these words are a number and a word.
fn word_character(random: &mut Random) -> String {
    const FROM: &[u8] = b"abcxyzABCXYZ_0189";
    char::from(FROM[random.below(FROM.len())]).into()
}

/// For the inside of strings and comments.
fn wide_word(random: &mut Random) -> String {
    several(random, 0, 4, |random| match random.below(4) {
        0 => word(random),
        1 => random.pick(&NOTHING).into(),
        2 => random.pick(&WIDE).into(),
        _ => random.scalar().into(),
    })
}

#[cfg(test)]
mod tests {
    use super::*;
    use crate::language::{Language, Type};
    use std::collections::HashSet;

    #[test]
    fn over_a_thousand_different_texts() {
        let texts: HashSet<Vec<u8>> = all().into_iter().collect();
        assert!(texts.len() >= 1_000, "{}", texts.len());
    }

    #[test]
    fn ill_formed_is_what_is_called_so() {
        assert!(ILL_FORMED.iter().all(|text| std::str::from_utf8(text).is_err()));
        let damaged = damaged_sources();
        let ill_formed = damaged.iter().filter(|text| std::str::from_utf8(text).is_err()).count();
        assert!(ill_formed >= 10 && ill_formed < damaged.len(), "{ill_formed}");
    }

    #[test]
    fn each_type_is_found_often() {
        let texts = many(960);
        let count = |language: Language, kind| {
            let tokens = texts.iter().flat_map(|text| language.tokens(text.as_bytes()));
            tokens.filter(|token| token.kind == kind).count()
        };
        use Type::{Comment, Keyword, Number, Operator, Property, String, Variable};
        for kind in [Comment, Keyword, Variable, Number, Operator, String] {
            let count = count(Language::Routes, kind);
            assert!(count >= 100, "{kind:?} {count}");
        }
        for kind in [Keyword, Variable, Number, Operator, Property] {
            let count = count(Language::Settings, kind);
            assert!(count >= 100, "{kind:?} {count}");
        }
    }
}
