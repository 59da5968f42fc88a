//! Codings of texts.

use super::{long, sources};
use crate::case::Case;
use crate::language::Language::{self, Routes, Settings};
use crate::position::Encoding::{self, Utf16, Utf32, Utf8};

pub fn cases() -> Vec<Case> {
    let groups = [small(), in_all(), tokens_at_the_limit(), in_order(), huge()];
    groups.into_iter().flatten().collect()
}

/// All are ASCII, so that any encoding will do: take turns.
fn small() -> Vec<Case> {
    let routes = sources::small_routes().into_iter().map(|text| (Routes, text));
    let settings = sources::small_settings().into_iter().map(|text| (Settings, text));
    let turns = Encoding::ALL.into_iter().cycle();
    let in_turn = |((language, text), encoding): ((_, String), _)| Case::Code(language, encoding, text.into());
    routes.chain(settings).zip(turns).map(in_turn).collect()
}

fn in_all() -> Vec<Case> {
    sources::all().into_iter().flat_map(|text| in_each(&text)).collect()
}

/// The text in each language and encoding.
fn in_each(text: &[u8]) -> Vec<Case> {
    let in_language = |language| Encoding::ALL.map(|encoding| Case::Code(language, encoding, text.to_vec()));
    Language::ALL.into_iter().flat_map(in_language).collect()
}

/// One token fewer than there may be, as many, and one more.
fn tokens_at_the_limit() -> Vec<Case> {
    (511..=513).flat_map(so_many_tokens).collect()
}

fn so_many_tokens(count: usize) -> Vec<Case> {
    // What follows is no token.
    let text = |token| [&long::repeated(token, count)[..], "\n/\u{e9}".as_bytes()].concat();
    let mut cases = in_each(&long::repeated("+", count));
    cases.extend(in_each(&long::repeated("=", count)));
    cases.extend([
        Case::Code(Routes, Utf16, text("\"\"")),
        Case::Code(Routes, Utf8, text(";\r")),
        Case::Code(Routes, Utf32, text("a ")),
        Case::Code(Settings, Utf8, text("a\n")),
        Case::Code(Settings, Utf32, text("1\u{e9}")),
        Case::Code(Settings, Utf16, text("on ")),
    ]);
    cases
}

/// Two causes at a time: ill-formed goes before too many tokens.
fn in_order() -> Vec<Case> {
    let many = long::repeated("+", 513);
    vec![
        Case::Code(Routes, Utf8, [&many[..], b"\x80"].concat()),
        Case::Code(Routes, Utf16, [b"\xFF", &many[..]].concat()),
        // Nothing in it starts a token of settings.
        Case::Code(Settings, Utf16, [&many[..], b"\x80"].concat()),
    ]
}

/// Such lines are long, so there are few of them.
fn huge() -> Vec<Case> {
    vec![
        Case::Code(Routes, Utf16, long::at_both_limits()),
        Case::Code(Settings, Utf8, long::at_both_limits()),
        Case::Code(Routes, Utf8, long::full_of("+")),
        Case::Code(Settings, Utf32, long::full_of("+")),
        Case::Code(Settings, Utf8, long::full_of("a")),
        Case::Code(Routes, Utf32, long::full_of("7")),
        Case::Code(Routes, Utf16, long::at_the_end_of("\n")),
        Case::Code(Settings, Utf16, long::at_the_end_of(" ")),
        Case::Code(Routes, Utf16, long::wide("; ")),
        Case::Code(Routes, Utf32, long::wide("\"")),
        Case::Code(Routes, Utf8, long::over(" ")),
        Case::Code(Settings, Utf16, long::over("=")),
        Case::Code(Routes, Utf32, long::over_and_ill_formed()),
        Case::Code(Routes, Utf16, long::ill_formed_at_the_end()),
    ]
}

#[cfg(test)]
mod tests {
    use super::*;

    fn numbers(cases: Vec<Case>) -> Vec<String> {
        let number = |case: &Case| case.answer().split(' ').next().unwrap().to_string();
        cases.iter().map(number).collect()
    }

    #[test]
    fn groups_are_what_they_are_called() {
        assert_eq!(numbers(in_order()), ["8"; 3]);
        assert_eq!(numbers(huge()), ["0", "0", "18", "0", "0", "0", "0", "0", "0", "0", "7", "7", "7", "8"]);
        let at_the_limit = numbers(tokens_at_the_limit());
        let (taken, over) = at_the_limit.split_at(at_the_limit.len() / 3 * 2);
        assert!(taken.iter().all(|number| number == "0"));
        // Neither language has a token in the operators of the other.
        assert_eq!(over.iter().filter(|number| *number == "18").count(), over.len() - 6);
    }
}
