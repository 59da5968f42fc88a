//! All cases, group by group. Every group has its own seed, so that a change
//! in one leaves the others as they are.

mod change;
mod code;
mod decode;
mod lines;
mod long;
mod positions;
pub mod sources;
mod texts;
mod tokens;
mod utf8;

use crate::case::Case;
use std::collections::HashSet;

pub fn all() -> Vec<Case> {
    let groups = [
        utf8::cases(),
        lines::cases(),
        positions::cases(),
        change::cases(),
        tokens::cases(),
        code::cases(),
        decode::cases(),
    ];
    // The groups overlap in places; a case asked twice shows nothing new.
    let mut seen = HashSet::new();
    let cases = groups.into_iter().flatten();
    cases.filter(|case| seen.insert(case.question())).collect()
}

#[cfg(test)]
mod tests {
    use super::*;
    use crate::language::Language;
    use crate::position::Encoding;

    fn text_bytes(case: &Case) -> usize {
        match case {
            Case::Utf8(text) | Case::Lines(text) => text.len(),
            Case::Place(_, _, text) | Case::Cut(_, _, text) => text.len(),
            Case::Change(change) => change.old.len() + change.inserted.len(),
            Case::Tokens(_, text) | Case::Code(_, _, text) => text.len(),
            Case::Decode(_) => 0,
        }
    }

    #[test]
    fn enough_cases_and_not_too_large() {
        let cases = all();
        assert!(cases.len() >= 10_000);
        let size: usize = cases.iter().map(|case| case.question().len() + 1).sum();
        assert!(size < 2_500_000, "{size}");
        let huge = cases.iter().filter(|case| text_bytes(case) > 2048).count();
        assert!(huge <= 40, "{huge}");
    }

    #[test]
    fn tokens_and_codings_of_the_same_texts_in_every_way() {
        let questions: HashSet<String> = all().iter().map(Case::question).collect();
        let there = |case: Case| questions.contains(&case.question());
        let texts: HashSet<Vec<u8>> = sources::all().into_iter().collect();
        assert!(texts.len() >= 1_000);
        for text in texts {
            for language in Language::ALL {
                assert!(there(Case::Tokens(language, text.clone())));
                assert!(Encoding::ALL.into_iter().all(|encoding| there(Case::Code(language, encoding, text.clone()))));
            }
        }
    }

    #[test]
    fn the_same_each_time() {
        let questions = |cases: Vec<Case>| cases.iter().map(Case::question).collect::<Vec<_>>();
        assert_eq!(questions(all()), questions(all()));
    }

    #[test]
    fn lines_place_and_cut_get_texts_only() {
        for case in all() {
            if let Case::Lines(text) | Case::Place(_, _, text) | Case::Cut(_, _, text) = &case {
                assert!(text.len() <= 8192 && std::str::from_utf8(text).is_ok(), "{case:?}");
            }
        }
    }

    #[test]
    fn old_texts_fit_into_the_lent_memory() {
        for case in all() {
            if let Case::Change(change) = case {
                assert!(change.old.len() <= change.lent, "{change:?}");
            }
        }
    }

    #[test]
    fn every_answer_is_there() {
        let starts: HashSet<String> =
            all().iter().map(|case| format!("{} {}", case.kind(), case.answer().split(' ').next().unwrap())).collect();
        let expected = [
            "utf8 well-formed",
            "utf8 ill-formed",
            "place 0",
            "place 12",
            "place 13",
            "cut 0",
            "cut 12",
            "change 0",
            "change 1",
            "change 7",
            "change 8",
            "change 12",
            "change 13",
            "change 14",
            "change 15",
            "tokens 0",
            "tokens 512",
            "tokens 513",
            "tokens refused",
            "code 0",
            "code 7",
            "code 8",
            "code 18",
            "decode none",
        ];
        for start in expected {
            assert!(starts.contains(start), "{start}");
        }
    }
}
