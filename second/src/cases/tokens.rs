//! Token lists.

use super::{long, sources};
use crate::case::Case;
use crate::language::Language::{self, Routes, Settings};

pub fn cases() -> Vec<Case> {
    let groups = [small(), in_both(), huge()];
    groups.into_iter().flatten().collect()
}

fn small() -> Vec<Case> {
    let routes = sources::small_routes().into_iter().map(|text| Case::Tokens(Routes, text.into()));
    let settings = sources::small_settings().into_iter().map(|text| Case::Tokens(Settings, text.into()));
    routes.chain(settings).collect()
}

fn in_both() -> Vec<Case> {
    let of_text = |text: Vec<u8>| Language::ALL.map(|language| Case::Tokens(language, text.clone()));
    sources::all().into_iter().flat_map(of_text).collect()
}

/// Unlike a coding, a list takes any number of tokens.
fn huge() -> Vec<Case> {
    vec![
        Case::Tokens(Routes, long::repeated("+", 513)),
        Case::Tokens(Settings, long::repeated("=", 513)),
        Case::Tokens(Routes, long::at_both_limits()),
        Case::Tokens(Settings, long::at_both_limits()),
        Case::Tokens(Routes, long::full_of("+")),
        Case::Tokens(Settings, long::full_of("1")),
        Case::Tokens(Settings, long::at_the_end_of("\n")),
        Case::Tokens(Routes, long::over("+")),
        Case::Tokens(Settings, long::over("a")),
        Case::Tokens(Routes, long::over_and_ill_formed()),
        Case::Tokens(Settings, long::ill_formed_at_the_end()),
    ]
}
