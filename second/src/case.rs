//! One case: its line in stdin, and the answer's line in stdout.

use crate::change::Change;
use crate::coding;
use crate::language::Language;
use crate::notation::quoted;
use crate::position::{self, Encoding, Position};
use crate::refusal::Refusal;
use crate::utf8;

#[derive(Clone, Debug)]
pub enum Case {
    Utf8(Vec<u8>),
    Lines(Vec<u8>),
    Place(Encoding, Position, Vec<u8>),
    Cut(Encoding, Position, Vec<u8>),
    Change(Change),
    Tokens(Language, Vec<u8>),
    Code(Language, Encoding, Vec<u8>),
    Decode(Vec<u64>),
}

impl Case {
    pub const KINDS: [&'static str; 8] = ["utf8", "lines", "place", "cut", "change", "tokens", "code", "decode"];

    /// The programs that answer cases.
    pub const PROGRAMS: [&'static str; 2] = ["vectors", "token_vectors"];

    /// The program that answers this case: one for texts, one for tokens.
    pub fn program(&self) -> &'static str {
        match self {
            Case::Utf8(..) | Case::Lines(..) | Case::Place(..) | Case::Cut(..) | Case::Change(..) => "vectors",
            Case::Tokens(..) | Case::Code(..) | Case::Decode(..) => "token_vectors",
        }
    }

    pub fn kind(&self) -> &'static str {
        match self {
            Case::Utf8(..) => "utf8",
            Case::Lines(..) => "lines",
            Case::Place(..) => "place",
            Case::Cut(..) => "cut",
            Case::Change(..) => "change",
            Case::Tokens(..) => "tokens",
            Case::Code(..) => "code",
            Case::Decode(..) => "decode",
        }
    }

    pub fn question(&self) -> String {
        let fields = match self {
            Case::Utf8(text) | Case::Lines(text) => quoted(text),
            Case::Place(encoding, position, text) | Case::Cut(encoding, position, text) => {
                format!("{} {position} {}", encoding.name(), quoted(text))
            }
            Case::Change(change) => change_fields(change),
            Case::Tokens(language, text) => format!("{} {}", language.name(), quoted(text)),
            Case::Code(language, encoding, text) => {
                format!("{} {} {}", language.name(), encoding.name(), quoted(text))
            }
            Case::Decode(numbers) if numbers.is_empty() => "-".into(),
            Case::Decode(numbers) => joined(numbers, ","),
        };
        format!("{} {fields}", self.kind())
    }

    pub fn answer(&self) -> String {
        match self {
            Case::Utf8(text) if utf8::is_well_formed(text) => "well-formed".into(),
            Case::Utf8(_) => "ill-formed".into(),
            Case::Lines(text) => lines_answer(text),
            Case::Place(encoding, position, text) => {
                result(position::place(text, *encoding, *position).map(|place| place.to_string()))
            }
            Case::Cut(encoding, position, text) => {
                result(position::cut(text, *encoding, *position).map(|column| column.to_string()))
            }
            Case::Change(change) => result(change.new_text().map(|text| quoted(&text))),
            Case::Tokens(language, text) => tokens_answer(*language, text),
            Case::Code(language, encoding, text) => {
                result(coding::code(*language, *encoding, text).map(|numbers| joined(&numbers, ",")))
            }
            Case::Decode(numbers) => decode_answer(numbers),
        }
    }
}

fn change_fields(change: &Change) -> String {
    format!(
        "{} {} {} {} {} {}",
        change.encoding.name(),
        change.lent,
        change.start,
        change.end,
        quoted(&change.old),
        quoted(&change.inserted)
    )
}

fn lines_answer(text: &[u8]) -> String {
    let lines = position::lines(text);
    let each = lines.iter().map(|line| format!(" {}+{}", line.start, line.length));
    format!("{}{}", lines.len(), each.collect::<String>())
}

fn tokens_answer(language: Language, text: &[u8]) -> String {
    if let Err(refusal) = utf8::check(text) {
        return format!("refused {}", refusal.number());
    }
    let tokens = language.tokens(text);
    let each = tokens.iter().map(|token| format!(" {token}"));
    format!("{}{}", tokens.len(), each.collect::<String>())
}

fn decode_answer(numbers: &[u64]) -> String {
    let tokens = coding::decode(numbers);
    if tokens.is_empty() {
        return "none".into();
    }
    joined(&tokens, " ")
}

fn joined<T: ToString>(items: &[T], between: &str) -> String {
    items.iter().map(T::to_string).collect::<Vec<_>>().join(between)
}

/// 0 and the value, which may be empty, or the number of the refusal.
fn result(result: Result<String, Refusal>) -> String {
    match result {
        Ok(value) if value.is_empty() => "0".into(),
        Ok(value) => format!("0 {value}"),
        Err(refusal) => refusal.number().to_string(),
    }
}

#[cfg(test)]
mod tests {
    use super::*;

    fn at(line: u64, character: u64) -> Position {
        Position { line, character }
    }

    fn both(case: Case) -> (String, String) {
        (case.question(), case.answer())
    }

    fn expect(case: Case, question: &str, answer: &str) {
        assert_eq!(both(case), (question.into(), answer.into()));
    }

    #[test]
    fn utf8_and_lines() {
        expect(Case::Utf8(b"a".to_vec()), r#"utf8 "a""#, "well-formed");
        expect(Case::Utf8(vec![0x80]), r#"utf8 "\x80""#, "ill-formed");
        expect(Case::Lines(vec![]), r#"lines """#, "1 0+0");
        expect(Case::Lines(b"ab\r\nc\n".to_vec()), r#"lines "ab\r\nc\n""#, "3 0+2 4+1 6+0");
    }

    #[test]
    fn place_and_cut() {
        let text = b"; \xF0\x9F\x8C\xA1".to_vec();
        let utf16 = Encoding::Utf16;
        expect(Case::Place(utf16, at(0, 3), text.clone()), r#"place utf-16 0:3 "; \xF0\x9F\x8C\xA1""#, "13");
        expect(Case::Place(utf16, at(0, 9), text.clone()), r#"place utf-16 0:9 "; \xF0\x9F\x8C\xA1""#, "0 6");
        expect(Case::Cut(utf16, at(0, 9), text), r#"cut utf-16 0:9 "; \xF0\x9F\x8C\xA1""#, "0 4");
        expect(Case::Cut(Encoding::Utf8, at(1, 0), b"a".to_vec()), r#"cut utf-8 1:0 "a""#, "12");
    }

    #[test]
    fn change() {
        let mut change = Change {
            encoding: Encoding::Utf32,
            lent: 9000,
            start: at(0, 0),
            end: at(0, 1),
            old: b"a\n".to_vec(),
            inserted: b"\"".to_vec(),
        };
        expect(Case::Change(change.clone()), r#"change utf-32 9000 0:0 0:1 "a\n" "\"""#, r#"0 "\"\n""#);
        change.lent = 8191;
        expect(Case::Change(change), r#"change utf-32 8191 0:0 0:1 "a\n" "\"""#, "1");
    }

    #[test]
    fn tokens() {
        let tokens = |language, text: &[u8]| Case::Tokens(language, text.to_vec());
        expect(tokens(Language::Routes, b"to \"a"), r#"tokens routes "to \"a""#, "2 0+2:1:0 3+2:5:0");
        expect(tokens(Language::Settings, b"a\t="), r#"tokens settings "a\t=""#, "2 0+1:6:2 2+1:4:0");
        expect(tokens(Language::Routes, b"/"), r#"tokens routes "/""#, "0");
        expect(tokens(Language::Settings, &[0xFF]), r#"tokens settings "\xFF""#, "refused 8");
        assert_eq!(tokens(Language::Settings, &[0xFF; 8193]).answer(), "refused 7");
        assert!(tokens(Language::Routes, &[b'+'; 513]).answer().starts_with("513 0+1:4:0 1+1:4:0 "));
    }

    #[test]
    fn code_and_decode() {
        let code = |language, text: &[u8]| Case::Code(language, Encoding::Utf16, text.to_vec());
        expect(code(Language::Settings, b"a =\n"), r#"code settings utf-16 "a =\n""#, "0 0,0,1,6,2,0,2,1,4,0");
        expect(code(Language::Routes, b""), r#"code routes utf-16 """#, "0");
        expect(code(Language::Routes, &[0x80]), r#"code routes utf-16 "\x80""#, "8");
        assert_eq!(code(Language::Routes, &[b'+'; 513]).answer(), "18");
        assert_eq!(code(Language::Routes, &[b'+'; 8193]).answer(), "7");
        expect(Case::Decode(vec![]), "decode -", "none");
        expect(Case::Decode(vec![1, 2, 3, 4]), "decode 1,2,3,4", "none");
        let numbers = vec![1, 2, 3, 4, 5, 0, 4294967295, 0, 0, 0, 9];
        expect(Case::Decode(numbers), "decode 1,2,3,4,5,0,4294967295,0,0,0,9", "1:2+3:4:5 1:4294967297+0:0:0");
    }
}
