//! The numbers by which something is refused.

#[derive(Clone, Copy, Debug, PartialEq, Eq)]
pub enum Refusal {
    /// The lent memory is too short, or what it holds is no text.
    Memory = 1,
    /// The text is over the limit; of a change, the inserted one.
    TooLong = 7,
    /// The text is ill-formed; of a change, the inserted one.
    IllFormed = 8,
    /// The line is not there.
    NoSuchLine = 12,
    /// The position falls inside a character.
    InsideCharacter = 13,
    /// The start lies after the end.
    StartAfterEnd = 14,
    /// The new text would be over the limit.
    NewTooLong = 15,
    /// The text has more tokens than a coding takes.
    TooManyTokens = 18,
}

impl Refusal {
    pub fn number(self) -> u8 {
        self as u8
    }
}
