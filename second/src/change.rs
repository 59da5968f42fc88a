//! A change of a text that stands in lent memory.

use crate::position::{self, Encoding, Position};
use crate::refusal::Refusal;
use crate::utf8::{self, LIMIT};
use std::ops::Range;

#[derive(Clone, Debug)]
pub struct Change {
    pub encoding: Encoding,
    /// Bytes of the memory that holds the old text.
    pub lent: usize,
    pub start: Position,
    pub end: Position,
    pub old: Vec<u8>,
    pub inserted: Vec<u8>,
}

impl Change {
    /// The new text, or the first refusal in the order of the checks.
    pub fn new_text(&self) -> Result<Vec<u8>, Refusal> {
        self.check_memory()?;
        utf8::check(&self.inserted)?;
        let replaced = self.replaced()?;
        let length = self.old.len() - replaced.len() + self.inserted.len();
        if length > LIMIT {
            return Err(Refusal::NewTooLong);
        }
        let before = &self.old[..replaced.start];
        let after = &self.old[replaced.end..];
        Ok([before, &self.inserted, after].concat())
    }

    fn check_memory(&self) -> Result<(), Refusal> {
        if self.lent >= LIMIT && utf8::check(&self.old).is_ok() {
            Ok(())
        } else {
            Err(Refusal::Memory)
        }
    }

    /// The bytes to replace. Both lines come before both characters: a line
    /// that is not there goes before an inside of a character, in whichever
    /// of the two positions they are.
    fn replaced(&self) -> Result<Range<usize>, Refusal> {
        let start_line = position::line(&self.old, self.start.line)?;
        let end_line = position::line(&self.old, self.end.line)?;
        let start = start_line.place(&self.old, self.encoding, self.start.character)?;
        let end = end_line.place(&self.old, self.encoding, self.end.character)?;
        if start > end {
            return Err(Refusal::StartAfterEnd);
        }
        Ok(start..end)
    }
}

#[cfg(test)]
mod tests {
    use super::*;

    fn change(start: (u64, u64), end: (u64, u64), old: &str, inserted: &str) -> Change {
        let position = |(line, character)| Position { line, character };
        Change {
            encoding: Encoding::Utf16,
            lent: LIMIT,
            start: position(start),
            end: position(end),
            old: old.into(),
            inserted: inserted.into(),
        }
    }

    #[test]
    fn replaces() {
        let taken = |change: Change| String::from_utf8(change.new_text().unwrap()).unwrap();
        assert_eq!(taken(change((0, 0), (0, 0), "", "")), "");
        assert_eq!(taken(change((0, 1), (0, 3), "a\u{1f321}b", "-")), "a-b");
        assert_eq!(taken(change((0, 1), (1, 0), "a\r\nb", "\r")), "a\rb");
        assert_eq!(taken(change((1, 0), (1, 0), "a\rb", "\n")), "a\r\nb");
        // Both are cut to the same place, so neither lies after the other.
        assert_eq!(taken(change((0, 9), (0, 5), "abc", "d")), "abcd");
    }

    #[test]
    fn refuses_by_the_first_number_that_fits() {
        let refused = |change: Change| change.new_text().unwrap_err().number();
        let mut worst = change((0, 1), (9, 0), "\u{1f321}", "");
        worst.old.push(0x80);
        worst.inserted = vec![0x80; LIMIT + 1];
        assert_eq!(refused(worst.clone()), 1);
        worst.old.pop();
        assert_eq!(refused(worst.clone()), 7);
        worst.inserted.pop();
        assert_eq!(refused(worst.clone()), 8);
        worst.inserted.fill(b'a');
        assert_eq!(refused(worst.clone()), 12);
        worst.end.line = 0;
        assert_eq!(refused(worst.clone()), 13);
        worst.start.character = 2;
        assert_eq!(refused(worst.clone()), 14);
        worst.end.character = 2;
        assert_eq!(refused(worst.clone()), 15);
        worst.start.character = 0;
        assert_eq!(worst.new_text().unwrap().len(), LIMIT);
        worst.lent = LIMIT - 1;
        assert_eq!(refused(worst), 1);
    }
}
