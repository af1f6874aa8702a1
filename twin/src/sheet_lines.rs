//! The lines of a sheet with their numbers, and what every sheet checks first.

use crate::limits::MOST_BYTES;
use crate::lines::{fields, find_lf};
use crate::refusal::{Reason, Refusal};

/// A sheet that is read line by line.
pub struct SheetLines<'a> {
    text: &'a [u8],
    next: usize,
    number: usize,
}

impl<'a> SheetLines<'a> {
    /// Opens a text, unless it is over its limit.
    pub fn open(text: &'a [u8]) -> Result<SheetLines<'a>, Refusal> {
        if text.len() > MOST_BYTES {
            return Err(Reason::TooLong.at(0));
        }
        Ok(SheetLines {
            text,
            next: 0,
            number: 0,
        })
    }

    /// The number of the line taken last.
    pub fn number(&self) -> usize {
        self.number
    }

    /// Whether the text has no further line.
    pub fn at_end(&self) -> bool {
        self.next == self.text.len()
    }

    /// Takes the next line, without its LF; a missing LF is refused.
    pub fn take(&mut self) -> Result<&'a [u8], Refusal> {
        self.number += 1;
        let lf = find_lf(self.text, self.next).ok_or(self.refusal(Reason::Malformed))?;
        let line = &self.text[self.next..lf];
        self.next = lf + 1;
        Ok(line)
    }

    /// Takes line 1, whose fields are a keyword and three more.
    pub fn take_head(&mut self, keyword: &str) -> Result<[&'a [u8]; 3], Refusal> {
        let line = self.take()?;
        let mut parts = fields(line);
        let found = parts.next() == Some(keyword.as_bytes());
        match (found, exactly_three(parts)) {
            (true, Some(three)) => Ok(three),
            _ => Err(self.refusal(Reason::Malformed)),
        }
    }

    /// The refusal for a reason at the line taken last.
    pub fn refusal(&self, reason: Reason) -> Refusal {
        reason.at(self.number)
    }

    /// What a field says, or refusal 2 at the line taken last.
    pub fn field<T>(&self, value: Option<T>) -> Result<T, Refusal> {
        value.ok_or(self.refusal(Reason::BadField))
    }
}

/// The fields if they are three, no fewer and no more.
pub fn exactly_three<'a>(mut parts: impl Iterator<Item = &'a [u8]>) -> Option<[&'a [u8]; 3]> {
    let three = [parts.next()?, parts.next()?, parts.next()?];
    parts.next().is_none().then_some(three)
}
