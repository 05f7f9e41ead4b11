//! The words of a command.

use std::ops::RangeInclusive;
use std::str::{FromStr, SplitWhitespace};

/// What is left of a line, word by word.
pub(super) struct Rest<'a> {
    words: SplitWhitespace<'a>,
}

impl<'a> Rest<'a> {
    pub fn of(line: &'a str) -> Rest<'a> {
        let words = line.split_whitespace();
        Rest { words }
    }

    pub fn next(&mut self) -> Option<&'a str> {
        self.words.next()
    }

    pub fn peek(&self) -> Option<&'a str> {
        self.words.clone().next()
    }

    /// Whether this word is next; then it is taken.
    pub fn takes(&mut self, word: &str) -> bool {
        let is = self.peek() == Some(word);
        if is {
            self.words.next();
        }
        is
    }

    pub fn word(&mut self, word: &str) -> Result<(), String> {
        match self.words.next() {
            Some(found) if found == word => Ok(()),
            Some(found) => Err(format!("{word:?} is due, and not {found:?}")),
            None => Err(format!("{word:?} is due, and not the line's end")),
        }
    }

    pub fn number<T: FromStr>(&mut self) -> Result<T, String> {
        let word = self.words.next();
        let word = word.ok_or("a number is due, and not the line's end")?;
        let number = word.parse();
        number.map_err(|_| format!("{word:?} is no number, or out of range here"))
    }

    /// A number behind its name.
    pub fn named<T: FromStr>(&mut self, name: &str) -> Result<T, String> {
        self.word(name)?;
        self.number()
    }

    /// A number behind its name, if the name is next.
    pub fn maybe<T: FromStr>(&mut self, name: &str) -> Result<Option<T>, String> {
        match self.takes(name) {
            true => self.number().map(Some),
            false => Ok(None),
        }
    }

    pub fn within(&mut self, range: RangeInclusive<usize>) -> Result<usize, String> {
        let number = self.number()?;
        let (first, last) = (range.start(), range.end());
        match range.contains(&number) {
            true => Ok(number),
            false => Err(format!("{number} is not {first} to {last}")),
        }
    }

    /// From one number to another, at most to the last, behind a name.
    pub fn range(&mut self, name: &str, last: usize) -> Result<RangeInclusive<usize>, String> {
        self.word(name)?;
        let first = self.within(0..=last)?;
        self.word("to")?;
        Ok(first..=self.within(first..=last)?)
    }

    pub fn end(&mut self) -> Result<(), String> {
        match self.words.next() {
            None => Ok(()),
            Some(word) => Err(format!("{word:?} is one word too many, or no such word")),
        }
    }
}
