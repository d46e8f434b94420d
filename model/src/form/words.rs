//! Lines of a text form, word by word.

use super::WORD;
use crate::records::Version;

/// Why a text is refused, and at which line, counted from 1.
#[derive(Clone, Debug, PartialEq, Eq)]
pub struct Fault {
    pub line: usize,
    pub reason: String,
}

/// The words of one line that are still to be read.
#[derive(Clone, Debug)]
pub struct Words<'a> {
    pub line: usize,
    rest: Vec<&'a str>,
}

/// The lines that say something, and the number of the last line.
pub fn lines(text: &[u8]) -> Result<(Vec<Words<'_>>, usize), Fault> {
    let text = plain(text)?;
    let all = text.lines().enumerate();
    let spoken = all.map(|(i, line)| Words { line: i + 1, rest: split(line) });
    let last = text.lines().count().max(1);
    Ok((spoken.filter(|words| !words.rest.is_empty()).collect(), last))
}

/// The bytes as text, without the mark that some editors put in front.
fn plain(bytes: &[u8]) -> Result<&str, Fault> {
    let text = std::str::from_utf8(bytes).map_err(|error| {
        let before = &bytes[..error.valid_up_to()];
        let line = 1 + before.iter().filter(|&&byte| byte == b'\n').count();
        Fault { line, reason: "this line is not plain text (UTF-8)".into() }
    })?;
    Ok(text.strip_prefix('\u{feff}').unwrap_or(text))
}

/// The words before any remark, in reading order; `|` and `,` are words of their own.
fn split(line: &str) -> Vec<&str> {
    let said = line.split('#').next().unwrap_or("");
    let mut words = Vec::new();
    for chunk in said.split_whitespace() {
        let mut rest = chunk;
        while let Some(at) = rest.find(['|', ',']) {
            words.extend([&rest[..at], &rest[at..=at]]);
            rest = &rest[at + 1..];
        }
        words.push(rest);
    }
    words.retain(|word| !word.is_empty());
    words.reverse();
    words
}

impl<'a> Words<'a> {
    pub fn fault<T>(&self, reason: impl Into<String>) -> Result<T, Fault> {
        Err(Fault { line: self.line, reason: reason.into() })
    }

    pub fn peek(&self) -> Option<&'a str> {
        self.rest.last().copied()
    }

    pub fn next(&mut self) -> Option<&'a str> {
        self.rest.pop()
    }

    /// Whether this word is still to be read.
    pub fn has(&self, word: &str) -> bool {
        self.rest.contains(&word)
    }

    /// Reads this word if it comes next.
    pub fn take(&mut self, word: &str) -> bool {
        let comes = self.peek() == Some(word);
        if comes {
            self.next();
        }
        comes
    }

    /// Reads a word that must come next.
    pub fn expect(&mut self, word: &str) -> Result<(), Fault> {
        match self.next() {
            Some(found) if found == word => Ok(()),
            Some(found) => self.fault(format!("'{found}' stands where '{word}' should")),
            None => self.fault(format!("the line ends where '{word}' should stand")),
        }
    }

    /// Reads a number; what it is for is said if it is not one.
    pub fn number(&mut self, what: &str) -> Result<u64, Fault> {
        match self.next() {
            Some(word) => match digits(word) {
                Some(number) => Ok(number),
                None => self.fault(format!("'{word}' stands where {what} should, a number")),
            },
            None => self.fault(format!("the line ends where {what} should stand")),
        }
    }

    /// Reads a number from `low` to `high`.
    pub fn number_in(&mut self, what: &str, low: u64, high: u64) -> Result<u64, Fault> {
        let number = self.number(what)?;
        self.in_range(what, number, low, high)
    }

    /// A number that must be from `low` to `high`.
    pub fn in_range(&self, what: &str, number: u64, low: u64, high: u64) -> Result<u64, Fault> {
        if (low..=high).contains(&number) {
            return Ok(number);
        }
        self.fault(format!("{what} cannot be {number} (it goes from {low} to {high})"))
    }

    /// Reads a place: a number, or `None` for the word that says no node.
    pub fn place(&mut self, what: &str) -> Result<Option<u64>, Fault> {
        if self.take(WORD) {
            return Ok(None);
        }
        match self.peek() {
            Some(word) if digits(word).is_none() => {
                self.fault(format!("'{word}' stands where {what} should, a number or '{WORD}'"))
            }
            _ => self.number(what).map(Some),
        }
    }

    /// Reads the number behind `version` and the end of its line.
    pub fn version(&mut self) -> Result<Version, Fault> {
        let number = self.number_in("the version", 1, 2)? as u8;
        self.end()?;
        Ok(Version::of(number).expect("a number that was tested"))
    }

    /// Nothing more may come.
    pub fn end(&self) -> Result<(), Fault> {
        match self.peek() {
            Some(word) => self.fault(format!("'{word}' stands where the line should end")),
            None => Ok(()),
        }
    }
}

/// A number of nothing but digits. One too long to hold is held as the largest there is.
pub fn digits(word: &str) -> Option<u64> {
    let is_number = !word.is_empty() && word.bytes().all(|byte| byte.is_ascii_digit());
    is_number.then(|| word.parse().unwrap_or(u64::MAX))
}
