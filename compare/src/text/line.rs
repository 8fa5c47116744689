//! One line of a plan's text, taken apart and read piece by piece.

use super::TextError;
use std::fmt;

#[derive(Clone, Copy, Debug, PartialEq, Eq)]
pub(super) enum Token<'a> {
    /// Letters, digits, points and signs.
    Word(&'a str),
    /// One of `: , ( )`.
    Mark(char),
    /// What stands between quotes.
    Quoted(&'a str),
}

impl fmt::Display for Token<'_> {
    fn fmt(&self, f: &mut fmt::Formatter<'_>) -> fmt::Result {
        match self {
            Token::Word(word) => write!(f, "'{word}'"),
            Token::Mark(mark) => write!(f, "'{mark}'"),
            Token::Quoted(text) => write!(f, "\"{text}\""),
        }
    }
}

fn is_word_char(c: char) -> bool {
    c.is_ascii_alphanumeric() || matches!(c, '.' | '-' | '+')
}

/// One line taken apart, and how far it has been read.
pub(super) struct Line<'a> {
    pub(super) number: usize,
    pub(super) tokens: Vec<Token<'a>>,
    pub(super) next: usize,
}

impl<'a> Line<'a> {
    pub(super) fn new(number: usize, source: &'a str) -> Result<Line<'a>, TextError> {
        let mut line = Line { number, tokens: Vec::new(), next: 0 };
        let mut rest = source.trim_start();
        while let Some(c) = rest.chars().next() {
            let length = match c {
                '#' => break,
                ':' | ',' | '(' | ')' => {
                    line.tokens.push(Token::Mark(c));
                    1
                }
                '"' => {
                    let Some(end) = rest[1..].find('"') else {
                        return line.fail("a quote is opened and not closed");
                    };
                    line.tokens.push(Token::Quoted(&rest[1..=end]));
                    end + 2
                }
                _ if is_word_char(c) => {
                    let end = rest.find(|c| !is_word_char(c)).unwrap_or(rest.len());
                    line.tokens.push(Token::Word(&rest[..end]));
                    end
                }
                _ => return line.fail(format!("the character {c:?} has no meaning here")),
            };
            rest = rest[length..].trim_start();
        }
        Ok(line)
    }

    pub(super) fn fail<T>(&self, message: impl Into<String>) -> Result<T, TextError> {
        Err(TextError { line: self.number, message: message.into() })
    }

    pub(super) fn expected<T>(&self, what: &str) -> Result<T, TextError> {
        match self.tokens.get(self.next) {
            Some(token) => self.fail(format!("expected {what}, found {token}")),
            None => self.fail(format!("expected {what}, found the end of the line")),
        }
    }

    pub(super) fn peek(&self) -> Option<Token<'a>> {
        self.tokens.get(self.next).copied()
    }

    pub(super) fn at_end(&self) -> bool {
        self.next >= self.tokens.len()
    }

    /// Goes past `word` if it stands next.
    pub(super) fn takes(&mut self, word: &str) -> bool {
        let found = matches!(self.peek(), Some(Token::Word(w)) if w.eq_ignore_ascii_case(word));
        self.next += usize::from(found);
        found
    }

    pub(super) fn takes_mark(&mut self, mark: char) -> bool {
        let found = self.peek() == Some(Token::Mark(mark));
        self.next += usize::from(found);
        found
    }

    pub(super) fn word(&mut self, word: &str) -> Result<(), TextError> {
        if self.takes(word) {
            Ok(())
        } else {
            self.expected(&format!("'{word}'"))
        }
    }

    pub(super) fn mark(&mut self, mark: char) -> Result<(), TextError> {
        if self.takes_mark(mark) {
            Ok(())
        } else {
            self.expected(&format!("'{mark}'"))
        }
    }

    pub(super) fn end(&self) -> Result<(), TextError> {
        if self.at_end() {
            Ok(())
        } else {
            self.expected("the end of the line")
        }
    }

    /// The next token as digits with an optional sign.
    fn digits(&mut self, what: &str) -> Result<i128, TextError> {
        let Some(Token::Word(word)) = self.peek() else {
            return self.expected(what);
        };
        let digits = word.strip_prefix('-').unwrap_or(word);
        if digits.is_empty() || !digits.bytes().all(|b| b.is_ascii_digit()) {
            return self.expected(what);
        }
        self.next += 1;
        // More digits than i128 holds are too large for a word all the more.
        Ok(word.parse().unwrap_or(if word.starts_with('-') { i128::MIN } else { i128::MAX }))
    }

    pub(super) fn number(&mut self, what: &str) -> Result<u32, TextError> {
        let value = self.digits(what)?;
        match u32::try_from(value) {
            Ok(value) => Ok(value),
            Err(_) => {
                self.next -= 1;
                self.expected(&format!("{what} from 0 to 4294967295"))
            }
        }
    }

    pub(super) fn signed(&mut self, what: &str) -> Result<u32, TextError> {
        let value = self.digits(what)?;
        match i32::try_from(value) {
            Ok(value) => Ok(value as u32),
            Err(_) => {
                self.next -= 1;
                self.expected(&format!("{what} from -2147483648 to 2147483647"))
            }
        }
    }

    /// `0x` and one to `most` hex digits.
    pub(super) fn hex(&mut self, what: &str, most: usize) -> Result<u64, TextError> {
        if let Some(Token::Word(word)) = self.peek() {
            let digits = word.strip_prefix("0x").or_else(|| word.strip_prefix("0X")).unwrap_or("");
            let known = digits.bytes().all(|b| b.is_ascii_hexdigit());
            if known && (1..=most).contains(&digits.len()) {
                if let Ok(value) = u64::from_str_radix(digits, 16) {
                    self.next += 1;
                    return Ok(value);
                }
            }
        }
        self.expected(what)
    }

    /// A number that repeats a position: anything else is a mistake worth telling.
    pub(super) fn position(&mut self, what: &str, wanted: usize) -> Result<(), TextError> {
        let value = self.number(&format!("the number of the {what}"))?;
        if value as usize == wanted {
            Ok(())
        } else {
            self.fail(format!("this is {what} {wanted} by its position, not {value}"))
        }
    }
}
