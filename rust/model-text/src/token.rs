// SPDX-License-Identifier: Apache-2.0 OR MIT
//! Words, signs, quoted texts and line ends of the text form.

use crate::TextError;

#[derive(Debug, Clone, PartialEq, Eq)]
pub enum Kind {
    /// Letters, digits and `_`: a word or a number.
    Word(String),
    /// The bytes between two quotes, escapes resolved.
    Quoted(Vec<u8>),
    Sign(&'static str),
    LineEnd,
    TextEnd,
}

#[derive(Debug, Clone)]
pub struct Token {
    pub kind: Kind,
    pub line: usize,
    pub column: usize,
}

/// Longer signs stand before the signs they begin with.
const SIGNS: [&str; 24] = [
    "||", "&&", "==", "!=", "<=", ">=", ">>", "+=", "-=", "<", ">", "+", "-", "*", "/", "%", "=",
    "(", ")", "{", "}", ",", ":", ".",
];

struct Source<'a> {
    rest: &'a str,
    line: usize,
    column: usize,
    open_parentheses: usize,
}

/// Splits a text. Line ends inside parentheses are left out.
pub fn tokens(text: &str) -> Result<Vec<Token>, TextError> {
    let mut source = Source {
        rest: text,
        line: 1,
        column: 1,
        open_parentheses: 0,
    };
    let mut tokens = Vec::new();
    while let Some(first) = source.rest.chars().next() {
        let (line, column) = (source.line, source.column);
        if let Some(kind) = source.token(first)? {
            tokens.push(Token { kind, line, column });
        }
    }
    for kind in [Kind::LineEnd, Kind::TextEnd] {
        tokens.push(Token {
            kind,
            line: source.line,
            column: source.column,
        });
    }
    Ok(tokens)
}

impl Source<'_> {
    /// Takes what begins with `first`; none for blanks, comments and line
    /// ends inside parentheses.
    fn token(&mut self, first: char) -> Result<Option<Kind>, TextError> {
        match first {
            '\n' => {
                self.advance(1);
                Ok((self.open_parentheses == 0).then_some(Kind::LineEnd))
            }
            ' ' | '\t' | '\r' => {
                self.advance(1);
                Ok(None)
            }
            '#' => {
                self.take_while(|letter| letter != '\n');
                Ok(None)
            }
            '"' => self.quoted().map(Some),
            _ if is_word(first) => Ok(Some(Kind::Word(self.take_while(is_word)))),
            _ => self.sign().map(Some),
        }
    }

    fn error(&self, message: &str) -> TextError {
        TextError {
            line: self.line,
            column: self.column,
            message: message.to_string(),
        }
    }

    /// Moves on by `count` characters.
    fn advance(&mut self, count: usize) {
        for _ in 0..count {
            let mut letters = self.rest.chars();
            match letters.next() {
                Some('\n') => {
                    self.line += 1;
                    self.column = 1;
                }
                Some(_) => self.column += 1,
                None => return,
            }
            self.rest = letters.as_str();
        }
    }

    fn take_while(&mut self, accept: impl Fn(char) -> bool) -> String {
        let taken: String = self
            .rest
            .chars()
            .take_while(|&letter| accept(letter))
            .collect();
        self.advance(taken.chars().count());
        taken
    }

    fn sign(&mut self) -> Result<Kind, TextError> {
        let known = SIGNS.iter().find(|sign| self.rest.starts_with(**sign));
        let Some(&sign) = known else {
            return Err(self.error("no sign of the text form"));
        };
        match sign {
            "(" => self.open_parentheses += 1,
            ")" => self.open_parentheses = self.open_parentheses.saturating_sub(1),
            _ => {}
        }
        self.advance(sign.len());
        Ok(Kind::Sign(sign))
    }

    fn quoted(&mut self) -> Result<Kind, TextError> {
        self.advance(1);
        let mut bytes = Vec::new();
        loop {
            match self.rest.chars().next() {
                None | Some('\n') => return Err(self.error("the closing quote is missing")),
                Some('"') => break,
                Some('\\') => bytes.push(self.escape()?),
                Some(letter) => {
                    bytes.extend(letter.encode_utf8(&mut [0; 4]).bytes());
                    self.advance(1);
                }
            }
        }
        self.advance(1);
        Ok(Kind::Quoted(bytes))
    }

    fn escape(&mut self) -> Result<u8, TextError> {
        let rest = self.rest.as_bytes();
        let (byte, length) = match rest.get(1) {
            Some(b'"') => (Some(b'"'), 2),
            Some(b'\\') => (Some(b'\\'), 2),
            Some(b'x') => (self.rest.get(2..4).and_then(hexadecimal), 4),
            _ => (None, 0),
        };
        let byte = byte.ok_or_else(|| self.error("known escapes are \\\", \\\\ and \\xHH"))?;
        self.advance(length);
        Ok(byte)
    }
}

fn is_word(letter: char) -> bool {
    letter.is_ascii_alphanumeric() || letter == '_'
}

/// The byte that two hexadecimal digits stand for.
pub fn hexadecimal(digits: &str) -> Option<u8> {
    let digits_only = digits.bytes().all(|digit| digit.is_ascii_hexdigit());
    (digits.len() == 2 && digits_only)
        .then(|| u8::from_str_radix(digits, 16).ok())
        .flatten()
}
