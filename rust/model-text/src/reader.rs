// SPDX-License-Identifier: Apache-2.0 OR MIT
//! From text to bytes. Every form writes its bytes at once; there is no tree.

use crate::tag::{self, Strength};
use crate::token::{hexadecimal, tokens, Kind, Token};
use crate::TextError;

/// How deep blocks and expressions may nest in a text.
const NESTING_LIMIT: usize = 256;

type Bytes = Result<Vec<u8>, TextError>;

struct Reader {
    tokens: Vec<Token>,
    next: usize,
    nesting: usize,
}

/// The model file that a text shows.
pub fn to_bytes(text: &str) -> Bytes {
    let mut reader = Reader {
        tokens: tokens(text)?,
        next: 0,
        nesting: 0,
    };
    reader.lines(&Kind::TextEnd)
}

impl Reader {
    fn kind(&self) -> &Kind {
        &self.tokens[self.next].kind
    }

    fn step(&mut self) {
        self.next = (self.next + 1).min(self.tokens.len() - 1);
    }

    fn error<T>(&self, message: impl Into<String>) -> Result<T, TextError> {
        let Token { line, column, .. } = self.tokens[self.next];
        Err(TextError {
            line,
            column,
            message: message.into(),
        })
    }

    /// Steps over a token if it is the one given.
    fn take(&mut self, kind: &Kind) -> bool {
        let here = self.kind() == kind;
        if here {
            self.step();
        }
        here
    }

    fn take_sign(&mut self, sign: &'static str) -> bool {
        self.take(&Kind::Sign(sign))
    }

    fn expect_sign(&mut self, sign: &'static str) -> Result<(), TextError> {
        match self.take_sign(sign) {
            true => Ok(()),
            false => self.error(format!("`{sign}` is expected here")),
        }
    }

    fn word(&self) -> Option<String> {
        match self.kind() {
            Kind::Word(word) => Some(word.clone()),
            _ => None,
        }
    }

    /// Puts a head in front of a content.
    fn field(&self, tag: u8, content: &[u8]) -> Bytes {
        let Ok(length) = u16::try_from(content.len()) else {
            return self.error("a field holds at most 65,535 bytes");
        };
        let mut bytes = vec![tag];
        bytes.extend(length.to_be_bytes());
        bytes.extend(content);
        Ok(bytes)
    }

    /// Runs a reading step one level deeper.
    fn nested(&mut self, read: impl FnOnce(&mut Self) -> Bytes) -> Bytes {
        if self.nesting == NESTING_LIMIT {
            return self.error(format!("nested deeper than {NESTING_LIMIT} levels"));
        }
        self.nesting += 1;
        let bytes = read(self)?;
        self.nesting -= 1;
        Ok(bytes)
    }

    /// All lines up to a closing token, which is stepped over.
    fn lines(&mut self, close: &Kind) -> Bytes {
        let mut bytes = Vec::new();
        loop {
            while self.take(&Kind::LineEnd) {}
            if self.take(close) {
                return Ok(bytes);
            }
            bytes.extend(self.nested(Self::line)?);
            if self.kind() != close && !self.take(&Kind::LineEnd) {
                return self.error("the line should end here");
            }
        }
    }

    fn line(&mut self) -> Bytes {
        let word = self.word().unwrap_or_default();
        let read = match word.as_str() {
            "state" => Self::state,
            "genesis" => Self::genesis,
            "entry" => Self::entry,
            "parameter" => Self::parameter_line,
            "expression" => Self::expression_line,
            "field" => Self::raw_field,
            "text" => Self::raw_text,
            "bytes" => Self::raw_bytes,
            _ => return self.clause_or_statement(&word),
        };
        self.step();
        read(self)
    }

    fn state(&mut self) -> Bytes {
        let mut content = self.typed_name()?;
        if self.take_sign("=") {
            content.extend(self.expression()?);
        }
        self.field(tag::STATE, &content)
    }

    fn genesis(&mut self) -> Bytes {
        let word = self.word().unwrap_or_default();
        if tag::condition_tag(&word).is_some_and(|tag| !tag::is_statement(tag)) {
            return self.error("a statement is expected here");
        }
        let statement = self.clause_or_statement(&word)?;
        self.field(tag::GENESIS, &statement)
    }

    fn entry(&mut self) -> Bytes {
        let mut content = self.name(tag::NAME)?;
        self.expect_sign("(")?;
        content.extend(self.list(Self::parameter_line)?);
        content.extend(self.lines(&Kind::Word("end".to_string()))?);
        self.field(tag::ENTRY, &content)
    }

    fn parameter_line(&mut self) -> Bytes {
        let content = self.typed_name()?;
        self.field(tag::PARAMETER, &content)
    }

    fn expression_line(&mut self) -> Bytes {
        self.expression()
    }

    fn raw_field(&mut self) -> Bytes {
        let tag = self.byte()?;
        self.expect_sign("{")?;
        let content = self.lines(&Kind::Sign("}"))?;
        self.field(tag, &content)
    }

    fn raw_text(&mut self) -> Bytes {
        let tag = self.byte()?;
        let content = self.quoted()?;
        self.field(tag, &content)
    }

    fn raw_bytes(&mut self) -> Bytes {
        let mut bytes = Vec::new();
        while self.word().is_some() {
            bytes.push(self.byte()?);
        }
        Ok(bytes)
    }

    fn clause_or_statement(&mut self, word: &str) -> Bytes {
        if let Some(tag) = tag::condition_tag(word) {
            self.step();
            let condition = self.expression()?;
            return self.field(tag, &condition);
        }
        match word {
            "let" => self.local(),
            "emit" => self.emit(),
            _ => self.assignment_or_expression(),
        }
    }

    fn local(&mut self) -> Bytes {
        self.step();
        let mut content = self.name(tag::NAME)?;
        self.expect_sign("=")?;
        content.extend(self.expression()?);
        self.field(tag::LET, &content)
    }

    fn emit(&mut self) -> Bytes {
        self.step();
        let mut content = self.name(tag::NAME)?;
        self.expect_sign("(")?;
        content.extend(self.list(Self::expression)?);
        self.field(tag::EMIT, &content)
    }

    fn assignment_or_expression(&mut self) -> Bytes {
        let mut content = self.expression()?;
        let assignment = match self.kind() {
            Kind::Sign(sign) => tag::assignment_tag(sign),
            _ => None,
        };
        let Some(tag) = assignment else {
            return self.field(tag::EXPRESSION, &content);
        };
        self.step();
        content.extend(self.expression()?);
        self.field(tag, &content)
    }

    /// Items with commas between, up to the closing parenthesis.
    fn list(&mut self, item: impl Fn(&mut Self) -> Bytes) -> Bytes {
        let mut bytes = Vec::new();
        if self.take_sign(")") {
            return Ok(bytes);
        }
        loop {
            bytes.extend(item(self)?);
            if self.take_sign(")") {
                return Ok(bytes);
            }
            self.expect_sign(",")?;
        }
    }

    fn typed_name(&mut self) -> Bytes {
        let mut bytes = self.name(tag::NAME)?;
        self.expect_sign(":")?;
        bytes.extend(self.name(tag::TYPE_NAME)?);
        Ok(bytes)
    }

    /// A name as a plain word or in quotes.
    fn name(&mut self, tag: u8) -> Bytes {
        let text = match self.kind() {
            Kind::Word(word) if tag::is_plain_word(word.as_bytes()) => word.clone().into_bytes(),
            Kind::Quoted(text) => text.clone(),
            _ => return self.error("a name is expected here"),
        };
        self.step();
        self.field(tag, &text)
    }

    fn quoted(&mut self) -> Bytes {
        let Kind::Quoted(text) = self.kind().clone() else {
            return self.error("a quoted text is expected here");
        };
        self.step();
        Ok(text)
    }

    fn byte(&mut self) -> Result<u8, TextError> {
        let Some(byte) = self.word().as_deref().and_then(hexadecimal) else {
            return self.error("a byte of two hexadecimal digits is expected here");
        };
        self.step();
        Ok(byte)
    }

    fn expression(&mut self) -> Bytes {
        self.nested(|reader| reader.binary(tag::LOOSEST))
    }

    /// An expression whose operators are at least as strong as `weakest`.
    fn binary(&mut self, weakest: Strength) -> Bytes {
        let mut left = self.negated(weakest)?;
        while let Kind::Sign(sign) = *self.kind() {
            let Some((tag, strength)) = tag::binary_tag(sign).filter(|row| row.1 >= weakest) else {
                break;
            };
            self.step();
            left.extend(self.nested(|reader| reader.binary(strength + 1))?);
            left = self.field(tag, &left)?;
        }
        Ok(left)
    }

    /// `not e`, `-e` or an expression with neither in front.
    fn negated(&mut self, weakest: Strength) -> Bytes {
        let (tag, strength) = match self.kind() {
            Kind::Word(word) if word == "not" => (tag::NOT, tag::NOT_STRENGTH),
            Kind::Sign("-") => (tag::NEGATE, tag::NEGATE_STRENGTH),
            _ => return self.with_suffixes(),
        };
        if strength < weakest {
            return self.error("`not` needs parentheses here");
        }
        self.step();
        let operand = self.nested(|reader| reader.binary(strength))?;
        self.field(tag, &operand)
    }

    /// A simple expression with its members and calls.
    fn with_suffixes(&mut self) -> Bytes {
        let mut bytes = self.simple()?;
        loop {
            if self.take_sign(".") {
                bytes.extend(self.name(tag::NAME)?);
                bytes = self.field(tag::MEMBER, &bytes)?;
            } else if self.take_sign("(") {
                bytes.extend(self.list(Self::expression)?);
                bytes = self.field(tag::CALL, &bytes)?;
            } else {
                return Ok(bytes);
            }
        }
    }

    fn simple(&mut self) -> Bytes {
        match self.kind().clone() {
            Kind::Word(word) => self.word_expression(&word),
            Kind::Quoted(text) => {
                self.step();
                self.field(tag::STRING, &text)
            }
            Kind::Sign("(") => self.in_parentheses(Self::expression),
            _ => self.error("an expression is expected here"),
        }
    }

    fn word_expression(&mut self, word: &str) -> Bytes {
        if tag::is_plain_integer(word.as_bytes()) {
            self.step();
            return self.field(tag::INTEGER, word.as_bytes());
        }
        if let Some(tag) = tag::empty_tag(word) {
            self.step();
            return self.field(tag, &[]);
        }
        if let Some(tag) = tag::quoted_tag(word) {
            self.step();
            let text = self.in_parentheses(Self::quoted)?;
            return self.field(tag, &text);
        }
        if let Some(tag) = tag::wrapper_tag(word) {
            self.step();
            let inner = self.in_parentheses(Self::expression)?;
            return self.field(tag, &inner);
        }
        if tag::is_reserved(word) || !tag::is_plain_word(word.as_bytes()) {
            return self.error(format!("`{word}` is no expression"));
        }
        self.step();
        self.field(tag::IDENTIFIER, word.as_bytes())
    }

    fn in_parentheses(&mut self, read: impl Fn(&mut Self) -> Bytes) -> Bytes {
        self.expect_sign("(")?;
        let bytes = read(self)?;
        self.expect_sign(")")?;
        Ok(bytes)
    }
}
