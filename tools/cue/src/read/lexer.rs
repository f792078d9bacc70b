//! The tokens of LLVM's text, each with its line and column.
use super::number;
use super::spelling::Spelling;
use super::{Fault, Spot};

/// A piece of text that LLVM takes as one.
#[derive(Clone, Copy, Debug, PartialEq)]
pub enum Token<'a> {
    /// The end of the text.
    End,
    /// A keyword, a type's word or an instruction's: letters, digits and `_`.
    Word(&'a str),
    /// `name:`, `"name":` or `7:`, a label or the key of a field.
    Label(Spelling<'a>),
    /// `%name`
    Local(Spelling<'a>),
    /// `@name`
    Global(Spelling<'a>),
    /// `$name`
    Comdat,
    /// `#7`
    Group,
    /// `^7`
    Summary,
    /// `!name`, where `!7` is a mark and an integer.
    Metadata,
    /// `"text"`
    Text,
    Int(i128),
    /// An integer that needs more than 128 bits.
    Huge,
    Float,
    /// `...`
    Dots,
    /// One of `= , * ( ) [ ] { } < > ! # | :`.
    Mark(u8),
}

/// A place in the text, from which the next token is read.
#[derive(Clone, Copy)]
pub struct Lexer<'a> {
    text: &'a [u8],
    pos: usize,
    line: usize,
    /// Where the line begins.
    start: usize,
    /// The end of the run of label characters last measured, so that none is measured twice.
    run_end: usize,
}

impl<'a> Lexer<'a> {
    pub fn new(text: &'a [u8]) -> Self {
        Lexer { text, pos: 0, line: 1, start: 0, run_end: 0 }
    }

    /// The bytes between two positions.
    pub fn slice(&self, from: usize, to: usize) -> &'a [u8] {
        self.text.get(from..to).unwrap_or_default()
    }

    /// Where the last token ends.
    pub fn pos(&self) -> usize {
        self.pos
    }

    /// The next token, where it stands, and its first byte's position.
    pub fn next(&mut self) -> Result<(Token<'a>, Spot, usize), Fault> {
        self.skip_blank();
        let (spot, pos) = (self.spot(), self.pos);
        let token = match self.peek(0) {
            None => Token::End,
            Some(byte) if is_label(byte) => self.run(byte)?,
            Some(b'%') => Token::Local(self.after_sigil()?),
            Some(b'@') => Token::Global(self.after_sigil()?),
            Some(b'"') => self.quoted_or_label()?,
            Some(b'+') => self.positive()?,
            Some(byte) => self.mark(byte)?,
        };
        Ok((token, spot, pos))
    }

    fn peek(&self, ahead: usize) -> Option<u8> {
        self.text.get(self.pos + ahead).copied()
    }

    fn spot(&self) -> Spot {
        Spot { line: self.line, column: self.pos - self.start + 1 }
    }

    fn fault<T>(&self, message: &str) -> Result<T, Fault> {
        Err(Fault::new(self.spot(), message))
    }

    /// Takes bytes as long as they are of a kind.
    fn span(&mut self, of: impl Fn(u8) -> bool) -> &'a [u8] {
        let rest = &self.text[self.pos..];
        let len = rest.iter().position(|byte| !of(*byte)).unwrap_or(rest.len());
        self.pos += len;
        &rest[..len]
    }

    /// Blanks and comments. A zero byte is a blank, as in LLVM.
    fn skip_blank(&mut self) {
        while let Some(byte) = self.peek(0) {
            match byte {
                b'\n' => {
                    self.pos += 1;
                    self.line += 1;
                    self.start = self.pos;
                }
                b' ' | b'\t' | b'\r' | 0 => self.pos += 1,
                b';' => {
                    self.span(|byte| byte != b'\n' && byte != b'\r');
                }
                _ => return,
            }
        }
    }

    /// A token that begins with a label character: a label if a colon ends the run, otherwise what its first bytes are.
    fn run(&mut self, first: u8) -> Result<Token<'a>, Fault> {
        let begin = self.pos;
        if self.run_end <= begin {
            self.span(is_label);
            self.run_end = self.pos;
            self.pos = begin;
        }
        if self.text.get(self.run_end) == Some(&b':') {
            self.pos = self.run_end + 1;
            return self.plain(begin, self.run_end).map(Token::Label);
        }
        match first {
            b'0'..=b'9' | b'-' => self.number(),
            b'.' if self.text[begin..].starts_with(b"...") => {
                self.pos += 3;
                Ok(Token::Dots)
            }
            b'$' => self.after_sigil().map(|_| Token::Comdat),
            b'.' => self.fault("a dot that begins nothing"),
            _ => Ok(self.word()),
        }
    }

    /// An integer type ends with its digits, whatever stands behind them.
    fn word(&mut self) -> Token<'a> {
        let begin = self.pos;
        self.pos += 1;
        if self.text[begin] == b'i' && self.peek(0).is_some_and(|byte| byte.is_ascii_digit()) {
            self.span(|byte| byte.is_ascii_digit());
        } else {
            self.span(|byte| byte.is_ascii_alphanumeric() || byte == b'_');
        }
        let word = self.slice(begin, self.pos);
        number::hexadecimal(word).unwrap_or_else(|| Token::Word(std::str::from_utf8(word).unwrap_or_default()))
    }

    /// An integer, or a float of any spelling.
    fn number(&mut self) -> Result<Token<'a>, Fault> {
        let begin = self.pos;
        self.pos += usize::from(self.peek(0) == Some(b'-'));
        let digits = self.span(|byte| byte.is_ascii_digit());
        if digits.is_empty() {
            self.pos = begin;
            return self.fault("a minus sign without digits");
        }
        if digits == b"0" && self.peek(0) == Some(b'x') {
            self.pos += 1;
            self.span(|byte| byte.is_ascii_alphanumeric());
            return Ok(Token::Float);
        }
        if self.peek(0) == Some(b'.') {
            return Ok(self.fraction());
        }
        Ok(number::decimal(&self.text[begin..self.pos]))
    }

    /// `+1.5`: only floats have a plus sign.
    fn positive(&mut self) -> Result<Token<'a>, Fault> {
        if !self.peek(1).is_some_and(|byte| byte.is_ascii_digit()) {
            return self.fault("a plus sign without digits");
        }
        self.pos += 1;
        self.span(|byte| byte.is_ascii_digit());
        Ok(self.fraction())
    }

    /// The rest of a float, from its point on.
    fn fraction(&mut self) -> Token<'a> {
        self.span(|byte| byte.is_ascii_digit() || byte == b'.');
        if matches!(self.peek(0), Some(b'e' | b'E')) {
            self.pos += 1;
            self.pos += usize::from(matches!(self.peek(0), Some(b'+' | b'-')));
            self.span(|byte| byte.is_ascii_digit());
        }
        Token::Float
    }

    /// The name behind `%`, `@` or `$`: quoted, of digits, or of label characters that don't begin with a digit.
    fn after_sigil(&mut self) -> Result<Spelling<'a>, Fault> {
        let sigil = self.pos;
        self.pos += 1;
        match self.peek(0) {
            Some(b'"') => {
                let spot = self.spot();
                let raw = self.quoted()?;
                Spelling::quoted(raw).map_err(|message| Fault::new(spot, message))
            }
            Some(b'0'..=b'9') => {
                self.span(|byte| byte.is_ascii_digit());
                self.plain(sigil + 1, self.pos)
            }
            Some(byte) if is_label(byte) => {
                self.span(is_label);
                self.plain(sigil + 1, self.pos)
            }
            _ => {
                self.pos = sigil;
                self.fault("a sign for a name, and no name")
            }
        }
    }

    /// A name of this line that isn't quoted.
    fn plain(&self, from: usize, to: usize) -> Result<Spelling<'a>, Fault> {
        let spot = Spot { line: self.line, column: from - self.start + 1 };
        Spelling::plain(self.slice(from, to)).map_err(|message| Fault::new(spot, message))
    }

    /// What stands between two quotation marks. A backslash doesn't keep a quotation mark from ending it.
    fn quoted(&mut self) -> Result<&'a [u8], Fault> {
        let open = self.spot();
        self.pos += 1;
        let raw = self.span(|byte| byte != b'"');
        if self.peek(0).is_none() {
            return Err(Fault::new(open, "a quotation mark that is never closed"));
        }
        if let Some(last) = raw.iter().rposition(|byte| *byte == b'\n') {
            self.line += raw.iter().filter(|byte| **byte == b'\n').count();
            self.start = self.pos - raw.len() + last + 1;
        }
        self.pos += 1;
        Ok(raw)
    }

    fn quoted_or_label(&mut self) -> Result<Token<'a>, Fault> {
        let spot = self.spot();
        let raw = self.quoted()?;
        if self.peek(0) != Some(b':') {
            return Ok(Token::Text);
        }
        self.pos += 1;
        Spelling::quoted(raw).map(Token::Label).map_err(|message| Fault::new(spot, message))
    }

    fn mark(&mut self, byte: u8) -> Result<Token<'a>, Fault> {
        if !b"=,*()[]{}<>!#|:^".contains(&byte) {
            return self.fault("a character that LLVM's text doesn't have");
        }
        self.pos += 1;
        Ok(match byte {
            b'!' if self.peek(0).is_some_and(|byte| !byte.is_ascii_digit() && is_metadata(byte)) => {
                self.span(is_metadata);
                Token::Metadata
            }
            b'#' | b'^' if self.peek(0).is_some_and(|byte| byte.is_ascii_digit()) => {
                self.span(|byte| byte.is_ascii_digit());
                if byte == b'#' {
                    Token::Group
                } else {
                    Token::Summary
                }
            }
            _ => Token::Mark(byte),
        })
    }
}

fn is_label(byte: u8) -> bool {
    byte.is_ascii_alphanumeric() || b"-$._".contains(&byte)
}

fn is_metadata(byte: u8) -> bool {
    is_label(byte) || byte == b'\\'
}

#[cfg(test)]
mod tests;
