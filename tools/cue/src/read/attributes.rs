//! Attributes, linkage, calling conventions and metadata attachments: read over, whatever their names are.
use super::cursor::Reader;
use super::lexer::Token;
use super::words::{begins_constant, is_copied, is_instruction};
use super::{Fault, Spot};

/// An attribute that asks for a copy of an argument, and where it stands.
pub type Copied<'a> = Option<(&'a str, Spot)>;

impl<'a> Reader<'a> {
    /// One attribute, if the token in hand begins one: a word with or without brackets, a text, a group, an attachment.
    pub fn attribute(&mut self) -> Result<bool, Fault> {
        match self.token {
            Token::Word(word) if is_instruction(word) => return Ok(false),
            Token::Word(word) => {
                self.advance()?;
                if matches!(word, "align" | "cc") && matches!(self.token, Token::Int(_)) {
                    self.advance()?;
                }
                self.skip_round()?;
            }
            Token::Text => {
                self.advance()?;
                if self.eat(b'=')? {
                    self.expect_text()?;
                }
            }
            Token::Group => {
                self.advance()?;
            }
            Token::Metadata => self.attachment()?,
            _ => return Ok(false),
        }
        Ok(true)
    }

    /// What stands before a result's type: all words that are no type. Says whether a word was among them.
    pub fn before_type(&mut self, sought: &str) -> Result<bool, Fault> {
        let mut found = false;
        while !self.at_type() {
            found |= self.at_word(sought);
            if !self.attribute()? {
                return self.expected("a type");
            }
        }
        Ok(found)
    }

    /// The attributes between a parameter's type and its name.
    pub fn parameter_attributes(&mut self) -> Result<Copied<'a>, Fault> {
        self.attributes_until(|_| false)
    }

    /// The attributes between an argument's type and its value.
    pub fn argument_attributes(&mut self) -> Result<Copied<'a>, Fault> {
        self.attributes_until(begins_constant)
    }

    /// The attributes behind a call's arguments, up to the next instruction.
    pub fn call_attributes(&mut self) -> Result<(), Fault> {
        let next = |word: &str| is_instruction(word) || word.starts_with("uselistorder");
        self.attributes_until(next).map(|_| ())
    }

    fn attributes_until(&mut self, end: impl Fn(&str) -> bool) -> Result<Copied<'a>, Fault> {
        let mut copied = None;
        loop {
            match self.token {
                Token::Word(word) if end(word) => return Ok(copied),
                Token::Word(word) if is_copied(word) => copied = copied.or(Some((word, self.spot))),
                Token::Metadata => return Ok(copied),
                _ => {}
            }
            if !self.attribute()? {
                return Ok(copied);
            }
        }
    }

    /// `!dbg !7`, `!range !{..}`, `!x !DILocation(..)`
    pub fn attachment(&mut self) -> Result<(), Fault> {
        if self.token != Token::Metadata {
            return self.expected("an attachment");
        }
        self.advance()?;
        match self.advance()? {
            Token::Mark(b'!') if self.at(b'{') => self.skip_brackets(),
            Token::Mark(b'!') => self.number::<u32>().map(|_| ()),
            Token::Metadata if self.at(b'(') => self.skip_brackets(),
            _ => self.expected("metadata"),
        }
    }

    /// Debug records: `#dbg_value(..)`.
    pub fn debug_records(&mut self) -> Result<(), Fault> {
        while self.eat(b'#')? {
            match self.token {
                Token::Word(word) if word.starts_with("dbg_") => self.advance()?,
                _ => return self.expected("a debug record"),
            };
            if !self.at(b'(') {
                return self.expected("`(`");
            }
            self.skip_brackets()?;
        }
        Ok(())
    }
}
