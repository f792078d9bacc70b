//! A reader of tokens: one in hand, the rest still text.
use super::lexer::{Lexer, Token};
use super::locals::Locals;
use super::{Fault, Spot};
use mivolanjy::ir::{Name, Type};
use std::collections::HashMap;

/// Types and constants may be nested so deep.
const DEEPEST: u32 = 256;

pub struct Reader<'a> {
    lexer: Lexer<'a>,
    /// The token in hand.
    pub token: Token<'a>,
    /// Where it stands.
    pub spot: Spot,
    /// Its first byte's position.
    pub begin: usize,
    /// Where the token before it ended.
    end: usize,
    depth: u32,
    /// The names of the function that is being read.
    pub locals: Locals<'a>,
    /// What it returns.
    pub returns: Type<'a>,
    /// Second names of integers and pointers.
    pub second_names: HashMap<Name<'a>, Type<'a>>,
}

/// A place to come back to.
#[derive(Clone, Copy)]
pub struct Place<'a> {
    lexer: Lexer<'a>,
    token: Token<'a>,
    spot: Spot,
    begin: usize,
    end: usize,
}

impl<'a> Reader<'a> {
    pub fn new(text: &'a [u8]) -> Result<Self, Fault> {
        let mut lexer = Lexer::new(text);
        let (token, spot, begin) = lexer.next()?;
        Ok(Reader {
            lexer,
            token,
            spot,
            begin,
            end: 0,
            depth: 0,
            locals: Locals::default(),
            returns: Type::Void,
            second_names: HashMap::new(),
        })
    }

    pub fn place(&self) -> Place<'a> {
        Place { lexer: self.lexer, token: self.token, spot: self.spot, begin: self.begin, end: self.end }
    }

    pub fn back(&mut self, place: Place<'a>) {
        let Place { lexer, token, spot, begin, end } = place;
        (self.lexer, self.token, self.spot, self.begin, self.end) = (lexer, token, spot, begin, end);
    }

    /// Takes the next token in hand and gives the one before.
    pub fn advance(&mut self) -> Result<Token<'a>, Fault> {
        let before = self.token;
        self.end = self.lexer.pos();
        (self.token, self.spot, self.begin) = self.lexer.next()?;
        Ok(before)
    }

    /// The token behind the one in hand.
    pub fn ahead(&self) -> Result<Token<'a>, Fault> {
        let mut lexer = self.lexer;
        Ok(lexer.next()?.0)
    }

    /// The text from a position to the end of the last token taken, as people read it.
    pub fn text_from(&self, begin: usize) -> String {
        String::from_utf8_lossy(self.lexer.slice(begin, self.end)).into_owned()
    }

    pub fn fault<T>(&self, message: impl Into<String>) -> Result<T, Fault> {
        Err(Fault::new(self.spot, message))
    }

    /// A fault that says what should stand here.
    pub fn expected<T>(&self, what: &str) -> Result<T, Fault> {
        let found = match self.token {
            Token::End => "the end of the text".to_string(),
            _ => {
                let bytes = self.lexer.slice(self.begin, self.lexer.pos().min(self.begin + 40));
                format!("`{}`", String::from_utf8_lossy(bytes).replace(char::is_control, " "))
            }
        };
        self.fault(format!("expected {what}, found {found}"))
    }

    pub fn at(&self, mark: u8) -> bool {
        self.token == Token::Mark(mark)
    }

    pub fn at_word(&self, word: &str) -> bool {
        self.token == Token::Word(word)
    }

    /// Takes a mark if it is in hand.
    pub fn eat(&mut self, mark: u8) -> Result<bool, Fault> {
        let found = self.at(mark);
        if found {
            self.advance()?;
        }
        Ok(found)
    }

    pub fn eat_word(&mut self, word: &str) -> Result<bool, Fault> {
        let found = self.at_word(word);
        if found {
            self.advance()?;
        }
        Ok(found)
    }

    pub fn expect(&mut self, mark: u8) -> Result<(), Fault> {
        if self.eat(mark)? {
            Ok(())
        } else {
            self.expected(&format!("`{}`", char::from(mark)))
        }
    }

    pub fn expect_word(&mut self, word: &str) -> Result<(), Fault> {
        if self.eat_word(word)? {
            Ok(())
        } else {
            self.expected(&format!("`{word}`"))
        }
    }

    pub fn expect_text(&mut self) -> Result<(), Fault> {
        if self.token != Token::Text {
            return self.expected("a quoted text");
        }
        self.advance().map(|_| ())
    }

    /// A number from 0 on that fits.
    pub fn number<N: TryFrom<i128>>(&mut self) -> Result<N, Fault> {
        match self.token {
            Token::Int(value) => match N::try_from(value) {
                Ok(number) => self.advance().map(|_| number),
                Err(_) => self.fault("a number that is too large or negative"),
            },
            Token::Huge => self.fault("a number that is too large"),
            _ => self.expected("a number"),
        }
    }

    /// Reads something nested one level deeper.
    pub fn deeper<T, E: From<Fault>>(&mut self, read: impl FnOnce(&mut Self) -> Result<T, E>) -> Result<T, E> {
        if self.depth >= DEEPEST {
            return Err(Fault::new(self.spot, "nested too deeply").into());
        }
        self.depth += 1;
        let result = read(self);
        self.depth -= 1;
        result
    }

    /// From an opening bracket through its closing one.
    pub fn skip_brackets(&mut self) -> Result<(), Fault> {
        let mut open = Vec::new();
        loop {
            match self.token {
                Token::Mark(mark) => {
                    if let Some(close) = closing(mark) {
                        open.push(close);
                    } else if b")]}>".contains(&mark) && open.pop() != Some(mark) {
                        return self.expected("another bracket");
                    }
                }
                Token::End => return self.expected("a closing bracket"),
                _ => {}
            }
            self.advance()?;
            if open.is_empty() {
                return Ok(());
            }
        }
    }

    /// An opening bracket in hand.
    pub fn at_opening(&self) -> bool {
        matches!(self.token, Token::Mark(mark) if closing(mark).is_some())
    }

    /// Brackets and all within them, if an opening round one is in hand.
    pub fn skip_round(&mut self) -> Result<(), Fault> {
        if self.at(b'(') {
            self.skip_brackets()
        } else {
            Ok(())
        }
    }
}

fn closing(mark: u8) -> Option<u8> {
    match mark {
        b'(' => Some(b')'),
        b'[' => Some(b']'),
        b'{' => Some(b'}'),
        b'<' => Some(b'>'),
        _ => None,
    }
}
