//! Types. A pointer is a pointer whatever it points to.
use super::cursor::Reader;
use super::lexer::Token;
use super::words::{integer_width, is_unheld_type};
use super::Fault;
use mivolanjy::ir::{StructBody, Type};

/// LLVM has no wider integers.
const WIDEST: u32 = (1 << 24) - 1;

impl<'a> Reader<'a> {
    /// Whether the token in hand begins a type.
    pub fn at_type(&self) -> bool {
        match self.token {
            Token::Word(word) => {
                matches!(word, "void" | "ptr" | "label" | "metadata" | "target")
                    || is_unheld_type(word)
                    || integer_width(word).is_some()
            }
            Token::Local(_) => true,
            Token::Mark(mark) => b"{[<".contains(&mark),
            _ => false,
        }
    }

    pub fn ty(&mut self) -> Result<Type<'a>, Fault> {
        self.ty_and_result().map(|(ty, _)| ty)
    }

    /// A type; of a function type also what it returns.
    pub fn ty_and_result(&mut self) -> Result<(Type<'a>, Option<Type<'a>>), Fault> {
        let mut ty = self.deeper(Self::plain_type)?;
        let mut result = None;
        loop {
            match self.token {
                Token::Mark(b'*') => {
                    self.advance()?;
                    (ty, result) = (Type::Ptr, None);
                }
                Token::Word("addrspace") => {
                    (ty, result) = (self.address_space()?, None);
                    self.expect(b'*')?;
                }
                Token::Mark(b'(') => {
                    self.deeper(Self::skip_parameter_types)?;
                    result = Some(std::mem::replace(&mut ty, Type::Func));
                }
                _ => return Ok((ty, result)),
            }
        }
    }

    /// A type up to a `*` or the parameters of a function type.
    fn plain_type(&mut self) -> Result<Type<'a>, Fault> {
        match self.token {
            Token::Word(word) => self.type_word(word),
            Token::Local(name) => {
                self.advance()?;
                let Ok(spelt) = name.name() else { return Ok(Type::Other(format!("%{}", name.shown()).into())) };
                Ok(self.second_names.get(&spelt).cloned().unwrap_or(Type::Named(spelt)))
            }
            Token::Mark(b'{') => self.struct_body(false).map(Type::Struct),
            Token::Mark(b'<') if self.ahead()? == Token::Mark(b'{') => self.packed_body().map(Type::Struct),
            Token::Mark(b'<') => self.vector(),
            Token::Mark(b'[') => self.array(),
            _ => self.expected("a type"),
        }
    }

    fn type_word(&mut self, word: &'a str) -> Result<Type<'a>, Fault> {
        if let Some(digits) = integer_width(word) {
            return match digits.parse() {
                Ok(width @ 1..=WIDEST) => self.advance().map(|_| Type::Int(width)),
                _ => self.fault("an integer type that is too wide, or of no bits"),
            };
        }
        let begin = self.begin;
        let ty = match word {
            "void" => Type::Void,
            "ptr" => Type::Ptr,
            "label" => Type::Label,
            "metadata" => Type::Metadata,
            "target" => Type::Other(word.into()),
            _ if is_unheld_type(word) => Type::Other(word.into()),
            _ => return self.expected("a type"),
        };
        self.advance()?;
        match word {
            "ptr" if self.at_word("addrspace") => self.address_space(),
            "target" if !self.at(b'(') => self.expected("`(`"),
            "target" => {
                self.skip_brackets()?;
                Ok(Type::Other(self.text_from(begin).into()))
            }
            _ => Ok(ty),
        }
    }

    /// `addrspace(N)`, as the type of the pointers into it. A target may have letters for some.
    pub fn address_space(&mut self) -> Result<Type<'a>, Fault> {
        let begin = self.begin;
        self.expect_word("addrspace")?;
        self.expect(b'(')?;
        let plain = self.token != Token::Text && self.number::<u32>()? == 0;
        if self.token == Token::Text {
            self.advance()?;
        }
        self.expect(b')')?;
        Ok(if plain { Type::Ptr } else { Type::Other(format!("ptr {}", self.text_from(begin)).into()) })
    }

    fn skip_parameter_types(&mut self) -> Result<(), Fault> {
        self.expect(b'(')?;
        while !self.eat(b')')? {
            if self.token == Token::Dots {
                self.advance()?;
            } else {
                self.ty()?;
            }
            if !self.at(b')') {
                self.expect(b',')?;
            }
        }
        Ok(())
    }

    /// `{ .. }`
    pub fn struct_body(&mut self, packed: bool) -> Result<StructBody<'a>, Fault> {
        self.expect(b'{')?;
        let mut fields = Vec::new();
        if !self.at(b'}') {
            fields.push(self.ty()?);
            while self.eat(b',')? {
                fields.push(self.ty()?);
            }
        }
        self.expect(b'}')?;
        Ok(StructBody { packed, fields })
    }

    /// `<{ .. }>`
    pub fn packed_body(&mut self) -> Result<StructBody<'a>, Fault> {
        self.expect(b'<')?;
        let body = self.struct_body(true)?;
        self.expect(b'>')?;
        Ok(body)
    }

    fn array(&mut self) -> Result<Type<'a>, Fault> {
        self.expect(b'[')?;
        let len = self.number()?;
        self.expect_word("x")?;
        let elem = Box::new(self.ty()?);
        self.expect(b']')?;
        Ok(Type::Array { packed: false, len, elem })
    }

    /// `<4 x i32>` or `<vscale x 4 x i32>`, of integers, floats or pointers.
    fn vector(&mut self) -> Result<Type<'a>, Fault> {
        let begin = self.begin;
        self.expect(b'<')?;
        if self.eat_word("vscale")? {
            self.expect_word("x")?;
        }
        self.number::<u64>()?;
        self.expect_word("x")?;
        if self.at_opening() {
            return self.expected("a type that a vector may have");
        }
        self.ty()?;
        self.expect(b'>')?;
        Ok(Type::Other(self.text_from(begin).into()))
    }
}
