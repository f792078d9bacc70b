//! Operands: names, integers and the few other constants that a book has.
use super::cursor::Reader;
use super::lexer::Token;
use super::number::wrapped;
use super::spelling::Spelling;
use super::words::begins_constant;
use super::{out, Fault, Spot, Trouble};
use mivolanjy::ir::{Name, Type, TypedVal, Value};

impl<'a> Reader<'a> {
    /// A type that a book may have.
    pub fn held_type(&mut self) -> Result<Type<'a>, Trouble> {
        let spot = self.spot;
        match self.ty()? {
            Type::Other(words) => out(spot, format!("a book has no type {words}")),
            ty => Ok(ty),
        }
    }

    /// A type and a value.
    pub fn typed(&mut self) -> Result<TypedVal<'a>, Trouble> {
        let ty = self.held_type()?;
        let val = self.value(&ty)?;
        Ok(TypedVal { ty, val })
    }

    /// A type and a value, where an integer constant is meant with a sign or without.
    pub fn number_read_as(&mut self, read: fn(i128, u32) -> i128) -> Result<TypedVal<'a>, Trouble> {
        let mut typed = self.typed()?;
        if let (Type::Int(width), Value::Int(number)) = (&typed.ty, &mut typed.val) {
            *number = read(*number, *width);
        }
        Ok(typed)
    }

    /// A pointer into the address space 0, behind its type.
    pub fn pointer(&mut self) -> Result<Value<'a>, Trouble> {
        self.of_type(Type::Ptr, "a pointer type")
    }

    /// A condition, behind its type.
    pub fn condition(&mut self) -> Result<Value<'a>, Trouble> {
        self.of_type(Type::Int(1), "the type i1")
    }

    fn of_type(&mut self, wanted: Type<'a>, what: &str) -> Result<Value<'a>, Trouble> {
        let spot = self.spot;
        match self.held_type()? {
            ty if ty == wanted => self.value(&ty),
            _ => Err(Fault::new(spot, format!("expected {what}")).into()),
        }
    }

    /// A value of a type.
    pub fn value(&mut self, ty: &Type<'a>) -> Result<Value<'a>, Trouble> {
        let spot = self.spot;
        match self.token {
            Token::Local(name) => {
                self.advance()?;
                self.local_used(name, ty, spot).map(Value::Local)
            }
            Token::Global(name) => {
                self.advance()?;
                self.global_used(name, spot).map(Value::Global)
            }
            Token::Int(number) => match ty {
                Type::Int(width) => self.constant(Value::Int(wrapped(number, *width))),
                _ => self.constant_of(ty, false, "an integer", Value::Int(number)),
            },
            Token::Huge => out(spot, "an integer of more than 128 bits"),
            Token::Word(word) => self.constant_word(word, ty),
            Token::Float => out(spot, "a book has no floating-point constant"),
            Token::Mark(b'{') => out(spot, "a book has no struct constant"),
            Token::Mark(b'[') => out(spot, "a book has no array constant"),
            Token::Mark(b'<') => out(spot, "a book has no vector or packed struct constant"),
            _ => Ok(self.expected("a value")?),
        }
    }

    /// A name that is used at a place.
    pub fn used(&self, name: Spelling<'a>, spot: Spot) -> Result<Name<'a>, Trouble> {
        name.name().or_else(|reason| out(spot, reason))
    }

    fn local_used(&mut self, name: Spelling<'a>, ty: &Type<'a>, spot: Spot) -> Result<Name<'a>, Trouble> {
        let name = self.used(name, spot)?;
        self.locals.used(&name, ty, spot);
        Ok(name)
    }

    /// A global, which must have a name: the text of a line can't tell the address of `@7` from the number 7.
    fn global_used(&mut self, name: Spelling<'a>, spot: Spot) -> Result<Name<'a>, Trouble> {
        if let Some(number) = name.number() {
            return out(spot, format!("the global @{number} has no name, and would print as the number {number}"));
        }
        let name = self.used(name, spot)?;
        self.locals.globals.push((name.clone(), spot));
        Ok(name)
    }

    fn constant_word(&mut self, word: &'a str, ty: &Type<'a>) -> Result<Value<'a>, Trouble> {
        let spot = self.spot;
        match word {
            "true" | "false" => {
                let value = Value::Int(i128::from(word == "true"));
                self.constant_of(ty, *ty == Type::Int(1), word, value)
            }
            "null" => self.constant_of(ty, *ty == Type::Ptr, word, Value::Null),
            "undef" => self.constant(Value::Undef),
            "poison" => self.constant(Value::Poison),
            "zeroinitializer" => self.constant(Value::ZeroInit),
            "none" => self.constant(Value::Other(word.into())),
            "bitcast" => self.deeper(|reader| reader.folded_bitcast(spot)),
            "getelementptr" => self.deeper(|reader| reader.folded_getelementptr(spot)),
            "asm" => out(spot, "a book has no inline assembly"),
            "c" => out(spot, "a book has no text constant"),
            _ if begins_constant(word) => out(spot, format!("a book has no constant expression, and here is `{word}`")),
            _ => Ok(self.expected("a value")?),
        }
    }

    fn constant(&mut self, value: Value<'a>) -> Result<Value<'a>, Trouble> {
        self.advance()?;
        Ok(value)
    }

    /// A constant that not every type has. Of a type that no book has, or a named one, nothing is said here.
    fn constant_of(&mut self, ty: &Type<'a>, fits: bool, what: &str, value: Value<'a>) -> Result<Value<'a>, Trouble> {
        if fits || matches!(ty, Type::Named(_) | Type::Other(_)) {
            return self.constant(value);
        }
        Ok(self.fault(format!("{what} of a type that has none"))?)
    }

    /// `bitcast (T* v to U*)`, which is `v`: clang 15 writes no more than that.
    fn folded_bitcast(&mut self, spot: Spot) -> Result<Value<'a>, Trouble> {
        self.advance()?;
        self.expect(b'(')?;
        let base = self.typed()?;
        self.expect_word("to")?;
        let to = self.ty()?;
        self.expect(b')')?;
        if base.ty == Type::Ptr && to == Type::Ptr {
            return Ok(base.val);
        }
        out(spot, "a book has no constant expression, and here is `bitcast`")
    }

    /// `getelementptr (T, T* v, i64 0, i32 0)`, which is `v`.
    fn folded_getelementptr(&mut self, spot: Spot) -> Result<Value<'a>, Trouble> {
        self.advance()?;
        while let Token::Word(word) = self.token {
            self.advance()?;
            if word == "inrange" {
                self.skip_round()?;
            }
        }
        self.expect(b'(')?;
        self.ty()?;
        self.expect(b',')?;
        let base = self.pointer()?;
        while self.eat(b',')? {
            self.eat_word("inrange")?;
            if self.typed()?.val != Value::Int(0) {
                return out(spot, "a book has no constant expression, and here is `getelementptr`");
            }
        }
        self.expect(b')')?;
        Ok(base)
    }

    /// `label %b`
    pub fn target(&mut self) -> Result<Name<'a>, Trouble> {
        self.expect_word("label")?;
        self.block_name()
    }

    /// `%b`
    pub fn block_name(&mut self) -> Result<Name<'a>, Trouble> {
        let spot = self.spot;
        match self.token {
            Token::Local(name) => {
                self.advance()?;
                self.local_used(name, &Type::Label, spot)
            }
            _ => Ok(self.expected("a block's name")?),
        }
    }

    /// Any constant at all, read over.
    pub fn skip_constant(&mut self) -> Result<(), Fault> {
        match self.token {
            Token::Mark(_) if self.at_opening() => self.skip_brackets(),
            Token::Word("true" | "false" | "null" | "undef" | "poison" | "zeroinitializer" | "none") => {
                self.advance().map(|_| ())
            }
            Token::Word("asm" | "dso_local_equivalent" | "no_cfi" | "c") => self.skip_prefixed_constant(),
            Token::Word(word) if begins_constant(word) => self.skip_expression(),
            Token::Local(_) | Token::Global(_) | Token::Int(_) | Token::Huge | Token::Float => self.advance().map(|_| ()),
            _ => self.expected("a constant"),
        }
    }

    /// `c"text"`, `no_cfi @f`, `asm sideeffect "code", "constraints"`
    fn skip_prefixed_constant(&mut self) -> Result<(), Fault> {
        let word = self.advance()?;
        while word == Token::Word("asm") && matches!(self.token, Token::Word(_)) {
            self.advance()?;
        }
        self.advance()?;
        if word == Token::Word("asm") && self.eat(b',')? {
            self.expect_text()?;
        }
        Ok(())
    }

    /// A word, flags, ranges and predicates, and in brackets what the constant is made of.
    fn skip_expression(&mut self) -> Result<(), Fault> {
        while let Token::Word(word) = self.token {
            self.advance()?;
            if word == "inrange" {
                self.skip_round()?;
            }
        }
        if self.at(b'(') {
            self.skip_brackets()
        } else {
            self.expected("`(`")
        }
    }
}
