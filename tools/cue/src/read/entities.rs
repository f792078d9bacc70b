//! What stands at the outermost level of a text. Named types and definitions are read, all else is read over.
use super::cursor::Reader;
use super::layout::other_layout;
use super::lexer::Token;
use super::spelling::Spelling;
use super::words::begins_entity;
use super::{Fault, Unit};
use mivolanjy::ir::{StructBody, Type};

impl<'a> Reader<'a> {
    /// Everything up to the end of the text.
    pub fn entities(&mut self, unit: &mut Unit<'a>) -> Result<(), Fault> {
        while self.token != Token::End {
            match self.token {
                Token::Word("define") => self.function(unit)?,
                Token::Word("declare") => {
                    self.advance()?;
                    unit.globals.extend(self.header()?.name);
                }
                Token::Local(name) => self.named_type(name, unit)?,
                Token::Global(name) => self.global(name, unit)?,
                Token::Comdat => self.comdat()?,
                Token::Metadata | Token::Mark(b'!') => self.metadata()?,
                Token::Summary => self.summary()?,
                Token::Word(word) => self.directive(word)?,
                _ => return self.expected("a definition or another thing of the outermost level"),
            }
        }
        Ok(())
    }

    fn function(&mut self, unit: &mut Unit<'a>) -> Result<(), Fault> {
        self.advance()?;
        let header = self.header()?;
        unit.globals.extend(header.name.clone());
        if !header.emitted {
            return if self.at(b'{') { self.skip_brackets() } else { self.expected("`{`") };
        }
        if header.name.iter().any(|name| !unit.module.defined.insert(name.clone())) {
            return Err(Fault::new(header.spot, format!("{} has two bodies", header.shown)));
        }
        unit.definitions.push(self.definition(header)?);
        Ok(())
    }

    /// `%name = type ..`
    fn named_type(&mut self, name: Spelling<'a>, unit: &mut Unit<'a>) -> Result<(), Fault> {
        let spot = self.spot;
        self.advance()?;
        self.expect(b'=')?;
        self.expect_word("type")?;
        let body = match self.token {
            Token::Word("opaque") => self.advance().map(|_| None)?,
            Token::Mark(b'{') => Some(self.struct_body(false)?),
            Token::Mark(b'<') if self.ahead()? == Token::Mark(b'{') => Some(self.packed_body()?),
            _ => Some(self.second_name(name)?),
        };
        // A type whose name no book can have is one that no book has, wherever it is used.
        let Ok(name) = name.name() else { return Ok(()) };
        match unit.module.structs.insert(name, body) {
            None => Ok(()),
            Some(_) => Err(Fault::new(spot, "this type is given twice")),
        }
    }

    /// A second name for a type, which clang never writes. One of an integer or pointer is that from here on; any other is a
    /// struct that no book can hold, and so turned down where it is used.
    fn second_name(&mut self, name: Spelling<'a>) -> Result<StructBody<'a>, Fault> {
        let ty = self.ty()?;
        if matches!(ty, Type::Int(_) | Type::Ptr) {
            self.second_names.extend(name.name().map(|name| (name, ty)));
        }
        let field = Type::Other("that is a second name for another".into());
        Ok(StructBody { packed: false, fields: vec![field] })
    }

    /// `@name = .. global i32 0, align 4`, an alias or an ifunc.
    fn global(&mut self, name: Spelling<'a>, unit: &mut Unit<'a>) -> Result<(), Fault> {
        self.advance()?;
        self.expect(b'=')?;
        unit.globals.extend(name.name());
        while !matches!(self.token, Token::Word("global" | "constant" | "alias" | "ifunc")) {
            if self.at_word("thread_local") {
                unit.threads.extend(name.name());
            }
            if self.at_entity()? || !self.attribute()? {
                return self.expected("`global`, `constant`, `alias` or `ifunc`");
            }
        }
        let sort = self.advance()?;
        self.ty()?;
        match sort {
            Token::Word("alias" | "ifunc") => {
                self.expect(b',')?;
                if self.at_type() {
                    self.ty()?;
                }
                self.skip_constant()?;
            }
            // One that stands elsewhere has no value.
            _ if self.at(b',') || self.token == Token::Group || self.at_entity()? => {}
            _ => self.skip_constant()?,
        }
        self.behind_global()
    }

    /// `, section "x", comdat($c), align 4, !dbg !7 #0`
    fn behind_global(&mut self) -> Result<(), Fault> {
        while self.eat(b',')? {
            if !self.attribute()? {
                return self.expected("an attribute");
            }
            if self.token == Token::Text {
                self.advance()?;
            }
        }
        while matches!(self.token, Token::Group | Token::Text) {
            self.attribute()?;
        }
        Ok(())
    }

    /// A thing that begins with a word, and is neither a definition nor a declaration.
    fn directive(&mut self, word: &str) -> Result<(), Fault> {
        match word {
            "target" => self.target_line(),
            "source_filename" => {
                self.advance()?;
                self.expect(b'=')?;
                self.expect_text()
            }
            "module" => {
                self.advance()?;
                self.expect_word("asm")?;
                self.expect_text()
            }
            "attributes" => {
                self.advance()?;
                if self.token != Token::Group {
                    return self.expected("a group of attributes");
                }
                self.advance()?;
                self.expect(b'=')?;
                if self.at(b'{') {
                    self.skip_brackets()
                } else {
                    self.expected("`{`")
                }
            }
            "uselistorder" | "uselistorder_bb" => self.use_list_order(),
            _ => self.expected("a definition or another thing of the outermost level"),
        }
    }

    /// `target triple = ".."` or `target datalayout = ".."`
    fn target_line(&mut self) -> Result<(), Fault> {
        self.advance()?;
        let layout = !self.eat_word("triple")?;
        if layout {
            self.expect_word("datalayout")?;
        }
        self.expect(b'=')?;
        let (begin, spot) = (self.begin, self.spot);
        self.expect_text()?;
        match other_layout(&self.text_from(begin)).filter(|_| layout) {
            Some(reason) => Err(Fault::new(spot, format!("there are no lines for this target: {reason}"))),
            None => Ok(()),
        }
    }

    /// `!7 = distinct !{..}`, `!name = !{!0}`, `!7 = !DIFile(..)`
    fn metadata(&mut self) -> Result<(), Fault> {
        if self.eat(b'!')? {
            self.number::<u32>()?;
        } else {
            self.advance()?;
        }
        self.expect(b'=')?;
        self.eat_word("distinct")?;
        match self.advance()? {
            Token::Mark(b'!') if self.at(b'{') => self.skip_brackets(),
            Token::Metadata if self.at(b'(') => self.skip_brackets(),
            _ => self.expected("metadata"),
        }
    }

    /// `$name = comdat any`
    fn comdat(&mut self) -> Result<(), Fault> {
        self.advance()?;
        self.expect(b'=')?;
        self.expect_word("comdat")?;
        match self.token {
            Token::Word("any" | "exactmatch" | "largest" | "nodeduplicate" | "noduplicates" | "samesize") => {
                self.advance().map(|_| ())
            }
            _ => self.expected("a kind of comdat"),
        }
    }

    /// `^7 = gv: (..)` or `^7 = flags: 8`
    fn summary(&mut self) -> Result<(), Fault> {
        self.advance()?;
        self.expect(b'=')?;
        match self.advance()? {
            Token::Label(_) if self.at(b'(') => self.skip_brackets(),
            Token::Label(_) => self.number::<u64>().map(|_| ()),
            _ => self.expected("a summary"),
        }
    }

    /// Whether the token in hand begins a thing of the outermost level, or is the end of the text.
    pub fn at_entity(&mut self) -> Result<bool, Fault> {
        let equals = Token::Mark(b'=');
        Ok(match self.token {
            Token::End => true,
            Token::Word("target") => self.ahead()? != Token::Mark(b'('),
            Token::Word(word) => begins_entity(word),
            Token::Local(_) | Token::Global(_) | Token::Comdat | Token::Metadata | Token::Summary => self.ahead()? == equals,
            Token::Mark(b'!') => {
                let place = self.place();
                self.advance()?;
                let found = matches!(self.token, Token::Int(_)) && self.ahead()? == equals;
                self.back(place);
                found
            }
            _ => false,
        })
    }
}
