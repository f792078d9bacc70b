//! Instructions on memory: places, loads, stores and the atomic ones.
use super::cursor::Reader;
use super::lexer::Token;
use super::number::unsigned;
use super::words::is_ordering;
use super::{out, Fault, Trouble};
use mivolanjy::ir::{Op, Type};

impl<'a> Reader<'a> {
    pub fn alloca(&mut self) -> Result<Op<'a>, Trouble> {
        let spot = self.spot;
        if self.eat_word("inalloca")? {
            return out(spot, "a book has no place for an argument that is copied (`inalloca`)");
        }
        self.eat_word("swifterror")?;
        let ty = self.held_type()?;
        let count = if self.comma()? { Some(self.number_read_as(unsigned)?) } else { None };
        Ok(Op::Alloca { ty, count, align: self.align()? })
    }

    pub fn load(&mut self) -> Result<Op<'a>, Trouble> {
        let atomic = self.eat_word("atomic")?;
        self.eat_word("volatile")?;
        let ty = self.held_type()?;
        self.expect(b',')?;
        let ptr = self.pointer()?;
        if !atomic {
            return Ok(Op::Load { ty, ptr, align: self.align()? });
        }
        self.ordering()?;
        Ok(Op::AtomicLoad { ty, ptr })
    }

    pub fn store(&mut self) -> Result<Op<'a>, Trouble> {
        let atomic = self.eat_word("atomic")?;
        self.eat_word("volatile")?;
        let what = self.typed()?;
        self.expect(b',')?;
        let ptr = self.pointer()?;
        if !atomic {
            return Ok(Op::Store { ty: what.ty, val: what.val, ptr, align: self.align()? });
        }
        self.ordering()?;
        Ok(Op::AtomicStore { ty: what.ty, val: what.val, ptr })
    }

    pub fn cmpxchg(&mut self) -> Result<Op<'a>, Trouble> {
        self.eat_word("weak")?;
        self.eat_word("volatile")?;
        let ptr = self.pointer()?;
        self.expect(b',')?;
        let (ty, cmp, new) = self.two_typed()?;
        self.ordering()?;
        self.ordering()?;
        Ok(Op::Cmpxchg { ty, ptr, cmp, new })
    }

    pub fn fence(&mut self) -> Result<Op<'a>, Trouble> {
        self.ordering()?;
        Ok(Op::Fence)
    }

    /// `syncscope("..") seq_cst`
    fn ordering(&mut self) -> Result<(), Fault> {
        if self.eat_word("syncscope")? {
            self.expect(b'(')?;
            self.expect_text()?;
            self.expect(b')')?;
        }
        match self.token {
            Token::Word(word) if is_ordering(word) => self.advance().map(|_| ()),
            _ => self.expected("an ordering"),
        }
    }

    /// A comma behind which more operands stand, and not an align, an address space or metadata.
    pub fn comma(&mut self) -> Result<bool, Fault> {
        let more = self.at(b',') && !matches!(self.ahead()?, Token::Metadata | Token::Word("align" | "addrspace"));
        if more {
            self.advance()?;
        }
        Ok(more)
    }

    /// The stated align, and an address space, which must be 0.
    fn align(&mut self) -> Result<Option<u64>, Trouble> {
        let mut align = None;
        while self.at(b',') && matches!(self.ahead()?, Token::Word("align" | "addrspace")) {
            self.advance()?;
            let spot = self.spot;
            if self.eat_word("align")? {
                align = Some(self.number()?);
            } else if let Type::Other(words) = self.address_space()? {
                return out(spot, format!("a book has no type {words}"));
            }
        }
        Ok(align)
    }

    /// What may stand behind the operands of any instruction: an align of an atomic one, and attachments.
    pub fn rest(&mut self) -> Result<(), Trouble> {
        self.align()?;
        while self.eat(b',')? {
            self.attachment()?;
        }
        Ok(())
    }
}
