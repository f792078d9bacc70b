//! A function's body: blocks of statements, and what is done with one that is left out.
use super::cursor::{Place, Reader};
use super::headers::Header;
use super::lexer::Token;
use super::locals::Sort;
use super::statements::Statement;
use super::{out, Body, Definition, Fault, LeftOut, Spot, Trouble};
use mivolanjy::ir::{Block, Function, Inst, Op, Value};

/// Blocks, and where their statements stand.
type Blocks<'a> = (Vec<Block<'a>>, Vec<Vec<Spot>>);

impl<'a> Reader<'a> {
    /// A body behind its header, read or left out.
    pub fn definition(&mut self, header: Header<'a>) -> Result<Definition<'a>, Fault> {
        if !self.at(b'{') {
            return self.expected("`{`");
        }
        let Header { shown, name, spot, ret_ty, params, left_out, .. } = header;
        let body = match left_out {
            Some(why) => {
                self.skip_brackets()?;
                Err(why)
            }
            None => self.body()?.map(|(blocks, spots)| {
                // Without a name it would be left out.
                let name = name.clone().unwrap_or_default();
                let globals = std::mem::take(&mut self.locals.globals);
                Body { function: Function { name, ret_ty, params, blocks }, spots, globals }
            }),
        };
        Ok(Definition { shown, name, spot, body })
    }

    fn body(&mut self) -> Result<Result<Blocks<'a>, LeftOut>, Fault> {
        self.expect(b'{')?;
        if self.at(b'}') {
            return self.expected("a block");
        }
        let mut safe = self.place();
        match self.blocks(&mut safe) {
            Ok(blocks) => Ok(Ok(blocks)),
            Err(Trouble::Fault(fault)) => Err(fault),
            Err(Trouble::Out(why)) => {
                self.back(safe);
                self.skip_body()?;
                Ok(Err(why))
            }
        }
    }

    /// All blocks and the closing brace. `safe` is always a place outside all brackets but the body's.
    fn blocks(&mut self, safe: &mut Place<'a>) -> Result<Blocks<'a>, Trouble> {
        let (mut blocks, mut spots) = (Vec::new(), Vec::new());
        loop {
            let (block, places) = self.block(safe)?;
            if let Some(place) = block.insts.iter().position(makes_place).filter(|_| !blocks.is_empty()) {
                return out(
                    places[place],
                    "a place is made outside the first block, and lines give it one address each time",
                );
            }
            blocks.push(block);
            spots.push(places);
            *safe = self.place();
            self.debug_records()?;
            while matches!(self.token, Token::Word("uselistorder" | "uselistorder_bb")) {
                self.use_list_order()?;
            }
            if self.eat(b'}')? {
                self.locals.agree()?;
                return Ok((blocks, spots));
            }
        }
    }

    fn block(&mut self, safe: &mut Place<'a>) -> Result<(Block<'a>, Vec<Spot>), Trouble> {
        let label = match self.token {
            Token::Label(name) => {
                let spot = self.spot;
                self.advance()?;
                self.locals.named(name, spot, Some(Sort::Label))?
            }
            _ => self.locals.unnamed(Some(Sort::Label)),
        };
        let (mut insts, mut spots) = (Vec::new(), Vec::new());
        loop {
            self.debug_records()?;
            *safe = self.place();
            let spot = self.spot;
            match self.statement()? {
                Statement::Hint => continue,
                Statement::Inst(inst) => insts.push(inst),
                Statement::End(term) => {
                    spots.push(spot);
                    return Ok((Block { label, insts, term }, spots));
                }
            }
            spots.push(spot);
        }
    }

    /// `uselistorder i32 %x, { 1, 0 }`
    pub fn use_list_order(&mut self) -> Result<(), Fault> {
        self.advance()?;
        if self.at_type() {
            self.ty()?;
        }
        self.skip_constant()?;
        while self.eat(b',')? {
            self.skip_constant()?;
        }
        Ok(())
    }

    /// The rest of a body, through its closing brace.
    fn skip_body(&mut self) -> Result<(), Fault> {
        loop {
            match self.token {
                Token::End | Token::Mark(b')' | b']' | b'>') => return self.expected("`}`"),
                Token::Mark(b'}') => return self.advance().map(|_| ()),
                _ if self.at_opening() => self.skip_brackets()?,
                _ => {
                    self.advance()?;
                }
            }
        }
    }
}

/// Whether an instruction makes a place of a size that is known beforehand.
fn makes_place(inst: &Inst) -> bool {
    match &inst.op {
        Op::Alloca { count, .. } => count.as_ref().is_none_or(|count| matches!(count.val, Value::Int(_))),
        _ => false,
    }
}
