//! One instruction or terminator, with the name of its result.
use super::cursor::Reader;
use super::lexer::Token;
use super::locals::{has_parts, result};
use super::operations::{bin_op, conv_op};
use super::spelling::Spelling;
use super::words::{is_instruction, is_unheld};
use super::{out, Fault, Spot, Trouble};
use mivolanjy::ir::{Inst, Op, Terminator};

/// What stands in a block.
pub enum Statement<'a> {
    Inst(Inst<'a>),
    /// A call that has no lines.
    Hint,
    End(Terminator<'a>),
}

impl<'a> Reader<'a> {
    pub fn statement(&mut self) -> Result<Statement<'a>, Trouble> {
        let begin = self.spot;
        let dest = self.dest()?;
        let statement = self.nameless(begin)?;
        self.rest()?;
        let Statement::Inst(Inst { op, .. }) = statement else {
            if let Some((_, spot)) = dest {
                return Err(Fault::new(spot, "a name for what has no result").into());
            }
            return Ok(statement);
        };
        if makes_parts(&op) {
            return out(begin, "a book has no value of a struct or array type, but a cmpxchg's");
        }
        let dest = match (dest, result(&op)) {
            (Some((_, spot)), None) => return Err(Fault::new(spot, "a name for what has no result").into()),
            (Some((name, spot)), Some(ty)) => Some(self.locals.named(name, spot, ty)?),
            (None, Some(ty)) => Some(self.locals.unnamed(ty)),
            (None, None) => None,
        };
        Ok(Statement::Inst(Inst { dest, op }))
    }

    /// `%x =`
    fn dest(&mut self) -> Result<Option<(Spelling<'a>, Spot)>, Fault> {
        let Token::Local(name) = self.token else { return Ok(None) };
        let spot = self.spot;
        self.advance()?;
        self.expect(b'=')?;
        Ok(Some((name, spot)))
    }

    /// A statement without its result's name.
    fn nameless(&mut self, begin: Spot) -> Result<Statement<'a>, Trouble> {
        let word = match self.token {
            Token::Word(word) if is_instruction(word) => word,
            _ => return Ok(self.expected("an instruction")?),
        };
        if is_unheld(word) {
            return out(begin, format!("a book has no instruction {word}"));
        }
        self.advance()?;
        match word {
            "ret" => self.ret().map(Statement::End),
            "br" => self.br().map(Statement::End),
            "switch" => self.switch().map(Statement::End),
            "unreachable" => Ok(Statement::End(Terminator::Unreachable)),
            "call" => self.call().map(called),
            "tail" | "musttail" | "notail" => {
                self.expect_word("call")?;
                self.call().map(called)
            }
            _ => self.operation(word).map(|op| Statement::Inst(Inst { dest: None, op })),
        }
    }

    /// An instruction behind its word that is neither a call nor a terminator.
    fn operation(&mut self, word: &str) -> Result<Op<'a>, Trouble> {
        match word {
            "icmp" => self.icmp(),
            "select" => self.select(),
            "freeze" => self.freeze(),
            "phi" => self.phi(),
            "alloca" => self.alloca(),
            "load" => self.load(),
            "store" => self.store(),
            "cmpxchg" => self.cmpxchg(),
            "fence" => self.fence(),
            "getelementptr" => self.getelementptr(),
            "extractvalue" => self.extractvalue(),
            _ => match (bin_op(word), conv_op(word)) {
                (Some(op), _) => self.binary(op),
                (_, Some(op)) => self.conversion(op),
                (None, None) => Ok(self.expected("an instruction")?),
            },
        }
    }
}

/// A call, or one that has no lines.
fn called(op: Option<Op>) -> Statement {
    op.map_or(Statement::Hint, |op| Statement::Inst(Inst { dest: None, op }))
}

/// Whether an instruction's result has parts. Of a cmpxchg's own, which is none here, lines have both in slots.
fn makes_parts(op: &Op) -> bool {
    match op {
        Op::Call { ret_ty, .. } => has_parts(ret_ty),
        Op::Load { ty, .. } | Op::AtomicLoad { ty, .. } | Op::Phi { ty, .. } => has_parts(ty),
        Op::Select { ty, .. } | Op::Freeze { ty, .. } | Op::Bin { ty, .. } => has_parts(ty),
        Op::Conv { to_ty, .. } => has_parts(to_ty),
        _ => false,
    }
}
