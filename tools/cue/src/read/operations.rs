//! Instructions that work on values alone: arithmetic, conversions, comparisons, `select`, `freeze`, `phi`.
use super::cursor::Reader;
use super::lexer::Token;
use super::{Fault, Trouble};
use mivolanjy::ir::{BinOp, ConvOp, ICmpPred, Op, Type, Value};

impl<'a> Reader<'a> {
    /// `nuw`, `exact`, `fast` and others, up to a type.
    fn flags(&mut self) -> Result<(), Fault> {
        while matches!(self.token, Token::Word(_)) && !self.at_type() {
            self.advance()?;
        }
        Ok(())
    }

    /// `i32 %a, %b`
    fn two_values(&mut self) -> Result<(Type<'a>, Value<'a>, Value<'a>), Trouble> {
        let ty = self.held_type()?;
        let lhs = self.value(&ty)?;
        self.expect(b',')?;
        let rhs = self.value(&ty)?;
        Ok((ty, lhs, rhs))
    }

    /// `i32 %a, i32 %b`
    pub fn two_typed(&mut self) -> Result<(Type<'a>, Value<'a>, Value<'a>), Trouble> {
        let one = self.typed()?;
        self.expect(b',')?;
        let spot = self.spot;
        let other = self.typed()?;
        if one.ty != other.ty {
            return Err(Fault::new(spot, "another type than that of the value before").into());
        }
        Ok((one.ty, one.val, other.val))
    }

    pub fn binary(&mut self, op: BinOp) -> Result<Op<'a>, Trouble> {
        self.flags()?;
        let (ty, lhs, rhs) = self.two_values()?;
        Ok(Op::Bin { op, ty, lhs, rhs })
    }

    pub fn conversion(&mut self, op: ConvOp) -> Result<Op<'a>, Trouble> {
        self.flags()?;
        let from = self.typed()?;
        self.expect_word("to")?;
        let to_ty = self.held_type()?;
        Ok(Op::Conv { op, from_ty: from.ty, val: from.val, to_ty })
    }

    pub fn icmp(&mut self) -> Result<Op<'a>, Trouble> {
        self.eat_word("samesign")?;
        let pred = match self.token {
            Token::Word(word) => predicate(word),
            _ => None,
        };
        let Some(pred) = pred else { return Ok(self.expected("a predicate of `icmp`")?) };
        self.advance()?;
        let (ty, lhs, rhs) = self.two_values()?;
        Ok(Op::ICmp { pred, ty, lhs, rhs })
    }

    pub fn select(&mut self) -> Result<Op<'a>, Trouble> {
        self.flags()?;
        let cond = self.condition()?;
        self.expect(b',')?;
        let (ty, tval, fval) = self.two_typed()?;
        Ok(Op::Select { cond, ty, tval, fval })
    }

    pub fn freeze(&mut self) -> Result<Op<'a>, Trouble> {
        let typed = self.typed()?;
        Ok(Op::Freeze { ty: typed.ty, val: typed.val })
    }

    pub fn phi(&mut self) -> Result<Op<'a>, Trouble> {
        self.flags()?;
        let ty = self.held_type()?;
        let mut incoming = Vec::new();
        if self.at(b'[') {
            loop {
                self.expect(b'[')?;
                let value = self.value(&ty)?;
                self.expect(b',')?;
                incoming.push((value, self.block_name()?));
                self.expect(b']')?;
                if !self.comma()? {
                    break;
                }
            }
        }
        Ok(Op::Phi { ty, incoming })
    }
}

/// The operation of an arithmetic instruction's word.
pub fn bin_op(word: &str) -> Option<BinOp> {
    Some(match word {
        "add" => BinOp::Add,
        "sub" => BinOp::Sub,
        "mul" => BinOp::Mul,
        "udiv" => BinOp::UDiv,
        "sdiv" => BinOp::SDiv,
        "urem" => BinOp::URem,
        "srem" => BinOp::SRem,
        "and" => BinOp::And,
        "or" => BinOp::Or,
        "xor" => BinOp::Xor,
        "shl" => BinOp::Shl,
        "lshr" => BinOp::LShr,
        "ashr" => BinOp::AShr,
        _ => return None,
    })
}

/// The operation of a conversion's word.
pub fn conv_op(word: &str) -> Option<ConvOp> {
    Some(match word {
        "trunc" => ConvOp::Trunc,
        "zext" => ConvOp::ZExt,
        "sext" => ConvOp::SExt,
        "ptrtoint" => ConvOp::PtrToInt,
        "inttoptr" => ConvOp::IntToPtr,
        "bitcast" => ConvOp::BitCast,
        _ => return None,
    })
}

/// A predicate of `icmp`.
fn predicate(word: &str) -> Option<ICmpPred> {
    Some(match word {
        "eq" => ICmpPred::Eq,
        "ne" => ICmpPred::Ne,
        "ugt" => ICmpPred::Ugt,
        "uge" => ICmpPred::Uge,
        "ult" => ICmpPred::Ult,
        "ule" => ICmpPred::Ule,
        "sgt" => ICmpPred::Sgt,
        "sge" => ICmpPred::Sge,
        "slt" => ICmpPred::Slt,
        "sle" => ICmpPred::Sle,
        _ => return None,
    })
}
