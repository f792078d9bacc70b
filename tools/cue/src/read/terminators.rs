//! How a block ends.
use super::cursor::Reader;
use super::{out, Fault, Trouble};
use mivolanjy::ir::{Name, Terminator, Type, TypedVal, Value};

impl<'a> Reader<'a> {
    pub fn ret(&mut self) -> Result<Terminator<'a>, Trouble> {
        let spot = self.spot;
        let ty = self.held_type()?;
        if ty != self.returns {
            return Err(Fault::new(spot, "another type than the function returns").into());
        }
        if ty == Type::Void {
            return Ok(Terminator::Ret { val: None });
        }
        let val = self.value(&ty)?;
        Ok(Terminator::Ret { val: Some(TypedVal { ty, val }) })
    }

    pub fn br(&mut self) -> Result<Terminator<'a>, Trouble> {
        if self.at_word("label") {
            return Ok(Terminator::Br { cond: None, if_true: self.target()?, if_false: None });
        }
        let cond = self.condition()?;
        self.expect(b',')?;
        let if_true = self.target()?;
        self.expect(b',')?;
        let if_false = self.target()?;
        Ok(Terminator::Br { cond: Some(cond), if_true, if_false: Some(if_false) })
    }

    pub fn switch(&mut self) -> Result<Terminator<'a>, Trouble> {
        let on = self.typed()?;
        self.expect(b',')?;
        let default = self.target()?;
        self.expect(b'[')?;
        let mut cases = Vec::new();
        while !self.eat(b']')? {
            cases.push(self.case(&on.ty)?);
        }
        Ok(Terminator::Switch { ty: on.ty, val: on.val, default, cases })
    }

    fn case(&mut self, on: &Type<'a>) -> Result<(i128, Name<'a>), Trouble> {
        let spot = self.spot;
        let ty = self.held_type()?;
        if ty != *on {
            return Err(Fault::new(spot, "a case of another type than the switch").into());
        }
        let spot = self.spot;
        let Value::Int(number) = self.value(&ty)? else {
            return out(spot, "a book has no switch case that is no integer");
        };
        self.expect(b',')?;
        Ok((number, self.target()?))
    }
}
