//! Calls.
use super::cursor::Reader;
use super::lexer::Token;
use super::words::is_memcmp;
use super::{out, Trouble};
use mivolanjy::ir::{Op, Type, TypedVal, Value};

impl<'a> Reader<'a> {
    /// A call behind its word. None: one that has no lines, whose arguments may be of any kind.
    pub fn call(&mut self) -> Result<Option<Op<'a>>, Trouble> {
        self.before_type("")?;
        let (ty, result) = self.ty_and_result()?;
        let ret_ty = result.unwrap_or(ty);
        let spot = self.spot;
        let callee = self.value(&Type::Ptr)?;
        let hint = ret_ty == Type::Void && matches!(&callee, Value::Global(name) if mivolanjy::is_hint(name));
        if hint && self.at(b'(') {
            self.skip_brackets()?;
            self.call_attributes()?;
            if self.at(b'[') {
                self.skip_brackets()?;
            }
            return Ok(None);
        }
        let args = self.arguments()?;
        self.call_attributes()?;
        if self.at(b'[') {
            return out(self.spot, "a book has no call with operand bundles");
        }
        if args.len() != 3 && matches!(&callee, Value::Global(name) if is_memcmp(name)) {
            return out(spot, "lines call the machine's own memcmp, which has three arguments");
        }
        Ok(Some(Op::Call { ret_ty, callee, args }))
    }

    fn arguments(&mut self) -> Result<Vec<TypedVal<'a>>, Trouble> {
        let mut args = Vec::new();
        self.expect(b'(')?;
        if self.eat(b')')? {
            return Ok(args);
        }
        loop {
            args.push(self.argument()?);
            if self.eat(b')')? {
                return Ok(args);
            }
            self.expect(b',')?;
        }
    }

    fn argument(&mut self) -> Result<TypedVal<'a>, Trouble> {
        if self.token == Token::Dots {
            return out(self.spot, "a book has no call that hands on arguments by `...`");
        }
        let ty = self.held_type()?;
        if ty == Type::Metadata {
            return self.metadata_argument();
        }
        if let Some((attribute, spot)) = self.argument_attributes()? {
            return out(spot, format!("a book has no argument that is copied for the call (`{attribute}`)"));
        }
        let val = self.value(&ty)?;
        Ok(TypedVal { ty, val })
    }

    /// Read over: what has metadata for an argument is an intrinsic, and the book's writer says so.
    fn metadata_argument(&mut self) -> Result<TypedVal<'a>, Trouble> {
        while !self.at(b',') && !self.at(b')') {
            if self.at_opening() {
                self.skip_brackets()?;
            } else if self.token == Token::End {
                return Ok(self.expected("`)`")?);
            } else {
                self.advance()?;
            }
        }
        Ok(TypedVal { ty: Type::Metadata, val: Value::Other("metadata".into()) })
    }
}
