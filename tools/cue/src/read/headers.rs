//! What stands before a function's body, in a definition or a declaration.
use super::cursor::Reader;
use super::lexer::Token;
use super::locals::{has_parts, Sort};
use super::{Fault, LeftOut, Spot, Trouble};
use mivolanjy::ir::{Name, Param, Type};

#[derive(Debug)]
pub struct Header<'a> {
    pub shown: String,
    pub name: Option<Name<'a>>,
    pub spot: Spot,
    /// Not so for an `available_externally` one: its body stands elsewhere, and this one is for reading only.
    pub emitted: bool,
    pub ret_ty: Type<'a>,
    pub params: Vec<Param<'a>>,
    /// The first reason to leave the function out.
    pub left_out: Option<LeftOut>,
}

impl<'a> Reader<'a> {
    /// A header behind `define` or `declare`, up to a body's brace or the next thing.
    pub fn header(&mut self) -> Result<Header<'a>, Fault> {
        self.locals = Default::default();
        let emitted = !self.before_type("available_externally")?;
        let before = self.spot;
        let ret_ty = self.ty()?;
        self.returns = ret_ty.clone();
        let spot = self.spot;
        let Token::Global(spelling) = self.token else { return self.expected("a function's name") };
        self.advance()?;
        let shown = format!("@{}", spelling.shown());
        let mut header = Header { shown, name: None, spot, emitted, ret_ty, params: Vec::new(), left_out: None };
        match spelling.name() {
            Ok(name) => header.name = Some(name),
            Err(reason) => header.left_out = Some(LeftOut { spot, reason: reason.to_string() }),
        }
        if spelling.number().is_some() {
            header.left_out = Some(LeftOut { spot, reason: "a function without a name".to_string() });
        }
        if let Type::Other(words) = &header.ret_ty {
            let reason = format!("its return type: a book has no type {words}");
            header.left_out = Some(LeftOut { spot: before, reason });
        }
        self.parameters(&mut header)?;
        self.behind_parameters()?;
        Ok(header)
    }

    fn parameters(&mut self, header: &mut Header<'a>) -> Result<(), Fault> {
        self.expect(b'(')?;
        while !self.eat(b')')? {
            if self.token == Token::Dots {
                self.advance()?;
            } else {
                self.parameter(header)?;
            }
            if !self.at(b')') {
                self.expect(b',')?;
            }
        }
        Ok(())
    }

    fn parameter(&mut self, header: &mut Header<'a>) -> Result<(), Fault> {
        let before = self.spot;
        let ty = self.ty()?;
        let reason = match &ty {
            Type::Other(words) => Some(format!("a book has no type {words}")),
            ty if has_parts(ty) => Some("a book has no value of a struct or array type".to_string()),
            _ => None,
        };
        if let Some(reason) = reason {
            let reason = format!("parameter {}: {reason}", header.params.len() + 1);
            header.left_out.get_or_insert(LeftOut { spot: before, reason });
        }
        if let Some((attribute, spot)) = self.parameter_attributes()? {
            let reason = format!("a book has no parameter that is copied for the call (`{attribute}`)");
            header.left_out.get_or_insert(LeftOut { spot, reason });
        }
        let spot = self.spot;
        let name = match self.token {
            Token::Local(name) => {
                self.advance()?;
                match self.locals.named(name, spot, Some(Sort::of(&ty))) {
                    Ok(name) => Some(name),
                    Err(Trouble::Fault(fault)) => return Err(fault),
                    Err(Trouble::Out(why)) => {
                        header.left_out.get_or_insert(why);
                        None
                    }
                }
            }
            _ => Some(self.locals.unnamed(Some(Sort::of(&ty)))),
        };
        header.params.push(Param { name, ty });
        Ok(())
    }

    /// Attributes, section, comdat and the like; a few have a constant behind them.
    fn behind_parameters(&mut self) -> Result<(), Fault> {
        while !self.at_entity()? {
            match self.token {
                Token::Word("prefix" | "prologue" | "personality") => {
                    self.advance()?;
                    self.ty()?;
                    self.skip_constant()?;
                }
                _ => {
                    if !self.attribute()? {
                        return Ok(());
                    }
                }
            }
        }
        Ok(())
    }
}
