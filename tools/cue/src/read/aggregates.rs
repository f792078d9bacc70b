//! Instructions on parts of structs and arrays.
use super::cursor::Reader;
use super::lexer::Token;
use super::number::signed;
use super::{out, Trouble};
use mivolanjy::ir::Op;

impl<'a> Reader<'a> {
    pub fn getelementptr(&mut self) -> Result<Op<'a>, Trouble> {
        while let Token::Word("inbounds" | "nuw" | "nusw" | "inrange") = self.token {
            self.advance()?;
            self.skip_round()?;
        }
        let base_ty = self.held_type()?;
        self.expect(b',')?;
        let ptr = self.pointer()?;
        let mut indices = Vec::new();
        while self.comma()? {
            indices.push(self.number_read_as(signed)?);
        }
        Ok(Op::GetElementPtr { base_ty, ptr, indices })
    }

    pub fn extractvalue(&mut self) -> Result<Op<'a>, Trouble> {
        let agg = self.typed()?.val;
        self.expect(b',')?;
        let index = self.number()?;
        let spot = self.spot;
        if self.comma()? {
            return out(spot, "a book has no extractvalue with several indices");
        }
        Ok(Op::ExtractValue { agg, index })
    }
}
