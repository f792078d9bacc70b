//! What stands where uvclang's `gen_function` stood: a child module of codegen.rs (`mod gen_function;`). `gen_code` makes
//! `from_ast::module(self.module)` once and calls this for each function that has a body.
use super::*;
use crate::from_ast;
use mivolanjy::{ir, BookWriter};

impl<'a> Codegen<'a> {
    /// The lines of a function, by the proved translator and printer. Those that no book holds (floats, intrinsics, constant
    /// expressions) go the way that they went before.
    pub fn gen_function_proved(&mut self, piece: &ir::Module, f: &'a Function) -> Result<(), String> {
        let function = from_ast::function(f);
        let mut writer = BookWriter::new(piece);
        if writer.function(&function).is_err() {
            return self.gen_function(f);
        }
        let book = writer.finish().map_err(|unwritable| unwritable.to_string())?;
        let refused = |refusal| format!("function @{}: {refusal}", f.name);
        let lines = book.translate(self.label_counter as u64).map_err(refused)?;
        let text = book.print(&lines).map_err(refused)?;
        // Each line ends with byte 10, the final empty one too, and no name has one inside it.
        self.buf.reserve(lines.kinds.len());
        self.buf.reserve(lines.kinds.len());
        self.buf.extend(text.split_terminator('\n').map(str::to_string));
        self.label_counter = lines.next as usize;
        Ok(())
    }
}
