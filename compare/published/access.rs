//! A child of the published codegen.rs, so that it sees that module's private parts.
use super::*;

/// A code generator that is asked for one function after the other.
pub struct Asked<'a>(Codegen<'a>);

impl<'a> Asked<'a> {
    /// From the given label counter.
    pub fn new(module: &'a Module, counter: usize) -> Asked<'a> {
        let mut codegen = Codegen::new(module);
        codegen.label_counter = counter;
        Asked(codegen)
    }

    /// `gen_function` alone.
    pub fn own(&mut self, function: &'a Function) -> Result<(), String> {
        self.0.gen_function(function)
    }

    /// What bindings/rust/uvclang/gen_function.rs has in its place.
    #[cfg(proved)]
    pub fn proved(&mut self, piece: &mivolanjy::ir::Module, function: &'a Function) -> Result<(), String> {
        self.0.gen_function_proved(piece, function)
    }

    /// The lines in the buffer by now.
    pub fn lines(&self) -> &[String] {
        &self.0.buf
    }

    /// The label counter by now.
    pub fn counter(&self) -> usize {
        self.0.label_counter
    }

    /// Takes back what came behind so many lines, and the counter.
    pub fn put_back(&mut self, lines: usize, counter: usize) {
        self.0.buf.truncate(lines);
        self.0.label_counter = counter;
    }
}

/// Runs `gen_function` alone, for one function after the other, from the given label counter. Gives the lines that they
/// leave in the buffer and the next counter, or the first error.
pub fn gen_functions(module: &Module, functions: &[Function], counter: usize) -> Result<(Vec<String>, usize), String> {
    let mut asked = Asked::new(module, counter);
    functions.iter().try_for_each(|function| asked.own(function))?;
    Ok((asked.0.buf, asked.0.label_counter))
}

/// A name as labels have it.
pub fn sanitize(name: &str) -> String {
    super::sanitize(name)
}

/// The names that the book's writer marks as reserved.
pub fn is_reserved(name: &str) -> bool {
    is_float_builtin(name)
}
