//! From functions to a book.
use crate::book::Book;
use crate::entries::Entries;
use crate::ir::{Function, Module};
use crate::unwritable::Unwritable;

/// Writes books of a module's functions.
///
/// It collects and sorts the names, takes along the named structs that are used, and sets the marks: a global that the
/// book uses is marked as defined where the module has it so and the book does not hold it itself, and as reserved where
/// it is one of C's floating-point functions ([`is_reserved`](crate::is_reserved)).
///
/// What a book can't hold is turned down by an [`Unwritable`], and so is what document 01 gives a 3 for: a book of this
/// writer is never refused with 1, 2 or 3. Calls of intrinsics that do nothing ([`is_hint`](crate::is_hint)) are left out.
///
/// ```
/// use mivolanjy::ir::{Block, Function, Module, Param, Terminator, Type, TypedVal, Value};
/// use mivolanjy::BookWriter;
///
/// let same = Function {
///     name: "same".into(),
///     ret_ty: Type::Int(32),
///     params: vec![Param { name: Some("a".into()), ty: Type::Int(32) }],
///     blocks: vec![Block {
///         label: "entry".into(),
///         insts: vec![],
///         term: Terminator::Ret { val: Some(TypedVal { ty: Type::Int(32), val: Value::Local("a".into()) }) },
///     }],
/// };
/// let module = Module::default();
/// let mut writer = BookWriter::new(&module);
/// writer.function(&same)?;
/// let book = writer.finish()?;
/// let lines = book.translate(0)?;
/// assert_eq!(book.print(&lines)?, "# i32 @same(1 params)\nsame:\nsame__entry:\nget_arg 0;\nret;\n\n");
/// # Ok::<(), Box<dyn std::error::Error>>(())
/// ```
pub struct BookWriter<'b> {
    module: &'b Module<'b>,
    entries: Entries<'b>,
}

impl<'b> BookWriter<'b> {
    pub fn new(module: &'b Module<'b>) -> BookWriter<'b> {
        BookWriter { module, entries: Entries::strict() }
    }

    /// Adds a function, which the book then holds behind those before it. One that is turned down leaves the book as it was,
    /// and one that is turned down for want of room alone (`full`) may stand in the next book.
    pub fn function(&mut self, function: &'b Function<'_>) -> Result<(), Unwritable> {
        let module = self.module;
        self.entries
            .attempt(|entries| {
                let before = entries.length();
                entries.function(function)?;
                entries.take_along(module, function, before)
            })
            .map_err(|unwritable| unwritable.within(function))
    }

    /// How many entries the book has by now.
    pub fn count(&self) -> usize {
        self.entries.count()
    }

    /// The book, if it has a function.
    pub fn finish(mut self) -> Result<Book, Unwritable> {
        self.entries.drop_own_marks();
        self.entries.finish()
    }
}
