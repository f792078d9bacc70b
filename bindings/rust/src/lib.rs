//! Typed LLVM-IR blocks to the lines of a stack machine.
//!
//! The translator and the printer behind this crate are proved: each call ends, stays inside the slices lent to it, and
//! answers as its definition says, a refusal by a number of document 01; and the lines do on the stack machine what the
//! function does by the LLVM manual. This crate puts functions into the form that they take, a book, and calls them. What
//! it adds is tested, not proved.
//!
//! 1. A front end hands its functions over as [`ir`] has them.
//! 2. A [`BookWriter`] makes a [`Book`] of them, or says which instruction of which function can't stand in one, and why.
//! 3. [`Book::translate`] gives [`Lines`], or a [`Refusal`], and [`Book::print`] their text. [`blame`] finds the
//!    instruction that a refusal is about.
//!
//! [`raw`] has the same calls on lent slices, for those who hold their own; [`Entries`] writes a book as its maker pleases.
//! The calls keep nothing between them, so threads may make them side by side; one takes up to 456 KiB of stack.
//!
//! ```
//! use mivolanjy::ir::*;
//! use mivolanjy::BookWriter;
//!
//! let i32 = Type::Int(32);
//! let a = Value::Local("a".into());
//! let r = Value::Local("r".into());
//! let add1 = Function {
//!     name: "add1".into(),
//!     ret_ty: i32.clone(),
//!     params: vec![Param { name: Some("a".into()), ty: i32.clone() }],
//!     blocks: vec![Block {
//!         label: "entry".into(),
//!         insts: vec![Inst {
//!             dest: Some("r".into()),
//!             op: Op::Bin { op: BinOp::Add, ty: i32.clone(), lhs: a, rhs: Value::Int(1) },
//!         }],
//!         term: Terminator::Ret { val: Some(TypedVal { ty: i32, val: r }) },
//!     }],
//! };
//! let module = Module::default();
//! let mut writer = BookWriter::new(&module);
//! writer.function(&add1)?;
//! let book = writer.finish()?;
//! let lines = book.translate(0)?;
//! assert!(book.print(&lines)?.ends_with("get_arg 0;\npush 1;\nadd_u32;\nset_local 0;\nget_local 0;\nret;\n\n"));
//! # Ok::<(), Box<dyn std::error::Error>>(())
//! ```
#[cfg(feature = "library")]
mod blame;
mod book;
mod entries;
pub mod ir;
pub mod kind;
mod names;
mod pen;
#[cfg(feature = "library")]
pub mod raw;
mod refusal;
mod unwritable;
mod writer;

#[cfg(feature = "library")]
pub use blame::{blame, Blame};
pub use book::{sanitize, Book, Lines};
pub use entries::{Entries, Mark, MOST_ENTRIES};
pub use names::MOST_NAMES;
pub use pen::{is_hint, is_reserved, HIGHEST_ALIGN, MOST_INDICES, MOST_LEVELS};
pub use refusal::Refusal;
pub use unwritable::{op_word, term_word, Place, Unwritable};
pub use writer::BookWriter;
