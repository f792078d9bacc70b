//! A book in the making, entry by entry, as its maker pleases.
//! [`BookWriter`](crate::BookWriter) stands on it and chooses marks and structs by itself.
use crate::book::Book;
use crate::ir::{Function, Module, StructBody};
use crate::kind::{self, Naming};
use crate::names::{Names, MOST_NAMES};
use crate::pen::{is_reserved, Entry, Pen};
use crate::unwritable::{Place, Unwritable};

/// At most so many entries stand in a book.
pub const MOST_ENTRIES: usize = 1_048_576;

/// What a mark says of a name.
#[derive(Clone, Copy, Debug, PartialEq, Eq)]
pub enum Mark {
    /// A function of that name is defined.
    Defined,
    /// It may not be called.
    Reserved,
}

/// What a name has been given: each once at most.
#[derive(Clone, Copy, Default)]
struct Given {
    mark: bool,
    named_struct: bool,
    function: bool,
}

/// Marks, named structs and functions, and the names that they use. Whatever is turned down leaves it as it was.
#[derive(Default)]
pub struct Entries<'b> {
    names: Names<'b>,
    /// By the names' numbers for now; those behind the end have been given nothing.
    given: Vec<Given>,
    marks: Vec<Entry>,
    structs: Vec<Entry>,
    functions: Vec<Entry>,
    strict: bool,
}

/// How far it has been written.
#[derive(Clone, Copy)]
pub(crate) struct Length {
    names: usize,
    marks: usize,
    structs: usize,
    functions: usize,
}

impl<'b> Entries<'b> {
    /// Takes values of kind 37 and calls of any name. A translation refuses them with 3.
    pub fn new() -> Entries<'b> {
        Entries::default()
    }

    /// Turns these down, and says which instruction has one.
    pub fn strict() -> Entries<'b> {
        Entries { strict: true, ..Entries::default() }
    }

    /// A name that stands in the book whether or not anything uses it.
    pub fn name(&mut self, name: &'b str) -> Result<(), Unwritable> {
        self.attempt(|entries| entries.names.number(name).map(|_| ()).map_err(Unwritable::of_book))
    }

    pub fn mark(&mut self, mark: Mark, name: &'b str) -> Result<(), Unwritable> {
        self.attempt(|entries| {
            let kind = match mark {
                Mark::Defined => kind::DEFINED,
                Mark::Reserved => kind::RESERVED,
            };
            let number = entries.names.number(name).map_err(Unwritable::of_book)?;
            entries.give(number, |given| &mut given.mark, || format!("@{name} has a mark already"))?;
            entries.marks.push((kind, number));
            Ok(())
        })
    }

    /// No body: opaque.
    pub fn named_struct(&mut self, name: &'b str, body: Option<&'b StructBody<'_>>) -> Result<(), Unwritable> {
        self.attempt(|entries| {
            let number = entries.names.number(name).map_err(Unwritable::of_book)?;
            entries.give(
                number,
                |given| &mut given.named_struct,
                || format!("the struct %{name} is in the book already"),
            )?;
            entries.structs.push((kind::NAMED_STRUCT, number));
            let mut pen = Pen { names: &mut entries.names, entries: &mut entries.structs, strict: entries.strict };
            pen.struct_body(body).map_err(|reason| Unwritable::of_book(format!("struct %{name}: {reason}")))
        })
    }

    pub fn function(&mut self, function: &'b Function<'_>) -> Result<(), Unwritable> {
        let put = self.attempt(|entries| entries.put_function(function, usize::MAX).map(|_| ()));
        put.map_err(|unwritable| unwritable.within(function))
    }

    /// How many entries the book has by now, with the one that closes its functions.
    pub fn count(&self) -> usize {
        self.marks.len() + self.structs.len() + self.functions.len() + 1
    }

    /// The book, if it has a function.
    pub fn finish(self) -> Result<Book, Unwritable> {
        if self.functions.is_empty() {
            return Err(Unwritable::of_book("a book has one function at least".to_string()));
        }
        let (names, places) = self.names.sorted();
        let parts = [&self.marks[..], &self.structs, &self.functions, &[(kind::END, 0)]];
        let mut words = Vec::with_capacity(2 + 2 * self.count());
        words.extend([self.count() as u64, places.len() as u64]);
        for part in parts {
            words.extend(part.iter().map(|(kind, _)| *kind));
        }
        for part in parts {
            words.extend(part.iter().map(|entry| placed(*entry, &places)));
        }
        Ok(Book::from_slices(words, names))
    }

    /// What a function that begins at this place needs of its module: the structs that it names, and those that these name;
    /// the marks of the globals that it uses.
    pub(crate) fn take_along(
        &mut self,
        module: &'b Module<'b>,
        function: &'b Function<'_>,
        since: Length,
    ) -> Result<(), Unwritable> {
        for at in since.functions..self.functions.len() {
            let taken = match self.functions[at] {
                (kind::NAMED, number) => self.need_structs(module, number),
                (kind::GLOBAL | kind::FUNCTION, number) => self.need_mark(module, number),
                _ => Ok(()),
            };
            taken.map_err(|unwritable| Unwritable { place: self.place_of(function, at - since.functions), ..unwritable })?;
        }
        Ok(())
    }

    /// The instruction that has a function's entry of this number.
    fn place_of(&self, function: &'b Function<'_>, at: usize) -> Option<Place> {
        let mut alone = Entries { strict: self.strict, ..Entries::default() };
        alone.put_function(function, at).unwrap_or(None)
    }

    /// A struct, and those that it names.
    fn need_structs(&mut self, module: &'b Module<'b>, number: u64) -> Result<(), Unwritable> {
        let mut at = self.structs.len();
        self.need_struct(module, number)?;
        while at < self.structs.len() {
            if let (kind::NAMED, number) = self.structs[at] {
                self.need_struct(module, number)?;
            }
            at += 1;
        }
        Ok(())
    }

    /// A struct that the module lacks stays without body.
    fn need_struct(&mut self, module: &'b Module<'b>, number: u64) -> Result<(), Unwritable> {
        if self.given(number).named_struct {
            return Ok(());
        }
        let name = self.names.name(number);
        module.structs.get(name).map_or(Ok(()), |body| self.named_struct(name, body.as_ref()))
    }

    fn need_mark(&mut self, module: &Module<'_>, number: u64) -> Result<(), Unwritable> {
        let name = self.names.name(number);
        if self.given(number).mark {
            Ok(())
        } else if is_reserved(name) {
            self.mark(Mark::Reserved, name)
        } else if module.defined.contains(name) {
            self.mark(Mark::Defined, name)
        } else {
            Ok(())
        }
    }

    /// A function of the book counts as defined without a mark.
    pub(crate) fn drop_own_marks(&mut self) {
        let mut marks = std::mem::take(&mut self.marks);
        marks.retain(|(kind, number)| *kind != kind::DEFINED || !self.given(*number).function);
        self.marks = marks;
    }

    fn given(&self, number: u64) -> Given {
        self.given.get(number as usize).copied().unwrap_or_default()
    }

    /// Writes a function, or as much of it as has the entry of this number, and tells which instruction has that.
    fn put_function(&mut self, function: &'b Function<'_>, until: usize) -> Result<Option<Place>, Unwritable> {
        let number = self.names.number(&function.name).map_err(Unwritable::of_book)?;
        self.give(number, |given| &mut given.function, || "a function of this name is in the book already".to_string())?;
        // An instruction has five entries or so.
        self.functions.reserve(function.blocks.iter().map(|block| 5 * block.insts.len() + 5).sum::<usize>() + 16);
        let mut pen = Pen { names: &mut self.names, entries: &mut self.functions, strict: self.strict };
        pen.head(function).map_err(Unwritable::of_book)?;
        if pen.entries.len() > until {
            return Ok(None);
        }
        for (block, body) in function.blocks.iter().enumerate() {
            let reached = pen.block(body, until).map_err(|(inst, reason)| Unwritable {
                place: Some(Place::of(function, block, inst)),
                ..Unwritable::of_book(reason)
            })?;
            if let Some(inst) = reached {
                return Ok(Some(Place::of(function, block, inst)));
            }
        }
        pen.tail().map_err(Unwritable::of_book)?;
        Ok(None)
    }

    /// Notes what a name is given, if it had none.
    fn give(
        &mut self,
        number: u64,
        part: fn(&mut Given) -> &mut bool,
        twice: impl FnOnce() -> String,
    ) -> Result<(), Unwritable> {
        if self.given.len() <= number as usize {
            self.given.resize(self.names.len(), Given::default());
        }
        match std::mem::replace(part(&mut self.given[number as usize]), true) {
            false => Ok(()),
            // It stays given: the one before this is.
            true => Err(Unwritable::of_book(twice())),
        }
    }

    /// Does all of it, or nothing.
    pub(crate) fn attempt(&mut self, put: impl FnOnce(&mut Self) -> Result<(), Unwritable>) -> Result<(), Unwritable> {
        let before = self.length();
        let done = put(self).and_then(|()| self.room());
        if done.is_err() {
            self.truncate(before);
        }
        done
    }

    /// Whether all of it fits into one book.
    fn room(&self) -> Result<(), Unwritable> {
        let counts = [("entries", self.count(), MOST_ENTRIES), ("names", self.names.len(), MOST_NAMES)];
        match counts.into_iter().find(|(_, count, most)| count > most) {
            None => Ok(()),
            Some((what, count, most)) => {
                let reason = format!("the book would have {count} {what}, and it may have {most}");
                Err(Unwritable { full: true, ..Unwritable::of_book(reason) })
            }
        }
    }

    pub(crate) fn length(&self) -> Length {
        let (marks, structs, functions) = (self.marks.len(), self.structs.len(), self.functions.len());
        Length { names: self.names.len(), marks, structs, functions }
    }

    /// Takes back what came later, and what it gave to names.
    fn truncate(&mut self, to: Length) {
        let (marks, structs) = (self.marks.drain(to.marks..), self.structs.drain(to.structs..));
        for (kind, word) in marks.chain(structs).chain(self.functions.drain(to.functions..)) {
            match kind {
                kind::DEFINED | kind::RESERVED => self.given[word as usize].mark = false,
                kind::NAMED_STRUCT => self.given[word as usize].named_struct = false,
                kind::FUNCTION => self.given[word as usize].function = false,
                _ => {}
            }
        }
        self.names.truncate(to.names);
        self.given.truncate(to.names);
    }
}

/// An entry's word, where a name's number is that name's place.
fn placed((kind, word): Entry, places: &[u64]) -> u64 {
    match kind::naming(kind) {
        Naming::Name => places[word as usize],
        Naming::MaybeName if word != 0 => places[word as usize - 1] + 1,
        _ => word,
    }
}
