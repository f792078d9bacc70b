//! What document 01 says of a book before it is translated: refusals 1 to 4, or the book that the slices stand for.
//! Written from "The book" alone and independent of `encode`, so that each tests the other.
use crate::book::*;
use crate::hash::Set;

pub const MOST_ENTRIES: u64 = 1_048_576;
pub const MOST_NAMES: u64 = 131_072;
pub const HIGHEST_COUNTER: u64 = 1 << 32;
pub const MOST_LEVELS: u32 = 64;
pub const MOST_INDICES: usize = 32;
pub const HIGHEST_ALIGN: u64 = 4096;

pub enum Verdict {
    /// 1 to 4.
    Refused(u8),
    Sound(Book),
}

/// The least length of the work slice.
pub fn work_needed(names: usize) -> usize {
    8 * names + 64
}

pub fn check(lent: &Lent) -> Verdict {
    let Ok((entries, count)) = split_entries(&lent.slices.book) else { return Verdict::Refused(1) };
    // Entries name names by number, so they are judged (1) whatever the names' bytes are (2).
    let names = split_names(&lent.slices.names).filter(|names| names.len() == count);
    let names_fit = names.is_some();
    let names = names.unwrap_or_else(|| vec![String::new(); count]);

    let mut reader = Reader::new(&entries, &names);
    let Ok((marks, structs, functions)) = reader.book() else { return Verdict::Refused(1) };
    let forbidden = reader.forbidden;
    if lent.counter > HIGHEST_COUNTER {
        return Verdict::Refused(1);
    }
    if !names_fit {
        return Verdict::Refused(2);
    }
    if forbidden {
        return Verdict::Refused(3);
    }
    if lent.work < work_needed(count) {
        return Verdict::Refused(4);
    }
    Verdict::Sound(Book { names, marks, structs, functions })
}

/// The book that the entries stand for with other names than those lent, which need not ascend; none where they are none.
pub fn read_with(book: &[u64], names: Vec<String>) -> Option<Book> {
    let (entries, _) = split_entries(book).ok()?;
    let (marks, structs, functions) = Reader::new(&entries, &names).book().ok()?;
    Some(Book { names, marks, structs, functions })
}

/// Refusal 1.
struct Broken;

type Read<T> = Result<T, Broken>;

fn must(holds: bool) -> Read<()> {
    if holds { Ok(()) } else { Err(Broken) }
}

/// The entries, kind beside word, and the name count.
fn split_entries(book: &[u64]) -> Read<(Vec<(u64, u64)>, usize)> {
    let [entries, names, rest @ ..] = book else { return Err(Broken) };
    must(*entries <= MOST_ENTRIES && *names <= MOST_NAMES)?;
    must(rest.len() as u64 == 2 * entries)?;
    let (kinds, words) = rest.split_at(*entries as usize);
    Ok((kinds.iter().copied().zip(words.iter().copied()).collect(), *names as usize))
}

/// The characters of a name, where the bytes are well-formed UTF-8 and none of them a control character.
pub fn name(bytes: &[u8]) -> Option<&str> {
    let name = std::str::from_utf8(bytes).ok()?;
    (!name.is_empty() && !name.bytes().any(|byte| byte.is_ascii_control())).then_some(name)
}

/// The names, where each is one and they ascend.
fn split_names(bytes: &[u8]) -> Option<Vec<String>> {
    let mut names: Vec<String> = vec![];
    let mut rest = bytes;
    while !rest.is_empty() {
        let end = rest.iter().position(|byte| *byte == 10)?;
        let name = name(&rest[..end])?;
        if names.last().is_some_and(|last| last.as_bytes() >= name.as_bytes()) {
            return None;
        }
        names.push(name.to_string());
        rest = &rest[end + 1..];
    }
    Some(names)
}

struct Reader<'a> {
    /// What is not yet read.
    entries: &'a [(u64, u64)],
    names: &'a [String],
    reserved: Set<u64>,
    /// The numbers of the functions' names: names that are lent wrongly still tell functions apart.
    functions: Set<u64>,
    /// A value of kind 37, or a call that refusal 3 is for.
    forbidden: bool,
}

/// Marks, structs and functions.
type Parts = (Vec<(Mark, String)>, Vec<(String, Option<StructBody>)>, Vec<Function>);

impl<'a> Reader<'a> {
    fn new(entries: &'a [(u64, u64)], names: &'a [String]) -> Reader<'a> {
        Reader { entries, names, reserved: Set::default(), functions: Set::default(), forbidden: false }
    }

    fn peek(&self) -> Read<u64> {
        self.entries.first().map(|entry| entry.0).ok_or(Broken)
    }

    fn entry(&mut self) -> Read<(u64, u64)> {
        let (first, rest) = self.entries.split_first().ok_or(Broken)?;
        self.entries = rest;
        Ok(*first)
    }

    /// The word of an entry that must be of this kind.
    fn word(&mut self, kind: u64) -> Read<u64> {
        let (found, word) = self.entry()?;
        must(found == kind)?;
        Ok(word)
    }

    fn name(&self, word: u64) -> Read<String> {
        must(word < self.names.len() as u64)?;
        Ok(self.names[word as usize].clone())
    }

    fn maybe_name(&self, word: u64) -> Read<Option<String>> {
        if word == 0 { Ok(None) } else { self.name(word - 1).map(Some) }
    }

    fn list<T>(&mut self, item: impl Fn(&mut Self) -> Read<T>) -> Read<Vec<T>> {
        let mut items = vec![];
        while self.peek()? != kind::END {
            items.push(item(self)?);
        }
        must(self.word(kind::END)? == 0)?;
        Ok(items)
    }

    fn optional<T>(&mut self, item: impl Fn(&mut Self) -> Read<T>) -> Read<Option<T>> {
        if self.peek()? == kind::ABSENT {
            must(self.word(kind::ABSENT)? == 0)?;
            Ok(None)
        } else {
            item(self).map(Some)
        }
    }

    fn book(&mut self) -> Read<Parts> {
        let mut marks = vec![];
        let mut marked = Set::default();
        while matches!(self.peek()?, kind::DEFINED | kind::RESERVED) {
            let (kind, word) = self.entry()?;
            let mark = if kind == kind::DEFINED { Mark::Defined } else { Mark::Reserved };
            marks.push((mark, self.name(word)?));
            must(marked.insert(word))?;
            if mark == Mark::Reserved {
                self.reserved.insert(word);
            }
        }
        let mut structs = vec![];
        let mut declared = Set::default();
        while self.peek()? == kind::NAMED_STRUCT {
            let word = self.word(kind::NAMED_STRUCT)?;
            let name = self.name(word)?;
            must(declared.insert(word))?;
            structs.push((name, self.body()?));
        }
        let functions = self.list(Self::function)?;
        must(!functions.is_empty() && self.entries.is_empty())?;
        Ok((marks, structs, functions))
    }

    fn body(&mut self) -> Read<Option<StructBody>> {
        if self.peek()? == kind::OPAQUE {
            must(self.word(kind::OPAQUE)? == 0)?;
            return Ok(None);
        }
        match self.ty()? {
            Type::Struct(body) => Ok(Some(body)),
            _ => Err(Broken),
        }
    }

    fn function(&mut self) -> Read<Function> {
        let word = self.word(kind::FUNCTION)?;
        let name = self.name(word)?;
        must(self.functions.insert(word))?;
        let ret_ty = self.ty()?;
        let params = self.list(Self::param)?;
        let blocks = self.list(Self::block)?;
        Ok(Function { name, ret_ty, params, varargs: false, linkage: Linkage::External, blocks })
    }

    fn param(&mut self) -> Read<Param> {
        let word = self.word(kind::PARAM)?;
        let name = self.maybe_name(word)?;
        Ok(Param { ty: self.ty()?, name })
    }

    fn block(&mut self) -> Read<BasicBlock> {
        let word = self.word(kind::BLOCK)?;
        let label = self.name(word)?;
        let mut insts = vec![];
        while self.peek()? < kind::RET {
            insts.push(self.inst()?);
        }
        Ok(BasicBlock { label, insts, term: self.term()? })
    }

    fn ty(&mut self) -> Read<Type> {
        self.ty_at(MOST_LEVELS)
    }

    fn ty_at(&mut self, levels: u32) -> Read<Type> {
        must(levels > 0)?;
        let (kind, word) = self.entry()?;
        must(word == 0 || matches!(kind, kind::INT | kind::ARRAY | kind::PACKED_ARRAY | kind::NAMED))?;
        Ok(match kind {
            kind::VOID => Type::Void,
            kind::INT => {
                must(WIDTHS.iter().any(|width| *width as u64 == word))?;
                Type::Int(word as u32)
            }
            kind::PTR => Type::Ptr,
            kind::ARRAY | kind::PACKED_ARRAY => {
                let elem = Box::new(self.ty_at(levels - 1)?);
                Type::Array { packed: kind == kind::PACKED_ARRAY, len: word, elem }
            }
            kind::NAMED => Type::NamedStruct(self.name(word)?),
            kind::STRUCT | kind::PACKED_STRUCT => {
                let fields = self.list(|reader| reader.ty_at(levels - 1))?;
                Type::Struct(StructBody { packed: kind == kind::PACKED_STRUCT, fields })
            }
            kind::FUNC_TYPE => func_type(),
            kind::LABEL => Type::Label,
            kind::METADATA => Type::Metadata,
            _ => return Err(Broken),
        })
    }

    fn value(&mut self) -> Read<Value> {
        let (kind, word) = self.entry()?;
        must(word == 0 || matches!(kind, kind::LOCAL | kind::GLOBAL | kind::INTEGER))?;
        Ok(match kind {
            kind::LOCAL => Value::Local(self.name(word)?),
            kind::GLOBAL => Value::Global(self.name(word)?),
            kind::INTEGER => Value::Int(word as i64 as i128),
            kind::NULL => Value::Null,
            kind::UNDEF => Value::Undef,
            kind::POISON => Value::Poison,
            kind::ZERO_INIT => Value::ZeroInit,
            kind::OTHER => {
                self.forbidden = true;
                other_value()
            }
            _ => return Err(Broken),
        })
    }

    fn typed(&mut self) -> Read<TypedVal> {
        Ok(TypedVal { ty: self.ty()?, val: self.value()? })
    }

    fn target(&mut self) -> Read<String> {
        let word = self.word(kind::TARGET)?;
        self.name(word)
    }

    fn align(&mut self) -> Read<Option<u64>> {
        self.optional(|reader| {
            let align = reader.word(kind::NUMBER)?;
            must(align.is_power_of_two() && align <= HIGHEST_ALIGN)?;
            Ok(align)
        })
    }

    fn index(&mut self) -> Read<TypedVal> {
        let index = self.typed()?;
        if let Value::Int(number) = index.val {
            must(i32::try_from(number).is_ok())?;
        }
        Ok(index)
    }

    fn callee(&mut self) -> Read<Value> {
        let word = self.entries.first().ok_or(Broken)?.1;
        let callee = self.value()?;
        if let Value::Global(name) = &callee {
            self.forbidden |= name.starts_with("llvm.") || self.reserved.contains(&word);
        }
        Ok(callee)
    }

    fn inst(&mut self) -> Read<Inst> {
        let (kind, word) = self.entry()?;
        let dest = self.maybe_name(word)?;
        let inst = match kind {
            40..=52 => {
                let op = BIN_OPS[(kind - kind::BIN) as usize];
                InstKind::Bin { op, ty: self.ty()?, lhs: self.value()?, rhs: self.value()? }
            }
            53..=58 => {
                let op = CONV_OPS[(kind - kind::CONV) as usize];
                InstKind::Conv { op, from_ty: self.ty()?, val: self.value()?, to_ty: self.ty()? }
            }
            60..=69 => {
                let pred = PREDS[(kind - kind::ICMP) as usize];
                InstKind::ICmp { pred, ty: self.ty()?, lhs: self.value()?, rhs: self.value()? }
            }
            kind::SELECT => {
                InstKind::Select { cond: self.value()?, ty: self.ty()?, tval: self.value()?, fval: self.value()? }
            }
            kind::LOAD => InstKind::Load { ty: self.ty()?, ptr: self.value()?, align: self.align()? },
            kind::STORE => {
                InstKind::Store { ty: self.ty()?, val: self.value()?, ptr: self.value()?, align: self.align()? }
            }
            kind::ALLOCA => {
                InstKind::Alloca { ty: self.ty()?, count: self.optional(Self::typed)?, align: self.align()? }
            }
            kind::GEP => {
                let (base_ty, ptr, indices) = (self.ty()?, self.value()?, self.list(Self::index)?);
                must(indices.len() <= MOST_INDICES)?;
                InstKind::GetElementPtr { inbounds: false, base_ty, ptr, indices }
            }
            kind::PHI => {
                InstKind::Phi { ty: self.ty()?, incoming: self.list(|reader| Ok((reader.value()?, reader.target()?)))? }
            }
            kind::CALL => {
                let (ret_ty, callee, args) = (self.ty()?, self.callee()?, self.list(Self::typed)?);
                InstKind::Call { ret_ty, fn_ty: None, callee, args }
            }
            kind::FREEZE => InstKind::Freeze { ty: self.ty()?, val: self.value()? },
            kind::ATOMIC_LOAD => InstKind::AtomicLoad { ty: self.ty()?, ptr: self.value()? },
            kind::ATOMIC_STORE => InstKind::AtomicStore { ty: self.ty()?, val: self.value()?, ptr: self.value()? },
            kind::CMPXCHG => {
                InstKind::Cmpxchg { ty: self.ty()?, ptr: self.value()?, cmp: self.value()?, new: self.value()? }
            }
            kind::EXTRACT_VALUE => {
                let (agg, index) = (self.value()?, self.word(kind::NUMBER)?);
                InstKind::ExtractValue { agg, index: u32::try_from(index).map_err(|_| Broken)? }
            }
            kind::FENCE => InstKind::Fence,
            _ => return Err(Broken),
        };
        Ok(Inst { dest, kind: inst })
    }

    fn term(&mut self) -> Read<Terminator> {
        let (kind, word) = self.entry()?;
        must(word == 0)?;
        Ok(match kind {
            kind::RET => Terminator::Ret { val: self.optional(Self::typed)? },
            kind::BR => Terminator::Br {
                cond: self.optional(Self::value)?,
                if_true: self.target()?,
                if_false: self.optional(Self::target)?,
            },
            kind::SWITCH => Terminator::Switch {
                ty: self.ty()?,
                val: self.value()?,
                default: self.target()?,
                cases: self.list(|reader| Ok((reader.word(kind::INTEGER)? as i64 as i128, reader.target()?)))?,
            },
            kind::UNREACHABLE => Terminator::Unreachable,
            _ => return Err(Broken),
        })
    }
}
