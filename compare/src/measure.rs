//! Sizes and alignments with the limits that document 01 adds: 6 for a type without size, 7 above 2^24 bytes or 64 levels.
//!
//! A type is one level, each part one more. A named struct is a level itself and, taken up, one more.
use crate::book::*;
use crate::check::MOST_LEVELS;
use crate::hash::Map;

const MOST_BYTES: u128 = 1 << 24;

/// A size or alignment, or refusal 6 or 7.
pub type Measured = Result<u64, u8>;

#[derive(Clone, Copy, PartialEq, Eq, Hash)]
enum What {
    Size,
    Align,
}

pub struct Measure<'a> {
    structs: Map<&'a str, Option<&'a StructBody>>,
    /// What is known of named structs under an allowance of levels: the answer, and the steps of the plain recursion.
    /// Without it, empty structs that double for 60 levels would never end.
    known: Map<(What, &'a str, u32), (Measured, u64)>,
    /// Steps of the plain recursion so far; the published Rust takes so many.
    pub steps: u64,
}

pub fn align_up(offset: u64, align: u64) -> u64 {
    offset.next_multiple_of(align)
}

impl<'a> Measure<'a> {
    pub fn new(book: &'a Book) -> Measure<'a> {
        let structs = book.structs.iter().map(|(name, body)| (name.as_str(), body.as_ref())).collect();
        Measure { structs, known: Map::default(), steps: 0 }
    }

    pub fn size(&mut self, ty: &'a Type) -> Measured {
        self.at(What::Size, ty, MOST_LEVELS)
    }

    pub fn align(&mut self, ty: &'a Type) -> Measured {
        self.at(What::Align, ty, MOST_LEVELS)
    }

    /// The body of a named struct; 6 where it is opaque or undefined.
    pub fn resolve(&self, name: &str) -> Result<&'a StructBody, u8> {
        self.structs.get(name).copied().flatten().ok_or(6)
    }

    /// The offset of a field that the struct has.
    pub fn field_offset(&mut self, body: &'a StructBody, index: usize) -> Measured {
        let mut offset = 0;
        for field in &body.fields[..index] {
            if !body.packed {
                offset = align_up(offset, self.align(field)?);
            }
            offset += self.size(field)?;
        }
        if !body.packed {
            offset = align_up(offset, self.align(&body.fields[index])?);
        }
        Ok(offset)
    }

    fn at(&mut self, what: What, ty: &'a Type, levels: u32) -> Measured {
        self.steps = self.steps.saturating_add(1);
        if levels == 0 {
            return Err(7);
        }
        match ty {
            Type::Void => Ok(if what == What::Size { 0 } else { 1 }),
            Type::Int(width) => Ok(width.div_ceil(8) as u64),
            Type::Ptr => Ok(8),
            Type::Array { len, elem, .. } => {
                let part = self.at(what, elem, levels - 1)?;
                if what == What::Size { limited(*len as u128 * part as u128) } else { Ok(part) }
            }
            Type::Struct(body) => self.body(what, body, levels),
            Type::NamedStruct(name) => self.named(what, name, levels),
            _ => Err(6),
        }
    }

    fn named(&mut self, what: What, name: &'a str, levels: u32) -> Measured {
        let body = self.resolve(name)?;
        if let Some((measured, steps)) = self.known.get(&(what, name, levels)) {
            self.steps = self.steps.saturating_add(*steps);
            return *measured;
        }
        let before = std::mem::take(&mut self.steps);
        let measured = self.body(what, body, levels - 1);
        self.known.insert((what, name, levels), (measured, self.steps));
        self.steps = self.steps.saturating_add(before);
        measured
    }

    fn body(&mut self, what: What, body: &'a StructBody, levels: u32) -> Measured {
        if levels == 0 {
            return Err(7);
        }
        match what {
            What::Align if body.packed => Ok(1),
            What::Align => {
                let mut most = 1;
                for field in &body.fields {
                    most = most.max(self.at(What::Align, field, levels - 1)?);
                }
                Ok(most)
            }
            What::Size => {
                let mut offset = 0;
                let mut most = 1;
                for field in &body.fields {
                    let align = self.at(What::Align, field, levels - 1)?;
                    let size = self.at(What::Size, field, levels - 1)?;
                    if !body.packed {
                        offset = align_up(offset, align);
                        most = most.max(align);
                    }
                    offset += size;
                }
                limited(align_up(offset, most) as u128)
            }
        }
    }
}

fn limited(size: u128) -> Measured {
    if size <= MOST_BYTES { Ok(size as u64) } else { Err(7) }
}
