//! Names as they are spelt: plain, of digits, or quoted with escapes.
use mivolanjy::ir::Name;
use std::borrow::Cow;

/// A name as the text has it, without its sigil and quotation marks.
#[derive(Clone, Copy, Debug, PartialEq)]
pub struct Spelling<'a> {
    raw: &'a [u8],
    quoted: bool,
    /// For a name of digits that isn't quoted: the number of a value without a name.
    number: Option<u32>,
}

impl<'a> Spelling<'a> {
    /// A name of label characters.
    pub fn plain(raw: &'a [u8]) -> Result<Self, &'static str> {
        let mut number = None;
        if raw.iter().all(u8::is_ascii_digit) {
            let digit = |sum: u32, byte: &u8| sum.checked_mul(10)?.checked_add(u32::from(byte - b'0'));
            number = Some(raw.iter().try_fold(0, digit).ok_or("a number above 4294967295 in place of a name")?);
        }
        Ok(Spelling { raw, quoted: false, number })
    }

    /// A name between quotation marks.
    pub fn quoted(raw: &'a [u8]) -> Result<Self, &'static str> {
        if unescaped(raw).contains(&0) {
            return Err("a zero byte in a name");
        }
        Ok(Spelling { raw, quoted: true, number: None })
    }

    pub fn number(&self) -> Option<u32> {
        self.number
    }

    /// The name, or why a book can't have it.
    pub fn name(&self) -> Result<Name<'a>, &'static str> {
        if let Some(number) = self.number.filter(|_| self.raw.len() > 1 && self.raw[0] == b'0') {
            return Ok(number.to_string().into());
        }
        if self.raw.is_empty() {
            return Err("an empty name");
        }
        let name = match unescaped(self.raw) {
            Cow::Borrowed(bytes) => std::str::from_utf8(bytes).ok().map(Cow::Borrowed),
            Cow::Owned(bytes) => String::from_utf8(bytes).ok().map(Cow::Owned),
        };
        let name = name.ok_or("a name that is not UTF-8")?;
        if self.quoted && name.bytes().all(|byte| byte.is_ascii_digit()) {
            return Err("a quoted name of digits alone, which a book can't tell from a number");
        }
        Ok(name)
    }

    /// The name for people, as LLVM would print it.
    pub fn shown(&self) -> String {
        let raw = String::from_utf8_lossy(self.raw);
        if self.quoted {
            format!("\"{raw}\"")
        } else {
            raw.into_owned()
        }
    }
}

/// The bytes that a quoted text stands for: `\\` is a backslash, `\2A` the byte 42, any other backslash itself.
fn unescaped(raw: &[u8]) -> Cow<'_, [u8]> {
    if !raw.contains(&b'\\') {
        return Cow::Borrowed(raw);
    }
    let mut bytes = Vec::with_capacity(raw.len());
    let mut rest = raw;
    while let [first, tail @ ..] = rest {
        let (byte, after) = match tail {
            [b'\\', after @ ..] if *first == b'\\' => (b'\\', after),
            [high, low, after @ ..] if *first == b'\\' && high.is_ascii_hexdigit() && low.is_ascii_hexdigit() => {
                (hex(*high) * 16 + hex(*low), after)
            }
            _ => (*first, tail),
        };
        bytes.push(byte);
        rest = after;
    }
    Cow::Owned(bytes)
}

fn hex(digit: u8) -> u8 {
    char::from(digit).to_digit(16).unwrap_or(0) as u8
}
