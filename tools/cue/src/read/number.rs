//! Integers as LLVM spells them.
use super::lexer::Token;

/// Digits, with or without a minus sign.
pub fn decimal<'a>(text: &[u8]) -> Token<'a> {
    let digits = text.strip_prefix(b"-").unwrap_or(text);
    let negative = digits.len() < text.len();
    let add = |sum: i128, digit: &u8| {
        let digit = i128::from(digit - b'0');
        let sum = sum.checked_mul(10)?;
        if negative {
            sum.checked_sub(digit)
        } else {
            sum.checked_add(digit)
        }
    };
    digits.iter().try_fold(0, add).map_or(Token::Huge, Token::Int)
}

/// `u0x..` and `s0x..`; none for any other word. The highest bit set of `s0x..` is its sign, as LLVM has it.
pub fn hexadecimal<'a>(word: &[u8]) -> Option<Token<'a>> {
    let (signed, digits) = match word {
        [b'u', b'0', b'x', digits @ ..] => (false, digits),
        [b's', b'0', b'x', digits @ ..] => (true, digits),
        _ => return None,
    };
    let digits = std::str::from_utf8(digits).ok()?;
    if digits.is_empty() || !digits.bytes().all(|byte| byte.is_ascii_hexdigit()) {
        return None;
    }
    let Ok(value) = i128::from_str_radix(digits, 16) else { return Some(Token::Huge) };
    let bits = i128::BITS - value.leading_zeros();
    Some(match bits {
        _ if !signed || value == 0 => Token::Int(value),
        127.. => Token::Huge,
        _ => Token::Int(value - (1 << bits)),
    })
}

/// An integer of a width with its sign.
pub fn signed(value: i128, width: u32) -> i128 {
    if width >= 127 || value < 1 << (width - 1) {
        value
    } else {
        value - (1 << width)
    }
}

/// An integer of a width without a sign.
pub fn unsigned(value: i128, width: u32) -> i128 {
    if width >= 127 || value >= 0 {
        value
    } else {
        value + (1 << width)
    }
}

/// An integer constant as its type has it: LLVM takes it modulo two to the width.
pub fn wrapped(value: i128, width: u32) -> i128 {
    if width >= 127 || (-(1 << (width - 1))..1 << width).contains(&value) {
        return value;
    }
    value & ((1 << width) - 1)
}
