//! The manual's values of operations on integers of w bits. A value is the unsigned number of its bits.
use super::Stop;
use crate::book::{BinOp, ConvOp, ICmpPred};

/// The low bits of a number.
pub fn low(width: u32, number: i128) -> u64 {
    (number & ((1i128 << width) - 1)) as u64
}

/// Two's complement: the sign bit counts negative.
pub fn signed(width: u32, value: u64) -> i128 {
    let value = value as i128;
    if value >> (width - 1) & 1 == 1 { value - (1i128 << width) } else { value }
}

fn fits_signed(width: u32, number: i128) -> bool {
    let half = 1i128 << (width - 1);
    -half <= number && number < half
}

pub fn bin(op: BinOp, width: u32, x: u64, y: u64) -> Result<u64, Stop> {
    let (a, b) = (x as i128, y as i128);
    let (sa, sb) = (signed(width, x), signed(width, y));
    let divides = |holds: bool| if holds { Ok(()) } else { Err(Stop::Undefined) };
    let result = match op {
        BinOp::Add => a + b,
        BinOp::Sub => a - b,
        // The product of two numbers of 64 bits may exceed i128's signed range.
        BinOp::Mul => return Ok(low(width, x.wrapping_mul(y) as i128)),
        BinOp::UDiv | BinOp::URem => {
            divides(y != 0)?;
            if op == BinOp::UDiv { a / b } else { a % b }
        }
        BinOp::SDiv | BinOp::SRem => {
            divides(y != 0)?;
            divides(fits_signed(width, sa / sb))?;
            if op == BinOp::SDiv { sa / sb } else { sa % sb }
        }
        BinOp::And => a & b,
        BinOp::Or => a | b,
        BinOp::Xor => a ^ b,
        BinOp::Shl | BinOp::LShr | BinOp::AShr => {
            divides(y < width as u64)?;
            match op {
                BinOp::Shl => return Ok(low(width, x.wrapping_shl(y as u32) as i128)),
                BinOp::LShr => a >> y,
                _ => sa >> y,
            }
        }
    };
    Ok(low(width, result))
}

pub fn icmp(pred: ICmpPred, width: u32, x: u64, y: u64) -> bool {
    let (a, b) = (signed(width, x), signed(width, y));
    match pred {
        ICmpPred::Eq => x == y,
        ICmpPred::Ne => x != y,
        ICmpPred::Ugt => x > y,
        ICmpPred::Uge => x >= y,
        ICmpPred::Ult => x < y,
        ICmpPred::Ule => x <= y,
        ICmpPred::Sgt => a > b,
        ICmpPred::Sge => a >= b,
        ICmpPred::Slt => a < b,
        ICmpPred::Sle => a <= b,
    }
}

/// From a width to another; a pointer has 64.
pub fn conv(op: ConvOp, from: u32, to: u32, x: u64) -> Result<u64, Stop> {
    let (allowed, value) = match op {
        ConvOp::Trunc => (to < from, low(to, x as i128)),
        ConvOp::ZExt => (to > from, x),
        ConvOp::SExt => (to > from, low(to, signed(from, x))),
        ConvOp::PtrToInt => (from == 64, low(to, x as i128)),
        ConvOp::IntToPtr => (to == 64, x),
        ConvOp::BitCast => (to == from, x),
        _ => (false, 0),
    };
    if allowed { Ok(value) } else { Err(Stop::IllFormed) }
}

/// A constant's word, inside the signed or the unsigned range of the width.
pub fn constant(width: u32, number: i128) -> Result<u64, Stop> {
    let unsigned = number as u64;
    let in_range = fits_signed(width, unsigned as i64 as i128) || (unsigned as i128) < 1i128 << width;
    if in_range { Ok(low(width, unsigned as i128)) } else { Err(Stop::IntegerRange) }
}

/// A constant index of a getelementptr, inside the signed range of its type.
pub fn index(width: u32, number: i128) -> Result<i128, Stop> {
    let number = number as i64 as i128;
    if fits_signed(width, number) { Ok(number) } else { Err(Stop::IndexRange) }
}
