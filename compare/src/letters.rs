//! Characters outside ASCII for the makers of names, and bytes that are no UTF-8.
use crate::rng::Rng;

/// Czech and Hungarian ones.
pub const LETTERS: [char; 38] = [
    'á', 'č', 'ď', 'é', 'ě', 'í', 'ň', 'ó', 'ř', 'š', 'ť', 'ú', 'ů', 'ý', 'ž', 'ö', 'ő', 'ü', 'ű', 'Á', 'Č', 'Ď', 'É', 'Ě', 'Í', 'Ň', 'Ó',
    'Ř', 'Š', 'Ť', 'Ú', 'Ů', 'Ý', 'Ž', 'Ö', 'Ő', 'Ü', 'Ű',
];

/// The first and the last character of each row of RFC 3629's table; U+0085 and others whose later bytes are 128 to 159; what is a digit, a
/// space, an accent or the end of a line elsewhere.
const CORNERS: [char; 36] = [
    '\u{80}', '\u{85}', '\u{9f}', '\u{a0}', '\u{ad}', '\u{bf}', '\u{c0}', '\u{ff}', '\u{100}', '\u{301}', '\u{661}', '\u{7ff}', '\u{800}',
    '\u{fff}', '\u{1000}', '\u{2028}', '\u{200b}', '\u{3000}', '\u{7fff}', '\u{8000}', '\u{cfff}', '\u{d000}', '\u{d7ff}', '\u{e000}',
    '\u{feff}', '\u{ff11}', '\u{fffd}', '\u{ffff}', '\u{10000}', '\u{1d7ce}', '\u{3ffff}', '\u{40000}', '\u{80000}', '\u{fffff}',
    '\u{100000}', '\u{10ffff}',
];

/// Bytes that no well-formed text has: lone later bytes, characters cut off, overlong forms, surrogates, numbers above U+10FFFF and what
/// only older forms of UTF-8 had.
const ILL_FORMED: [&[u8]; 36] = [
    b"\x80", b"\x8a", b"\x9f", b"\xbf", b"\x80\xbf", b"\xc3", b"\xc3A", b"\xc3\xc3\xa9", b"\xdf\x7f", b"\xe1\x80", b"\xe1\x80A", b"\xe1A\x80",
    b"\xef\xbf", b"\xef\xbf\xc0", b"\xf1\x80\x80", b"\xf1\x80\x80A", b"\xf1\x80A\x80", b"\xf1A\x80\x80", b"\xf3\xbf\xbf\xc0", b"\xc0\x80",
    b"\xc1\xbf", b"\xe0\x80\x80", b"\xe0\x9f\xbf", b"\xf0\x80\x80\x80", b"\xf0\x8f\xbf\xbf", b"\xed\xa0\x80", b"\xed\xad\xbf\xed\xbe\x80",
    b"\xed\xbf\xbf", b"\xf4\x90\x80\x80", b"\xf4\xbf\xbf\xbf", b"\xf5\x80\x80\x80", b"\xf7\xbf\xbf\xbf", b"\xf8\x88\x80\x80\x80",
    b"\xfc\x84\x80\x80\x80\x80", b"\xfe", b"\xff",
];

/// A character outside ASCII, of two, three or four bytes.
pub fn letter(rng: &mut Rng) -> char {
    match rng.below(6) {
        0..=1 => *rng.pick(&LETTERS),
        2..=3 => *rng.pick(&CORNERS),
        _ => {
            let (first, last) = *rng.pick(&[(0x80, 0x7ff), (0x800, 0xd7ff), (0xe000, 0xffff), (0x10000, 0x10ffff)]);
            char::from_u32(rng.range(first, last) as u32).expect("no surrogate")
        }
    }
}

/// A character that a name may have; so many in a thousand are outside ASCII.
pub fn character(rng: &mut Rng, outside: usize) -> char {
    if rng.chance(outside) { letter(rng) } else { rng.range(32, 126) as u8 as char }
}

/// Bytes that are no UTF-8 in most places: well-known ones, or a character with a byte lost or changed.
pub fn ill_formed(rng: &mut Rng) -> Vec<u8> {
    if rng.chance(500) {
        return rng.pick(&ILL_FORMED).to_vec();
    }
    let mut bytes = letter(rng).to_string().into_bytes();
    let place = rng.below(bytes.len());
    match rng.below(3) {
        0 => bytes[place] = rng.range(128, 255) as u8,
        1 => bytes[place] = rng.range(32, 126) as u8,
        _ => {
            bytes.remove(place);
        }
    }
    bytes
}
