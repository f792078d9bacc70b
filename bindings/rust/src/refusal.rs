//! The numbers of document 01's table of replies, with its words.
use std::fmt;

/// One row for each: its name here, its number and what it is given for.
macro_rules! refusals {
    ($($name:ident = $number:literal: $reason:literal;)*) => {
        /// Why a call was refused. The number of each is document 01's.
        #[derive(Clone, Copy, Debug, PartialEq, Eq, Hash)]
        #[repr(u8)]
        pub enum Refusal {
            $(#[doc = concat!(stringify!($number), ": ", $reason, ".")] $name = $number,)*
        }

        impl Refusal {
            /// The refusal of a number; none for 0 and above 21.
            pub fn of_number(number: u64) -> Option<Refusal> {
                match number {
                    $($number => Some(Refusal::$name),)*
                    _ => None,
                }
            }

            /// What it is given for.
            pub fn reason(self) -> &'static str {
                match self {
                    $(Refusal::$name => $reason,)*
                }
            }
        }
    };
}

refusals! {
    Book = 1: "the book or the label counter breaks document 01's rules";
    Names = 2: "the names or their count break document 01's rules";
    Forbidden = 3: "a value that a book has no kind for, or a call of an intrinsic or a reserved name";
    Work = 4: "the work slice is too short";
    NoResultName = 5: "a result name is missing";
    NoSize = 6: "a measured type is opaque, undefined, or a function, label or metadata type";
    TooLarge = 7: "a type measures above 2^24 bytes or 64 levels, or the fixed frame above 2^31 bytes";
    TooManySlots = 8: "over 65,535 slots";
    NotInteger = 9: "an integer or pointer type was expected";
    UnknownLocal = 10: "an operand is an unknown local";
    AccessSize = 11: "a load or store is not of 1, 2, 4 or 8 bytes";
    AtomicSize = 12: "an atomic type is not of 8 bytes";
    SignExtension = 13: "a sign extension that there is no line for";
    GepStep = 14: "a getelementptr steps into no aggregate, or its field is not constant or out of range";
    Call = 15: "a call has over 255 arguments, or its function is not defined, or its target is neither global nor local";
    ExtractValue = 16: "an extractvalue is of no local, of a name without slot, or of an index above 1";
    UnknownBlock = 17: "a branch to an unknown block";
    PhiLacksPredecessor = 18: "a phi lacks the predecessor";
    NoFalseTarget = 19: "a condition without false target";
    NoRoom = 20: "lines or text don't fit";
    BadLine = 21: "an unknown line kind, or an operand that its kind doesn't allow";
}

impl Refusal {
    /// Document 01's number.
    pub fn number(self) -> u8 {
        self as u8
    }
}

impl fmt::Display for Refusal {
    fn fmt(&self, out: &mut fmt::Formatter) -> fmt::Result {
        write!(out, "{} (refusal {})", self.reason(), self.number())
    }
}

impl std::error::Error for Refusal {}
