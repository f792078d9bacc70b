//! The entry kinds that runs are counted by.
use crate::book::{kind, InstKind, Terminator};

/// The entry kind of an instruction.
pub fn inst_kind(inst: &InstKind) -> u64 {
    match inst {
        InstKind::Bin { op, .. } => kind::BIN + *op as u64,
        InstKind::Conv { op, .. } => kind::CONV + *op as u64,
        InstKind::ICmp { pred, .. } => kind::ICMP + *pred as u64,
        InstKind::Select { .. } => kind::SELECT,
        InstKind::Load { .. } => kind::LOAD,
        InstKind::Store { .. } => kind::STORE,
        InstKind::Alloca { .. } => kind::ALLOCA,
        InstKind::GetElementPtr { .. } => kind::GEP,
        InstKind::Phi { .. } => kind::PHI,
        InstKind::Call { .. } => kind::CALL,
        InstKind::Freeze { .. } => kind::FREEZE,
        InstKind::AtomicLoad { .. } => kind::ATOMIC_LOAD,
        InstKind::AtomicStore { .. } => kind::ATOMIC_STORE,
        InstKind::Cmpxchg { .. } => kind::CMPXCHG,
        InstKind::ExtractValue { .. } => kind::EXTRACT_VALUE,
        InstKind::Fence => kind::FENCE,
        InstKind::FBin { .. } | InstKind::FNeg { .. } | InstKind::FCmp { .. } | InstKind::AtomicRmw { .. } => {
            panic!("a book has no such instruction")
        }
    }
}

/// The entry kind of a terminator.
pub fn term_kind(term: &Terminator) -> u64 {
    match term {
        Terminator::Ret { .. } => kind::RET,
        Terminator::Br { .. } => kind::BR,
        Terminator::Switch { .. } => kind::SWITCH,
        Terminator::Unreachable => kind::UNREACHABLE,
    }
}
