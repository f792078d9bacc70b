//! How a target lays data out, as far as lines depend on it.

/// Why a `target datalayout` is not the one that lines are made for, if it is not: bytes little-endian, pointers of 64 bits,
/// integers aligned to their size, structs to no more than their fields. What it does not say is LLVM's default. What it says
/// more than once must be so each time, but for an i64, of which the last counts.
pub fn other_layout(text: &str) -> Option<String> {
    // LLVM aligns an i64 to 32 bits where nothing is said of it.
    let mut wide = Some("i64 is not aligned to 64 bits".to_string());
    for spec in text.trim_matches('"').split('-') {
        let parts: Vec<&str> = spec.split(':').collect();
        let reason = match parts[..] {
            ["E", ..] => Some("the highest byte comes first".to_string()),
            ["p" | "p0", ..] if !plain_pointer(&parts[1..]) => {
                Some(format!("its pointers are `{spec}`, and not of 64 bits"))
            }
            ["i64", align, ..] => {
                wide = (align != "64").then(|| other_align(spec));
                None
            }
            ["i1" | "i8", align, ..] if align != "8" => Some(other_align(spec)),
            ["i16", align, ..] if align != "16" => Some(other_align(spec)),
            ["i32", align, ..] if align != "32" => Some(other_align(spec)),
            ["a", align, ..] if align != "0" && align != "8" => Some(format!("structs are aligned by `{spec}`")),
            _ => None,
        };
        if reason.is_some() {
            return reason;
        }
    }
    wide
}

/// Size, alignment, preferred alignment and the size of an index, as far as they are said.
fn plain_pointer(parts: &[&str]) -> bool {
    let index = parts.get(3).is_none_or(|index| *index == "64");
    parts.iter().take(2).all(|part| *part == "64") && index
}

fn other_align(spec: &str) -> String {
    format!("integers are aligned by `{spec}`")
}
