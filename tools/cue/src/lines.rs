//! What is asked of the printed lines themselves.
use std::collections::HashSet;

/// The places of the functions whose lines read or set a slot that `push_0n` has not made, as those of a function do whose
/// places have no bytes (docs/DIFFERENCES.md). A function's lines begin with its comment.
pub fn without_slots<'t>(lines: impl Iterator<Item = &'t str>) -> HashSet<usize> {
    let mut found = HashSet::new();
    let (mut functions, mut slots) = (0, 0);
    for line in lines {
        let operand = |word: &str| line.strip_prefix(word)?.strip_suffix(';')?.parse::<u64>().ok();
        if line.starts_with('#') {
            (functions, slots) = (functions + 1, 0);
        } else if let Some(count) = operand("push_0n ") {
            slots = count;
        } else if operand("get_local ").or(operand("set_local ")).is_some_and(|slot| slot >= slots) {
            found.insert(functions - 1);
        }
    }
    found
}

/// A label line that occurs twice. `alike` has left out what would have one.
pub fn label_twice<'t>(lines: impl Iterator<Item = &'t str>) -> Option<&'t str> {
    let mut labels = HashSet::new();
    lines.filter(|line| line.ends_with(':') && !line.starts_with('#')).find(|line| !labels.insert(*line))
}

#[cfg(test)]
mod tests {
    use super::{label_twice, without_slots};

    #[test]
    fn slots_that_are_not_there() {
        let text =
            "# a\na:\npush_0n 2;\nset_local 1;\n\n# b\nb:\nget_local 0;\n# c\npush_0n 1;\nget_local 1;\nget_local 0;\n";
        assert_eq!(without_slots(text.lines()), [1, 2].into());
    }

    #[test]
    fn labels_that_occur_twice() {
        assert_eq!(label_twice("# a:\na:\nb:\n# a:\nc:\n".lines()), None);
        assert_eq!(label_twice("a:\nb:\nc;\nb:\n".lines()), Some("b:"));
    }
}
