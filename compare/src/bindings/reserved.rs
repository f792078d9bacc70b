//! Whether the writer's list of reserved names is the Rust's.
use crate::oracle;
use crate::rng::Rng;

/// Those that `is_float_builtin` takes, without an `f` behind them.
const DOUBLES: [&str; 17] = [
    "sin", "cos", "tan", "asin", "acos", "atan", "sqrt", "fabs", "pow", "exp2", "floor", "ceil", "trunc", "round", "fmin",
    "fmax", "copysign",
];
const LETTERS: &str = "abcdefghijklmnopqrstuvwxyzF0123456789._- \u{e9}";
const RANDOM: usize = 100_000;

/// All 34 names, each of them with a letter put in, changed or lost anywhere, and random ones.
pub fn compare(seed: u64) -> Result<(), String> {
    let names: Vec<String> = DOUBLES.iter().flat_map(|name| [name.to_string(), format!("{name}f")]).collect();
    let taken = names.iter().filter(|name| oracle::is_reserved(name)).count();
    if taken != names.len() {
        return Err(format!("the Rust takes {taken} of {} names", names.len()));
    }
    let mut asked = 0;
    let mut ask = |name: &str| {
        asked += 1;
        let [ours, rust] = [mivolanjy::is_reserved(name), oracle::is_reserved(name)];
        if ours == rust { Ok(()) } else { Err(format!("reserved by the writer {ours}, by the Rust {rust}: {name:?}")) }
    };
    for name in &names {
        ask(name)?;
        near(name).iter().try_for_each(|name| ask(name))?;
    }
    let mut rng = Rng::new(seed ^ 0x666c_6f61, 0);
    let letters: Vec<char> = "abcdefilnopqrstuwx2".chars().collect();
    for _ in 0..RANDOM {
        let name: String = (0..rng.below(7)).map(|_| *rng.pick(&letters)).collect();
        ask(&name)?;
    }
    println!("reserved names: {asked} names, the Rust agrees");
    Ok(())
}

/// The name with one letter more, another one or one less.
fn near(name: &str) -> Vec<String> {
    let mut found = vec![];
    for at in 0..=name.len() {
        let (start, end) = name.split_at(at);
        found.extend(LETTERS.chars().map(|letter| format!("{start}{letter}{end}")));
        if let Some(rest) = end.get(1..) {
            found.push(format!("{start}{rest}"));
            found.extend(LETTERS.chars().map(|letter| format!("{start}{letter}{rest}")));
        }
    }
    found
}
