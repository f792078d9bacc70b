//! Random statements whose parts are each right or wrong, so that any two faults of one statement meet: the chains at random.
use super::notation;
use crate::book::Lent;
use crate::check::work_needed;
use crate::rng::Rng;

/// The statements, with letters for what is drawn: N= a name or none, T a type, V a value, A an align, C a count, X indices,
/// G arguments, K a callee, B a block, F a false target, S cases, P incoming values.
const INSTS: &[&str] = &[
    "N=add T V V", "N=sdiv T V V", "N=ashr T V V", "N=slt T V V", "N=eq T V V", "N=trunc T V T", "N=zext T V T", "N=sext T V T",
    "N=ptrtoint T V T", "N=inttoptr T V T", "N=bitcast T V T", "N=select V T V V", "N=load T V A", "N=store T V V A", "N=alloca T C A",
    "N=alloca T C A", "N=getelementptr T V X", "N=getelementptr T V X", "N=phi T P", "N=call T K G", "N=call T K G", "N=freeze T V",
    "N=atomicload T V", "N=atomicstore T V V", "N=cmpxchg T V V V", "N=extractvalue V I", "N=fence",
];
const TERMS: &[&str] = &["ret -", "ret T V", "br - B F", "br V B F", "br V B F", "switch T V B S", "unreachable"];

const RIGHT_TYPES: &[&str] = &["i1", "i8", "i16", "i32", "i64", "ptr", "i64", "ptr"];
const ODD_TYPES: &[&str] = &[
    "void", "label", "functype", "metadata", "%%o", "%%n", "%%s", "[3 i8", "[4 i8", "<2 i32", "{ i64 }", "<{ i8 i16 }", "{ }",
    "{ i8 %%s }", "[0 i64", "[16777216 i8", "[16777217 i8", "{ [16777217 i8 label }", "{ label [16777217 i8 }",
    "<{ { [16777217 i8 label } }", "[0 %%o", "[2 [2 i16", "{ i8 <{ i32 [2 i8 } }",
];
const RIGHT_VALUES: &[&str] = &["%p", "%i", "1", "-1", "255", "null", "@f", "undef", "%q"];
const CALLEES: &[&str] = &["@f", "@g", "@h", "@__uvm_a", "@memcmp", "@bcmp", "@a.with.overflow.b", "%p", "%u", "null", "@__uvm", "@memcmp.1"];
const INDICES: &[&str] = &["0", "1", "2", "-1", "%p", "%i", "%u", "undef"];

/// The book of this index.
pub fn lent(seed: u64, index: u64) -> Lent {
    let mut rng = Rng::new(seed ^ 0xfa17, index);
    let mut words: Vec<String> = "def:g struct:n opaque struct:s { i8 i32 } func:f void param:p ptr param:i i8 . block:e"
        .split_whitespace()
        .map(str::to_string)
        .collect();
    for _ in 0..rng.range(0, 2) {
        let inst = *rng.pick(INSTS);
        draw(&mut rng, inst, &mut words);
    }
    let term = *rng.pick(TERMS);
    draw(&mut rng, term, &mut words);
    words.push("block:l".to_string());
    for _ in 0..rng.range(0, 2) {
        draw(&mut rng, "N=phi T P", &mut words);
    }
    draw(&mut rng, "N=add T V V ret T V . .", &mut words);
    let slices = notation::read(&words.join(" ")).expect("words of the notation");
    Lent { work: work_needed(slices.book[1] as usize), counter: 0, slices }
}

/// Draws what the letters of a statement stand for.
fn draw(rng: &mut Rng, statement: &str, words: &mut Vec<String>) {
    for word in statement.split_whitespace() {
        let drawn = match word {
            "T" if rng.chance(650) => rng.pick(RIGHT_TYPES).to_string(),
            "T" => rng.pick(ODD_TYPES).to_string(),
            "V" if rng.chance(800) => rng.pick(RIGHT_VALUES).to_string(),
            "V" => "%u".to_string(),
            "A" => rng.pick(&["-", "-", "#1", "#4096"]).to_string(),
            "C" if rng.chance(400) => "-".to_string(),
            "C" => {
                let count = *rng.pick(&["T 3", "T V", "T V", "T 128", "T 129"]);
                draw(rng, count, words);
                continue;
            }
            "I" => rng.pick(&["#0", "#1", "#1", "#2", "#4294967295"]).to_string(),
            "B" => rng.pick(&[":e", ":l", ":l", ":l", ":k"]).to_string(),
            "F" => rng.pick(&["-", ":l", ":l", ":e", ":k"]).to_string(),
            "K" => rng.pick(CALLEES).to_string(),
            "J" => rng.pick(INDICES).to_string(),
            "X" | "G" | "S" | "P" => {
                let (most, item) = match word {
                    "X" => (3, "T J"),
                    "G" => (2, "T V"),
                    "S" => (2, "1 B"),
                    _ => (2, "V B"),
                };
                for _ in 0..rng.range(0, most) {
                    draw(rng, item, words);
                }
                ".".to_string()
            }
            _ => match word.strip_prefix("N=") {
                Some(inst) if rng.chance(650) => format!("{}={inst}", rng.pick(&["q", "x", "y", "p"])),
                Some(inst) => inst.to_string(),
                None => word.to_string(),
            },
        };
        words.push(drawn);
    }
}
