//! The command itself: options, exit codes, files and pipes.
use std::io::Write;
use std::path::{Path, PathBuf};
use std::process::{Command, Output, Stdio};

const TWO: &str = "define i32 @add1(i32 %a) {
entry:
  %r = add i32 %a, 1
  ret i32 %r
}
define i1 @\"odd/name\"(i32 %a) {
  %r = icmp eq i32 %a, 0
  ret i1 %r
}
";
const ADD1: &str = "# i32 @add1(1 params)
add1:
push_0n 1;
add1__entry:
get_arg 0;
push 1;
add_u32;
set_local 0;
get_local 0;
ret;

";
const FLOAT: &str = "define float @half(float %x) {
  ret float %x
}
";

/// A folder of this test's own.
fn folder(name: &str) -> PathBuf {
    let folder = Path::new(env!("CARGO_TARGET_TMPDIR")).join(name);
    let _ = std::fs::remove_dir_all(&folder);
    std::fs::create_dir_all(&folder).expect("a folder");
    folder
}

/// The command with a text for its standard input.
fn cue(args: &[&str], text: &str) -> Output {
    let mut command = Command::new(env!("CARGO_BIN_EXE_cue"));
    command.args(args).stdin(Stdio::piped()).stdout(Stdio::piped()).stderr(Stdio::piped());
    let mut child = command.spawn().expect("the command");
    // It may have ended without reading.
    let _ = child.stdin.take().expect("a pipe").write_all(text.as_bytes());
    child.wait_with_output().expect("its output")
}

/// Exit code, standard output and standard error.
fn parts(output: &Output) -> (i32, &str, &str) {
    let text = |bytes| std::str::from_utf8(bytes).expect("UTF-8");
    (output.status.code().expect("an exit code"), text(&output.stdout), text(&output.stderr))
}

#[test]
fn lines_of_a_file_and_of_standard_input() {
    let file = folder("file").join("two.ll");
    std::fs::write(&file, TWO).expect("written");
    let file = file.to_str().expect("UTF-8");
    for args in [&[file][..], &["-"], &[], &["--", file]] {
        let output = cue(args, TWO);
        let (code, out, err) = parts(&output);
        assert_eq!((code, err), (0, ""));
        assert!(out.starts_with(ADD1) && out.contains("# i1 @odd/name(1 params)\nodd_name:\n"), "{out}");
    }
}

#[test]
fn one_function() {
    assert_eq!(parts(&cue(&["--function", "add1"], TWO)), (0, ADD1, ""));
    let text = format!("{FLOAT}{TWO}");
    assert_eq!(parts(&cue(&["--function", "add1"], &text)), (0, ADD1, ""));
    assert_eq!(parts(&cue(&["--function", "gone"], TWO)), (2, "", "<stdin>: error: no function @gone has a body here\n"));
}

#[test]
fn functions_left_out() {
    let refused = "define i32 @lost() {\n  ret i32 %q\n}\n";
    let output = cue(&["--stats"], &format!("{FLOAT}{TWO}{refused}"));
    let (code, out, err) = parts(&output);
    assert_eq!(code, 1);
    assert!(out.starts_with(ADD1) && !out.contains("half") && !out.contains("lost"), "{out}");
    let expected = "<stdin>:1:8: @half is left out: its return type: a book has no type float
<stdin>:14:3: @lost is left out: an operand is an unknown local (refusal 10)
functions: 4 read, 2 printed, 2 left out
book: 29 entries, 6 names
text: 22 lines, 230 bytes
next label counter: 0
";
    assert_eq!(err, expected);
}

/// What is said of a text, and the functions that are printed.
fn said(text: &str) -> (String, Vec<String>) {
    let output = cue(&[], text);
    let (_, out, err) = parts(&output);
    let comments = out.lines().filter_map(|line| line.strip_prefix("# ")?.split_once('@')?.1.split_once('('));
    (err.replace("<stdin>:", ""), comments.map(|(name, _)| name.to_string()).collect())
}

#[test]
fn names_that_print_alike() {
    let globals = "@f.x = global i32 1\n@f_x = global i32 1\n@g = global i32 1\n@\"0x1\" = global i32 1\n";
    let address = |name: &str, of: &str| format!("define ptr @{name}() {{ ret ptr @{of} }}\n");
    let text = [globals, &address("a", "f.x"), &address("b", "f_x"), &address("c", "g"), &address("d", "\"0x1\"")].concat();
    let expected = "5:27: @a is left out: @f.x prints as f_x, and so does @f_x
6:27: @b is left out: @f_x prints as f_x, and so does @f.x
8:27: @d is left out: @0x1 prints as 0x1, like a number
";
    assert_eq!(said(&text), (expected.to_string(), vec!["c".to_string()]));
    let called =
        "define void @a.b() { ret void }\ndefine void @g() {\n  call void @a.b()\n  ret void\n}\ndeclare void @a_b()\n";
    let expected = "1:13: @a.b is left out: @a.b prints as a_b, and so does @a_b
3:13: @g is left out: @a.b prints as a_b, and so does @a_b
";
    assert_eq!(said(called), (expected.to_string(), vec![]));
}

#[test]
fn blocks_that_print_alike() {
    let function = |name: &str, one: &str, two: &str| {
        format!("define void @{name}() {{\n  br label %{one}\n{one}:\n  br label %{two}\n{two}:\n  ret void\n}}\n")
    };
    let text =
        [function("a", "b.1", "b_1"), function("c", "d", "e"), function("c__d", "x", "y"), function("g", "h__i", "j")];
    let text = text.concat() + &function("g__h", "i", "k") + "define void @__br_false_0() { ret void }\n";
    let expected = "6:3: @a is left out: its block %b_1 prints as a__b_1, and so does another
11:3: @c is left out: its block %d prints as c__d, and so does @c__d
32:3: @g__h is left out: its block %i prints as g__h__i, and so does another
36:13: @__br_false_0 is left out: @__br_false_0 prints as __br_false_0, like a label that lines have by themselves
";
    assert_eq!(said(&text), (expected.to_string(), vec!["c__d".to_string(), "g".to_string()]));
}

#[test]
fn names_of_the_machine() {
    let body = |name: &str| format!("define void @{name}(i32 %a) {{ ret void }}\n");
    let call =
        |name: &str, of: &str| format!("define void @{name}() {{\n  call void @{of}(i32 5, i32 5, i32 5)\n  ret void\n}}\n");
    let text = [body("memcmp"), call("a", "memcmp"), body("__uvm_b"), call("b", "__uvm_b"), call("c", "__uvm_c")].concat()
        + &call("d", "\"__uvm_d e\"");
    let expected = "3:13: @a is left out: lines call the machine's own for @memcmp, and not the one here
8:13: @b is left out: lines call the machine's own for @__uvm_b, and not the one here
16:13: @d is left out: @__uvm_d e prints as itself, and its line would end within it
";
    assert_eq!(said(&text), (expected.to_string(), ["memcmp", "__uvm_b", "c"].map(str::to_string).to_vec()));
}

#[test]
fn places_without_bytes() {
    let text =
        "define ptr @f() {\n  %a = alloca {}\n  ret ptr %a\n}\ndefine ptr @g() {\n  %a = alloca i8\n  ret ptr %a\n}\n";
    let expected = "1:12: @f is left out: its places have no bytes, and its lines would read a slot that is not there\n";
    assert_eq!(said(text), (expected.to_string(), vec!["g".to_string()]));
}

#[test]
fn text_that_is_no_ir() {
    let output = cue(&["--stats"], &format!("{TWO}define oops"));
    assert_eq!(parts(&output), (2, "", "<stdin>:10:12: error: expected a type, found the end of the text\n"));
}

#[test]
fn files_that_cannot_be_read() {
    let output = cue(&["/no/such/file.ll"], "");
    let (code, out, err) = parts(&output);
    assert_eq!((code, out), (2, ""));
    assert!(err.starts_with("/no/such/file.ll: error: "), "{err}");
}

#[test]
fn books() {
    let folder = folder("books");
    let long = "n".repeat(300);
    let text = format!("{TWO}{FLOAT}define void @{long}a() {{\n  ret void\n}}\ndefine void @{long}b() {{\n  ret void\n}}\n");
    let output = cue(&["--book", folder.to_str().expect("UTF-8")], &text);
    assert_eq!(parts(&output).0, 1);
    let cut = format!("functions/{}", "n".repeat(200));
    let (first, second) = (format!("{cut}.book"), format!("{cut}-2.book"));
    for (file, functions) in
        [("piece.book", 4), ("functions/add1.book", 1), ("functions/odd_name.book", 1), (&*first, 1), (&*second, 1)]
    {
        let bytes = std::fs::read(folder.join(file)).expect(file);
        let book = mivolanjy::Book::from_file(&bytes).expect(file);
        assert_eq!(book.functions(), functions, "{file}");
    }
    assert_eq!(std::fs::read_dir(folder.join("functions")).expect("a folder").count(), 4);
}

#[test]
fn books_that_cannot_be_written() {
    let file = folder("no_folder").join("file");
    std::fs::write(&file, "").expect("written");
    let output = cue(&["--book", file.to_str().expect("UTF-8")], TWO);
    let (code, out, err) = parts(&output);
    assert_eq!((code, out), (2, ""));
    assert!(err.contains(": error: "), "{err}");
}

#[test]
fn words_about_itself() {
    let help = cue(&["--help"], "");
    assert!(parts(&help).0 == 0 && parts(&help).1.starts_with("usage: cue "));
    let version = cue(&["--version"], "");
    assert_eq!(parts(&version), (0, "cue 0.1.0\n", ""));
    for args in [&["--nothing"][..], &["--book"], &["a.ll", "b.ll"]] {
        let output = cue(args, "");
        let (code, out, err) = parts(&output);
        assert_eq!((code, out), (2, ""));
        assert!(err.starts_with("cue: ") && err.contains("usage: cue "), "{err}");
    }
}

#[test]
fn a_reader_that_goes_away() {
    let functions: String = (0..2000).map(|n| format!("define i32 @f{n}(i32 %a) {{\n  ret i32 %a\n}}\n")).collect();
    let file = folder("pipe").join("many.ll");
    std::fs::write(&file, functions).expect("written");
    let mut command = Command::new(env!("CARGO_BIN_EXE_cue"));
    let mut child = command.arg(&file).stdout(Stdio::piped()).stderr(Stdio::piped()).spawn().expect("the command");
    drop(child.stdout.take());
    let output = child.wait_with_output().expect("its output");
    assert_eq!(parts(&output), (0, "", ""));
}
