//! The rows of `crates/test_rows/stdin`, read by the erased program, give the lines of `stdout`.
//!
//! The test runs itself as this program, since the program writes to standard output.
use std::env;
use std::fs;
use std::path::Path;
use std::process::{Command, ExitCode, Stdio};

const IS_PROGRAM: &str = "PULLEYNAVY_ROWS";

fn main() -> ExitCode {
    if env::var_os(IS_PROGRAM).is_some() {
        return pulleynavy_program::test_rows::main();
    }
    let folder = Path::new(env!("CARGO_MANIFEST_DIR")).join("crates/test_rows");
    let rows = fs::File::open(folder.join("stdin")).expect("the rows");
    let program = env::current_exe().expect("this program");
    let done = Command::new(program).env(IS_PROGRAM, "1").stdin(rows).stderr(Stdio::inherit()).output().expect("a run");
    let wanted = fs::read_to_string(folder.join("stdout")).expect("the lines");
    let found = String::from_utf8(done.stdout).expect("a text");
    let both = wanted.lines().zip(found.lines());
    for (number, (line, other)) in (1..).zip(both) {
        assert_eq!(line, other, "line {number}");
    }
    assert_eq!(wanted.lines().count(), found.lines().count(), "lines");
    assert!(done.status.success(), "{}", done.status);
    println!("{} lines are equal", wanted.lines().count());
    ExitCode::SUCCESS
}
