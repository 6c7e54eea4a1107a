//! The program `wasm_list`.
use std::process::ExitCode;

fn main() -> ExitCode {
    pulleynavy_program::list::main()
}
