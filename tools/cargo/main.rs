//! The program `pulleynavy`.
use std::process::ExitCode;

fn main() -> ExitCode {
    pulleynavy_program::program::main()
}
