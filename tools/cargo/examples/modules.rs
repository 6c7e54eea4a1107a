//! Random modules, and modules that are written again, for `tools/compare writing`. Modules are lines of hexadecimal digits.
//!
//!     modules COUNT   prints random modules, and after each the id and the number of items of each section
//!     modules         reads modules, and writes each again, or says why it does not
#[path = "../again.rs"]
mod again;
#[path = "../modules.rs"]
mod modules;

use again::again;
use modules::{Random, made};
use std::io::stdin;

fn hex(bytes: &[u8]) -> String {
    bytes.iter().map(|byte| format!("{byte:02x}")).collect()
}

fn bytes(digits: &str) -> Vec<u8> {
    (0..digits.len() / 2).map(|at| u8::from_str_radix(&digits[2 * at..2 * at + 2], 16).expect("digits")).collect()
}

fn print_random(count: u64) {
    for seed in 0..count {
        let made = made(&mut Random::new(seed));
        let sections: String = made.sections.iter().map(|(id, count)| format!(" {id}:{count}")).collect();
        println!("{}{sections}", hex(&made.bytes));
    }
}

fn main() {
    if let Some(count) = std::env::args().nth(1) {
        return print_random(count.parse().expect("a number"));
    }
    for line in stdin().lines() {
        match again(&bytes(&line.expect("a line"))) {
            Ok(bytes) => println!("{}", hex(&bytes)),
            Err(left) => println!("{left:?}"),
        }
    }
}
