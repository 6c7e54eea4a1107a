//! Times several ways to read the stream on standard input, for `tools/bench`.
#![tactic(auto)]

mod events;
mod items;
mod tally;

use std::alloc::{AllocError, Global};
use std::env;
use std::io::{self, Read, Write};
use std::process::ExitCode;
use std::time::Instant;
use tally::Tally;

/// The largest number of rounds.
const MOST_ROUNDS: u32 = 1000;

/// No round begins after this many seconds.
const ENOUGH: u64 = 1;

/// The modes that run if no argument names any.
const WAYS: [&'static str; 7] = [
    "parse",
    "parse_all",
    "frames",
    "65536",
    "1",
    "items",
    "indices",
];

/// The stream has a fault, an argument names no mode, or an allocation, a device or the clock failed.
#[derive(Drop)]
struct Failed;

impl From<wasm_base::Error> for Failed {
    fn from(_error: wasm_base::Error) -> Failed {
        Failed
    }
}

impl From<AllocError> for Failed {
    fn from(_error: AllocError) -> Failed {
        Failed
    }
}

impl From<io::Error> for Failed {
    fn from(_error: io::Error) -> Failed {
        Failed
    }
}

fn main(rt: HostRuntime) -> ExitCode {
    match run(&rt) {
        Ok(()) => ExitCode::SUCCESS,
        Err(_) => ExitCode::FAILURE,
    }
}

// Writes a line for each mode that an argument names: its name, the number of events or items, a checksum, and the nanoseconds of
// the fastest round. Without arguments each mode runs once, and its line has no time.
fn run(rt: &HostRuntime) -> Result<(), Failed> {
    let names = env::args(rt)?.skip(1).collect::<Vec<String>>(rt.alloc())?;
    let mut bytes = Vec::new(rt.alloc());
    rt.stdin().read_to_end(&mut bytes)?;
    if names.is_empty() {
        for name in &WAYS {
            let Tally { count, sum } = read(rt.alloc(), name, &bytes)?;
            writeln!(rt.stdout(), "{name} {count} {sum}")?;
        }
    }
    for name in &names {
        let (Tally { count, sum }, least) = time(rt, name, &bytes)?;
        writeln!(rt.stdout(), "{name} {count} {sum} {least}")?;
    }
    Ok(())
}

// Returns what was read, and the nanoseconds of the fastest round.
fn time(rt: &HostRuntime, name: &str, bytes: &[u8]) -> Result<(Tally, u64), Failed> {
    let mut tally = Tally::new();
    let mut least = u64::MAX;
    let first = Instant::now(rt)?;
    for _ in 0..MOST_ROUNDS {
        let start = Instant::now(rt)?;
        tally = read(rt.alloc(), name, bytes)?;
        let took = start.elapsed(rt)?;
        let seconds = took.as_secs().wrapping_mul(1_000_000_000);
        least = least.min(seconds.wrapping_add(u64::from(took.subsec_nanos())));
        if first.elapsed(rt)?.as_secs() >= ENOUGH {
            break;
        }
    }
    Ok((tally, least))
}

// Reads the bytes in the mode with this name, which is a word or the size of the chunks for a feeder.
fn read(alloc: Global, name: &str, bytes: &[u8]) -> Result<Tally, Failed> {
    let tally = match name {
        "parse" => events::parse(bytes)?,
        "parse_all" => events::parse_all(bytes)?,
        "frames" => events::frames(bytes)?,
        "items" => items::walk_items(alloc, bytes, false)?,
        "indices" => items::walk_items(alloc, bytes, true)?,
        size => match size.parse::<usize>() {
            Ok(size) => events::feed(alloc, bytes, size.max(1))?,
            Err(_) => return Err(Failed),
        },
    };
    Ok(tally)
}
