// Reads the events of a stream in several ways.
ghost use Rattle.std.specs.Prelude.{⊤, ◌≤◌, length};
ghost use Rattle.wasm_streams.specs.Beside.{MayCome};

use crate::tally::Tally;
use bitflags::Flags;
use std::alloc::Global;
use wasm_base::{Error, Result, WasmFeatures};
use wasm_feed::{Feeder, Step};
use wasm_frames::{Frame, FrameKind, NextFrame, StoredParser};
use wasm_parser::{Chunk, Parser, Payload};

/// Chunks of at most this many bytes are pushed, and larger ones are borrowed.
const SMALL_PIECE: usize = 512;

/// Reads a whole stream by `parse`.
#[inline(never)]
pub(crate) fn parse(bytes: &[u8]) -> Result<Tally> {
    let mut tally = Tally::new();
    let mut parser = Parser::new(0);
    let mut rest = bytes;
    for _ in 0..u64::MAX {
        match parser.parse(rest, true)? {
            Chunk::Parsed { consumed, payload } => {
                if tally_payload(payload, &mut tally) {
                    break;
                }
                rest = rest.split_at(consumed).1;
            }
            Chunk::NeedMoreData(_) => unreachable!(),
        }
    }
    Ok(tally)
}

/// Reads a whole stream by `parse_all`.
#[inline(never)]
pub(crate) fn parse_all(bytes: &[u8]) -> Result<Tally> {
    let mut tally = Tally::new();
    for payload in Parser::new(0).parse_all(bytes) {
        tally_payload(payload?, &mut tally);
    }
    Ok(tally)
}

/// Reads the parts of a whole stream as frames, without payloads.
#[inline(never)]
pub(crate) fn frames(bytes: &[u8]) -> Result<Tally> {
    let mut tally = Tally::new();
    let mut parser = StoredParser::new(0);
    let mut rest = bytes;
    for _ in 0..u64::MAX {
        match parser.next_for::<Tally, false>(rest, true) {
            NextFrame::Parsed { frame, consumed } => {
                tally.add(see_frame(&frame));
                if frame.kind() == FrameKind::End {
                    break;
                }
                rest = rest.split_at(consumed.min(rest.len())).1;
            }
            NextFrame::NeedMoreData(_) => unreachable!(),
            NextFrame::Fault(error) => return Err(error),
        }
    }
    Ok(tally)
}

/// Reads a stream in chunks of this size by a feeder.
#[inline(never)]
pub(crate) fn feed(alloc: Global, bytes: &[u8], size: usize) -> Result<Tally> {
    if size <= SMALL_PIECE {
        push_pieces(alloc, bytes, size)
    } else {
        borrow_pieces(alloc, bytes, size)
    }
}

fn push_pieces(alloc: Global, bytes: &[u8], size: usize) -> Result<Tally> {
    let mut tally = Tally::new();
    let mut feeder = Feeder::new(alloc, 0, WasmFeatures::all());
    let mut rest = bytes;
    for _ in 0..u64::MAX {
        if tally_step(feeder.open().step()?, &mut tally) {
            break;
        }
        rest = push_next(&mut feeder, rest, size)?;
    }
    Ok(tally)
}

// If the feeder wants more, pushes the next chunk, or finishes after the last one. Returns the remaining bytes.
fn push_next<'a>(feeder: &mut Feeder, rest: &'a [u8], size: usize) -> Result<&'a [u8]> {
    if !feeder.wants_more() {
        return Ok(rest);
    }
    if rest.is_empty() {
        feeder.finish();
        return Ok(rest);
    }
    let (piece, later) = rest.split_at(size.min(rest.len()));
    feeder.push(piece)?;
    Ok(later)
}

fn borrow_pieces(alloc: Global, bytes: &[u8], size: usize) -> Result<Tally> {
    let mut tally = Tally::new();
    let mut feeder = Feeder::new(alloc, 0, WasmFeatures::all());
    let mut rest = bytes;
    let mut left = 0;
    let mut fault = None;
    'steps: for _ in 0..u64::MAX {
        let (taken, is_last) = feeder.step_over(
            chunk(&feeder, rest, left),
            |step|
                ensures { ⊤ }
            { tally_borrowed(step, &mut tally, &mut fault) },
        )?;
        if is_last {
            break;
        }
        rest = rest.split_at(taken).1;
        left = left.saturating_sub(taken);
        if feeder.wants_more() {
            if rest.is_empty() {
                feeder.finish();
            } else {
                left = size;
            }
        }
    }
    match fault {
        Some(error) => Err(error),
        None => Ok(tally),
    }
}

// The first `left` of the remaining bytes, or fewer at their end; none after the end of input.
fn chunk<'a>(feeder: &Feeder, rest: &'a [u8], left: usize) -> &'a [u8]
    ensures may_come { MayCome feeder.now result.now }
    ensures within { length result.now ≤ length rest.now }
{
    if feeder.is_finished() {
        &[]
    } else {
        rest.split_at(left.min(rest.len())).0
    }
}

// Returns whether this was the last step. Stores its fault, if it has one.
fn tally_borrowed(step: Result<Step<'_>>, tally: &mut Tally, fault: &mut Option<Error>) -> bool {
    match step {
        Ok(step) => tally_step(step, tally),
        Err(error) => {
            *fault = Some(error);
            true
        }
    }
}

// Returns whether this was the last step.
fn tally_step(step: Step<'_>, tally: &mut Tally) -> bool {
    match step {
        Step::Parsed { payload, .. } => tally_payload(payload, tally),
        Step::NeedMoreData(_) => false,
    }
}

// Returns whether this was the last payload.
fn tally_payload(payload: Payload<'_>, tally: &mut Tally) -> bool {
    tally.add(see(&payload));
    is_end(&payload)
}

fn is_end(payload: &Payload<'_>) -> bool {
    match payload {
        Payload::End(_) => true,
        _other => false,
    }
}

#[inline(never)]
fn see(payload: &Payload<'_>) -> u64 {
    match payload {
        Payload::CodeSectionEntry(body) => body.range().start ^ body.range().end,
        Payload::CustomSection(section) => section.data_offset() ^ section.range().end,
        _other => match payload.as_section() {
            Some((id, range)) => u64::from(id) ^ range.start ^ range.end,
            None => 0,
        },
    }
}

fn see_frame(frame: &Frame<'_>) -> u64 {
    let range = frame.range();
    match frame.kind() {
        FrameKind::Header | FrameKind::End => 0,
        FrameKind::Body => range.start ^ range.end,
        FrameKind::Custom => frame.data_offset() ^ range.end,
        _other => u64::from(frame.id()) ^ range.start ^ range.end,
    }
}
