//! An independent reference of the planner: the same operations in plain Rust, written from the
//! scope (docs/PAPER-01.md) and not from the definitions that the proofs use.
//!
//! - [`file`]: the plan file and questions 1 to 9
//! - [`local`]: supply, holding times, blocking, the least budget, the kept list of one part
//! - [`system`]: rows, bounds, loads, weighing, the selection of least load
//! - [`listing`]: the printed bytes
//! - [`chart`]: which part has which tick of a cycle
//! - [`same_search`]: plans and kept lists by the library's own search, to compare times with
//! - [`literal`]: all of it again by brute force, for small files
//! - [`random`]: made-up plan files
//! - [`edges`]: numbers at and past the largest one
//! - [`timing`]: nanoseconds a run
//! - [`hunt`]: plan files that take long, made and changed
//! - [`programs`]: the programs under crates/ and what each must print
//! - [`delivery`]: the ticks that a budget gives, by brute force
//! - [`page`]: the blocks and tables of a page of the documentation
//! - [`by_hand`]: the numbers that the test program of that name hands over
//! - `library`: the planner's own library, with the feature of that name
//!
//! This page has the operations that a caller may use with any input.

use std::ops::Range;

pub mod by_hand;
pub mod chart;
pub mod delivery;
pub mod edges;
pub mod file;
pub mod hunt;
#[cfg(feature = "library")]
pub mod library;
pub mod listing;
pub mod literal;
pub mod local;
pub mod page;
pub mod programs;
pub mod random;
pub mod same_search;
pub mod system;
pub mod timing;

use file::{Part, LARGEST_NUMBER};
use local::{Local, Pair};
use system::{Candidates, Row, Weighing};

pub use system::weigh;

/// Bytes that the program lends for its listing.
pub const PROGRAM_ROOM: usize = 8192;

/// The number of the question that has the answer no, and its place.
#[derive(Clone, Copy, Debug, PartialEq, Eq)]
pub struct Refusal {
    pub number: u32,
    pub place: usize,
}

/// The number and the place of an answer: 0 and 0 if it is no refusal.
pub fn number_and_place<T>(answer: &Result<T, Refusal>) -> (u32, usize) {
    match answer {
        Ok(_) => (0, 0),
        Err(refusal) => (refusal.number, refusal.place),
    }
}

/// A refusal as an `Err`.
fn refuse<T>(number: u32, place: usize) -> Result<T, Refusal> {
    Err(Refusal { number, place })
}

/// The listing of the plan of least load, if it fits `room` bytes.
/// Questions 1 to 11, then 14.
pub fn plan(file: &[u8], room: usize) -> Result<Vec<u8>, Refusal> {
    let parts = file::read(file)?;
    let locals: Vec<Local> = parts.iter().map(Local::new).collect();
    let (rows, weighing) = chosen(&parts, &locals)?;
    let ceilings = |part: usize, row: &Row| locals[part].ceilings(row.holding);
    fitting(listing::of_plan(&parts, &rows, &weighing, ceilings), room)
}

/// The chart of the plan of least load, a byte a tick, if it fits `room` bytes.
/// Questions 1 to 11, then 19, then 14.
pub fn chart(file: &[u8], room: usize) -> Result<Vec<u8>, Refusal> {
    let parts = file::read(file)?;
    let locals: Vec<Local> = parts.iter().map(Local::new).collect();
    let (rows, _) = chosen(&parts, &locals)?;
    chart::in_cycle(&rows)?;
    fitting(chart::of_rows(&rows), room)
}

/// The rows of the choice of least load, and their bounds. Questions 10 and 11.
fn chosen(parts: &[Part], locals: &[Local]) -> Result<(Vec<Row>, Weighing), Refusal> {
    let candidates = all_candidates(parts, locals.iter().map(Local::candidates))?;
    match system::select(&candidates) {
        Some(choice) => Ok(choice),
        None => refuse(11, 0),
    }
}

/// The kept lists of all parts, each worked out behind the one before. Question 10.
fn all_candidates(
    parts: &[Part],
    lists: impl Iterator<Item = Vec<Pair>>,
) -> Result<Vec<Candidates>, Refusal> {
    let mut candidates = Vec::with_capacity(parts.len());
    for (index, pairs) in lists.enumerate() {
        candidates.push(Candidates {
            period: parts[index].period,
            pairs: kept(pairs, index + 1)?,
        });
    }
    Ok(candidates)
}

/// The bytes of a listing or a chart, if they fit. Question 14.
fn fitting(bytes: Vec<u8>, room: usize) -> Result<Vec<u8>, Refusal> {
    if bytes.len() > room {
        return refuse(14, 0);
    }
    Ok(bytes)
}

/// The part with this number, from 1. Question 12.
fn part_numbered<'p, 'f>(parts: &'p [Part<'f>], number: usize) -> Result<&'p Part<'f>, Refusal> {
    match number.checked_sub(1).and_then(|index| parts.get(index)) {
        Some(part) => Ok(part),
        None => refuse(12, 0),
    }
}

/// The kept list of the part with this number. Question 10.
fn kept(pairs: Vec<Pair>, number: usize) -> Result<Vec<Pair>, Refusal> {
    if pairs.is_empty() {
        return refuse(10, number);
    }
    Ok(pairs)
}

/// The kept list of one part of the file, parts counted from 1.
/// Questions 1 to 9, 12, then 10 for that part alone.
pub fn candidates(file: &[u8], part: usize) -> Result<Vec<Pair>, Refusal> {
    let parts = file::read(file)?;
    kept(local::candidates(part_numbered(&parts, part)?), part)
}

/// The stretch of the file that is the name of the part, parts counted from 1.
/// Questions 1 to 9, then 12.
pub fn name(file: &[u8], part: usize) -> Result<Range<usize>, Refusal> {
    let parts = file::read(file)?;
    let part = part_numbered(&parts, part)?;
    Ok(part.name_start..part.name_start + part.name.bytes.len())
}

/// The supply of a budget in a server period over `time` ticks, numbers set by hand. Question 12.
pub fn supply_answer(period: u64, budget: u64, time: u64) -> Result<u64, Refusal> {
    let in_range = 1 <= budget && budget <= period && period <= LARGEST_NUMBER;
    if !in_range || time > LARGEST_NUMBER {
        return refuse(12, 0);
    }
    Ok(local::supply(period, budget, time))
}

/// What the program prints for the file on its standard input.
pub fn printed(file: &[u8]) -> Vec<u8> {
    plan(file, PROGRAM_ROOM).unwrap_or_else(listing::of_refusal)
}
