//! The planner once more with the search that the library has, to compare times with: the
//! reference keeps simpler searches. docs/COST.md says how each search goes and what it costs.
//!
//! - [`climb`]: the least time at which a demand is met, with jumps along lines under it
//! - [`walk`]: the kept list of one part, and the ceilings shown
//! - [`choice`]: bounds of rows, and the selection of least load
//! - [`placing`]: the chart of a cycle, part by part
//!
//! What is no search is that of the reference: reading, the uses of a lock, the blockings at the
//! lowest ceilings, demand and supply at one time, what a new pair drops, rows and the printed
//! bytes. Settings and climbs are those of the library, and so is that a budget is looked at again
//! only where a task is blocked for longer; the blockings themselves are carried from setting to
//! setting here, where the library then works them out anew.

pub mod choice;
pub mod climb;
pub mod placing;
pub mod walk;

use crate::chart::{self, CYCLE};
use crate::file::{self, Part};
use crate::local::{Pair, Recurs};
use crate::system::{Row, Weighing};
use crate::{all_candidates, fitting, kept, listing, part_numbered, refuse, Refusal};
use climb::{share, SCALE};
use walk::Walk;

/// The listing of the plan of least load, if it fits `room` bytes.
/// Questions 1 to 11, then 14.
pub fn plan(file: &[u8], room: usize) -> Result<Vec<u8>, Refusal> {
    let parts = file::read(file)?;
    let walks: Vec<Walk> = parts.iter().map(Walk::new).collect();
    let (rows, weighing) = chosen(&parts, &walks)?;
    let ceilings = |part: usize, row: &Row| walks[part].ceilings(row.holding);
    fitting(listing::of_plan(&parts, &rows, &weighing, ceilings), room)
}

/// The chart of the plan of least load, written to the first bytes of `out`, and how many these are.
/// Questions 1 to 11, then 19, then 14.
pub fn chart(file: &[u8], out: &mut [u8]) -> Result<usize, Refusal> {
    let parts = file::read(file)?;
    let walks: Vec<Walk> = parts.iter().map(Walk::new).collect();
    let (rows, _) = chosen(&parts, &walks)?;
    chart::in_cycle(&rows)?;
    match out.first_chunk_mut() {
        Some(ticks) => placing::place(&rows, ticks),
        None => return refuse(14, 0),
    }
    Ok(CYCLE)
}

/// The rows of the choice of least load, and their bounds. Questions 10 and 11.
fn chosen(parts: &[Part], walks: &[Walk]) -> Result<(Vec<Row>, Weighing), Refusal> {
    if utilisation(parts) > SCALE {
        // No choice passes, and no kept list is needed.
        return match walks.iter().position(|walk| !walk.has_pair()) {
            Some(index) => refuse(10, index + 1),
            None => refuse(11, 0),
        };
    }
    let candidates = all_candidates(parts, walks.iter().map(Walk::candidates))?;
    match choice::select(&candidates) {
        Some(choice) => Ok(choice),
        None => refuse(11, 0),
    }
}

/// The kept list of one part of the file, parts counted from 1.
/// Questions 1 to 9, 12, then 10 for that part alone.
pub fn candidates(file: &[u8], part: usize) -> Result<Vec<Pair>, Refusal> {
    let parts = file::read(file)?;
    kept(Walk::new(part_numbered(&parts, part)?).candidates(), part)
}

/// What the tasks of all parts ask for of every tick, each rounded down.
fn utilisation(parts: &[Part]) -> u64 {
    let tasks = parts.iter().flat_map(|part| &part.tasks);
    tasks.map(|task| share(task.period(), task.cost())).sum()
}
