//! Plans one processor that several partitions share, where the partitions also share locks: the
//! safe interface to a library whose every answer is proved (the repository's README.md).
//!
//! Six operations: [`plan`] (or [`plan_into`], which does not allocate), [`chart`] (or
//! [`chart_into`], into lent bytes), [`candidates`], [`name`], [`weigh`] and [`supply`]. Each takes
//! any bytes and any numbers and gives its answer or a [`Refusal`]. Nothing is kept between calls,
//! so they may be called from any threads at once.
//!
//! ```
//! let file = b"part\tcard\t20\ntask\tcopy\t80\t8\t80\nlock\tbuf\t2\nend\n";
//! let listing = planner::plan(file)?;
//! assert_eq!(listing, "load\tcard\t3\t20\nshare\tcard\t20\t3\t0\t3\t20\nceiling\tbuf\t1\n");
//! assert_eq!(planner::name(file, 1)?, "card");
//! # Ok::<(), planner::Refusal>(())
//! ```
//!
//! # Private and shared locks
//!
//! A lock that two parts or more of a file name is shared. One that just one part names, as `buf`
//! above, is private: it always has its lowest ceiling, the number of its highest user, and does
//! not enter the part's holding time, which is 0 without shared locks.
//!
//! # The archive
//!
//! The build script links `libplanner_c.a`. It takes the one in the folder that the environment
//! variable `PLANNER_LIB_DIR` names, by an absolute path; without the variable it has the
//! repository that this package is part of build one (`scripts/build library`). The archive is for
//! x86-64 Linux.
//!
//! # Stack
//!
//! A call needs up to [`STACK_PLAN`] bytes of stack, less for the other operations. A thread of the
//! standard library has 2 MB if nothing else is said.

#![deny(missing_docs, unsafe_op_in_unsafe_fn)]

use std::error::Error;
use std::fmt;

pub mod raw;

pub use raw::{Fraction, Pair, Row};

/// The greatest number of a file, and the greatest period, budget, holding time and time set by
/// hand.
pub const MOST_NUMBER: u64 = 1_000_000;
/// The most bytes of a file.
pub const MOST_BYTES: usize = 32_768;
/// The most pairs of a kept list.
pub const MOST_PAIRS: usize = 16;
/// The most rows that can be weighed.
pub const MOST_ROWS: usize = 16;
/// Bytes enough for any listing.
pub const ROOM: usize = 8192;
/// The ticks of a cycle, and so the bytes of a chart.
pub const CYCLE: usize = 720;

/// Bytes of stack that [`plan_into`] needs; [`plan`] has its listing on the heap.
pub const STACK_PLAN: usize = 48 * 1024;
/// Bytes of stack that [`chart_into`] needs; [`chart`] needs some KB more for the chart given back.
pub const STACK_CHART: usize = 46 * 1024;
/// Bytes of stack that [`candidates`] needs.
pub const STACK_CANDIDATES: usize = 36 * 1024;
/// Bytes of stack that [`name`] needs.
pub const STACK_NAME: usize = 32 * 1024;
/// Bytes of stack that [`weigh`] needs.
pub const STACK_WEIGH: usize = 4 * 1024;
/// Bytes of stack that [`supply`] needs.
pub const STACK_SUPPLY: usize = 1024;

/// Why there is no answer: the first question that has the answer no.
///
/// ```
/// let refusal = planner::plan(b"part\tcard\t20\nend\n").unwrap_err();
/// assert_eq!((refusal.number, refusal.place), (4, 2));
/// assert_eq!(refusal.text(), "the record is not allowed here, or the file ends without an end line");
/// assert_eq!(refusal.to_string(), "refused with 4 at 2: the record is not allowed here, or the file ends without an end line");
/// ```
#[derive(Clone, Copy, Debug, PartialEq, Eq, Hash)]
pub struct Refusal {
    /// The number of the question, 1 to 14 or 19.
    pub number: u64,
    /// The line (2 to 9), part (10, 19) or row (12, 13) that it was asked of, counted from 1; else 0.
    pub place: u64,
}

impl Refusal {
    /// What is wrong. The repository's README.md says how to mend it.
    pub fn text(&self) -> &'static str {
        match self.number {
            0 => "no refusal",
            1 => "the file is longer than 32,768 bytes",
            2 => "the line does not end with byte 10, or has a byte that is neither a tab nor 33 to 126",
            3 => "the line is not a part, task, lock or end with 3, 5, 3 or 1 fields",
            4 => "the record is not allowed here, or the file ends without an end line",
            5 => "the name is not 1 to 8 characters from a-z and 0-9",
            6 => "the name is not new among the parts of the file, tasks of the part or locks of the task",
            7 => "a number is not 1 to 1,000,000 in digits without a leading zero",
            8 => "C <= D <= T does not hold, or the lock is held for longer than its task's C",
            9 => "there are more than 16 parts, 16 tasks in the part or 8 different lock names in the part",
            10 => "the part has no permitted setting of ceilings with a budget",
            11 => "no choice for all parts passes the system test",
            12 => "a part number, a count of rows or a number set by hand is out of range",
            13 => "the row has no time t within its period with L(t) <= t",
            14 => "the listing or the chart does not fit the lent bytes",
            19 => "the part's period does not divide 720, the ticks of a cycle",
            _ => "unknown refusal",
        }
    }
}

impl fmt::Display for Refusal {
    fn fmt(&self, f: &mut fmt::Formatter<'_>) -> fmt::Result {
        let Refusal { number, place } = self;
        write!(f, "refused with {number} at {place}: {}", self.text())
    }
}

impl Error for Refusal {}

/// The refusal that an answer names, if it does.
fn settled(number: u64, place: u64) -> Result<(), Refusal> {
    match number {
        0 => Ok(()),
        _ => Err(Refusal { number, place }),
    }
}

/// The listing of the plan of a file. Refusals 1 to 11.
///
/// ```
/// let listing = planner::plan(b"part\tp\t10\ntask\tt\t10\t10\t10\nend\n")?;
/// assert_eq!(listing, "load\tp\t10\t10\nshare\tp\t10\t10\t0\t10\t10\n");
/// # Ok::<(), planner::Refusal>(())
/// ```
pub fn plan(file: &[u8]) -> Result<String, Refusal> {
    let mut out = vec![0; ROOM];
    let written = plan_into(file, &mut out)?.len();
    out.truncate(written);
    Ok(String::from_utf8(out).expect("a listing is ASCII"))
}

/// The listing of the plan of a file, written to the first bytes of `out`: these are given back, and
/// the others stay as they were. [`ROOM`] bytes are enough. Refusals 1 to 11, then 14; then every
/// byte of `out` stays as it was.
///
/// ```
/// let mut out = [b'.'; 40];
/// let listing = planner::plan_into(b"part\tp\t10\ntask\tt\t10\t10\t10\nend\n", &mut out)?;
/// assert_eq!(listing, b"load\tp\t10\t10\nshare\tp\t10\t10\t0\t10\t10\n");
/// assert_eq!(&out[35..], b".....");
/// # Ok::<(), planner::Refusal>(())
/// ```
pub fn plan_into<'a>(file: &[u8], out: &'a mut [u8]) -> Result<&'a mut [u8], Refusal> {
    // SAFETY: pointers and lengths are those of slices, which are never null; `out` is borrowed
    // for writing, so it does not overlap `file`.
    let answer =
        unsafe { raw::planner_plan(file.as_ptr(), file.len(), out.as_mut_ptr(), out.len()) };
    settled(answer.number, answer.place)?;
    Ok(&mut out[..answer.written])
}

/// The chart of the plan of a file whose periods all divide [`CYCLE`]: the number of the part that
/// has each tick of a cycle, counted from 1, or 0 where a tick is unassigned. All parts start together
/// at tick 0, each is due its budget from the start of each of its periods, and a tick goes to the
/// highest part still due. So every part has exactly its budget in each of its periods, in this cycle
/// and in each repetition; ticks for overruns and switching stay unassigned. Refusals 1 to 11, then 19
/// at the first part with a period that does not divide it.
///
/// ```
/// let file = b"part\tlow\t6\ntask\tt\t60\t10\t60\npart\thigh\t4\ntask\tt\t40\t8\t40\nend\n";
/// let chart = planner::chart(file)?;
/// assert_eq!(chart[..12], [2, 1, 1, 0, 2, 0, 1, 1, 2, 0, 0, 0]);
/// assert_eq!(chart.to_vec(), chart[..12].repeat(60));
/// let refusal = planner::chart(b"part\tp\t7\ntask\tt\t70\t1\t70\nend\n").unwrap_err();
/// assert_eq!((refusal.number, refusal.place), (19, 1));
/// # Ok::<(), planner::Refusal>(())
/// ```
pub fn chart(file: &[u8]) -> Result<[u8; CYCLE], Refusal> {
    let mut out = [0; CYCLE];
    chart_into(file, &mut out)?;
    Ok(out)
}

/// The chart of the plan of a file, written to the first [`CYCLE`] bytes of `out`: these are given
/// back, and the others stay as they were. Refusals 1 to 11, then 19, then 14; then every byte of
/// `out` stays as it was.
///
/// ```
/// let mut out = [255; planner::CYCLE + 1];
/// let chart = planner::chart_into(b"part\tp\t10\ntask\tt\t10\t10\t10\nend\n", &mut out)?;
/// assert_eq!(chart, [1; planner::CYCLE]);
/// assert_eq!(out[planner::CYCLE], 255);
/// # Ok::<(), planner::Refusal>(())
/// ```
pub fn chart_into<'a>(file: &[u8], out: &'a mut [u8]) -> Result<&'a mut [u8], Refusal> {
    // SAFETY: pointers and lengths are those of slices, which are never null; `out` is borrowed
    // for writing, so it does not overlap `file`.
    let answer =
        unsafe { raw::planner_chart(file.as_ptr(), file.len(), out.as_mut_ptr(), out.len()) };
    settled(answer.number, answer.place)?;
    Ok(&mut out[..answer.written])
}

/// The kept list of a part, counted from 1: its budgets and holding times that are worth a choice, in
/// falling holding time. It depends on the part's own lines and on which of its locks another part
/// names: private locks do not enter a holding time. Refusals 1 to 9, then 12 (no such part), then
/// 10.
///
/// ```
/// use planner::{candidates, Pair};
///
/// let card = "part\tcard\t20\ntask\tcopy\t80\t8\t80\nlock\tbuf\t2\n";
/// let log = "part\tlog\t20\ntask\tkeep\t80\t1\t80\nlock\tbuf\t1\n";
/// let shared = format!("{card}{log}end\n");
/// assert_eq!(candidates(shared.as_bytes(), 1)?, [Pair { budget: 3, holding: 2 }]);
/// let private = format!("{card}end\n");
/// assert_eq!(candidates(private.as_bytes(), 1)?, [Pair { budget: 3, holding: 0 }]);
/// assert_eq!(candidates(private.as_bytes(), 2).unwrap_err().number, 12);
/// # Ok::<(), planner::Refusal>(())
/// ```
pub fn candidates(file: &[u8], part: usize) -> Result<Vec<Pair>, Refusal> {
    // SAFETY: pointer and length are those of a slice, which is never null.
    let answer = unsafe { raw::planner_candidates(file.as_ptr(), file.len(), part) };
    settled(answer.number, answer.place)?;
    Ok(answer.pairs[..answer.count].to_vec())
}

/// The name of a part, counted from 1: a stretch of the file itself. Refusals 1 to 9, then 12 (no
/// such part).
///
/// ```
/// let file = b"part\tp\t10\ntask\tt\t10\t10\t10\nend\n";
/// assert_eq!(planner::name(file, 1)?, "p");
/// let parts = (1..).map_while(|part| planner::name(file, part).ok()).count();
/// assert_eq!(parts, 1);
/// # Ok::<(), planner::Refusal>(())
/// ```
pub fn name(file: &[u8], part: usize) -> Result<&str, Refusal> {
    // SAFETY: pointer and length are those of a slice, which is never null.
    let answer = unsafe { raw::planner_name(file.as_ptr(), file.len(), part) };
    settled(answer.number, answer.place)?;
    let name = &file[answer.start..][..answer.length];
    Ok(std::str::from_utf8(name).expect("a name is ASCII"))
}

/// What weighing gives.
#[derive(Clone, Debug, PartialEq, Eq)]
pub struct Weighing {
    /// The bound L/t of each row.
    pub bounds: Vec<Fraction>,
    /// The greatest bound.
    pub load: Fraction,
    /// The first row that has it, counted from 1.
    pub row: u64,
}

/// The bounds and the load of rows set by hand, lowest priority first. Refusals 12, then 13.
///
/// ```
/// use planner::{Fraction, Row};
///
/// let card = Row { period: 20, budget: 3, holding: 2 };
/// let print = Row { period: 10, budget: 3, holding: 3 };
/// let weighing = planner::weigh(&[card, print])?;
/// assert_eq!(weighing.load, Fraction { num: 17, den: 20 });
/// assert_eq!(weighing.row, 1);
/// # Ok::<(), planner::Refusal>(())
/// ```
pub fn weigh(rows: &[Row]) -> Result<Weighing, Refusal> {
    // SAFETY: pointer and count are those of a slice, which is never null.
    let answer = unsafe { raw::planner_weigh_slice(rows.as_ptr(), rows.len()) };
    settled(answer.number, answer.place)?;
    Ok(Weighing {
        bounds: answer.bounds[..rows.len()].to_vec(),
        load: answer.load,
        row: answer.row,
    })
}

/// What a budget of `budget` in every `period` ticks supplies in `time` ticks: the fewest ticks that
/// the part gets in so many in a row, wherever these start and wherever in each period its budget
/// comes. Refusal 12.
///
/// ```
/// assert_eq!(planner::supply(20, 3, 40)?, 3);
/// assert_eq!(planner::supply(20, 21, 40).unwrap_err().number, 12);
/// # Ok::<(), planner::Refusal>(())
/// ```
pub fn supply(period: u64, budget: u64, time: u64) -> Result<u64, Refusal> {
    // SAFETY: only numbers are handed over.
    let answer = unsafe { raw::planner_supply(period, budget, time) };
    settled(answer.number, answer.place)?;
    Ok(answer.ticks)
}
