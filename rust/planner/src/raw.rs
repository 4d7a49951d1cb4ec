//! The C interface as it is: `include/planner.h`, struct by struct and call by call. For callers
//! that must not allocate, or that want an answer's every number.
//!
//! An answer has number and place 0, or those of a refusal; then every other number in it is 0.
//! Unused places of its lists are 0 too.
//!
//! ```
//! use planner::raw;
//!
//! // SAFETY: only numbers are handed over.
//! let answer = unsafe { raw::planner_supply(20, 3, 40) };
//! assert_eq!((answer.number, answer.place, answer.ticks), (0, 0, 3));
//! ```

use crate::{MOST_PAIRS, MOST_ROWS};

/// The answer of [`planner_plan`] and [`planner_chart`].
#[repr(C)]
#[derive(Clone, Copy, Debug, PartialEq, Eq)]
pub struct PlanAnswer {
    /// Number of the refusal, 0 if there is none.
    pub number: u64,
    /// Place of the refusal.
    pub place: u64,
    /// Bytes of the listing or of the chart.
    pub written: usize,
}

/// A budget and a holding time that belong together.
#[repr(C)]
#[derive(Clone, Copy, Debug, Default, PartialEq, Eq)]
pub struct Pair {
    /// Budget Q.
    pub budget: u64,
    /// Holding time X.
    pub holding: u64,
}

/// The answer of [`planner_candidates`].
#[repr(C)]
#[derive(Clone, Copy, Debug, PartialEq, Eq)]
pub struct CandidatesAnswer {
    /// Number of the refusal, 0 if there is none.
    pub number: u64,
    /// Place of the refusal.
    pub place: u64,
    /// The kept list, in its first `count` places.
    pub pairs: [Pair; MOST_PAIRS],
    /// How many pairs there are.
    pub count: usize,
}

/// The answer of [`planner_name`].
#[repr(C)]
#[derive(Clone, Copy, Debug, PartialEq, Eq)]
pub struct NameAnswer {
    /// Number of the refusal, 0 if there is none.
    pub number: u64,
    /// Place of the refusal.
    pub place: u64,
    /// Where in the file the name begins.
    pub start: usize,
    /// How many bytes it has.
    pub length: usize,
}

/// A part's period, budget and holding time.
#[repr(C)]
#[derive(Clone, Copy, Debug, Default, PartialEq, Eq)]
pub struct Row {
    /// Period P.
    pub period: u64,
    /// Budget Q.
    pub budget: u64,
    /// Holding time X.
    pub holding: u64,
}

/// Rows by value, for [`planner_weigh`].
#[repr(C)]
#[derive(Clone, Copy, Debug, PartialEq, Eq)]
pub struct Rows {
    /// The rows, in the first `count` places.
    pub rows: [Row; MOST_ROWS],
    /// How many rows there are.
    pub count: usize,
}

/// A bound L/t, not reduced.
#[repr(C)]
#[derive(Clone, Copy, Debug, Default, PartialEq, Eq)]
pub struct Fraction {
    /// L: what is asked for within t ticks.
    pub num: u64,
    /// t: these ticks.
    pub den: u64,
}

/// The answer of [`planner_weigh`] and [`planner_weigh_slice`].
#[repr(C)]
#[derive(Clone, Copy, Debug, PartialEq, Eq)]
pub struct WeighAnswer {
    /// Number of the refusal, 0 if there is none.
    pub number: u64,
    /// Place of the refusal.
    pub place: u64,
    /// The bound of each row.
    pub bounds: [Fraction; MOST_ROWS],
    /// The greatest bound.
    pub load: Fraction,
    /// The first row that has it, counted from 1.
    pub row: u64,
}

/// The answer of [`planner_supply`].
#[repr(C)]
#[derive(Clone, Copy, Debug, PartialEq, Eq)]
pub struct SupplyAnswer {
    /// Number of the refusal, 0 if there is none.
    pub number: u64,
    /// Place of the refusal.
    pub place: u64,
    /// The supply.
    pub ticks: u64,
}

extern "C" {
    /// The plan of a file, written to `out`.
    ///
    /// # Safety
    ///
    /// `file` and `out` are not null, `length` bytes can be read from `file` and nobody writes to
    /// them meanwhile, `room` bytes can be written to `out` and nobody else uses them meanwhile, and
    /// the two do not overlap.
    pub fn planner_plan(file: *const u8, length: usize, out: *mut u8, room: usize) -> PlanAnswer;

    /// The chart of the plan of a file, written to `out`.
    ///
    /// # Safety
    ///
    /// As of [`planner_plan`].
    pub fn planner_chart(file: *const u8, length: usize, out: *mut u8, room: usize) -> PlanAnswer;

    /// The kept list of a part, counted from 1.
    ///
    /// # Safety
    ///
    /// `file` is not null, `length` bytes can be read from it, and nobody writes to them meanwhile.
    pub fn planner_candidates(file: *const u8, length: usize, part: usize) -> CandidatesAnswer;

    /// Where the name of a part, counted from 1, is in the file.
    ///
    /// # Safety
    ///
    /// `file` is not null, `length` bytes can be read from it, and nobody writes to them meanwhile.
    pub fn planner_name(file: *const u8, length: usize, part: usize) -> NameAnswer;

    /// The bounds and the load of rows.
    ///
    /// # Safety
    ///
    /// Nothing is asked of the rows.
    pub fn planner_weigh(rows: Rows) -> WeighAnswer;

    /// The bounds and the load of rows in a list of any length.
    ///
    /// # Safety
    ///
    /// `rows` is not null, `count` rows can be read from it, and nobody writes to them meanwhile.
    pub fn planner_weigh_slice(rows: *const Row, count: usize) -> WeighAnswer;

    /// What a budget supplies.
    ///
    /// # Safety
    ///
    /// Nothing is asked of the numbers.
    pub fn planner_supply(period: u64, budget: u64, time: u64) -> SupplyAnswer;
}
