//! The system test: rows, bounds, loads, weighing, and the selection of least load.

use crate::file::{LARGEST_NUMBER, MOST_PARTS};
use crate::local::{releases, Pair, Recurs};
use crate::{refuse, Refusal};

/// A part's period, budget and holding time. Later rows have higher priority.
#[derive(Clone, Copy, Debug, PartialEq, Eq)]
pub struct Row {
    pub period: u64,
    pub budget: u64,
    pub holding: u64,
}

impl From<(u64, u64, u64)> for Row {
    fn from((period, budget, holding): (u64, u64, u64)) -> Self {
        Row {
            period,
            budget,
            holding,
        }
    }
}

impl Row {
    fn sum(&self) -> u64 {
        self.budget + self.holding
    }
}

impl Recurs for Row {
    fn period(&self) -> u64 {
        self.period
    }

    fn cost(&self) -> u64 {
        self.sum()
    }
}

/// A row's bound as the fraction L/t.
#[derive(Clone, Copy, Debug, PartialEq, Eq)]
pub struct Bound {
    pub demand: u64,
    pub time: u64,
}

impl Bound {
    pub fn exceeds(&self, other: &Bound) -> bool {
        self.demand * other.time > other.demand * self.time
    }
}

/// Every row's bound, and the first row that reaches the greatest, from 0.
#[derive(Clone, Debug, PartialEq, Eq)]
pub struct Weighing {
    pub bounds: Vec<Bound>,
    pub row: usize,
}

impl Weighing {
    pub fn load(&self) -> Bound {
        self.bounds[self.row]
    }
}

/// Weighs rows set by hand. Questions 12 and 13.
pub fn weigh(rows: &[Row]) -> Result<Weighing, Refusal> {
    if !(1..=MOST_PARTS).contains(&rows.len()) {
        return refuse(12, 0);
    }
    let in_range = |row: &Row| {
        1 <= row.budget
            && row.budget <= row.period
            && row.period <= LARGEST_NUMBER
            && row.holding <= LARGEST_NUMBER
    };
    if let Some(index) = rows.iter().position(|row| !in_range(row)) {
        return refuse(12, index + 1);
    }
    bounds(rows).or_else(|failing| refuse(13, failing + 1))
}

/// Bounds and load of the rows, or the first row that has no time t.
fn bounds(rows: &[Row]) -> Result<Weighing, usize> {
    let mut weighing = Weighing {
        bounds: Vec::with_capacity(rows.len()),
        row: 0,
    };
    for index in 0..rows.len() {
        let bound = Demand::of(rows, index).bound().ok_or(index)?;
        weighing.bounds.push(bound);
        if bound.exceeds(&weighing.load()) {
            weighing.row = index;
        }
    }
    Ok(weighing)
}

/// The load alone and its row, or a row that has no time t. The bound of a row is worked out only
/// if it exceeds those before.
fn load(rows: &[Row]) -> Result<(usize, Bound), usize> {
    let mut load: Option<(usize, Bound)> = None;
    for index in 0..rows.len() {
        let demand = Demand::of(rows, index);
        if !load.is_some_and(|(_, bound)| demand.is_within(&bound)) {
            load = Some((index, demand.bound().ok_or(index)?));
        }
    }
    load.ok_or(0)
}

/// The greatest holding time of the rows below.
fn blocking(rows: &[Row], index: usize) -> u64 {
    let below = rows[..index].iter().map(|row| row.holding);
    below.max().unwrap_or(0)
}

/// L(t) of one row, for t up to its period. Fifteen rows (1,1,1000000) above it ask for the most by
/// 1,000,000: L(t) is below 2^44, and its product with a time, below 2^20, fits 64 bits.
struct Demand<'r> {
    /// The row's own sum and its blocking.
    own: u64,
    period: u64,
    higher: &'r [Row],
}

impl<'r> Demand<'r> {
    fn of(rows: &'r [Row], index: usize) -> Self {
        Demand {
            own: rows[index].sum() + blocking(rows, index),
            period: rows[index].period,
            higher: &rows[index + 1..],
        }
    }

    /// L(t), and the last time up to which it stays the same.
    fn at(&self, time: u64) -> (u64, u64) {
        let mut demand = self.own;
        let mut end = self.period;
        for row in self.higher {
            let releases = releases(time, row.period);
            demand += releases * row.sum();
            end = end.min(releases * row.period);
        }
        (demand, end)
    }

    /// The first time t from `start` up to the period with `enough`(L(t)) ≤ t, where `enough` is
    /// the least time at which a demand is small enough. Each turn jumps there.
    fn first(&self, start: u64, enough: impl Fn(u64) -> u64) -> Option<u64> {
        let mut time = start;
        while time <= self.period {
            let next = enough(self.at(time).0);
            if next <= time {
                return Some(time);
            }
            time = next;
        }
        None
    }

    /// The least L(t)/t among the times with L(t) ≤ t, with the smallest such t. As long as L
    /// stays the same the ratio falls, so only the ends of such stretches count.
    fn bound(&self) -> Option<Bound> {
        // The ratio at the period, if it will do, is a first one to reach.
        let (last, period) = (self.at(self.period).0, self.period);
        let mut start = if last <= period {
            self.first(self.own, |demand| (demand * period).div_ceil(last))?
        } else {
            self.first(self.own, |demand| demand)?
        };
        loop {
            let (demand, time) = self.at(start);
            match self.first(time + 1, |other| other * time / demand + 1) {
                Some(better) => start = better,
                None => return Some(Bound { demand, time }),
            }
        }
    }

    /// Is the row's bound below this one?
    fn is_below(&self, Bound { demand, time }: &Bound) -> bool {
        self.first(self.own, |other| other * time / demand + 1)
            .is_some()
    }

    /// Is the row's bound at most this one?
    fn is_within(&self, Bound { demand, time }: &Bound) -> bool {
        self.first(self.own, |other| (other * time).div_ceil(*demand))
            .is_some()
    }
}

/// A part's period and kept list.
#[derive(Clone, Debug, PartialEq, Eq)]
pub struct Candidates {
    pub period: u64,
    pub pairs: Vec<Pair>,
}

impl Candidates {
    pub(crate) fn row(&self, position: usize) -> Option<Row> {
        self.pairs.get(position).map(|pair| Row {
            period: self.period,
            budget: pair.budget,
            holding: pair.holding,
        })
    }
}

/// The choice of least load, and among those the one with the greatest holding times; nothing if
/// no choice passes.
///
/// Starts from the greatest holding times and descends. Along a kept list the sum rises while the
/// holding time falls, so a row that is not below the best load gets there only if its blocking
/// falls: every lower part that causes this blocking has to move on to its next pair.
pub fn select(parts: &[Candidates]) -> Option<(Vec<Row>, Weighing)> {
    let mut positions = vec![0; parts.len()];
    let mut rows: Vec<Row> = parts
        .iter()
        .map(|part| part.row(0))
        .collect::<Option<_>>()?;
    let mut best: Option<(Vec<Row>, Bound)> = None;
    'descent: loop {
        let row = match stuck(&rows, best.as_ref().map(|(_, bound)| bound)) {
            Some(row) => row,
            None => match load(&rows) {
                Ok((row, bound)) => {
                    best = Some((rows.clone(), bound));
                    row
                }
                Err(row) => row,
            },
        };
        let blocking = blocking(&rows, row);
        if blocking == 0 {
            break;
        }
        for part in 0..row {
            if rows[part].holding == blocking {
                positions[part] += 1;
                match parts[part].row(positions[part]) {
                    Some(next) => rows[part] = next,
                    None => break 'descent,
                }
            }
        }
    }
    let (rows, _) = best?;
    let weighing = bounds(&rows).ok()?;
    Some((rows, weighing))
}

/// A row whose bound is not below the best load so far.
fn stuck(rows: &[Row], best: Option<&Bound>) -> Option<usize> {
    let best = best?;
    (0..rows.len())
        .rev()
        .find(|&row| !Demand::of(rows, row).is_below(best))
}
