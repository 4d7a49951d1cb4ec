//! Bounds of rows, and the selection of least load.

use super::climb::{first_met, same_until, Linear};
use crate::local::{demand, Recurs};
use crate::system::{Bound, Candidates, Row, Weighing};

/// The choice of least load, and among those the one with the greatest holding times; nothing if
/// no choice passes.
///
/// Starts from the greatest holding times and descends. Along a kept list the sum rises while the
/// holding time falls, so a row that is not below the least load so far gets there only if its
/// blocking falls: the first part that causes it moves on to its next pair.
pub fn select(parts: &[Candidates]) -> Option<(Vec<Row>, Weighing)> {
    let mut positions = vec![0; parts.len()];
    let mut rows: Vec<Summed> = parts
        .iter()
        .map(|part| part.row(0).map(Summed::from))
        .collect::<Option<_>>()?;
    let mut best = Vec::new();
    let mut least = None;
    loop {
        let blocking = match stuck(&rows, least) {
            Some(blocking) => blocking,
            None => {
                let (load, blocking) = heaviest(&rows)?;
                least = Some(load);
                best.clone_from(&rows);
                blocking
            }
        };
        let Some(part) = rows.iter().position(|row| row.holding == blocking) else {
            break;
        };
        positions[part] += 1;
        match parts[part].row(positions[part]) {
            Some(row) => rows[part] = row.into(),
            None => break,
        }
    }
    least?;
    let weighing = weigh(&best)?;
    Some((best.into_iter().map(Row::from).collect(), weighing))
}

/// A row with the sum of its budget and its holding time in place of the budget.
#[derive(Clone, Copy)]
struct Summed {
    period: u64,
    sum: u64,
    holding: u64,
}

impl From<Row> for Summed {
    fn from(row: Row) -> Self {
        Summed {
            period: row.period,
            sum: row.cost(),
            holding: row.holding,
        }
    }
}

impl From<Summed> for Row {
    fn from(row: Summed) -> Self {
        Row {
            period: row.period,
            budget: row.sum - row.holding,
            holding: row.holding,
        }
    }
}

impl Recurs for Summed {
    fn period(&self) -> u64 {
        self.period
    }

    fn cost(&self) -> u64 {
        self.sum
    }
}

/// Each row's L(t) and its blocking, lowest first.
fn demands(rows: &[Summed]) -> impl Iterator<Item = (Demand<'_>, u64)> {
    let mut below = 0;
    rows.iter().enumerate().map(move |(index, row)| {
        let blocking = below;
        below = below.max(row.holding);
        let demand = Demand {
            own: row.sum + blocking,
            period: row.period,
            above: &rows[index + 1..],
        };
        (demand, blocking)
    })
}

/// The blocking of the first row whose bound is not below the least load so far.
fn stuck(rows: &[Summed], least: Option<Bound>) -> Option<u64> {
    let stuck = demands(rows).find(|(demand, _)| !demand.is_below(least));
    stuck.map(|(_, blocking)| blocking)
}

/// The load, and the blocking of the last row that reaches it. After the first row only those that
/// reach the greatest bound so far have theirs worked out.
fn heaviest(rows: &[Summed]) -> Option<(Bound, u64)> {
    let mut heaviest = None;
    for (demand, blocking) in demands(rows) {
        let greatest = heaviest.map(|(bound, _)| bound);
        if greatest.is_none() || !demand.is_below(greatest) {
            heaviest = Some((demand.bound()?, blocking));
        }
    }
    heaviest
}

/// Every row's bound, and the first row that reaches the greatest.
fn weigh(rows: &[Summed]) -> Option<Weighing> {
    let bounds: Vec<Bound> = demands(rows)
        .map(|(demand, _)| demand.bound())
        .collect::<Option<_>>()?;
    let mut row = 0;
    for (index, bound) in bounds.iter().enumerate() {
        if bound.exceeds(&bounds[row]) {
            row = index;
        }
    }
    Some(Weighing { bounds, row })
}

/// L(t) of one row, for t up to its period.
struct Demand<'r> {
    /// The row's own sum and its blocking.
    own: u64,
    period: u64,
    above: &'r [Summed],
}

impl Demand<'_> {
    fn at(&self, time: u64) -> Bound {
        Bound {
            demand: self.own + demand(self.above, time),
            time,
        }
    }

    fn first(&self, supply: &Linear, start: u64) -> Option<u64> {
        first_met(self.above, self.own, supply, start, self.period)
    }

    /// Is the row's bound below this one? Without one: has it a bound?
    fn is_below(&self, bound: Option<Bound>) -> bool {
        let supply = match bound {
            Some(Bound { demand, time }) => Linear {
                times: time,
                wait: 1,
                rate: demand,
            },
            None => Linear {
                times: 1,
                wait: 0,
                rate: 1,
            },
        };
        self.first(&supply, 1).is_some()
    }

    /// The least L(t)/t among the times with L(t) ≤ t, with the smallest such t. As long as L
    /// stays the same the ratio falls, so only the ends of such stretches count.
    ///
    /// Each turn looks for the next time that reaches a ratio which a later time attains, or, with
    /// `wait`, that is below the least so far.
    fn bound(&self) -> Option<Bound> {
        let mut best = self.likely();
        let mut wait = 0;
        let mut last = 0;
        loop {
            let supply = Linear {
                times: best.time,
                wait,
                rate: best.demand,
            };
            let Some(time) = self.first(&supply, last + 1) else {
                return (wait > 0).then_some(best);
            };
            let end = same_until(self.above, time, self.period);
            best = self.further(self.at(end), end - last);
            wait = u64::from(best.time == end);
            last = end;
        }
    }

    /// The ratio of a likely time: the period, or the last time up to it at which a row above comes
    /// again; 1 if none is smaller.
    fn likely(&self) -> Bound {
        let one = Bound { demand: 1, time: 1 };
        let mut best = self.better(one, self.period);
        for row in self.above {
            best = self.better(best, (self.period / row.period * row.period).max(1));
        }
        best
    }

    /// The ratio of a time that is some strides further than this one, if it is smaller: as many as
    /// there are up to the period, half as many, .. down to one. Ratios often fall along equal
    /// strides.
    fn further(&self, from: Bound, stride: u64) -> Bound {
        let mut best = from;
        let mut strides = (self.period - from.time) / stride;
        while strides > 0 {
            best = self.better(best, from.time + strides * stride);
            strides /= 2;
        }
        best
    }

    /// The smaller of a ratio and that at the time, which counts only if it is at most 1.
    fn better(&self, best: Bound, time: u64) -> Bound {
        let bound = self.at(time);
        if bound.demand <= time && best.exceeds(&bound) {
            bound
        } else {
            best
        }
    }
}
