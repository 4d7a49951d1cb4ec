//! A climb: the least time at which a demand is met. Each step goes to where the demand at a time
//! is met; from the ninth step on some steps jump along lines that the demand is not below.

use crate::local::{demand, releases, time_of_supply, Recurs};

/// A slope of a tick in every tick.
pub const SCALE: u64 = DIGIT * DIGIT;

/// The root of `SCALE`.
const DIGIT: u64 = 1 << 14;

/// Steps before the first jump.
const FIRST_STEPS: u64 = 8;

/// What something asks for of every tick, rounded down.
pub fn share(period: u64, cost: u64) -> u64 {
    cost * SCALE / period
}

/// How a demand is met.
pub trait Supply {
    /// The first time at which a demand of `need` ≥ 1 is met.
    fn time_of(&self, need: u64) -> u64;

    /// A linear supply that is nowhere below this one.
    fn linear(&self) -> Linear;
}

/// A demand of x is met by the time t if `times`·x + `wait` ≤ `rate`·t.
#[derive(Clone, Copy)]
pub struct Linear {
    pub times: u64,
    pub wait: u64,
    pub rate: u64,
}

impl Supply for Linear {
    fn time_of(&self, need: u64) -> u64 {
        (self.times * need + self.wait).div_ceil(self.rate)
    }

    fn linear(&self) -> Linear {
        *self
    }
}

/// Every tick.
pub struct Processor;

impl Supply for Processor {
    fn time_of(&self, need: u64) -> u64 {
        need
    }

    fn linear(&self) -> Linear {
        Linear {
            times: 1,
            wait: 0,
            rate: 1,
        }
    }
}

/// A budget in every server period.
pub struct Server {
    pub period: u64,
    pub budget: u64,
}

impl Supply for Server {
    fn time_of(&self, need: u64) -> u64 {
        time_of_supply(self.period, self.budget, need)
    }

    fn linear(&self) -> Linear {
        Linear {
            times: self.period,
            wait: self.budget * (self.period - self.budget),
            rate: self.budget,
        }
    }
}

/// The least time from `start` up to `limit` at which `own` and what those above ask for is met.
pub(crate) fn first_met<R: Recurs>(
    above: &[R],
    own: u64,
    supply: &impl Supply,
    start: u64,
    limit: u64,
) -> Option<u64> {
    let mut time = start;
    let mut steps = FIRST_STEPS;
    while time <= limit {
        let need = own + demand(above, time);
        if need > limit {
            return None;
        }
        let next = supply.time_of(need);
        if next <= time {
            return Some(time);
        }
        if steps > 0 {
            steps -= 1;
            time = next;
        } else {
            // Jumps at equal distances could keep step with the demand.
            time = jump(above, own, &supply.linear(), time, next, limit);
            steps = time / 16 % 8;
        }
    }
    None
}

/// The end of the stretch of times, up to `most`, in which those above ask for as much as by `time`.
pub(crate) fn same_until<R: Recurs>(above: &[R], time: u64, most: u64) -> u64 {
    let next = |one: &R| releases(time, one.period()) * one.period();
    above.iter().map(next).fold(most, u64::min)
}

/// A time from `next` on that no time at which the demand is met is before, where none from `time`
/// to `next` is. Each turn takes the line that is highest where the last one was met.
#[cold]
fn jump<R: Recurs>(
    above: &[R],
    own: u64,
    supply: &Linear,
    time: u64,
    next: u64,
    limit: u64,
) -> u64 {
    let mut far = next;
    while far <= limit {
        let met = Line::under(above, own, time, far).met(supply);
        if met <= far {
            break;
        }
        far = met;
    }
    far
}

/// A straight line: `fixed` ticks, and `slope` ticks more in every `SCALE`.
struct Line {
    fixed: u64,
    slope: u64,
}

impl Line {
    /// A line that `own` and the demand are not below from `time` on. Those that come again before
    /// `far` are in the slope; of the others it counts what they ask for by `time`.
    fn under<R: Recurs>(above: &[R], own: u64, time: u64, far: u64) -> Self {
        let mut line = Line {
            fixed: own,
            slope: 0,
        };
        for one in above {
            let times = releases(time, one.period());
            if far <= times * one.period() {
                line.fixed += times * one.cost();
            } else {
                line.slope += share(one.period(), one.cost());
            }
        }
        // A tick in every tick or more is as steep as any.
        line.slope = line.slope.min(SCALE - 1);
        line
    }

    /// A time before which the line is not met; `SCALE`, past every limit, if there is none up to
    /// that.
    fn met(&self, supply: &Linear) -> u64 {
        let asked = supply.times * self.fixed + supply.wait;
        let given = supply.rate * SCALE;
        let taken = supply.times * self.slope;
        if given <= taken + asked {
            return SCALE;
        }
        scaled(asked, given - taken)
    }
}

/// `SCALE`·a/d for a below d, rounded down: in two digits, as the product could exceed 64 bits.
fn scaled(a: u64, d: u64) -> u64 {
    let first = a * DIGIT;
    first / d * DIGIT + first % d * DIGIT / d
}
