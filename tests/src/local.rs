//! The local test of one part: supply, holding times, blocking, the least budget, and the search
//! for the kept list.
//!
//! The search walks the settings that matter in falling holding time X. For a limit x the lowest
//! ceilings whose holding times keep within x block least, so no other setting within x needs a
//! smaller budget. It starts without a limit; the next limit is X − 1. Ceilings only rise on the
//! way, so blockings and the least budget only rise too. A private lock takes no part in this: it
//! keeps its lowest ceiling, and its holding time counts as 0.

use crate::file::{Part, Task, MOST_TASKS};

/// Ticks that a budget gives at least in any `time` ticks.
pub fn supply(period: u64, budget: u64, time: u64) -> u64 {
    let gap = period - budget;
    let k = time.saturating_sub(gap).div_ceil(period).max(1);
    let full = (k + 1) * period;
    if full - 2 * budget <= time && time <= full - budget {
        time - (k + 1) * gap
    } else {
        (k - 1) * budget
    }
}

/// The inverse of supply: the first time at which `need` ≥ 1 ticks are given.
pub(crate) fn time_of_supply(period: u64, budget: u64, need: u64) -> u64 {
    need + ((need - 1) / budget + 2) * (period - budget)
}

/// A budget with the part's holding time, (Q,X).
#[derive(Clone, Copy, Debug, PartialEq, Eq)]
pub struct Pair {
    pub budget: u64,
    pub holding: u64,
}

impl Pair {
    pub fn sum(&self) -> u64 {
        self.budget + self.holding
    }
}

/// Keeps a pair with a smaller holding time than those before, and drops those that it beats.
pub(crate) fn keep(kept: &mut Vec<Pair>, pair: Pair) {
    while kept.last().is_some_and(|last| last.sum() >= pair.sum()) {
        kept.pop();
    }
    kept.push(pair);
}

/// How the tasks of a part use one of its locks. Ceilings are task numbers, from 1.
#[derive(Clone, Copy)]
pub(crate) struct Usage {
    /// The lowest ceiling: the number of the highest user.
    pub lowest_ceiling: usize,
    /// The longest time for which a task holds the lock.
    pub longest: u64,
    /// The smallest deadline among the users: no longer may the lock be held.
    pub limit: u64,
}

impl Usage {
    pub fn of(part: &Part, lock: usize) -> Self {
        let mut usage = Usage {
            lowest_ceiling: 1,
            longest: 0,
            limit: u64::MAX,
        };
        for (number, task) in (1..).zip(&part.tasks) {
            if task.held[lock] > 0 {
                usage.lowest_ceiling = number;
                usage.longest = usage.longest.max(task.held[lock]);
                usage.limit = usage.limit.min(task.deadline);
            }
        }
        usage
    }
}

/// A lock in its part.
struct Lock {
    /// The lowest permitted ceiling; none is permitted if it is above the number of tasks.
    lowest: usize,
    /// The holding time at each permitted ceiling; 0 for a private lock.
    holding: [u64; MOST_TASKS + 1],
}

/// A part prepared for its search: the holding times of its locks are worked out.
pub struct Local<'p> {
    part: &'p Part<'p>,
    locks: Vec<Lock>,
}

/// The kept list of a part, in falling holding time; empty if no permitted setting has a budget.
pub fn candidates(part: &Part) -> Vec<Pair> {
    Local::new(part).candidates()
}

impl<'p> Local<'p> {
    pub fn new(part: &'p Part<'p>) -> Self {
        let locks = (0..part.locks.len()).map(|lock| Lock::new(part, lock));
        Local {
            part,
            locks: locks.collect(),
        }
    }

    /// The kept list, in falling holding time.
    pub fn candidates(&self) -> Vec<Pair> {
        let mut kept: Vec<Pair> = Vec::new();
        let Some(mut ceilings) = self.lowest_ceilings(u64::MAX) else {
            return kept;
        };
        let mut budget = 1;
        let mut tested: Option<[u64; MOST_TASKS]> = None;
        loop {
            let blockings = blockings(self.part, &ceilings);
            for task in (0..self.part.tasks.len()).rev() {
                if tested.is_none_or(|before| before[task] != blockings[task]) {
                    match self.least_budget(task, blockings[task], budget) {
                        Some(least) => budget = least,
                        None => return kept,
                    }
                }
            }
            tested = Some(blockings);
            let pair = Pair {
                budget,
                holding: self.holding(&ceilings),
            };
            keep(&mut kept, pair);
            if pair.holding == 0 || !self.raise(&mut ceilings, pair.holding - 1) {
                return kept;
            }
        }
    }

    /// The ceilings shown for a pair: lock by lock the lowest permitted one whose holding time is
    /// at most `limit`.
    pub fn ceilings(&self, limit: u64) -> Vec<usize> {
        self.lowest_ceilings(limit).unwrap_or_default()
    }

    fn lowest_ceilings(&self, limit: u64) -> Option<Vec<usize>> {
        let mut ceilings: Vec<usize> = self.locks.iter().map(|lock| lock.lowest).collect();
        self.raise(&mut ceilings, limit).then_some(ceilings)
    }

    /// Raises the ceilings whose holding time exceeds `limit`, each as little as needed; false if
    /// the top does not do.
    fn raise(&self, ceilings: &mut [usize], limit: u64) -> bool {
        let top = self.part.tasks.len();
        for (lock, ceiling) in self.locks.iter().zip(ceilings) {
            while *ceiling <= top && lock.holding[*ceiling] > limit {
                *ceiling += 1;
            }
            if *ceiling > top {
                return false;
            }
        }
        true
    }

    /// The part's holding time X under the ceilings.
    fn holding(&self, ceilings: &[usize]) -> u64 {
        let times = self
            .locks
            .iter()
            .zip(ceilings)
            .map(|(lock, &ceiling)| lock.holding[ceiling]);
        times.max().unwrap_or(0)
    }

    /// The least budget from `budget` on under which the task passes with this blocking.
    fn least_budget(&self, task: usize, blocking: u64, budget: u64) -> Option<u64> {
        let period = self.part.period;
        if self.passing_time(task, blocking, budget, 1).is_some() {
            return Some(budget);
        }
        // `low` fails; `high` passes, first at `time`, and smaller budgets pass no earlier.
        let mut low = budget;
        let mut high = period;
        let mut time = self.passing_time(task, blocking, high, 1)?;
        while high - low > 1 {
            let middle = low + (high - low) / 2;
            match self.passing_time(task, blocking, middle, time) {
                Some(earliest) => (high, time) = (middle, earliest),
                None => low = middle,
            }
        }
        Some(high)
    }

    /// The least time t from `start` up to the task's deadline at which the budget covers the
    /// task's need. Each turn jumps to where the need at t is covered.
    fn passing_time(&self, task: usize, blocking: u64, budget: u64, start: u64) -> Option<u64> {
        let (this, above) = (&self.part.tasks[task], &self.part.tasks[task + 1..]);
        let own = this.execution + blocking;
        let mut time = start;
        while time <= this.deadline {
            let need = own + demand(above, time);
            let covered = time_of_supply(self.part.period, budget, need);
            if covered <= time {
                return Some(time);
            }
            time = covered;
        }
        None
    }
}

impl Lock {
    /// Works out the holding times of a shared lock from the top ceiling down, until one exceeds
    /// the smallest deadline among the lock's users.
    fn new(part: &Part, lock: usize) -> Self {
        let tasks = &part.tasks;
        let Usage {
            lowest_ceiling,
            longest,
            limit,
        } = Usage::of(part, lock);
        let holding = [0; MOST_TASKS + 1];
        if !part.shared[lock] {
            return Lock {
                lowest: lowest_ceiling,
                holding,
            };
        }
        let mut found = Lock {
            lowest: tasks.len() + 1,
            holding,
        };
        let mut start = longest;
        for ceiling in (lowest_ceiling..=tasks.len()).rev() {
            // A lower ceiling has no smaller holding time: start from that of the higher one.
            match holding_time(longest, &tasks[ceiling..], start, limit) {
                Some(time) => {
                    start = time;
                    found.holding[ceiling] = time;
                    found.lowest = ceiling;
                }
                None => break,
            }
        }
        found
    }
}

/// The least w ≥ 1 with `longest` + Σ ⌈w/T⌉·C ≤ w over the tasks above the ceiling, if it is at
/// most `limit`; `start` is known to be no greater.
fn holding_time(longest: u64, above: &[Task], start: u64, limit: u64) -> Option<u64> {
    let mut w = start;
    while w <= limit {
        let next = longest + demand(above, w);
        if next <= w {
            return Some(w);
        }
        w = next;
    }
    None
}

/// Releases in `time` ≥ 1 ticks: ⌈time/separation⌉. Often there is one, and no need to divide.
pub fn releases(time: u64, separation: u64) -> u64 {
    if time <= separation {
        1
    } else {
        time.div_ceil(separation)
    }
}

/// What comes again and again, and asks for a cost each time.
pub(crate) trait Recurs {
    fn period(&self) -> u64;
    fn cost(&self) -> u64;
}

impl Recurs for Task<'_> {
    fn period(&self) -> u64 {
        self.separation
    }

    fn cost(&self) -> u64 {
        self.execution
    }
}

/// What these ask for in `time` ticks: of each less than `time` and its separation together.
pub(crate) fn demand<R: Recurs>(above: &[R], time: u64) -> u64 {
    above
        .iter()
        .map(|one| releases(time, one.period()) * one.cost())
        .sum()
}

/// The blocking of each task under the ceilings: the longest time for which a lower task holds a
/// lock whose ceiling is no lower than the task.
pub fn blockings(part: &Part, ceilings: &[usize]) -> [u64; MOST_TASKS] {
    let mut blockings = [0; MOST_TASKS];
    for (lock, &ceiling) in ceilings.iter().enumerate() {
        let mut longest = 0;
        for (task, blocking) in part.tasks.iter().zip(&mut blockings).take(ceiling) {
            *blocking = longest.max(*blocking);
            longest = longest.max(task.held[lock]);
        }
    }
    blockings
}
