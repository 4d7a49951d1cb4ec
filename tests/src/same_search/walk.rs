//! The kept list of one part: settings in falling holding time X, each with its least budget.

use super::climb::{first_met, same_until, Processor, Server};
use crate::file::{Part, Task, LARGEST_NUMBER, MOST_LOCKS, MOST_TASKS};
use crate::local::{blockings, demand, keep, time_of_supply, Pair, Usage};

/// A part with its locks.
pub struct Walk<'p> {
    part: &'p Part<'p>,
    locks: Vec<Usage>,
}

/// The ceilings of the locks, their holding times as far as they are known, and the blocking of
/// each task. A private lock keeps its lowest ceiling, and its holding time counts as 0.
struct Setting {
    ceilings: [usize; MOST_LOCKS],
    times: [Option<u64>; MOST_LOCKS],
    blockings: [u64; MOST_TASKS],
}

/// A ceiling and the holding time there.
#[derive(Clone, Copy)]
struct Held {
    ceiling: usize,
    time: u64,
}

/// What the search for a lock's ceiling found: from the ceiling `from` on, the lock is held for
/// more than `most` below the ceiling found. Another one that is used for no shorter is held no
/// shorter.
#[derive(Clone, Copy)]
struct Hint {
    longest: u64,
    most: u64,
    from: usize,
    held: Held,
}

impl Hint {
    /// Where the search for the ceiling of this lock begins, from `from` on, if the hint serves.
    fn begin(&self, lock: &Usage, from: usize, most: u64) -> Option<Held> {
        let serves = self.longest <= lock.longest
            && most <= self.most
            && self.from <= from
            && from <= self.held.ceiling;
        serves.then_some(Held {
            ceiling: self.held.ceiling,
            time: self.held.time.max(lock.longest),
        })
    }
}

impl<'p> Walk<'p> {
    pub fn new(part: &'p Part<'p>) -> Self {
        let locks = (0..part.locks.len()).map(|lock| Usage::of(part, lock));
        Walk {
            part,
            locks: locks.collect(),
        }
    }

    /// The kept list, in falling holding time; empty if no permitted setting has a budget.
    pub fn candidates(&self) -> Vec<Pair> {
        let mut kept = Vec::new();
        let mut setting = self.lowest_setting();
        let mut tested = None;
        let mut budget = 1;
        let mut most = LARGEST_NUMBER;
        while let Some(holding) = self.raise(&mut setting, most) {
            if tested != Some(setting.blockings) {
                match self.least_budget(&setting.blockings, tested.as_ref(), budget) {
                    Some(least) => budget = least,
                    None => break,
                }
                tested = Some(setting.blockings);
            }
            keep(&mut kept, Pair { budget, holding });
            if holding == 0 {
                break;
            }
            most = holding - 1;
        }
        kept
    }

    /// Is there a kept pair? The lowest ceilings block least, and a setting under which a budget
    /// passes is permitted.
    pub fn has_pair(&self) -> bool {
        let setting = self.lowest_setting();
        self.least_budget(&setting.blockings, None, 1).is_some()
    }

    /// The ceilings shown for a pair: lock by lock the lowest permitted one whose holding time is
    /// at most `most`.
    pub fn ceilings(&self, most: u64) -> impl Iterator<Item = usize> + '_ {
        let mut hint = None;
        let locks = self.locks.iter().zip(self.part.shared);
        locks.filter_map(move |(lock, shared)| {
            let lowest = lock.lowest_ceiling;
            if !shared {
                return Some(lowest);
            }
            let held = self.lowest_held(lock, lowest, most, &mut hint)?;
            Some(held.ceiling)
        })
    }

    fn lowest_setting(&self) -> Setting {
        let mut setting = Setting {
            ceilings: [0; MOST_LOCKS],
            times: [Some(0); MOST_LOCKS],
            blockings: [0; MOST_TASKS],
        };
        for (index, lock) in self.locks.iter().enumerate() {
            setting.ceilings[index] = lock.lowest_ceiling;
            if self.part.shared[index] {
                setting.times[index] = None;
            }
        }
        setting.blockings = blockings(self.part, &setting.ceilings[..self.locks.len()]);
        setting
    }

    /// Raises the ceilings whose holding time exceeds `most`, each as little as needed, and tells
    /// the part's holding time; nothing if for some lock the top does not do.
    fn raise(&self, setting: &mut Setting, most: u64) -> Option<u64> {
        let mut holding = 0;
        let mut hint = None;
        let settings = setting.ceilings.iter_mut().zip(&mut setting.times);
        for (lock, (ceiling, time)) in self.locks.iter().zip(settings) {
            let from = match *time {
                Some(time) if time <= most => {
                    holding = holding.max(time);
                    continue;
                }
                Some(_) => *ceiling + 1,
                None => *ceiling,
            };
            let held = self.lowest_held(lock, from, most, &mut hint)?;
            // All users of the lock are below the tasks that it blocks now too.
            for blocking in &mut setting.blockings[*ceiling..held.ceiling] {
                *blocking = lock.longest.max(*blocking);
            }
            *ceiling = held.ceiling;
            *time = Some(held.time);
            holding = holding.max(held.time);
        }
        Some(holding)
    }

    /// The lowest ceiling from `from` on at which the lock is held for at most `most`.
    fn lowest_held(
        &self,
        lock: &Usage,
        from: usize,
        most: u64,
        hint: &mut Option<Hint>,
    ) -> Option<Held> {
        let tasks = &self.part.tasks;
        let most = most.min(lock.limit);
        let begin = hint.and_then(|hint| hint.begin(lock, from, most));
        let mut start = begin.map_or(lock.longest, |begin| begin.time);
        for ceiling in begin.map_or(from, |begin| begin.ceiling)..=tasks.len() {
            let above = &tasks[ceiling..];
            if let Some(time) = first_met(above, lock.longest, &Processor, start, most) {
                let held = Held { ceiling, time };
                *hint = Some(Hint {
                    longest: lock.longest,
                    most,
                    from,
                    held,
                });
                return Some(held);
            }
            start = lock.longest;
        }
        None
    }

    /// The least budget from `budget` on with which all tasks pass, highest first. A task that was
    /// tested with the same blocking passes.
    fn least_budget(
        &self,
        blockings: &[u64; MOST_TASKS],
        tested: Option<&[u64; MOST_TASKS]>,
        mut budget: u64,
    ) -> Option<u64> {
        let tasks = &self.part.tasks;
        // No task has its need met earlier than the one above it: with its blocking it asks for no
        // less than that one's blocking. With the budget no need is met before `time`.
        let mut time = 1;
        for (index, task) in tasks.iter().enumerate().rev() {
            let blocking = blockings[index];
            if tested.is_none_or(|tested| tested[index] != blocking) {
                let test = Test {
                    own: task.execution + blocking,
                    above: &tasks[index + 1..],
                    deadline: task.deadline,
                    period: self.part.period,
                };
                (budget, time) = test.least_budget(budget, time)?;
            }
        }
        Some(budget)
    }
}

/// The local test of one task.
struct Test<'p> {
    /// The task's execution time and its blocking.
    own: u64,
    above: &'p [Task<'p>],
    deadline: u64,
    period: u64,
}

impl Test<'_> {
    /// The least time from `start` up to the deadline at which the budget covers the need.
    fn passing_time(&self, budget: u64, start: u64) -> Option<u64> {
        let period = self.period;
        let server = Server { period, budget };
        first_met(self.above, self.own, &server, start, self.deadline)
    }

    /// The least budget from `budget` on, and a time before which the need is not met with it;
    /// with `budget` it is not met before `start`.
    fn least_budget(&self, budget: u64, start: u64) -> Option<(u64, u64)> {
        if let Some(time) = self.passing_time(budget, start) {
            return Some((budget, time));
        }
        // The deadline is a likely time to pass at. A budget past the period stands for none.
        let past = self.period + 1;
        let mut low = budget + 1;
        let mut high = self.enough_at(self.deadline, low, past);
        // With `high` the need is not met before `time`, with those from `low` up to it not before
        // `begin`.
        let (mut time, mut begin) = (1, 1);
        let mut halve = false;
        while low < high {
            let next = if halve {
                low + (high - low) / 2
            } else {
                high - 1
            };
            halve = !halve;
            match self.passing_time(next, begin) {
                Some(passing) => {
                    let end = same_until(self.above, passing, self.deadline);
                    high = self.enough_at(end, low, next);
                    time = passing;
                    begin = end + 1;
                }
                None => low = next + 1,
            }
        }
        (high < past).then_some((high, time))
    }

    /// The least budget from `low` up to `high`, without it, that covers the need at that time;
    /// `high` if none does.
    fn enough_at(&self, time: u64, mut low: u64, mut high: u64) -> u64 {
        if time < self.own {
            return high;
        }
        let need = self.own + demand(self.above, time);
        if time < need {
            return high;
        }
        while low < high {
            let middle = low + (high - low) / 2;
            if time_of_supply(self.period, middle, need) <= time {
                high = middle;
            } else {
                low = middle + 1;
            }
        }
        high
    }
}
