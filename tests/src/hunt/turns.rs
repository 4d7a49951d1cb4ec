//! One search, counted in turns: the least w from `own` up with own + Σ ⌈w/T⌉·C ≤ w.

use std::cell::Cell;

use super::{
    changes::near,
    climb, ratio, separation_within,
    starts::{longest_first, tight_above},
    Part, Sketch, Task,
};
use crate::file::{LARGEST_NUMBER, MOST_LOCKS, MOST_PARTS, MOST_TASKS};
use crate::local::releases;
use crate::random::Random;

/// What is searched: what is asked for once, and the tasks as (T, C).
#[derive(Clone, Debug)]
pub struct Column {
    pub own: u64,
    /// Shorter separations have higher priority and come later.
    pub tasks: Vec<(u64, u64)>,
}

/// How a turn goes on.
#[derive(Clone, Copy, Debug, PartialEq, Eq)]
pub enum Search {
    /// To the demand at w.
    Plain,
    /// The first turns like that, then every other one to where a line under the demand is met.
    Lines,
}

/// Turns before the first line.
const PLAIN_TURNS: u64 = 8;

impl Column {
    fn demand(&self, time: u64) -> u64 {
        let asked = |&(t, c): &(u64, u64)| releases(time, t) * c;
        self.own + self.tasks.iter().map(asked).sum::<u64>()
    }

    /// The least w, if it is at most `limit`, and how many turns it takes to find out.
    pub fn search(&self, search: Search, limit: u64) -> (Option<u64>, u64) {
        let (mut time, mut turns) = (self.own, 0);
        let mut plain = PLAIN_TURNS;
        while time <= limit {
            turns += 1;
            let next = self.demand(time);
            if next <= time {
                return (Some(time), turns);
            }
            if search == Search::Plain || plain > 0 {
                plain = plain.saturating_sub(1);
                time = next;
            } else {
                plain = 1;
                time = self.no_earlier(time, next, limit, &mut turns);
            }
        }
        (None, turns)
    }

    /// A time from `next` on before which there is no w, where there is none up to `time`. A task
    /// that does not come again before it asks for what it does at `time`, the others for at least
    /// C/T of every tick.
    fn no_earlier(&self, time: u64, next: u64, limit: u64, turns: &mut u64) -> u64 {
        let mut far = next;
        while far <= limit {
            *turns += 1;
            let (mut fixed, mut left) = (self.own, 1.0);
            for &(t, c) in &self.tasks {
                let times = releases(time, t);
                if far <= times * t {
                    fixed += times * c;
                } else {
                    left -= ratio(c, t);
                }
            }
            // A little less: the ratios are rounded.
            let met = fixed as f64 / left * (1.0 - 1e-9);
            if left <= 1e-9 || met > limit as f64 {
                return limit + 1;
            }
            if met as u64 <= far {
                break;
            }
            far = met as u64;
        }
        far
    }

    /// Does each task, with the shorter ones above it, end before it comes again?
    fn passes(&self) -> bool {
        self.tasks.iter().enumerate().all(|(index, &(t, c))| {
            let above = Column {
                own: c,
                tasks: self.tasks[index + 1..].to_vec(),
            };
            above.search(Search::Plain, t).0.is_some()
        })
    }
}

/// A file made of tasks on which one search takes many turns: they stand above rare tasks, the
/// lowest with all locks or none, in 16 parts.
pub fn start(random: &mut Random) -> Sketch {
    let search = if random.once_in(2) {
        Search::Plain
    } else {
        Search::Lines
    };
    let column = slow_column(random, search);
    // What is asked for once is shared among the rare tasks.
    let most = (MOST_TASKS - 1 - column.tasks.len()) as u64;
    let rare = random.within(1..=12).min(most).min(column.own - 1);
    let mut lowest = Task::new(LARGEST_NUMBER, column.own - rare);
    if !random.once_in(4) {
        lowest.held = [lowest.execution; MOST_LOCKS];
    }
    let mut tasks = vec![lowest];
    tasks.extend((0..rare).map(|_| Task::new(LARGEST_NUMBER, 1)));
    tasks.extend(column.tasks.iter().map(|&(t, c)| Task::new(t, c)));
    let period = random.within(1..=2);
    Sketch::repeated(&Part::new(period, tasks), MOST_PARTS)
}

/// Columns that are tried before the slowest of them is changed.
const TRIES: u32 = 1000;
const PATIENCE: u32 = 5000;
/// Turns after which a hunt for a column ends.
const MOST_TURNS: u64 = 20_000_000;

/// Tasks on which the search takes many turns, the slowest of as many climbs as there is time for.
/// A search hardly counts where it finds nothing or a task does not pass: then the part is refused,
/// and those behind it are not looked at.
fn slow_column(random: &mut Random, search: Search) -> Column {
    let all = Cell::new(0);
    let score = |column: &Column| {
        let (found, turns) = column.search(search, LARGEST_NUMBER);
        all.set(all.get() + turns);
        let good = found.is_some() && column.passes();
        turns as f64 / if good { 1.0 } else { 1000.0 }
    };
    let over = || all.get() > MOST_TURNS;
    let mut slowest = (column(random), 0.0);
    while !over() {
        let mut best = (column(random), 0.0);
        for _ in 0..TRIES {
            let other = column(random);
            let reached = score(&other);
            if reached > best.1 {
                best = (other, reached);
            }
        }
        let change = |column: &mut Column| change(random, column);
        best = climb(best, PATIENCE, 1.0, change, |column, _| score(column), over);
        if best.1 > slowest.1 {
            slowest = best;
        }
    }
    slowest.0
}

fn column(random: &mut Random) -> Column {
    let count = 2 + random.index(11);
    let own = random.of_any_size(1..=100);
    let mut tasks = tight_above(random, count, own);
    if tasks.is_empty() {
        tasks.push((2, 1));
    }
    longest_first(&mut tasks);
    Column { own, tasks }
}

fn change(random: &mut Random, column: &mut Column) {
    let Column { own, tasks } = column;
    for _ in 0..random.within(1..=2) {
        let one = random.index(tasks.len());
        match random.index(7) {
            0 | 1 => tasks[one].0 = near(random, tasks[one].0),
            2 => tasks[one].1 = near(random, tasks[one].1),
            3 => *own = near(random, *own).min(1000),
            4 if tasks.len() + 2 < MOST_TASKS => tasks.push(tasks[one]),
            5 if tasks.len() > 1 => {
                tasks.remove(one);
            }
            _ => {
                let others = tasks.iter().enumerate().filter(|&(index, _)| index != one);
                let left = 1.0 - others.map(|(_, &(t, c))| ratio(c, t)).sum::<f64>();
                if left > 0.0 {
                    tasks[one].0 = separation_within(tasks[one].1, left) + random.within(0..=3);
                }
            }
        }
    }
    for (separation, cost) in tasks.iter_mut() {
        *separation = (*separation).min(LARGEST_NUMBER);
        *cost = (*cost).min(*separation);
    }
    longest_first(tasks);
}
