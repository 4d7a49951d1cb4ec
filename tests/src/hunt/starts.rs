//! Where a hunt starts.

use super::{ratio, separation_within, turns, Part, Sketch, Task};
use crate::file::{LARGEST_NUMBER, MOST_LOCKS, MOST_PARTS, MOST_TASKS};
use crate::local::supply;
use crate::random::{self, Random, Sizes};

/// What kind of file a hunt starts with.
#[derive(Clone, Copy, Debug, PartialEq, Eq)]
pub enum Kind {
    /// One part: rare tasks with locks below frequent ones that leave little of the processor.
    Parts,
    /// Frequent tasks on which one search takes many turns, below them rare ones with locks.
    Turns,
    /// Parts whose rows leave little of the processor.
    Rows,
    /// A file of bench/ with a few changes.
    Timed,
    /// The slowest file so far with a few changes.
    Again,
    /// A made-up file with numbers near the limits.
    Extreme,
}

impl Kind {
    pub const ALL: [Kind; 6] = [
        Kind::Parts,
        Kind::Turns,
        Kind::Rows,
        Kind::Timed,
        Kind::Again,
        Kind::Extreme,
    ];

    pub fn name(self) -> &'static str {
        match self {
            Kind::Parts => "parts",
            Kind::Turns => "turns",
            Kind::Rows => "rows",
            Kind::Timed => "timed",
            Kind::Again => "again",
            Kind::Extreme => "extreme",
        }
    }
}

/// Separations and execution times that leave little of the processor or, with a smaller `share`,
/// of that share of it: the frequent tasks of a part, or the periods and sums of rows.
pub fn tight(random: &mut Random, count: usize, share: f64) -> Vec<(u64, u64)> {
    let style = random.index(5);
    let most = if random.once_in(2) { 20 } else { 5000 };
    let cost = random.of_any_size(1..=most);
    let count = count as u64;
    let equal = random.within(2..=count.max(2));
    let base = random.of_any_size(2..=1000);
    let mut left = share;
    let mut tight = Vec::new();
    for index in 0..count {
        let (separation, cost) = match style {
            // Separations that are nearly equal, then what takes the rest.
            0 if index < equal => {
                let longer = random.within(0..=equal * cost / 8 + 1);
                (
                    equal * cost + if random.once_in(2) { longer } else { 0 },
                    cost,
                )
            }
            // Separations that are, or nearly are, multiples of one another.
            1 => {
                let separation = (base << index.min(20)).min(LARGEST_NUMBER);
                let near = separation + random.within(0..=1) - random.within(0..=1);
                let part = random.within(1..=3) as f64 / 4.0;
                let rest = if index + 1 == count { 1.0 } else { part };
                (near, (left * rest * near as f64) as u64)
            }
            // The least separations, one by one: 2, 3, 7, 43, ..; or somewhat greater ones.
            _ => {
                let cost = match style {
                    2 => 1,
                    3 => cost,
                    _ => random.of_any_size(1..=cost),
                };
                let least = separation_within(cost, left);
                let separation = match random.index(5) {
                    0 => least + random.within(0..=3),
                    1 if index + 1 < count => least + random.of_any_size(1..=least),
                    2 if index + 1 < count => least * random.within(1..=3),
                    _ => least,
                };
                (separation, cost)
            }
        };
        let separation = separation.clamp(1, LARGEST_NUMBER);
        let cost = cost.clamp(1, separation);
        if left <= ratio(cost, separation) {
            break;
        }
        left -= ratio(cost, separation);
        tight.push((separation, cost));
    }
    if !random.once_in(4) {
        longest_first(&mut tight);
    }
    tight
}

/// Shorter separations last, where the priority is highest.
pub fn longest_first(tasks: &mut [(u64, u64)]) {
    tasks.sort_by(|a, b| b.cmp(a));
}

/// A start of this kind. `timed` are the files of bench/, `slowest` is the slowest file so far.
pub fn start(random: &mut Random, kind: Kind, timed: &[Sketch], slowest: &Sketch) -> Sketch {
    let mut sketch = match kind {
        Kind::Parts => Sketch::repeated(&part(random), 1),
        Kind::Turns => turns::start(random),
        Kind::Rows => rows(random),
        Kind::Timed => timed[random.index(timed.len())].clone(),
        Kind::Again => slowest.clone(),
        Kind::Extreme => extreme(random),
    };
    sketch.mend();
    let changes = match kind {
        Kind::Timed => random.within(0..=4),
        Kind::Again => random.within(1..=8),
        _ => 0,
    };
    for _ in 0..changes {
        super::changes::change(random, &mut sketch);
    }
    sketch
}

/// Frequent tasks, up to so many, that leave about as much of the processor as tasks below them
/// need that come once in 1,000,000 ticks and together ask for `own`; sometimes another share.
pub fn tight_above(random: &mut Random, count: usize, own: u64) -> Vec<(u64, u64)> {
    let share = if random.once_in(4) {
        random.within(500..=1000) as f64 / 1000.0
    } else {
        1.0 - ratio(own * random.within(100..=200), 100 * LARGEST_NUMBER)
    };
    tight(random, count, share)
}

/// Rare tasks below frequent ones that leave little of the processor.
fn part(random: &mut Random) -> Part {
    let most = if random.once_in(2) { 5 } else { 12 };
    let count = 1 + random.index(most);
    let rare = random.within(1..=(MOST_TASKS - count) as u64);
    let cost = match random.index(2) {
        0 => 1,
        _ => random.of_any_size(1..=1000),
    };
    // All of them, and one more that blocks.
    let above = tight_above(random, count, (rare + 1) * cost);
    let latest = random.once_in(2);
    let mut tasks: Vec<Task> = (0..rare)
        .map(|_| {
            let separation = if latest {
                LARGEST_NUMBER
            } else {
                random.of_any_size(50_000..=LARGEST_NUMBER)
            };
            Task::new(separation, cost.clamp(1, separation))
        })
        .collect();
    tasks.extend(above.iter().map(|&(t, c)| Task::new(t, c)));
    let locks = random.index(MOST_LOCKS + 1);
    let style = random.index(4);
    for lock in 0..locks {
        let user = match style {
            0 | 1 => 0,
            2 => lock % rare as usize,
            _ => random.index(tasks.len()),
        };
        let held = tasks[user].execution;
        tasks[user].held[lock] = random.within(1..=held);
    }
    let period = match random.index(6) {
        0..=2 => 1,
        3 => 2,
        4 => random.of_any_size(1..=1000),
        _ => random.of_any_size(1..=LARGEST_NUMBER),
    };
    Part::new(period, tasks)
}

/// Parts with short periods above many with long ones.
fn rows(random: &mut Random) -> Sketch {
    let most = if random.once_in(2) { 4 } else { 12 };
    let count = 1 + random.index(most);
    let low = if random.once_in(3) {
        1 + random.index(MOST_PARTS - count)
    } else {
        MOST_PARTS - count
    } as u64;
    let (first, step) = (
        random.within(400_000..=500_000),
        random.of_any_size(1..=500),
    );
    let close = !random.once_in(3);
    let longest = if random.once_in(3) {
        random.of_any_size(1..=200)
    } else {
        0
    };
    // The long periods are below half of the largest number: twice, and a little more.
    let above = tight_above(random, count, 5 * (low + longest) / 2);
    let mut parts = Vec::new();
    for index in 0..low {
        let period = if close {
            first - step * index
        } else {
            random.of_any_size(1000..=LARGEST_NUMBER)
        };
        let holding = random.within(0..=longest);
        parts.push(row(random, period, 1, holding));
    }
    for (period, sum) in above {
        let holding = if random.once_in(4) { sum / 2 } else { 0 };
        parts.push(row(random, period, sum - holding, holding));
    }
    Sketch { parts }
}

/// A part that has about this row; sometimes others on its list, with more budget and less holding.
pub fn row(random: &mut Random, period: u64, budget: u64, holding: u64) -> Part {
    let period = period.clamp(1, LARGEST_NUMBER);
    let given = supply(period, budget.clamp(1, period), LARGEST_NUMBER);
    let mut lowest = Task::new(LARGEST_NUMBER, given.max(holding).max(1));
    lowest.held[random.index(MOST_LOCKS)] = holding;
    let mut tasks = vec![lowest];
    if random.once_in(3) {
        for _ in 0..random.within(1..=8) {
            let held = random.of_any_size(1..=holding.max(1));
            let mut task = Task::new(LARGEST_NUMBER, held);
            let least = (4 * period).min(LARGEST_NUMBER);
            task.deadline = random.of_any_size(least..=LARGEST_NUMBER);
            if holding > 0 {
                task.held[random.index(MOST_LOCKS)] = held;
            }
            tasks.push(task);
        }
    }
    Part::new(period, tasks)
}

fn extreme(random: &mut Random) -> Sketch {
    let sizes = [
        Sizes::one_part(),
        Sizes::full(),
        Sizes::posters(),
        Sizes::few_posters(),
    ];
    loop {
        let size = random.index(sizes.len());
        let file = random::valid(random, &sizes[size]);
        if let Some(sketch) = Sketch::read(&random::extreme(random, &file)) {
            return sketch;
        }
    }
}
