//! Plan files that are hunted for because they take long: where a hunt starts ([`starts`]), by what
//! small changes it goes on ([`changes`]), and a search counted in turns ([`turns`]). Every file
//! that is made here is readable, unless it is too long.

use std::array;
use std::fmt::Write;

use crate::file::{self, LARGEST_NUMBER, LONGEST_FILE, MOST_LOCKS, MOST_PARTS, MOST_TASKS};

pub mod changes;
pub mod starts;
pub mod turns;

/// A plan file without its names but for which locks are the same.
#[derive(Clone, Debug, PartialEq, Eq)]
pub struct Sketch {
    pub parts: Vec<Part>,
}

#[derive(Clone, Debug, PartialEq, Eq)]
pub struct Part {
    pub period: u64,
    /// The name of each lock as a number, all different. Parts share a lock by naming it alike.
    pub names: [usize; MOST_LOCKS],
    /// Later tasks have higher priority.
    pub tasks: Vec<Task>,
}

#[derive(Clone, Debug, PartialEq, Eq)]
pub struct Task {
    pub separation: u64,
    pub execution: u64,
    pub deadline: u64,
    /// For how long each lock is held; 0 for a lock that is not used.
    pub held: [u64; MOST_LOCKS],
}

impl Sketch {
    /// What is kept of a plan file, if it is readable.
    pub fn read<'b>(bytes: &'b [u8]) -> Option<Self> {
        let parts = file::read(bytes).ok()?;
        let task = |task: &file::Task| Task {
            separation: task.separation,
            execution: task.execution,
            deadline: task.deadline,
            held: task.held,
        };
        let mut known: Vec<&[u8]> = Vec::new();
        let mut names = |part: &file::Part<'b>| {
            let mut names = Vec::with_capacity(MOST_LOCKS);
            for lock in &part.locks {
                let number = known.iter().position(|&name| name == lock.bytes);
                names.push(number.unwrap_or(known.len()));
                if number.is_none() {
                    known.push(lock.bytes);
                }
            }
            let unused = (0..).filter(|number| !names.contains(number));
            let unused: Vec<usize> = unused.take(MOST_LOCKS - names.len()).collect();
            names.extend(unused);
            array::from_fn(|lock| names[lock])
        };
        let part = |part: &file::Part<'b>| Part {
            period: part.period,
            names: names(part),
            tasks: part.tasks.iter().map(task).collect(),
        };
        Some(Sketch {
            parts: parts.iter().map(part).collect(),
        })
    }

    /// The same part so many times.
    pub fn repeated(part: &Part, times: usize) -> Self {
        Sketch {
            parts: vec![part.clone(); times],
        }
    }

    /// The plan file, unless it is too long. Behind a part that stands alone comes a small one that
    /// names its locks, so that they are shared, as they are where the part is repeated.
    pub fn bytes(&self) -> Option<Vec<u8>> {
        let namer = match &self.parts[..] {
            [alone] => alone.namer(),
            _ => None,
        };
        let mut text = String::new();
        for (index, part) in self.parts.iter().chain(&namer).enumerate() {
            writeln!(text, "part\tp{index}\t{}", part.period).ok()?;
            for (index, task) in part.tasks.iter().enumerate() {
                let Task {
                    separation,
                    execution,
                    deadline,
                    held,
                } = task;
                writeln!(
                    text,
                    "task\tt{index}\t{separation}\t{execution}\t{deadline}"
                )
                .ok()?;
                for (lock, held) in held.iter().enumerate().filter(|(_, &held)| held > 0) {
                    writeln!(text, "lock\tl{:02x}\t{held}", part.names[lock]).ok()?;
                }
            }
        }
        text += "end\n";
        (text.len() <= LONGEST_FILE).then(|| text.into_bytes())
    }

    /// Are all parts the same?
    pub fn is_alike(&self) -> bool {
        self.parts.iter().all(|part| *part == self.parts[0])
    }

    /// Brings counts and numbers into their ranges and orders: C ≤ D ≤ T, and c ≤ C.
    fn mend(&mut self) {
        self.parts.truncate(MOST_PARTS);
        for part in &mut self.parts {
            part.period = part.period.clamp(1, LARGEST_NUMBER);
            part.tasks.truncate(MOST_TASKS);
            for task in &mut part.tasks {
                task.separation = task.separation.clamp(1, LARGEST_NUMBER);
                task.execution = task.execution.clamp(1, task.separation);
                task.deadline = task.deadline.clamp(task.execution, task.separation);
                for held in &mut task.held {
                    *held = task.execution.min(*held);
                }
            }
        }
    }
}

impl Task {
    /// A task without locks whose deadline is its separation.
    fn new(separation: u64, execution: u64) -> Self {
        Task {
            separation,
            execution,
            deadline: separation,
            held: [0; MOST_LOCKS],
        }
    }

    fn utilisation(&self) -> f64 {
        ratio(self.execution, self.separation)
    }
}

impl Part {
    /// A part with lock names that others so made have too.
    fn new(period: u64, tasks: Vec<Task>) -> Self {
        Part {
            period,
            names: array::from_fn(|lock| lock),
            tasks,
        }
    }

    /// A small part that names the locks of this one, if it has any.
    fn namer(&self) -> Option<Self> {
        let mut task = Task::new(LARGEST_NUMBER, 1);
        for (lock, held) in task.held.iter_mut().enumerate() {
            *held = self.tasks.iter().any(|task| task.held[lock] > 0).into();
        }
        let names = self.names;
        task.held.contains(&1).then(|| Part {
            names,
            ..Part::new(1000, vec![task])
        })
    }

    fn utilisation(&self) -> f64 {
        self.tasks.iter().map(Task::utilisation).sum()
    }

    /// About what the part's row asks for in a period: a budget, and the longest time of a lock.
    fn row_sum(&self) -> u64 {
        let budget = (self.utilisation() * self.period as f64).ceil() as u64;
        let held = self.tasks.iter().flat_map(|task| task.held).max();
        budget.clamp(1, self.period) + held.unwrap_or(0)
    }
}

fn ratio(of: u64, to: u64) -> f64 {
    of as f64 / to as f64
}

/// The least separation with which this execution time asks for no more than `left` of the
/// processor; at most the largest number.
fn separation_within(execution: u64, left: f64) -> u64 {
    let least = (execution as f64 / left).ceil();
    if least <= LARGEST_NUMBER as f64 {
        (least as u64).max(execution)
    } else {
        LARGEST_NUMBER
    }
}

/// Climbs from a start with its score: what is changed is taken if its score exceeds the best by
/// the factor `more`. The score is told what to exceed, to make sure before it says so. Ends after
/// `patience` changes in vain, or when it is `over`.
pub fn climb<T: Clone>(
    (mut best, mut top): (T, f64),
    patience: u32,
    more: f64,
    mut change: impl FnMut(&mut T),
    mut score: impl FnMut(&T, f64) -> f64,
    mut over: impl FnMut() -> bool,
) -> (T, f64) {
    let mut in_vain = 0;
    while in_vain < patience && !over() {
        let mut changed = best.clone();
        change(&mut changed);
        let reached = score(&changed, top * more);
        if reached > top * more {
            (best, top) = (changed, reached);
            in_vain = 0;
        } else {
            in_vain += 1;
        }
    }
    (best, top)
}
