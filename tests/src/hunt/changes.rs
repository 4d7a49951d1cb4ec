//! Small changes of a file.

use super::{ratio, separation_within, starts, Part, Sketch, Task};
use crate::file::{LARGEST_NUMBER, MOST_LOCKS, MOST_PARTS, MOST_TASKS};
use crate::random::Random;

/// One small change. Where all parts are alike, mostly they stay so.
pub fn change(random: &mut Random, sketch: &mut Sketch) {
    if random.once_in(12) {
        change_parts(random, sketch);
    } else {
        let index = random.index(sketch.parts.len());
        let alike = sketch.is_alike() && !random.once_in(8);
        change_part(random, &mut sketch.parts[index]);
        if alike {
            let part = sketch.parts[index].clone();
            sketch.parts.fill(part);
        }
    }
    sketch.mend();
}

/// Parts added, removed, swapped or made alike; a period, or one for all; a row that takes the rest.
fn change_parts(random: &mut Random, sketch: &mut Sketch) {
    let parts = &mut sketch.parts;
    let (one, other) = (random.index(parts.len()), random.index(parts.len()));
    let copy = parts[one].clone();
    match random.index(7) {
        0 if parts.len() < MOST_PARTS => parts.insert(other, copy),
        1 if parts.len() > 1 => {
            parts.remove(one);
        }
        2 => parts.swap(one, other),
        3 => parts[other] = copy,
        4 => parts
            .iter_mut()
            .for_each(|part| part.tasks.clone_from(&copy.tasks)),
        5 => {
            let period = near(random, copy.period);
            parts.iter_mut().for_each(|part| part.period = period);
        }
        _ => {
            let others = parts.iter().enumerate().filter(|&(index, _)| index != one);
            let used: f64 = others
                .map(|(_, part)| ratio(part.row_sum(), part.period))
                .sum();
            if used < 1.0 {
                let sum = copy.row_sum().min(copy.period);
                let longer = random.within(0..=3);
                let period = separation_within(sum, 1.0 - used) + longer;
                parts[one] = starts::row(random, period, sum, 0);
            }
        }
    }
}

fn change_part(random: &mut Random, part: &mut Part) {
    let Part {
        period,
        names,
        tasks,
    } = part;
    let (one, other) = (random.index(tasks.len()), random.index(tasks.len()));
    match random.index(13) {
        0..=2 => {
            let latest = tasks[one].deadline == tasks[one].separation;
            tasks[one].separation = near(random, tasks[one].separation);
            if latest {
                tasks[one].deadline = tasks[one].separation;
            }
        }
        3 => tasks[one].execution = near(random, tasks[one].execution),
        4 => tasks[one].deadline = near(random, tasks[one].deadline),
        5 => *period = near(random, *period),
        6 => change_lock(random, &mut tasks[one]),
        7 => {
            if tasks.len() > 1 && random.once_in(2) {
                tasks.remove(one);
            } else if tasks.len() < MOST_TASKS {
                let copy = tasks[one].clone();
                tasks.insert(other, copy);
            }
        }
        8 => tasks.swap(one, other),
        9 | 10 => take_the_rest(random, tasks, one),
        11 => {
            // Another part has that name too, or none.
            let name = random.index(MOST_PARTS * MOST_LOCKS);
            if !names.contains(&name) {
                names[random.index(MOST_LOCKS)] = name;
            }
        }
        _ => {
            let (times, by) = [(2, 1), (1, 2), (3, 2), (11, 10)][random.index(4)];
            let separations = random.once_in(2);
            for task in tasks {
                if separations {
                    task.separation = task.separation * times / by;
                    task.deadline = task.deadline * times / by;
                }
                task.execution = task.execution * times / by;
                for held in &mut task.held {
                    *held = *held * times / by;
                }
            }
        }
    }
}

fn change_lock(random: &mut Random, task: &mut Task) {
    let lock = random.index(MOST_LOCKS);
    match random.index(4) {
        0 => task.held[lock] = 0,
        1 => task.held[lock] = near(random, task.held[lock]),
        2 => task.held = [task.held[lock]; MOST_LOCKS],
        _ => task.held[lock] = random.within(1..=task.execution),
    }
}

/// One task takes what the others leave of the processor, or nearly so.
fn take_the_rest(random: &mut Random, tasks: &mut [Task], one: usize) {
    let others = tasks.iter().enumerate().filter(|&(index, _)| index != one);
    let left = 1.0 - others.map(|(_, task)| task.utilisation()).sum::<f64>();
    let task = &mut tasks[one];
    if left <= 0.0 {
        return;
    }
    if random.once_in(3) {
        let most = (left * task.separation as f64) as u64;
        task.execution = most.saturating_sub(random.within(0..=2));
    } else {
        task.separation = separation_within(task.execution, left) + random.within(0..=3);
    }
    task.deadline = task.separation;
}

/// A number close to this one, its double or its half, or any.
pub fn near(random: &mut Random, number: u64) -> u64 {
    let near = match random.index(8) {
        0 => number + 1,
        1 => number.saturating_sub(1),
        2 => number * 2,
        3 => number / 2,
        4 => number + random.within(0..=9),
        5 => number.saturating_sub(random.within(0..=9)),
        6 => number * random.within(800..=1200) / 1000,
        _ => random.of_any_size(1..=LARGEST_NUMBER),
    };
    near.clamp(1, LARGEST_NUMBER)
}
