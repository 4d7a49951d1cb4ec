//! Made-up plan files from a fixed seed.

use std::ops::RangeInclusive;

use crate::chart::{divides_cycle, CYCLE};
use crate::file::{LARGEST_NUMBER, LONGEST_FILE, MOST_LOCKS, MOST_PARTS, MOST_TASKS};
use crate::local::time_of_supply;

/// A xorshift generator.
pub struct Random(u64);

impl Random {
    pub fn new(seed: u64) -> Self {
        // The state may not be zero.
        Random(seed.wrapping_mul(0x9e37_79b9_7f4a_7c15) | 1)
    }

    pub fn number(&mut self) -> u64 {
        self.0 ^= self.0 << 13;
        self.0 ^= self.0 >> 7;
        self.0 ^= self.0 << 17;
        self.0.wrapping_mul(0x2545_f491_4f6c_dd1d) >> 16
    }

    pub fn within(&mut self, range: RangeInclusive<u64>) -> u64 {
        let (low, high) = range.into_inner();
        low + self.number() % (high.saturating_sub(low) + 1)
    }

    /// A number of the range, from 1 up: each size, in binary digits, is as likely.
    pub fn of_any_size(&mut self, range: RangeInclusive<u64>) -> u64 {
        let (low, high) = range.into_inner();
        let digits = self.within(low.ilog2().into()..=high.max(low).ilog2().into());
        self.within(low.max(1 << digits)..=high.min((2 << digits) - 1))
    }

    pub fn index(&mut self, len: usize) -> usize {
        self.within(0..=len.saturating_sub(1) as u64) as usize
    }

    /// True once in `times`.
    pub fn once_in(&mut self, times: u64) -> bool {
        self.number().is_multiple_of(times)
    }
}

/// What a made-up file is like.
#[derive(Clone, Debug)]
pub struct Sizes {
    pub parts: RangeInclusive<u64>,
    pub tasks: RangeInclusive<u64>,
    /// Lock names that a part draws from.
    pub locks: RangeInclusive<u64>,
    pub period: RangeInclusive<u64>,
    /// Separations, in periods.
    pub separation: RangeInclusive<u64>,
    /// Percent of the processor that all tasks together ask for, about.
    pub utilisation: RangeInclusive<u64>,
}

impl Sizes {
    /// Two parts, small enough for brute force over all choices.
    pub fn two_parts() -> Self {
        Sizes {
            parts: 2..=2,
            tasks: 1..=5,
            locks: 0..=2,
            period: 5..=36,
            separation: 3..=9,
            utilisation: 5..=60,
        }
    }

    /// Three parts, small enough for brute force over all choices.
    pub fn three_parts() -> Self {
        Sizes {
            parts: 3..=3,
            tasks: 1..=3,
            locks: 0..=2,
            period: 5..=10,
            separation: 3..=9,
            utilisation: 5..=20,
        }
    }

    /// One part, small enough for brute force over its settings.
    pub fn one_part() -> Self {
        Sizes {
            parts: 1..=1,
            tasks: 1..=5,
            locks: 0..=3,
            period: 2..=30,
            separation: 2..=8,
            utilisation: 10..=80,
        }
    }

    /// Up to the limits of a plan file.
    pub fn full() -> Self {
        Sizes {
            parts: 1..=16,
            tasks: 1..=16,
            locks: 0..=8,
            period: 20..=6000,
            separation: 4..=60,
            utilisation: 3..=40,
        }
    }

    /// Jobs of up to an hour: separations and deadlines up to the largest number.
    pub fn posters() -> Self {
        Sizes {
            parts: 1..=4,
            tasks: 1..=6,
            locks: 0..=4,
            period: 500..=60_000,
            separation: 4..=80,
            utilisation: 3..=50,
        }
    }

    /// As many parts as there may be, with few short tasks, so that most files can be planned.
    pub fn many_parts() -> Self {
        Sizes {
            parts: 4..=16,
            tasks: 1..=2,
            locks: 0..=1,
            period: 60..=900,
            separation: 4..=20,
            utilisation: 1..=30,
        }
    }

    /// Such jobs under short periods, few enough for brute force over all budgets and times.
    pub fn few_posters() -> Self {
        Sizes {
            parts: 1..=2,
            tasks: 1..=2,
            locks: 0..=1,
            period: 3..=8,
            separation: 9_000..=200_000,
            utilisation: 10..=90,
        }
    }
}

/// A readable plan file.
pub fn valid(random: &mut Random, sizes: &Sizes) -> Vec<u8> {
    let parts = random.within(sizes.parts.clone());
    let percent = random.within(sizes.utilisation.clone()) as f64 / parts as f64;
    let mut periods: Vec<u64> = (0..parts)
        .map(|_| random.within(sizes.period.clone()))
        .collect();
    // Mostly, a shorter period has a higher priority.
    if !random.once_in(4) {
        falling(&mut periods);
    }
    // Mostly, no lock is held for longer than the shortest period can bear.
    let shortest = periods.iter().copied().min().unwrap_or(1);
    let longest_held = if random.once_in(4) {
        LARGEST_NUMBER
    } else {
        (2 * shortest / (parts + 2)).max(1)
    };
    // How many of four locks have a name of their part alone, about.
    let own = random.within(0..=3).saturating_sub(1);

    let mut file = String::new();
    for (index, &period) in (0..).zip(&periods) {
        file += &format!("part\t{}\t{period}\n", name(random, 'p', index));
        let first = index == 0;
        let tasks = if random.once_in(4) == first {
            plain_tasks(random, sizes, period, percent)
        } else {
            tight_tasks(random, sizes, period, parts)
        };
        let locks = random.within(sizes.locks.clone()).max(random.within(0..=1));
        // The other names are the same few in all parts. Most names have a low task that surely
        // uses them, so that most of these are shared.
        let locks: Vec<(String, Option<usize>)> = (0..locks)
            .map(|lock| {
                let name = if random.within(0..=3) < own {
                    format!("l{lock}of{index}")
                } else {
                    format!("l{lock}")
                };
                let user = random.index(tasks.len() / 5 + 1);
                (name, (!random.once_in(4)).then_some(user))
            })
            .collect();
        for (place, task) in tasks.iter().enumerate() {
            file += &task_line(random, place, task);
            let most = longest_held.min(task.execution);
            // Not always first mentioned in order.
            let first = random.index(8);
            for lock in 0..locks.len() {
                let (name, user) = &locks[(first + lock) % locks.len()];
                if *user == Some(place) || random.once_in(task.lock_once_in) {
                    let held = if random.once_in(2) {
                        most
                    } else {
                        random.within(1..=most)
                    };
                    file += &format!("lock\t{name}\t{held}\n");
                }
            }
        }
    }
    file += "end\n";
    file.into_bytes()
}

/// The line of the task at this place.
fn task_line(random: &mut Random, place: usize, task: &Task) -> String {
    let name = name(random, 't', place as u64);
    let numbers = [task.separation, task.execution, task.deadline].map(|number| number.to_string());
    format!("task\t{name}\t{}\n", numbers.join("\t"))
}

/// Made-up files, each whole, damaged, with numbers near the limits, and with one more part that
/// names its locks.
pub fn made_up(random: &mut Random, rounds: usize) -> Vec<Vec<u8>> {
    let sizes = [
        Sizes::one_part(),
        Sizes::two_parts(),
        Sizes::three_parts(),
        Sizes::full(),
        Sizes::posters(),
    ];
    let mut files = Vec::new();
    for round in 0..rounds {
        let file = valid(random, &sizes[round % sizes.len()]);
        files.push(damaged(random, &file));
        files.push(extreme(random, &file));
        files.push(named_elsewhere(random, &file));
        files.push(file);
    }
    files
}

/// Made-up files for charts, each whole, damaged and with numbers near the limits. Where it could be
/// charted, most have periods that divide the cycle; in one file of four some do not.
pub fn made_up_for_charts(random: &mut Random, rounds: usize) -> Vec<Vec<u8>> {
    let sizes = [
        Sizes::two_parts(),
        Sizes::many_parts(),
        Sizes::three_parts(),
        Sizes::one_part(),
        Sizes::many_parts(),
        Sizes::full(),
    ];
    let mut files = Vec::new();
    for round in 0..rounds {
        let file = valid(random, &sizes[round % sizes.len()]);
        let file = in_cycle(random, &file);
        files.push(damaged(random, &file));
        files.push(extreme(random, &file));
        files.push(file);
    }
    files
}

/// A readable file with the divisor of the cycle that is nearest to each of its periods. In one file
/// of four a period stays as it was now and then, so that it mostly does not divide the cycle.
pub fn in_cycle(random: &mut Random, file: &[u8]) -> Vec<u8> {
    let some_stay = random.once_in(4);
    let text = String::from_utf8_lossy(file);
    let mut out = String::new();
    for line in text.lines() {
        match line.split('\t').collect::<Vec<&str>>()[..] {
            ["part", name, period] => {
                let period: u64 = period.parse().unwrap_or(1);
                let stays = some_stay && random.once_in(3);
                let period = if stays {
                    period
                } else {
                    nearest_divisor(period)
                };
                out += &format!("part\t{name}\t{period}\n");
            }
            _ => {
                out += line;
                out.push('\n');
            }
        }
    }
    out.into_bytes()
}

/// The divisor of the cycle that is nearest to a number.
fn nearest_divisor(number: u64) -> u64 {
    let divisors = (1..=CYCLE as u64).filter(|&period| divides_cycle(period));
    let nearest = divisors.min_by_key(|period| period.abs_diff(number));
    nearest.unwrap_or(1)
}

/// A readable plan file with as many parts, tasks and locks as there may be. Most locks are shared.
pub fn full_kiosk(random: &mut Random) -> Vec<u8> {
    let mut periods = [0; MOST_PARTS].map(|_| random.within(5_000..=40_000));
    falling(&mut periods);
    // The longest execution time in a period of 10,000 ticks.
    let longest = random.within(80..=250);
    let mut file = String::new();
    for (index, period) in (0..).zip(periods) {
        file += &format!("part\t{}\t{period}\n", name(random, 'p', index));
        // Each lock has a user among the lowest tasks.
        let locks: Vec<(String, usize)> = (0..MOST_LOCKS)
            .map(|lock| {
                let name = if random.once_in(8) {
                    format!("l{lock}of{index}")
                } else {
                    format!("l{lock}")
                };
                (name, random.index(MOST_TASKS / 4))
            })
            .collect();
        for (place, task) in kiosk_tasks(random, period, longest).iter().enumerate() {
            file += &task_line(random, place, task);
            for (name, user) in &locks {
                if *user == place || random.once_in(task.lock_once_in) {
                    let held = random.within(1..=task.execution);
                    file += &format!("lock\t{name}\t{held}\n");
                }
            }
        }
    }
    file += "end\n";
    file.into_bytes()
}

/// As many tasks as a part may have. Those of the lower half hold locks for long; those of the
/// higher half just pass with a small budget, the higher the greater, so that kept lists are long.
fn kiosk_tasks(random: &mut Random, period: u64, longest: u64) -> Vec<Task> {
    let long = period * longest / 10_000;
    let short = long / 20;
    let separation = |_| random.within(15 * period..=25 * period);
    let mut separations: Vec<u64> = (0..MOST_TASKS).map(separation).collect();
    falling(&mut separations);
    let budget = random.within(long..=2 * long);
    let task = |(place, separation): (usize, u64)| {
        let lower = place < MOST_TASKS / 2;
        let execution = random.within(1..=if lower { long } else { short });
        let above = (MOST_TASKS - place) as u64;
        let deadline = if lower {
            separation
        } else {
            let least = budget + short * (place - MOST_TASKS / 2) as u64;
            time_of_supply(period, least, long + above * short)
        };
        Task {
            separation,
            execution,
            deadline: deadline.clamp(execution, separation),
            lock_once_in: if lower { 4 } else { 32 },
        }
    };
    separations.into_iter().enumerate().map(task).collect()
}

/// The lock names of a readable file, each once.
pub fn lock_names(file: &[u8]) -> Vec<String> {
    let mut names: Vec<String> = Vec::new();
    for line in String::from_utf8_lossy(file).lines() {
        if let ["lock", name, _] = line.split('\t').collect::<Vec<&str>>()[..] {
            if !names.iter().any(|known| known == name) {
                names.push(name.to_owned());
            }
        }
    }
    names
}

/// A readable file with a part behind its others that has one short task and names these locks.
pub fn with_part_naming<S: AsRef<str>>(file: &[u8], names: &[S]) -> Vec<u8> {
    let lines = file.strip_suffix(b"end\n").unwrap_or(file);
    let mut file = String::from_utf8_lossy(lines).into_owned();
    file += "part\to\t250\ntask\tu\t1000\t1\t1000\n";
    for name in names {
        file += &format!("lock\t{}\t1\n", name.as_ref());
    }
    file += "end\n";
    file.into_bytes()
}

/// A readable file with such a part: it names up to eight of its locks, mostly all of them.
pub fn named_elsewhere(random: &mut Random, file: &[u8]) -> Vec<u8> {
    let mut names = lock_names(file);
    if random.once_in(4) {
        names.retain(|_| random.once_in(2));
    }
    names.truncate(MOST_LOCKS);
    with_part_naming(file, &names)
}

struct Task {
    separation: u64,
    execution: u64,
    deadline: u64,
    /// The task uses one in so many locks.
    lock_once_in: u64,
}

/// Tasks that together ask for about so many percent of the processor.
fn plain_tasks(random: &mut Random, sizes: &Sizes, period: u64, percent: f64) -> Vec<Task> {
    let separations = separations(random, sizes, period);
    let fair = percent / 100.0 / separations.len() as f64;
    let task = |separation| {
        let most = (2.0 * fair * separation as f64) as u64;
        let execution = random.within(1..=most).min(separation);
        let deadline = match random.within(0..=2) {
            0 => random.within(execution..=separation),
            1 => random.within((execution + separation).div_ceil(2)..=separation),
            _ => separation,
        };
        Task {
            separation,
            execution,
            deadline,
            lock_once_in: 3,
        }
    };
    separations.into_iter().map(task).collect()
}

/// Tasks that make a long list of candidates, as a higher ceiling costs budget: the lowest ones
/// hold locks for long, the others are short and their deadlines tight, the tighter the higher.
fn tight_tasks(random: &mut Random, sizes: &Sizes, period: u64, parts: u64) -> Vec<Task> {
    let separations = separations(random, sizes, period);
    let count = separations.len();
    let mut deadlines: Vec<u64> = (0..count)
        .map(|_| random.within(period..=5 * period))
        .collect();
    falling(&mut deadlines);
    let task = |(index, separation): (usize, u64)| {
        let lowest = index <= count / 5;
        let execution = if lowest {
            random
                .within(period / (4 + 2 * parts)..=2 * period / (4 + parts))
                .max(1)
        } else {
            random.within(1..=(period / 100).max(1))
        };
        let deadline = if lowest { separation } else { deadlines[index] };
        Task {
            separation,
            execution: execution.min(separation),
            deadline: deadline.clamp(execution.min(separation), separation),
            lock_once_in: if lowest { 2 } else { 16 },
        }
    };
    separations.into_iter().enumerate().map(task).collect()
}

/// Separations for the tasks of one part; mostly, a shorter one has a higher priority.
fn separations(random: &mut Random, sizes: &Sizes, period: u64) -> Vec<u64> {
    let count = random.within(sizes.tasks.clone());
    let separation = |_| {
        let periods = random.within(sizes.separation.clone());
        (periods * period + random.within(0..=period - 1)).min(LARGEST_NUMBER)
    };
    let mut separations: Vec<u64> = (0..count).map(separation).collect();
    if !random.once_in(4) {
        falling(&mut separations);
    }
    separations
}

fn falling(numbers: &mut [u64]) {
    numbers.sort_unstable_by(|a, b| b.cmp(a));
}

/// A name that is new for its index, sometimes of full length.
fn name(random: &mut Random, letter: char, index: u64) -> String {
    if random.once_in(8) {
        format!("{letter}{index:07}")
    } else {
        format!("{letter}{index}")
    }
}

/// The file with one or a few faults: bytes changed, put in or taken out, lines doubled, dropped
/// or swapped, numbers made long, lock names misspelt, the end cut off.
pub fn damaged(random: &mut Random, file: &[u8]) -> Vec<u8> {
    let mut bytes = file.to_vec();
    for _ in 0..random.within(1..=2) {
        damage(random, &mut bytes);
    }
    bytes
}

/// The file with numbers at or near the limits: periods of a tick or of 1,000,000, deadlines at
/// the execution time, locks held all the time. Readable if the file was.
pub fn extreme(random: &mut Random, file: &[u8]) -> Vec<u8> {
    let text = String::from_utf8_lossy(file);
    let mut out = String::new();
    let mut cost = 1;
    for line in text.lines() {
        let fields: Vec<&str> = line.split('\t').collect();
        match fields[..] {
            ["part", name, period] => {
                let period = near_a_limit(random, period.parse().unwrap_or(1));
                out += &format!("part\t{name}\t{period}\n");
            }
            ["task", name, separation, time, deadline] => {
                let number = |field: &str| field.parse().unwrap_or(1);
                let separation = near_a_limit(random, number(separation));
                cost = near_a_limit(random, number(time)).min(separation);
                let deadline = match random.index(3) {
                    0 => cost,
                    1 => separation,
                    _ => number(deadline).clamp(cost, separation),
                };
                out += &format!("task\t{name}\t{separation}\t{cost}\t{deadline}\n");
            }
            ["lock", name, _] => {
                let held = if random.once_in(2) { 1 } else { cost };
                out += &format!("lock\t{name}\t{held}\n");
            }
            _ => {
                out += line;
                out.push('\n');
            }
        }
    }
    out.into_bytes()
}

fn near_a_limit(random: &mut Random, number: u64) -> u64 {
    match random.index(16) {
        0 => 1,
        1 => 2,
        2 => LARGEST_NUMBER,
        3 => LARGEST_NUMBER - 1,
        // The largest number that 16 bits hold, and the next.
        4 => random.within(65_535..=65_536),
        5 => (number * 7).min(LARGEST_NUMBER),
        _ => number,
    }
}

fn damage(random: &mut Random, bytes: &mut Vec<u8>) {
    if bytes.is_empty() {
        return;
    }
    let place = random.index(bytes.len());
    match random.within(0..=12) {
        0 => bytes[place] = odd_byte(random),
        1 => bytes.insert(place, odd_byte(random)),
        2 => {
            bytes.remove(place);
        }
        3 => bytes.truncate(place),
        4 => bytes.extend_from_slice(match random.within(0..=3) {
            0 => b"\n",
            1 => b"end\n",
            2 => b"x",
            _ => b"part\tq\t9\n",
        }),
        5 => {
            if let Some(at) = bytes.iter().skip(place).position(u8::is_ascii_digit) {
                let number = odd_number(random);
                let start = place + at;
                let digits = bytes[start..]
                    .iter()
                    .take_while(|byte| byte.is_ascii_digit())
                    .count();
                bytes.splice(start..start + digits, number);
            }
        }
        6 if random.once_in(8) => bytes.resize(LONGEST_FILE + random.index(3), b'x'),
        7 => {
            // A run of new names, sometimes one too many.
            let lines = bytes[..place].iter().rposition(|&byte| byte == b'\n');
            let start = lines.map_or(0, |end| end + 1);
            let kind = random.index(3);
            let run: String = (0..random.within(1..=18))
                .map(|k| match kind {
                    0 => format!("part\tn{k}\t9\ntask\tn\t9\t1\t9\n"),
                    1 => format!("task\tn{k}\t9\t1\t9\n"),
                    _ => format!("lock\tn{k}\t1\n"),
                })
                .collect();
            bytes.splice(start..start, run.into_bytes());
        }
        8 => {
            // Another last letter: that lock may be private then, or another one shared.
            let word = b"\nlock\t";
            let locks = bytes[place..].windows(word.len());
            if let Some(at) = locks.into_iter().position(|bytes| bytes == word) {
                let name = place + at + word.len();
                let tab = bytes[name..].iter().position(|&byte| byte == b'\t');
                if let Some(length) = tab.filter(|&length| length > 0) {
                    bytes[name + length - 1] = b"0123456789abcxyz"[random.index(16)];
                }
            }
        }
        _ => {
            let mut lines: Vec<Vec<u8>> = bytes
                .split_inclusive(|&byte| byte == b'\n')
                .map(<[u8]>::to_vec)
                .collect();
            let (one, other) = (random.index(lines.len()), random.index(lines.len()));
            match random.within(0..=2) {
                0 => lines.insert(other, lines[one].clone()),
                1 => {
                    lines.remove(one);
                }
                _ => lines.swap(one, other),
            }
            *bytes = lines.concat();
        }
    }
}

fn odd_byte(random: &mut Random) -> u8 {
    const OFTEN: &[u8] = b"\t\t\n\n\r 0195az_A-+.*\x00\x1f\x20\x21\x7e\x7f\xff";
    if random.once_in(4) {
        random.within(0..=255) as u8
    } else {
        OFTEN[random.index(OFTEN.len())]
    }
}

/// A number that is too great, or close to it, or badly written.
fn odd_number(random: &mut Random) -> Vec<u8> {
    const OFTEN: &[&[u8]] = &[
        b"65535",
        b"65536",
        b"999999",
        b"1000000",
        b"1000001",
        b"9999999",
        b"10000000",
        b"0",
        b"010",
        b"0999999",
        b"01000000",
        b"4294967297",
        b"18446744073709551617",
        b"+5",
    ];
    match random.index(OFTEN.len() + 4) {
        0 => vec![b'9'; random.index(LONGEST_FILE + 2)],
        1 => random.number().to_string().into_bytes(),
        2 => random.within(1_000_000..=9_999_999).to_string().into(),
        3 => random.within(10_000_000..=99_999_999).to_string().into(),
        other => OFTEN[other - 4].to_vec(),
    }
}

/// Rows for weighing, now and then with a fault.
pub fn rows(random: &mut Random, most: u64, longest: u64) -> Vec<(u64, u64, u64)> {
    let count = random.within(1..=most);
    let mut rows = Vec::new();
    for _ in 0..count {
        let period = if random.once_in(8) {
            longest - random.within(0..=1)
        } else {
            random.within(1..=longest)
        };
        let budget = random.within(1..=(period / count).max(1));
        let holding = if random.once_in(3) {
            0
        } else {
            random.within(0..=(period / 8))
        };
        rows.push((period, budget, holding));
    }
    if random.once_in(20) {
        let row = random.index(rows.len());
        rows[row] = match random.within(0..=4) {
            0 => (0, 0, 0),
            1 => (9, 10, 0),
            2 => (9, 0, 0),
            3 => (LARGEST_NUMBER + 1, 9, 0),
            _ => (9, 9, LARGEST_NUMBER + 1),
        };
    }
    rows
}

/// A list like a kept one: in falling holding time, budget and sum rising.
pub fn kept_list(random: &mut Random, most: u64, period: u64) -> Vec<(u64, u64)> {
    let count = random.within(1..=most);
    let mut holding = random.within(count - 1..=count + period / 4);
    let mut sum = holding + random.within(1..=(period / 6).max(1));
    let mut pairs = Vec::new();
    for left in (0..count).rev() {
        if sum - holding > period {
            break;
        }
        pairs.push((sum - holding, holding));
        if left > 0 {
            holding = random.within(left - 1..=holding - 1);
            sum += random.within(1..=(period / 12).max(1));
        }
    }
    if pairs.is_empty() {
        pairs.push((1, 0));
    }
    pairs
}
