//! The same operations by brute force, in the words of the paper: every setting, every budget,
//! every time, every choice. Only for small files.
//!
//! Nothing here is shared with the fast modules. Names stand for locks, numbers are signed, tasks,
//! parts and rows are counted from 1, and a refusal is its number with its place.

use std::cmp::Ordering;
use std::collections::BTreeSet;

pub type Refusal = (u32, usize);

/// Numbers of a file and numbers set by hand go up to here.
const MOST: i64 = 1_000_000;

#[derive(Clone, Debug, PartialEq, Eq)]
pub struct Part {
    pub name: String,
    pub period: i64,
    pub tasks: Vec<Task>,
    /// Its shared locks: those that another part of the file names too.
    pub shared: BTreeSet<String>,
}

#[derive(Clone, Debug, PartialEq, Eq)]
pub struct Task {
    pub name: String,
    pub separation: i64,
    pub execution: i64,
    pub deadline: i64,
    pub locks: Vec<(String, i64)>,
}

// ---- the plan file ----

/// The parts of a readable file, or the first question with the answer no.
pub fn read(file: &[u8]) -> Result<Vec<Part>, Refusal> {
    if file.len() > 32_768 {
        return Err((1, 0));
    }
    let lines: Vec<&[u8]> = file.split_inclusive(|&byte| byte == 10).collect();
    let mut records: Vec<Vec<String>> = Vec::new();
    for line in &lines {
        let place = records.len() + 1;
        if !is_text(line) {
            return Err((2, place));
        }
        let text = String::from_utf8_lossy(&line[..line.len() - 1]).into_owned();
        let fields: Vec<String> = text.split('\t').map(String::from).collect();
        records.push(fields);
        for question in 3..=9 {
            if !answer(question, &records) {
                return Err((question, place));
            }
        }
    }
    if words(&records).last() != Some(&"end") {
        return Err((4, records.len() + 1));
    }
    Ok(parts_of(&records))
}

/// Question 2.
fn is_text(line: &[u8]) -> bool {
    let good = |byte: &u8| *byte == 9 || (33 <= *byte && *byte <= 126);
    line.ends_with(&[10]) && line[..line.len() - 1].iter().all(good)
}

/// A line of which question 2 has the answer yes: where its byte 10 and its first five tabs stand.
#[derive(Clone, Debug, Default, PartialEq, Eq)]
pub struct Line {
    pub end: usize,
    pub tabs: Vec<usize>,
}

/// The line that begins at this place of the file, if question 2 has the answer yes.
pub fn line_at(file: &[u8], start: usize) -> Option<Line> {
    let rest = file.get(start..)?;
    let line = rest.split_inclusive(|&byte| byte == 10).next()?;
    if !is_text(line) {
        return None;
    }
    let end = start + line.len() - 1;
    let tabs = (start..end).filter(|&place| file[place] == 9).take(5);
    Some(Line {
        end,
        tabs: tabs.collect(),
    })
}

/// The first field of every record.
fn words(records: &[Vec<String>]) -> Vec<&str> {
    records.iter().map(|fields| fields[0].as_str()).collect()
}

/// The records from the last one with this word on; all if there is none.
fn since<'r>(word: &str, records: &'r [Vec<String>]) -> &'r [Vec<String>] {
    let last = (0..records.len()).rev().find(|&k| records[k][0] == word);
    &records[last.unwrap_or(0)..]
}

/// Records with this word.
fn with<'r>(word: &str, records: &'r [Vec<String>]) -> Vec<&'r Vec<String>> {
    records.iter().filter(|fields| fields[0] == word).collect()
}

fn is_number(text: &str) -> bool {
    text.parse::<i64>()
        .is_ok_and(|k| (1..=MOST).contains(&k) && k.to_string() == text)
}

/// The number of a field that question 7 has let through.
fn number(text: &str) -> i64 {
    text.bytes()
        .fold(0, |value, digit| 10 * value + i64::from(digit) - 48)
}

/// Questions 3 to 9 of the last record, where those before it have been let through.
fn answer(question: u32, records: &[Vec<String>]) -> bool {
    let (last, before) = records.split_last().expect("there is a line");
    let word = last[0].as_str();
    match question {
        3 => [("part", 3), ("task", 5), ("lock", 3), ("end", 1)].contains(&(word, last.len())),
        4 => {
            let above = words(before);
            let in_part = words(since("part", before));
            let placed = match word {
                "task" => above.contains(&"part"),
                "lock" => above.contains(&"part") && in_part.contains(&"task"),
                "part" => above.last() != Some(&"part"),
                _ => above.last() != Some(&"part") && above.contains(&"part"),
            };
            placed && !above.contains(&"end")
        }
        5 => {
            let good = |letter: char| "abcdefghijklmnopqrstuvwxyz0123456789".contains(letter);
            word == "end"
                || (!last[1].is_empty() && last[1].len() <= 8 && last[1].chars().all(good))
        }
        6 => {
            let scope = match word {
                "part" => before,
                "task" => since("part", before),
                "lock" => since("task", before),
                _ => return true,
            };
            with(word, scope).iter().all(|fields| fields[1] != last[1])
        }
        7 => last.iter().skip(2).all(|text| is_number(text)),
        8 => match word {
            "task" => number(&last[3]) <= number(&last[4]) && number(&last[4]) <= number(&last[2]),
            "lock" => number(&last[2]) <= number(&since("task", before)[0][3]),
            _ => true,
        },
        9 => {
            let locks: BTreeSet<&String> = with("lock", since("part", records))
                .iter()
                .map(|fields| &fields[1])
                .collect();
            with("part", records).len() <= 16
                && with("task", since("part", records)).len() <= 16
                && locks.len() <= 8
        }
        _ => true,
    }
}

fn parts_of(records: &[Vec<String>]) -> Vec<Part> {
    let mut parts: Vec<Part> = Vec::new();
    for fields in records {
        let numbers: Vec<i64> = fields.iter().skip(2).map(|text| number(text)).collect();
        match fields[0].as_str() {
            "part" => parts.push(Part {
                name: fields[1].clone(),
                period: numbers[0],
                tasks: Vec::new(),
                shared: BTreeSet::new(),
            }),
            "task" => parts.last_mut().expect("a part above").tasks.push(Task {
                name: fields[1].clone(),
                separation: numbers[0],
                execution: numbers[1],
                deadline: numbers[2],
                locks: Vec::new(),
            }),
            "lock" => {
                let part = parts.last_mut().expect("a part above");
                let task = part.tasks.last_mut().expect("a task above");
                task.locks.push((fields[1].clone(), numbers[0]));
            }
            _ => {}
        }
    }
    for number in 0..parts.len() {
        let of_others = (0..parts.len()).filter(|&other| other != number);
        let named: BTreeSet<String> = of_others.flat_map(|other| parts[other].locks()).collect();
        let locks = parts[number].locks().into_iter();
        parts[number].shared = locks.filter(|lock| named.contains(lock)).collect();
    }
    parts
}

// ---- the local test ----

/// ⌈a/b⌉, also of a negative number.
fn ceil(a: i64, b: i64) -> i64 {
    -(-a).div_euclid(b)
}

/// Supply of (P,Q) in t ticks.
pub fn supply(p: i64, q: i64, t: i64) -> i64 {
    let k = ceil(t - (p - q), p).max(1);
    if (k + 1) * p - 2 * q <= t && t <= (k + 1) * p - q {
        t - (k + 1) * (p - q)
    } else {
        (k - 1) * q
    }
}

/// A set of pairs (Q,X).
type Pairs = BTreeSet<(i64, i64)>;

/// A setting: the ceiling of each lock, locks in order of first mention.
pub type Setting = Vec<(String, usize)>;

impl Part {
    /// Task i, from 1.
    fn task(&self, i: usize) -> &Task {
        &self.tasks[i - 1]
    }

    /// The time for which task i holds the lock, if it uses it.
    fn held(&self, i: usize, lock: &str) -> Option<i64> {
        self.task(i)
            .locks
            .iter()
            .find(|(name, _)| name == lock)
            .map(|&(_, c)| c)
    }

    /// The numbers of the tasks that use the lock.
    fn users(&self, lock: &str) -> Vec<usize> {
        (1..=self.tasks.len())
            .filter(|&i| self.held(i, lock).is_some())
            .collect()
    }

    /// Lock names in order of first mention.
    pub fn locks(&self) -> Vec<String> {
        let mut names: Vec<String> = Vec::new();
        for (name, _) in self.tasks.iter().flat_map(|task| &task.locks) {
            if !names.contains(name) {
                names.push(name.clone());
            }
        }
        names
    }

    /// A lock that is named in just one part of the file.
    fn is_private(&self, lock: &str) -> bool {
        !self.shared.contains(lock)
    }

    /// The greatest task number that uses the lock.
    fn lowest_ceiling(&self, lock: &str) -> usize {
        self.users(lock).into_iter().max().unwrap_or(1)
    }

    /// Every setting, permitted or not. A private lock keeps its lowest ceiling.
    pub fn settings(&self) -> Vec<Setting> {
        let mut settings = vec![Setting::new()];
        for lock in self.locks() {
            let lowest = self.lowest_ceiling(&lock);
            let highest = if self.is_private(&lock) {
                lowest
            } else {
                self.tasks.len()
            };
            let mut longer = Vec::new();
            for setting in &settings {
                for r in lowest..=highest {
                    let mut setting = setting.clone();
                    setting.push((lock.clone(), r));
                    longer.push(setting);
                }
            }
            settings = longer;
        }
        settings
    }

    /// A shared lock's holding time at ceiling r, if it exists and is at most the smallest deadline
    /// among its users.
    pub fn permitted_holding_time(&self, lock: &str, r: usize) -> Option<i64> {
        let users = self.users(lock);
        let g = users.iter().filter_map(|&i| self.held(i, lock)).max()?;
        let smallest = users.iter().map(|&i| self.task(i).deadline).min()?;
        let higher = |w: i64| -> i64 {
            let above = (r + 1..=self.tasks.len()).map(|k| self.task(k));
            above
                .map(|task| ceil(w, task.separation) * task.execution)
                .sum()
        };
        (1..=smallest).find(|&w| g + higher(w) <= w)
    }

    /// X of a permitted setting; nothing for one that is not permitted. A private lock has no
    /// holding time, asks no permission and does not enter X.
    pub fn holding_time(&self, setting: &Setting) -> Option<i64> {
        let mut greatest = 0;
        let shared = setting.iter().filter(|(lock, _)| !self.is_private(lock));
        for (lock, r) in shared {
            greatest = greatest.max(self.permitted_holding_time(lock, *r)?);
        }
        Some(greatest)
    }

    /// Blocking of task i, by private locks too.
    pub fn blocking(&self, setting: &Setting, i: usize) -> i64 {
        let mut greatest = 0;
        for (lock, r) in setting {
            for h in 1..i {
                if *r >= i {
                    greatest = greatest.max(self.held(h, lock).unwrap_or(0));
                }
            }
        }
        greatest
    }

    /// Does the budget pass under the setting?
    pub fn passes(&self, setting: &Setting, budget: i64) -> bool {
        let n = self.tasks.len();
        (1..=n).all(|i| {
            let task = self.task(i);
            let blocking = self.blocking(setting, i);
            (1..=task.deadline).any(|t| {
                let above = (i + 1..=n).map(|k| self.task(k));
                let higher: i64 = above.map(|k| ceil(t, k.separation) * k.execution).sum();
                task.execution + higher + blocking <= supply(self.period, budget, t)
            })
        })
    }

    /// Every (Q,X) of a permitted setting with any passing budget, and every (Q,X) with the least.
    fn pairs(&self) -> (Pairs, Pairs) {
        let mut all = Pairs::new();
        let mut candidates = Pairs::new();
        for setting in self.settings() {
            let Some(x) = self.holding_time(&setting) else {
                continue;
            };
            let passing = (1..=self.period).filter(|&q| self.passes(&setting, q));
            let passing: Vec<i64> = passing.collect();
            candidates.extend(passing.iter().min().map(|&q| (q, x)));
            all.extend(passing.iter().map(|&q| (q, x)));
        }
        (all, candidates)
    }

    /// The kept list, in falling X.
    pub fn kept(&self) -> Vec<(i64, i64)> {
        keep(&self.pairs().1)
    }

    /// The ceilings shown for a pair with this X: of a private lock its lowest.
    pub fn ceilings_shown(&self, x: i64) -> Setting {
        let shown = |lock: &String| {
            let lowest = self.lowest_ceiling(lock);
            if self.is_private(lock) {
                return Some((lock.clone(), lowest));
            }
            let fits = |&r: &usize| self.permitted_holding_time(lock, r).is_some_and(|w| w <= x);
            let r = (lowest..=self.tasks.len()).find(fits)?;
            Some((lock.clone(), r))
        };
        self.locks().iter().filter_map(shown).collect()
    }
}

/// The pairs that are kept, in falling X.
fn keep(candidates: &Pairs) -> Vec<(i64, i64)> {
    let beaten = |&(q, x): &(i64, i64)| {
        let others = candidates.iter().filter(|&&other| other != (q, x));
        others
            .into_iter()
            .any(|&(q2, x2)| x2 <= x && q2 + x2 <= q + x)
    };
    let kept = candidates.iter().copied().filter(|pair| !beaten(pair));
    let mut kept: Vec<(i64, i64)> = kept.collect();
    kept.sort_by_key(|&(_, x)| -x);
    kept
}

// ---- the system test ----

/// A row (P,Q,X).
pub type Row = (i64, i64, i64);

/// A fraction L/t.
pub type Fraction = (i64, i64);

fn compare(a: Fraction, b: Fraction) -> Ordering {
    (a.0 * b.1).cmp(&(b.0 * a.1))
}

/// L(t) of row s, rows from 1.
fn demand(rows: &[Row], s: usize, t: i64) -> i64 {
    let mut sum = 0;
    let mut lower = 0;
    for (k, &(p, q, x)) in (1..).zip(rows) {
        match k.cmp(&s) {
            Ordering::Less => lower = lower.max(x),
            Ordering::Equal => sum += q + x,
            Ordering::Greater => sum += ceil(t, p) * (q + x),
        }
    }
    sum + lower
}

/// The bound of row s, if it passes.
pub fn bound(rows: &[Row], s: usize) -> Option<Fraction> {
    let ratios = (1..=rows[s - 1].0).map(|t| (demand(rows, s, t), t));
    let passing = ratios.filter(|&(l, t)| l <= t);
    passing.min_by(|&a, &b| compare(a, b).then(a.1.cmp(&b.1)))
}

/// Every row's bound, the load's row and the load, if every row passes.
pub fn load(rows: &[Row]) -> Option<(Vec<Fraction>, usize, Fraction)> {
    let bounds: Vec<Fraction> = (1..=rows.len())
        .map(|s| bound(rows, s))
        .collect::<Option<Vec<Fraction>>>()?;
    let no_greater = |load: Fraction| bounds.iter().all(|&other| compare(other, load).is_le());
    let first = (1..=rows.len()).find(|&s| no_greater(bounds[s - 1]))?;
    let load = bounds[first - 1];
    Some((bounds, first, load))
}

/// Weighs rows set by hand.
pub fn weigh(rows: &[Row]) -> Result<(Vec<Fraction>, usize, Fraction), Refusal> {
    if rows.is_empty() || rows.len() > 16 {
        return Err((12, 0));
    }
    for (s, &(p, q, x)) in (1..).zip(rows) {
        if !(1..=MOST).contains(&p) || !(1..=p).contains(&q) || !(0..=MOST).contains(&x) {
            return Err((12, s));
        }
    }
    if let Some(s) = (1..=rows.len()).find(|&s| bound(rows, s).is_none()) {
        return Err((13, s));
    }
    load(rows).ok_or((13, 0))
}

/// A part's period and some of its pairs (Q,X).
pub type List = (i64, Vec<(i64, i64)>);

/// Every way to take one pair from each list, as rows.
pub fn choices(lists: &[List]) -> impl Iterator<Item = Vec<Row>> + '_ {
    let count: usize = lists.iter().map(|(_, pairs)| pairs.len()).product();
    (0..count).map(move |mut rank| {
        let mut rows = Vec::with_capacity(lists.len());
        for (period, pairs) in lists {
            let (q, x) = pairs[rank % pairs.len()];
            rows.push((*period, q, x));
            rank /= pairs.len();
        }
        rows
    })
}

/// The least load of the choices, if one passes.
pub fn least_load(lists: &[List]) -> Option<Fraction> {
    let loads = choices(lists)
        .filter_map(|rows| load(&rows))
        .map(|(_, _, load)| load);
    loads.min_by(|&a, &b| compare(a, b))
}

/// The choice of least load in which every part has the greatest holding time that it has in any
/// choice of that load. If there is a load but no such choice, the paper would be wrong.
pub fn greatest_of_least_load(lists: &[List]) -> Option<Vec<Row>> {
    let least = least_load(lists)?;
    let has_least = |rows: &Vec<Row>| load(rows).is_some_and(|(_, _, l)| compare(l, least).is_eq());
    let best: Vec<Vec<Row>> = choices(lists).filter(has_least).collect();
    let greatest = |part: usize| best.iter().map(|rows| rows[part].2).max();
    let is_greatest =
        |rows: &&Vec<Row>| (0..rows.len()).all(|part| Some(rows[part].2) == greatest(part));
    let found: Vec<&Vec<Row>> = best.iter().filter(is_greatest).collect();
    assert_eq!(
        found.len(),
        1,
        "one choice with all greatest holding times: {best:?}"
    );
    found.first().map(|rows| rows.to_vec())
}

// ---- the operations ----

/// The candidates of a part, from 1.
pub fn candidates(file: &[u8], part: usize) -> Result<Vec<(i64, i64)>, Refusal> {
    let parts = read(file)?;
    if part < 1 || part > parts.len() {
        return Err((12, 0));
    }
    let kept = parts[part - 1].kept();
    if kept.is_empty() {
        return Err((10, part));
    }
    Ok(kept)
}

/// The stretch of the file that is the part's name, parts from 1.
pub fn name(file: &[u8], part: usize) -> Result<(usize, usize), Refusal> {
    let parts = read(file)?;
    if part < 1 || part > parts.len() {
        return Err((12, 0));
    }
    let lines: Vec<&[u8]> = file.split_inclusive(|&byte| byte == 10).collect();
    let of_part = (0..lines.len())
        .filter(|&k| lines[k].starts_with(b"part\t"))
        .nth(part - 1);
    let above: usize = lines
        .iter()
        .take(of_part.unwrap_or(0))
        .map(|line| line.len())
        .sum();
    let start = above + "part\t".len();
    Ok((start, start + parts[part - 1].name.len()))
}

/// The plan: questions 1 to 11 and 14. Checks on the way that no choice of any settings and any
/// passing budgets has a smaller load than the choices built from kept pairs.
pub fn plan(file: &[u8], room: usize) -> Result<String, Refusal> {
    let parts = read(file)?;
    let mut all = Vec::new();
    let mut kept = Vec::new();
    for (number, part) in (1..).zip(&parts) {
        let (pairs, candidates) = part.pairs();
        if pairs.is_empty() {
            return Err((10, number));
        }
        all.push((part.period, pairs.into_iter().collect::<Vec<_>>()));
        kept.push((part.period, keep(&candidates)));
    }
    let least = least_load(&all).ok_or((11, 0))?;
    let (listing, load) = of_kept(&parts, &kept)?;
    assert!(
        compare(load, least).is_eq(),
        "least load {least:?}, of kept pairs {load:?}"
    );
    if listing.len() > room {
        return Err((14, 0));
    }
    Ok(listing)
}

/// The listing of the plan, for files with too many choices: only those built from kept pairs are
/// looked at.
pub fn plan_of_kept(file: &[u8]) -> Result<String, Refusal> {
    let parts = read(file)?;
    let mut kept = Vec::new();
    for number in 1..=parts.len() {
        kept.push((parts[number - 1].period, candidates(file, number)?));
    }
    of_kept(&parts, &kept).map(|(listing, _)| listing)
}

/// The listing of the plan of parts with these kept lists, and its load.
fn of_kept(parts: &[Part], kept: &[List]) -> Result<(String, Fraction), Refusal> {
    let rows = greatest_of_least_load(kept).ok_or((11, 0))?;
    let (bounds, first, load) = load(&rows).ok_or((11, 0))?;
    let mut listing = format!("load\t{}\t{}\t{}\n", parts[first - 1].name, load.0, load.1);
    for (part, (&(p, q, x), &(l, t))) in parts.iter().zip(rows.iter().zip(&bounds)) {
        listing += &format!("share\t{}\t{p}\t{q}\t{x}\t{l}\t{t}\n", part.name);
        let shown = part.ceilings_shown(x);
        assert_eq!(
            part.holding_time(&shown),
            Some(x),
            "X of the ceilings shown"
        );
        assert!(
            part.passes(&shown, q),
            "the budget under the ceilings shown"
        );
        for (lock, r) in shown {
            listing += &format!("ceiling\t{lock}\t{r}\n");
        }
    }
    Ok((listing, load))
}

/// The chart: questions 1 to 11, 19 and 14.
pub fn chart(file: &[u8], room: usize) -> Result<Vec<u8>, Refusal> {
    chart_of(&plan(file, usize::MAX)?, room)
}

/// The same for files with too many choices.
pub fn chart_of_kept(file: &[u8], room: usize) -> Result<Vec<u8>, Refusal> {
    chart_of(&plan_of_kept(file)?, room)
}

/// The chart of a listing's rows: questions 19 and 14.
fn chart_of(listing: &str, room: usize) -> Result<Vec<u8>, Refusal> {
    let shares = listing.lines().filter(|line| line.starts_with("share"));
    let row = |line: &str| {
        let fields: Vec<i64> = line.split('\t').skip(2).map(number).collect();
        (fields[0], fields[1], fields[2])
    };
    let rows: Vec<Row> = shares.map(row).collect();
    for (part, (p, _, _)) in (1..).zip(&rows) {
        if 720 % p != 0 {
            return Err((19, part));
        }
    }
    if room < 720 {
        return Err((14, 0));
    }
    Ok(ticks(&rows, 720))
}

/// Which part has each of so many ticks, part numbers from 1. All parts start together, each is due
/// its Q ticks from the start of each of its periods, and a tick goes to the highest part still due,
/// or to 0. A part that is still due a tick where its period ends did not get its Q.
pub fn ticks(rows: &[Row], count: i64) -> Vec<u8> {
    let mut due = vec![0; rows.len()];
    let mut holders = Vec::new();
    for tick in 0..count {
        for (due, (p, q, _)) in due.iter_mut().zip(rows) {
            if tick % p == 0 {
                assert_eq!(*due, 0, "ticks left over before tick {tick}: {rows:?}");
                *due = *q;
            }
        }
        let mut holder = 0;
        for number in 1..=rows.len() {
            if due[number - 1] > 0 {
                holder = number;
            }
        }
        if holder > 0 {
            due[holder - 1] -= 1;
        }
        holders.push(holder as u8);
    }
    holders
}
