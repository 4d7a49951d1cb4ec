//! The plan file: one record a line, fields parted by tabs, read in one pass.

use crate::{refuse, Refusal};

pub const LONGEST_FILE: usize = 32_768;
pub const MOST_PARTS: usize = 16;
pub const MOST_TASKS: usize = 16;
pub const MOST_LOCKS: usize = 8;
pub const LONGEST_NAME: usize = 8;
pub const LARGEST_NUMBER: u64 = 1_000_000;
/// Digits of the largest number.
const MOST_DIGITS: usize = 7;

/// A name: that stretch of the file.
#[derive(Clone, Copy, Debug)]
pub struct Name<'f> {
    pub bytes: &'f [u8],
    /// The bytes packed into one number: names are equal if these are, and this is quick.
    packed: u64,
}

impl PartialEq for Name<'_> {
    fn eq(&self, other: &Self) -> bool {
        self.packed == other.packed
    }
}

impl Eq for Name<'_> {}

impl<'f> Name<'f> {
    /// The name that these bytes are. Question 5.
    fn read(bytes: &'f [u8]) -> Result<Self, u32> {
        if !(1..=LONGEST_NAME).contains(&bytes.len()) {
            return Err(5);
        }
        let mut packed = 0;
        for &byte in bytes {
            if !matches!(byte, b'a'..=b'z' | b'0'..=b'9') {
                return Err(5);
            }
            packed = packed << 8 | u64::from(byte);
        }
        Ok(Name { bytes, packed })
    }
}

/// A partition with its server period. Later tasks have higher priority.
#[derive(Clone, Debug, PartialEq, Eq)]
pub struct Part<'f> {
    pub name: Name<'f>,
    /// Where the name starts in the file.
    pub name_start: usize,
    pub period: u64,
    pub tasks: Vec<Task<'f>>,
    /// Lock names in order of first mention.
    pub locks: Vec<Name<'f>>,
    /// Which of these locks another part names too; the others are private.
    pub shared: [bool; MOST_LOCKS],
}

/// A task: least separation T, worst execution time C, deadline D, and the locks it holds.
#[derive(Clone, Debug, PartialEq, Eq)]
pub struct Task<'f> {
    pub name: Name<'f>,
    pub separation: u64,
    pub execution: u64,
    pub deadline: u64,
    /// For how long the task holds each lock of its part at most; 0 for a lock it does not use.
    pub held: [u64; MOST_LOCKS],
}

impl<'f> Part<'f> {
    /// The locks of a task by name, each with the time for which it is held.
    pub fn locks_of(&self, task: &Task<'f>) -> Vec<(&'f [u8], u64)> {
        let names = self.locks.iter().map(|name| name.bytes);
        names.zip(task.held).filter(|&(_, held)| held > 0).collect()
    }
}

/// Are there as many parts, tasks and locks as there may be?
pub fn is_full(parts: &[Part]) -> bool {
    let is_full = |part: &Part| part.tasks.len() == MOST_TASKS && part.locks.len() == MOST_LOCKS;
    parts.len() == MOST_PARTS && parts.iter().all(is_full)
}

/// Reads a plan file: its parts, or the first of questions 1 to 9 that has the answer no.
pub fn read(file: &[u8]) -> Result<Vec<Part<'_>>, Refusal> {
    if file.len() > LONGEST_FILE {
        return refuse(1, 0);
    }
    let mut reader = Reader {
        parts: Vec::with_capacity(MOST_PARTS),
        above: Above::Nothing,
    };
    let mut start = 0;
    let mut number = 0;
    while start < file.len() {
        number += 1;
        let Some(line) = Line::scan(file, start) else {
            return refuse(2, number);
        };
        if let Err(question) = reader.take(&line) {
            return refuse(question, number);
        }
        start = line.end + 1;
    }
    match reader.above {
        Above::End => {
            mark_shared(&mut reader.parts);
            Ok(reader.parts)
        }
        _ => refuse(4, number + 1),
    }
}

/// Marks the locks that at least two parts name. A part has each name once, so equal names are of
/// different parts.
fn mark_shared(parts: &mut [Part]) {
    let mut names = Vec::with_capacity(MOST_PARTS * MOST_LOCKS);
    for (part, of) in parts.iter().enumerate() {
        names.extend((0..of.locks.len()).map(|lock| (of.locks[lock].packed, part, lock)));
    }
    names.sort_unstable();
    for pair in names.windows(2).filter(|pair| pair[0].0 == pair[1].0) {
        for &(_, part, lock) in pair {
            parts[part].shared[lock] = true;
        }
    }
}

/// Fields of the longest record.
const MOST_FIELDS: usize = 5;

/// One line, split at its tabs.
struct Line<'f> {
    file: &'f [u8],
    /// Where the line starts in the file.
    start: usize,
    /// Where its first fields end: at a tab or at the byte 10.
    ends: [usize; MOST_FIELDS],
    /// How many fields there are, also beyond those in `ends`.
    count: usize,
    /// Where its byte 10 is.
    end: usize,
}

impl<'f> Line<'f> {
    /// The line that starts at `start`, or nothing if question 2 has the answer no.
    #[inline]
    fn scan(file: &'f [u8], start: usize) -> Option<Self> {
        let mut ends = [0; MOST_FIELDS];
        let mut count = 0;
        for (place, &byte) in file.iter().enumerate().skip(start) {
            match byte {
                33..=126 => {}
                b'\t' | b'\n' => {
                    if count < MOST_FIELDS {
                        ends[count] = place;
                    }
                    count += 1;
                    if byte == b'\n' {
                        return Some(Line {
                            file,
                            start,
                            ends,
                            count,
                            end: place,
                        });
                    }
                }
                _ => return None,
            }
        }
        None
    }

    /// Where a field starts in the file.
    fn field_start(&self, index: usize) -> usize {
        match index.checked_sub(1) {
            None => self.start,
            Some(before) => self.ends[before] + 1,
        }
    }

    fn field(&self, index: usize) -> &'f [u8] {
        &self.file[self.field_start(index)..self.ends[index]]
    }

    /// The name, which is the second field. Question 5.
    fn name(&self) -> Result<Name<'f>, u32> {
        Name::read(self.field(1))
    }

    /// A number field. Question 7.
    fn number(&self, index: usize) -> Result<u64, u32> {
        let digits = self.field(index);
        if !(1..=MOST_DIGITS).contains(&digits.len()) || digits[0] == b'0' {
            return Err(7);
        }
        let mut value = 0;
        for &byte in digits {
            if !byte.is_ascii_digit() {
                return Err(7);
            }
            value = 10 * value + u64::from(byte - b'0');
        }
        if value <= LARGEST_NUMBER {
            Ok(value)
        } else {
            Err(7)
        }
    }
}

/// What stands above the next line, as far as question 4 asks.
enum Above {
    Nothing,
    /// A `part` line directly above.
    Part,
    /// A task in the present part.
    Task,
    End,
}

/// The parts so far.
struct Reader<'f> {
    parts: Vec<Part<'f>>,
    above: Above,
}

impl<'f> Reader<'f> {
    /// Takes in one line, or tells the first of questions 3 to 9 that has the answer no.
    fn take(&mut self, line: &Line<'f>) -> Result<(), u32> {
        match (line.field(0), line.count) {
            (b"part", 3) => self.take_part(line),
            (b"task", 5) => self.take_task(line),
            (b"lock", 3) => self.take_lock(line),
            (b"end", 1) => self.take_end(),
            _ => Err(3),
        }
    }

    fn take_part(&mut self, line: &Line<'f>) -> Result<(), u32> {
        if matches!(self.above, Above::Part | Above::End) {
            return Err(4);
        }
        let name = line.name()?;
        if self.parts.iter().any(|part| part.name == name) {
            return Err(6);
        }
        let period = line.number(2)?;
        if self.parts.len() == MOST_PARTS {
            return Err(9);
        }
        self.parts.push(Part {
            name,
            name_start: line.field_start(1),
            period,
            tasks: Vec::with_capacity(MOST_TASKS),
            locks: Vec::with_capacity(MOST_LOCKS),
            shared: [false; MOST_LOCKS],
        });
        self.above = Above::Part;
        Ok(())
    }

    fn take_task(&mut self, line: &Line<'f>) -> Result<(), u32> {
        let part = match (&self.above, self.parts.last_mut()) {
            (Above::Part | Above::Task, Some(part)) => part,
            _ => return Err(4),
        };
        let name = line.name()?;
        if part.tasks.iter().any(|task| task.name == name) {
            return Err(6);
        }
        let separation = line.number(2)?;
        let execution = line.number(3)?;
        let deadline = line.number(4)?;
        if execution > deadline || deadline > separation {
            return Err(8);
        }
        if part.tasks.len() == MOST_TASKS {
            return Err(9);
        }
        part.tasks.push(Task {
            name,
            separation,
            execution,
            deadline,
            held: [0; MOST_LOCKS],
        });
        self.above = Above::Task;
        Ok(())
    }

    fn take_lock(&mut self, line: &Line<'f>) -> Result<(), u32> {
        let Some(part) = self.parts.last_mut() else {
            return Err(4);
        };
        let task = match (&self.above, part.tasks.last_mut()) {
            (Above::Task, Some(task)) => task,
            _ => return Err(4),
        };
        let name = line.name()?;
        let known = part.locks.iter().position(|&lock| lock == name);
        if known.is_some_and(|lock| task.held[lock] > 0) {
            return Err(6);
        }
        let held = line.number(2)?;
        if held > task.execution {
            return Err(8);
        }
        let lock = match known {
            Some(lock) => lock,
            None if part.locks.len() == MOST_LOCKS => return Err(9),
            None => {
                part.locks.push(name);
                part.locks.len() - 1
            }
        };
        task.held[lock] = held;
        Ok(())
    }

    fn take_end(&mut self) -> Result<(), u32> {
        match self.above {
            Above::Task => {
                self.above = Above::End;
                Ok(())
            }
            _ => Err(4),
        }
    }
}
