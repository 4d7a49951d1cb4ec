//! Timing: the files that are timed, nanoseconds a run, and the time on the processor.

use std::hint::black_box;
use std::path::{Path, PathBuf};
use std::time::{Duration, Instant};
use std::{fs, io};

/// A plan file of a folder, by its name without `.plan`.
pub struct BenchFile {
    pub name: String,
    pub path: PathBuf,
    pub bytes: Vec<u8>,
}

/// The plan files of bench/, in the order of their names.
pub fn files() -> io::Result<Vec<BenchFile>> {
    plan_files("bench")
}

/// The example plan files, in the order of their names. They are not timed.
pub fn examples() -> io::Result<Vec<BenchFile>> {
    plan_files("../examples")
}

/// The plan files of a folder, seen from this package.
fn plan_files(folder: &str) -> io::Result<Vec<BenchFile>> {
    let folder = Path::new(env!("CARGO_MANIFEST_DIR")).join(folder);
    let mut files = Vec::new();
    for entry in fs::read_dir(folder)? {
        let path = entry?.path();
        if path
            .extension()
            .is_some_and(|extension| extension == "plan")
        {
            let name = path.file_stem().unwrap_or_default();
            files.push(BenchFile {
                name: name.to_string_lossy().into_owned(),
                bytes: fs::read(&path)?,
                path,
            });
        }
    }
    files.sort_by(|a, b| a.name.cmp(&b.name));
    Ok(files)
}

const ROUND: Duration = Duration::from_millis(2);
/// How many rounds there are, and at how many depths.
const ROUNDS: (u32, usize) = (3, 24);
/// The same for a run that takes at least `SLOW`.
const SLOW_ROUNDS: (u32, usize) = (1, 5);
const SLOW: Duration = Duration::from_millis(40);

/// Nanoseconds a run: the median over several depths of the stack, of the best round at each. Where
/// on the stack a run has its structs can make some per cent of its time. Slow runs get fewer
/// rounds and depths, else the files at the limit of numbers would take minutes.
pub fn time_of<T>(mut run: impl FnMut() -> T) -> u128 {
    let begin = Instant::now();
    black_box(run());
    let slow = begin.elapsed() >= SLOW;
    let (rounds, depths) = if slow { SLOW_ROUNDS } else { ROUNDS };
    let times = (0..depths).map(|depth| deeper(depth, &mut || best_round(rounds, &mut run)));
    median(times.collect())
}

/// How often each side runs, where two run by turns.
pub const TURNS: usize = 10 * ROUNDS.1 + 1;

/// Nanoseconds a run of two sides that run by turns: medians over all turns, at several depths of
/// the stack.
pub fn by_turns<A, B>(mut one: impl FnMut() -> A, mut other: impl FnMut() -> B) -> (u128, u128) {
    let (mut ones, mut others) = (Vec::new(), Vec::new());
    for turn in 0..TURNS {
        let depth = turn % ROUNDS.1;
        ones.push(deeper(depth, &mut || one_run(&mut one)));
        others.push(deeper(depth, &mut || one_run(&mut other)));
    }
    (median(ones), median(others))
}

/// Nanoseconds of one run.
fn one_run<T>(run: &mut impl FnMut() -> T) -> u128 {
    let begin = Instant::now();
    black_box(run());
    begin.elapsed().as_nanos()
}

fn median(mut times: Vec<u128>) -> u128 {
    times.sort();
    times[times.len() / 2]
}

/// Calls it so many frames deeper in the stack.
#[inline(never)]
fn deeper(frames: usize, call: &mut dyn FnMut() -> u128) -> u128 {
    let frame = black_box([0u8; 48]);
    let answer = match frames {
        0 => call(),
        _ => deeper(frames - 1, call),
    };
    black_box(&frame);
    answer
}

/// Nanoseconds a run: several rounds of at least `ROUND` each, the best one counts.
fn best_round<T>(rounds: u32, run: &mut impl FnMut() -> T) -> u128 {
    let mut best = u128::MAX;
    for _ in 0..rounds {
        let mut runs = 0;
        let begin = Instant::now();
        while runs == 0 || begin.elapsed() < ROUND {
            black_box(run());
            runs += 1;
        }
        best = best.min(begin.elapsed().as_nanos() / runs);
    }
    best
}

/// A time as Linux on x86-64 has it.
#[repr(C)]
struct Timespec {
    seconds: i64,
    nanoseconds: i64,
}

/// The clock of what this thread has used of the processor.
const THREAD_CLOCK: i32 = 3;

extern "C" {
    fn clock_gettime(clock: i32, time: *mut Timespec) -> i32;
}

/// What this thread has used of the processor; other programs that run do not count.
pub fn used() -> Duration {
    let mut time = Timespec {
        seconds: 0,
        nanoseconds: 0,
    };
    // SAFETY: the call writes to `time` only.
    let status = unsafe { clock_gettime(THREAD_CLOCK, &mut time) };
    assert_eq!(status, 0, "no clock of the thread");
    Duration::new(time.seconds as u64, time.nanoseconds as u32)
}
