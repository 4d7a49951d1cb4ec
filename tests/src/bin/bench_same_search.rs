//! Times the planner's own library against a Rust program with the same search, on plan files with
//! as many parts, tasks and locks as there may be: those of bench/, and made-up ones. Then the charts
//! of the files of bench/ and of examples/ that have one, against charts made in the same way; the plan
//! is timed with them.

use std::error::Error;
use std::hint::black_box;

use reference::chart::CYCLE;
use reference::file::{self, MOST_LOCKS, MOST_PARTS, MOST_TASKS};
use reference::random::{full_kiosk, Random};
use reference::timing::{self, by_turns, TURNS};
use reference::{same_search, PROGRAM_ROOM};

/// The seed of the made-up files, and how many there are.
const MADE_UP: (u64, usize) = (113, 8);

/// Times a plan of the file, prints its line and gives the ratio. Both sides must answer the same.
fn line(name: &str, bytes: &[u8], out: &mut [u8]) -> f64 {
    let planned = planner::plan_into(bytes, out).map(|listing| listing.to_vec());
    let planned = planned.map_err(|refusal| (refusal.number, refusal.place));
    let same = same_search::plan(bytes, PROGRAM_ROOM);
    let same = same.map_err(|refusal| (refusal.number.into(), refusal.place as u64));
    assert_eq!(planned, same, "{name}: the answers differ");
    let answer = match planned {
        Ok(_) => "planned".to_owned(),
        Err((number, place)) => format!("{number} ({place})"),
    };
    let (ours, theirs) = by_turns(
        || planner::plan_into(black_box(bytes), out).is_ok(),
        || same_search::plan(black_box(bytes), PROGRAM_ROOM),
    );
    let ratio = ours as f64 / theirs as f64;
    println!("{name:<14}{ours:>11}{theirs:>13}{ratio:>7.2}  {answer}");
    ratio
}

/// Times a chart of the file, and a plan, and prints their line. Both sides must answer the same.
fn chart_line(name: &str, bytes: &[u8], out: &mut [u8]) {
    let charted = planner::chart(bytes).expect("a chart");
    assert_eq!(same_search::chart(bytes, out), Ok(CYCLE), "{name}");
    assert!(out[..CYCLE] == charted, "{name}: the charts differ");
    let mut other = [0u8; CYCLE];
    let (ours, theirs) = by_turns(
        || planner::chart_into(black_box(bytes), out).is_ok(),
        || same_search::chart(black_box(bytes), &mut other),
    );
    let (plan, same) = by_turns(
        || planner::plan_into(black_box(bytes), out).is_ok(),
        || same_search::plan(black_box(bytes), PROGRAM_ROOM),
    );
    let ratio = ours as f64 / theirs as f64;
    println!("{name:<14}{ours:>11}{theirs:>13}{ratio:>7.2}{plan:>13}{same:>13}");
}

fn main() -> Result<(), Box<dyn Error>> {
    println!("Plans of {MOST_PARTS} parts of {MOST_TASKS} tasks and {MOST_LOCKS} locks, by turns in one sitting: medians of {TURNS} runs.");
    println!("At the start: the lent buffer cleared once, before the first run; the stack as the run before left it.");
    println!("The same search takes its memory from the allocator at each run.");
    println!();
    println!("ns a run          library  same search  ratio  answer");
    let mut files: Vec<(String, Vec<u8>)> = timing::files()?
        .into_iter()
        .filter(|timed| file::read(&timed.bytes).is_ok_and(|parts| file::is_full(&parts)))
        .map(|timed| (timed.name, timed.bytes))
        .collect();
    let (seed, count) = MADE_UP;
    let random = &mut Random::new(seed);
    files.extend((1..=count).map(|number| (format!("made-up {number}"), full_kiosk(random))));
    let mut out = [0u8; PROGRAM_ROOM];
    let mut greatest = (0.0, "");
    for (name, bytes) in &files {
        let ratio = line(name, bytes, &mut out);
        if ratio > greatest.0 {
            greatest = (ratio, name);
        }
    }
    let (ratio, name) = greatest;
    println!("the greatest ratio: {ratio:.2}, of {name}");
    println!();
    println!("ns a chart        library     same way  ratio         plan  same search");
    for timed in timing::files()?.into_iter().chain(timing::examples()?) {
        if planner::chart(&timed.bytes).is_ok() {
            chart_line(&timed.name, &timed.bytes, &mut out);
        }
    }
    Ok(())
}
