//! Times the planner's own library against the reference, in one run, on the files of bench/: the
//! whole plan; the chart, of a file that has one; the candidates of every part, where every call reads the whole file first; and so
//! the reading alone (part 0, which is refused behind it).

use std::error::Error;
use std::hint::black_box;

use reference::chart::CYCLE;
use reference::timing::{self, time_of, BenchFile};
use reference::{candidates, chart, file, plan, PROGRAM_ROOM};

fn line(name: &str, what: &str, ours: u128, theirs: u128) {
    let ratio = ours as f64 / theirs as f64;
    println!("{name:<14}{what:<10}{ours:>11}{theirs:>12}{ratio:>7.2}");
}

fn main() -> Result<(), Box<dyn Error>> {
    println!("ns a run                    library   reference  ratio");
    for BenchFile { name, bytes, .. } in timing::files()? {
        let parts = file::read(&bytes)
            .map_err(|refusal| format!("{name}: {refusal:?}"))?
            .len();
        let mut out = [0u8; PROGRAM_ROOM];
        let ours = time_of(|| planner::plan_into(black_box(&bytes), &mut out).is_ok());
        let theirs = time_of(|| plan(black_box(&bytes), PROGRAM_ROOM));
        line(&name, "plan", ours, theirs);
        if planner::chart(&bytes).is_ok() {
            let ours = time_of(|| planner::chart_into(black_box(&bytes), &mut out).is_ok());
            let theirs = time_of(|| chart(black_box(&bytes), CYCLE));
            line(&name, "chart", ours, theirs);
        }
        for (what, numbers) in [("read", 0..=0), ("candidates", 1..=parts)] {
            let ours = time_of(|| {
                for part in numbers.clone() {
                    let _ = black_box(planner::candidates(black_box(&bytes), part));
                }
            });
            let theirs = time_of(|| {
                for part in numbers.clone() {
                    let _ = black_box(candidates(black_box(&bytes), part));
                }
            });
            line(&name, what, ours, theirs);
        }
    }
    Ok(())
}
