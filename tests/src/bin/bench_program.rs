//! Times the program against the reference's, from the start of a process to its end, in one run.
//! The program's binary is the argument: `bench_program ../target/bin/plan`.

use std::path::{Path, PathBuf};
use std::process::{Command, Stdio};
use std::time::{Duration, Instant};
use std::{env, error::Error, fs::File};

use reference::timing::{self, BenchFile};

const RUNS: usize = 200;
/// Slow runs are made for about so long, but at least a few.
const LONG_ENOUGH: Duration = Duration::from_secs(2);
const FEW_RUNS: usize = 9;

/// Nanoseconds from start to end, best and median of several runs.
fn run(program: &Path, file: &Path) -> Result<(u128, u128), Box<dyn Error>> {
    let mut times = Vec::new();
    let first = Instant::now();
    while times.len() < FEW_RUNS || (times.len() < RUNS && first.elapsed() < LONG_ENOUGH) {
        let input = File::open(file)?;
        let begin = Instant::now();
        let status = Command::new(program)
            .stdin(input)
            .stdout(Stdio::null())
            .status()?;
        times.push(begin.elapsed().as_nanos());
        if !status.success() {
            return Err(format!("{}: {status}", program.display()).into());
        }
    }
    times.sort();
    Ok((times[0], times[times.len() / 2]))
}

fn main() -> Result<(), Box<dyn Error>> {
    let ours = PathBuf::from(env::args().nth(1).ok_or("which program?")?);
    let theirs = env::current_exe()?.with_file_name("plan_reference");
    println!("us a run         program  reference  ratio   medians");
    for BenchFile { name, path, .. } in timing::files()? {
        let (ours, ours_median) = run(&ours, &path)?;
        let (theirs, theirs_median) = run(&theirs, &path)?;
        let ratio = ours as f64 / theirs as f64;
        println!(
            "{name:<14}{:>10}{:>11}{ratio:>7.2}   {} {}",
            ours / 1000,
            theirs / 1000,
            ours_median / 1000,
            theirs_median / 1000
        );
    }
    Ok(())
}
