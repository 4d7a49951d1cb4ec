//! All six operations: prints the plan of a file, the kept list of each of its parts, of numbers set
//! by hand the bounds, the load and the supply, and the chart of a cycle.
//!
//!     operations [FILE]        without FILE from standard input
//!
//! Status: 0 planned, 1 refused, 2 usage or input, 3 output lost.

use std::fs::File;
use std::io::{self, BufWriter, Read, Write};
use std::path::Path;
use std::process::ExitCode;
use std::{env, fmt};

use planner::{Row, MOST_BYTES, MOST_NUMBER};

/// The bytes of the file. One byte more than a file may have is enough: then it is refused.
fn read_file(path: Option<&Path>) -> io::Result<Vec<u8>> {
    let most = MOST_BYTES as u64 + 1;
    let mut file = Vec::new();
    match path {
        Some(path) => File::open(path)?.take(most).read_to_end(&mut file)?,
        None => io::stdin().take(most).read_to_end(&mut file)?,
    };
    Ok(file)
}

/// The kept list of each part. Of a file that cannot be read there is none.
fn print_parts(out: &mut impl Write, file: &[u8]) -> io::Result<()> {
    for (name, part) in (1..).map_while(|part| Some((planner::name(file, part).ok()?, part))) {
        write!(out, "{name}: ")?;
        match planner::candidates(file, part) {
            Ok(kept) => {
                for pair in kept {
                    write!(out, "({},{})", pair.budget, pair.holding)?;
                }
            }
            Err(refusal) => write!(out, "{refusal}")?,
        }
        writeln!(out)?;
    }
    Ok(())
}

fn print_weighing(out: &mut impl Write, rows: [(u64, u64, u64); 2]) -> io::Result<()> {
    let rows = rows.map(|(period, budget, holding)| Row {
        period,
        budget,
        holding,
    });
    for row in &rows {
        write!(out, "({},{},{})", row.period, row.budget, row.holding)?;
    }
    match planner::weigh(&rows) {
        Ok(weighing) => {
            write!(out, ": bounds")?;
            for bound in &weighing.bounds {
                write!(out, " {}/{}", bound.num, bound.den)?;
            }
            let (load, row) = (weighing.load, weighing.row);
            writeln!(out, ", load {}/{} in row {row}", load.num, load.den)
        }
        Err(refusal) => writeln!(out, ": {refusal}"),
    }
}

fn print_supply(out: &mut impl Write, period: u64, budget: u64, time: u64) -> io::Result<()> {
    write!(out, "({period},{budget}) in {time}: ")?;
    match planner::supply(period, budget, time) {
        Ok(ticks) => writeln!(out, "{ticks}"),
        Err(refusal) => writeln!(out, "{refusal}"),
    }
}

/// Which part has which tick of a cycle, 60 ticks a line; `.` where a tick is unassigned.
fn print_chart(out: &mut impl Write, file: &[u8]) -> io::Result<()> {
    match planner::chart(file) {
        Ok(ticks) => {
            writeln!(out, "chart:")?;
            for line in ticks.chunks(60) {
                let letter = |&part: &u8| b".123456789abcdefg"[usize::from(part)];
                let line: Vec<u8> = line.iter().map(letter).chain([b'\n']).collect();
                out.write_all(&line)?;
            }
            Ok(())
        }
        Err(refusal) => writeln!(out, "chart: {refusal}"),
    }
}

/// Prints everything; whether the file is planned.
fn print(out: &mut impl Write, file: &[u8]) -> io::Result<bool> {
    let plan = planner::plan(file);
    match &plan {
        Ok(listing) => out.write_all(listing.as_bytes())?,
        Err(refusal) => complain(format_args!("operations: {refusal}")),
    }
    print_parts(out, file)?;
    print_weighing(out, [(20, 3, 2), (10, 3, 3)])?;
    print_weighing(out, [(20, 9, 2), (10, 3, 3)])?;
    print_supply(out, 20, 3, 60)?;
    print_supply(out, 20, 3, MOST_NUMBER + 1)?;
    print_chart(out, file)?;
    out.flush()?;
    Ok(plan.is_ok())
}

/// A line on standard error. If that is lost, nobody can be told.
fn complain(line: fmt::Arguments<'_>) {
    let _ = writeln!(io::stderr(), "{line}");
}

fn main() -> ExitCode {
    let words: Vec<_> = env::args_os().skip(1).collect();
    if words.len() > 1 {
        complain(format_args!("usage: operations [FILE]"));
        return ExitCode::from(2);
    }
    let path = words.first().map(Path::new);
    let file = match read_file(path) {
        Ok(file) => file,
        Err(error) => {
            let path = path.unwrap_or(Path::new("standard input"));
            complain(format_args!("operations: {}: {error}", path.display()));
            return ExitCode::from(2);
        }
    };
    match print(&mut BufWriter::new(io::stdout().lock()), &file) {
        Ok(planned) => ExitCode::from(u8::from(!planned)),
        Err(_) => {
            complain(format_args!("operations: cannot write to standard output"));
            ExitCode::from(3)
        }
    }
}
