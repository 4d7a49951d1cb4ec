//! The programs under crates/, and what each must print: its file `stdout`, by the reference.

use std::fs;
use std::io::{self, Write};
use std::path::{Path, PathBuf};

use crate::by_hand::{SUPPLIES, WEIGHINGS};
use crate::chart::CYCLE;
use crate::file::MOST_PARTS;
use crate::literal::{self, Line};
use crate::system::{Bound, Row};
use crate::{candidates, chart, name, number_and_place, plan, printed, supply_answer, weigh};

/// A program by the name of its folder.
pub struct Program {
    pub name: &'static str,
    by_reference: fn(&Program) -> io::Result<Vec<u8>>,
}

pub const CASES: Program = Program {
    name: "cases",
    by_reference: listings_of_files,
};

pub const FIGURES: Program = Program {
    name: "figures",
    by_reference: kept_lists_of_files,
};

pub const CHARTS: Program = Program {
    name: "charts",
    by_reference: charts_of_files,
};

/// Every program.
pub const ALL: [Program; 7] = [
    Program {
        name: "plan",
        by_reference: listing_of_stdin,
    },
    CASES,
    Program {
        name: "rooms",
        by_reference: plans_in_rooms,
    },
    CHARTS,
    FIGURES,
    Program {
        name: "by_hand",
        by_reference: supplies_and_weighings,
    },
    Program {
        name: "scanned",
        by_reference: lines_of_files,
    },
];

/// A plan file by its name.
pub struct NamedFile {
    pub name: String,
    pub bytes: Vec<u8>,
}

impl Program {
    fn path(&self, file: &str) -> PathBuf {
        Path::new(env!("CARGO_MANIFEST_DIR"))
            .join("../crates")
            .join(self.name)
            .join(file)
    }

    /// What the program must print, by the reference.
    pub fn by_reference(&self) -> io::Result<Vec<u8>> {
        (self.by_reference)(self)
    }

    /// What the gate expects the program to print.
    pub fn expected(&self) -> io::Result<Vec<u8>> {
        fs::read(self.path("stdout"))
    }

    /// Has the gate expect what the reference gives.
    pub fn renew(&self) -> io::Result<()> {
        fs::write(self.path("stdout"), self.by_reference()?)
    }

    fn stdin(&self) -> io::Result<Vec<u8>> {
        fs::read(self.path("stdin"))
    }

    /// The files that the program's arguments name, in their order.
    pub fn files(&self) -> io::Result<Vec<NamedFile>> {
        let names = fs::read_to_string(self.path("args"))?;
        let file = |name: &str| {
            Ok(NamedFile {
                name: name.to_owned(),
                bytes: fs::read(self.path("data").join(name))?,
            })
        };
        names.lines().map(file).collect()
    }
}

/// `plan`: the listing of the file on standard input.
fn listing_of_stdin(program: &Program) -> io::Result<Vec<u8>> {
    Ok(printed(&program.stdin()?))
}

/// `cases`: what `plan` prints of each file, behind a line with its name.
fn listings_of_files(program: &Program) -> io::Result<Vec<u8>> {
    let mut out = Vec::new();
    for file in program.files()? {
        writeln!(out, "== {}", file.name)?;
        out.extend(printed(&file.bytes));
    }
    Ok(out)
}

/// `rooms`: number, place and bytes counted of a plan; below, the lent bytes, each `.` before.
fn plans_in_rooms(program: &Program) -> io::Result<Vec<u8>> {
    let a = program.stdin()?;
    let one: &[u8] = b"part\tp\t10\ntask\tt\t10\t10\t10\nend\n";
    let refused: &[u8] = b"part\tp\t10\ntask\tt\t10\t6\t10\ntask\tu\t10\t6\t10\nend\n";
    let rooms_of_a = [0, 91, 92, 100].map(|room| (&a[..], room));
    let readings = [(one, 34), (one, 35), (refused, 0)];
    let mut out = Vec::new();
    for (file, room) in rooms_of_a.into_iter().chain(readings) {
        let answer = plan(file, room);
        let (number, place) = number_and_place(&answer);
        let mut lent = answer.unwrap_or_default();
        writeln!(out, "{number}\t{place}\t{}", lent.len())?;
        lent.resize(room, b'.');
        out.extend(lent);
        out.push(b'\n');
    }
    Ok(out)
}

/// `charts`: behind a line with a file's name its chart in room for a byte more than it has; then
/// charts in other rooms.
fn charts_of_files(program: &Program) -> io::Result<Vec<u8>> {
    let mut out = Vec::new();
    for file in program.files()? {
        writeln!(out, "== {}", file.name)?;
        write_chart(&mut out, &file.bytes, CYCLE + 1)?;
    }
    for room in [0, CYCLE - 1, CYCLE, CYCLE + 60] {
        write_chart(&mut out, b"part\tp\t10\ntask\tt\t10\t10\t10\nend\n", room)?;
    }
    write_chart(&mut out, b"part\tp\t7\ntask\tt\t70\t1\t70\nend\n", 0)?;
    Ok(out)
}

/// Number, place and bytes counted of a chart; below, the lent bytes, `#` where one is as it was.
fn write_chart(out: &mut Vec<u8>, file: &[u8], room: usize) -> io::Result<()> {
    let answer = chart(file, room);
    let (number, place) = number_and_place(&answer);
    let chart = answer.unwrap_or_default();
    writeln!(out, "{number}\t{place}\t{}", chart.len())?;
    let mut lent = chart::text(&chart);
    lent.resize(room, b'#');
    for line in lent.chunks(chart::LINE) {
        out.extend(line);
        out.push(b'\n');
    }
    Ok(())
}

/// `figures`: for each part of each file the file, the part's number and name, the number and the
/// place of the answer, and the kept pairs Q,X.
fn kept_lists_of_files(program: &Program) -> io::Result<Vec<u8>> {
    let mut out = Vec::new();
    for NamedFile { name: file, bytes } in program.files()? {
        for part in 1..=MOST_PARTS {
            let answer = candidates(&bytes, part);
            let (number, place) = number_and_place(&answer);
            if number == 12 {
                break;
            }
            let part_name = name(&bytes, part).map_or(&[][..], |stretch| &bytes[stretch]);
            let part_name = String::from_utf8_lossy(part_name);
            write!(out, "{file}\t{part}\t{part_name}\t{number}\t{place}")?;
            for pair in answer.unwrap_or_default() {
                write!(out, "\t{},{}", pair.budget, pair.holding)?;
            }
            out.push(b'\n');
        }
    }
    Ok(out)
}

/// `by_hand`: the supplies, each with the number and the place of the answer and the ticks; then
/// the weighings.
fn supplies_and_weighings(_: &Program) -> io::Result<Vec<u8>> {
    let mut out = Vec::new();
    for &(p, q, times) in SUPPLIES {
        for &t in times {
            let answer = supply_answer(p, q, t);
            let (number, place) = number_and_place(&answer);
            let ticks = answer.unwrap_or_default();
            writeln!(out, "supply\t{p}\t{q}\t{t}\t{number}\t{place}\t{ticks}")?;
        }
    }
    for &list in WEIGHINGS {
        write_weighing(&mut out, list)?;
    }
    Ok(out)
}

/// The first four rows P,Q,X; the number and the place of the answer; if there is a load, every
/// bound, the load and its row from 1.
fn write_weighing(out: &mut Vec<u8>, list: &[(u64, u64, u64)]) -> io::Result<()> {
    write!(out, "weigh")?;
    for (period, budget, holding) in list.iter().take(4) {
        write!(out, "\t{period},{budget},{holding}")?;
    }
    let rows: Vec<Row> = list.iter().copied().map(Row::from).collect();
    let answer = weigh(&rows);
    let (number, place) = number_and_place(&answer);
    write!(out, "\t= {number}\t{place}")?;
    if let Ok(weighing) = answer {
        for Bound { demand, time } in weighing.bounds.iter().chain([&weighing.load()]) {
            write!(out, "\t{demand}/{time}")?;
        }
        write!(out, "\t{}", weighing.row + 1)?;
    }
    out.push(b'\n');
    Ok(())
}

/// `scanned`: behind a line with a file's name, each place of it and the one behind its last byte;
/// of the line that begins there 1 or 0 for question 2, where its byte 10 stands, how many of its
/// first five tabs there are, and where these stand. What there is not is 0.
fn lines_of_files(program: &Program) -> io::Result<Vec<u8>> {
    let mut out = Vec::new();
    for NamedFile { name, bytes } in program.files()? {
        writeln!(out, "== {name}")?;
        for place in 0..=bytes.len() {
            let line = literal::line_at(&bytes, place);
            let good = u8::from(line.is_some());
            let Line { end, mut tabs } = line.unwrap_or_default();
            write!(out, "{place}\t{good}\t{end}\t{}", tabs.len())?;
            tabs.resize(5, 0);
            for tab in tabs {
                write!(out, "\t{tab}")?;
            }
            out.push(b'\n');
        }
    }
    Ok(out)
}
