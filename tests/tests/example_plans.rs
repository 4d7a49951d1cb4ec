//! The figures of examples/README.md are those of the planner's own library: blocks with the titles
//! `candidates FILE`, `weigh` and `supply`. What else the page shows is tested by
//! tests/example_plans.

use std::fmt::Display;
use std::fs;
use std::path::{Path, PathBuf};

use reference::{library, page::blocks, system::Row, Refusal};

fn folder() -> PathBuf {
    Path::new(env!("CARGO_MANIFEST_DIR")).join("../examples")
}

/// The numbers of a line, before the colon.
fn numbers(line: &str) -> Vec<u64> {
    let line = line.split(':').next().unwrap_or_default();
    let words = line.split(|letter: char| !letter.is_ascii_digit());
    words.filter_map(|word| word.parse().ok()).collect()
}

fn joined<T: Display>(words: impl IntoIterator<Item = T>) -> String {
    let words: Vec<String> = words.into_iter().map(|word| word.to_string()).collect();
    words.join(" ")
}

fn refused(refusal: Refusal) -> String {
    format!("refused {} {}", refusal.number, refusal.place)
}

/// A line for each part: its name and its kept pairs.
fn candidates(file: &[u8]) -> Vec<String> {
    let line = |part| {
        let name = &file[library::name(file, part).ok()?];
        let pairs = library::candidates(file, part).map_or_else(refused, |pairs| {
            joined(
                pairs
                    .iter()
                    .map(|pair| format!("({},{})", pair.budget, pair.holding)),
            )
        });
        Some(format!("{} {pairs}", String::from_utf8_lossy(name)))
    };
    (1..).map_while(line).collect()
}

/// The line once more, from its rows (P,Q,X), with the bounds that the library gives.
fn weighed(line: &str) -> String {
    let rows: Vec<Row> = numbers(line)
        .chunks(3)
        .map(|row| Row::from((row[0], row[1], row[2])))
        .collect();
    let shown = |row: &Row| format!("({},{},{})", row.period, row.budget, row.holding);
    let bounds = library::weigh(&rows).map_or_else(refused, |weighing| {
        let bounds = weighing.bounds.iter();
        joined(bounds.map(|bound| format!("{}/{}", bound.demand, bound.time)))
    });
    format!("{}: {bounds}", joined(rows.iter().map(shown)))
}

/// The line once more, from its (P,Q) and time, with the ticks that the library gives.
fn supplied(line: &str) -> String {
    let [period, budget, time] = numbers(line)[..] else {
        panic!("not a supply: {line}");
    };
    let ticks =
        library::supply(period, budget, time).map_or_else(refused, |ticks| ticks.to_string());
    format!("({period},{budget}) in {time}: {ticks}")
}

#[test]
fn the_figures_of_the_page_are_those_of_the_library() {
    let page = fs::read_to_string(folder().join("README.md")).expect("the page");
    let mut seen = [0; 3];
    for (title, lines) in blocks(&page) {
        let (kind, figures) = match title.split_once(' ').unwrap_or((title, "")) {
            ("candidates", file) => {
                let file = fs::read(folder().join(file)).expect("a plan file");
                (0, candidates(&file))
            }
            ("weigh", "") => (1, lines.iter().map(|line| weighed(line)).collect()),
            ("supply", "") => (2, lines.iter().map(|line| supplied(line)).collect()),
            _ => continue,
        };
        assert_eq!(lines, figures, "{title}");
        assert!(!lines.is_empty(), "{title}");
        seen[kind] += 1;
    }
    assert!(seen[0] >= 3 && seen[1] >= 3 && seen[2] >= 1, "{seen:?}");
}
