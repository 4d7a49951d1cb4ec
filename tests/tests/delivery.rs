//! Request M-108: the supply against every way to deliver a budget, and what docs/GUIDE.md shows
//! of it.

use std::fs;

use reference::delivery::{delivers, early_then_late, given, least_given, Assignment};
use reference::page::{blocks, table};
use reference::random::Random;
use reference::{literal, supply_answer};

/// The supply by the reference, and in the words of the paper.
fn supply(period: usize, budget: usize, time: usize) -> usize {
    let slow = literal::supply(period as i64, budget as i64, time as i64);
    let answer = supply_answer(period as u64, budget as u64, time as u64);
    assert_eq!(answer, Ok(slow as u64), "({period},{budget}) at {time}");
    slow as usize
}

/// P times the linear value.
fn linear_times_p(period: usize, budget: usize, time: usize) -> i64 {
    let (p, q, t) = (period as i64, budget as i64, time as i64);
    q * (t - 2 * (p - q))
}

/// Three ticks in every five, and with one tick too many or too few in either of two periods.
#[test]
fn m108_exactly_so_many_in_each_period() {
    let ticks = |text: &str| -> Assignment { text.chars().map(|tick| tick == '#').collect() };
    assert!(delivers(&ticks("###....###"), 5, 3));
    assert!(delivers(&ticks("#.#.#.#.##"), 5, 3));
    for other in ["####...###", "##.....###", "###...####", "###.....##"] {
        assert!(!delivers(&ticks(other), 5, 3), "{other}");
    }
}

#[test]
fn m108_the_supply_is_the_least_over_all_deliveries() {
    for period in 1..=7 {
        for budget in 1..=period {
            for (time, least) in least_given(period, budget).into_iter().enumerate() {
                let supply = supply(period, budget, time) as u64;
                assert_eq!(supply, least, "({period},{budget}) at {time}");
            }
        }
    }
}

#[test]
fn m108_the_linear_value_is_never_above_the_supply() {
    for period in 1..=40 {
        for budget in 1..=period {
            let start = 2 * (period - budget);
            for time in 0..=5 * period {
                let line = linear_times_p(period, budget, time);
                let exact = (period * supply(period, budget, time)) as i64;
                assert!(line <= exact, "({period},{budget}) at {time}");
                if time >= start && (time - start).is_multiple_of(period) {
                    assert_eq!(line, exact, "({period},{budget}) at {time}");
                }
            }
        }
    }
}

#[test]
fn m108_early_then_late_is_the_worst_delivery() {
    for period in 1..=40 {
        for budget in 1..=period {
            let worst = early_then_late(period, budget, 7);
            assert!(delivers(&worst, period, budget));
            for time in 0..=6 * period {
                let ticks = given(&worst, budget, time);
                assert_eq!(
                    ticks,
                    supply(period, budget, time),
                    "({period},{budget}) at {time}"
                );
            }
        }
    }
}

/// A budget delivered at random, so many periods of it.
fn made_up(random: &mut Random, period: usize, budget: usize, periods: usize) -> Assignment {
    let mut ticks = Vec::new();
    for _ in 0..periods {
        let mut left = budget;
        for tick in 0..period {
            let is_given = random.index(period - tick) < left;
            left -= usize::from(is_given);
            ticks.push(is_given);
        }
    }
    ticks
}

#[test]
fn m108_no_delivery_gives_fewer() {
    let random = &mut Random::new(108);
    for _ in 0..20_000 {
        let period = random.of_any_size(1..=200) as usize;
        let budget = random.within(1..=period as u64) as usize;
        let ticks = made_up(random, period, budget, 6);
        assert!(delivers(&ticks, period, budget));
        for _ in 0..20 {
            let start = random.index(2 * period);
            let time = random.index(4 * period + 1);
            let count = given(&ticks, start, time);
            assert!(
                supply(period, budget, time) <= count,
                "({period},{budget}) at {time}"
            );
        }
    }
}

// ---- docs/GUIDE.md ----

/// The fewest given ticks in any window of so many, of those that the picture has.
fn fewest(ticks: &[bool], time: usize) -> usize {
    let starts = 0..=ticks.len() - time;
    starts
        .map(|start| given(ticks, start, time))
        .min()
        .expect("a window")
}

#[test]
fn m108_what_the_guide_shows() {
    let path = concat!(env!("CARGO_MANIFEST_DIR"), "/../docs/GUIDE.md");
    let guide = fs::read_to_string(path).expect("the guide");
    let (period, budget) = (10, 3);
    let mut picture = Vec::new();
    let mut blocks = blocks(&guide).into_iter().map(|(_, lines)| lines);
    let drawn = blocks.find(|lines| lines[0].starts_with("steady"));
    for line in drawn.expect("a picture") {
        let (name, ticks) = line.split_once(' ').expect("a name and ticks");
        let ticks: Assignment = ticks.trim().chars().map(|tick| tick == '#').collect();
        assert_eq!(ticks.len(), 4 * period, "{name}");
        assert!(delivers(&ticks, period, budget), "{name}");
        picture.push((name.to_string(), ticks));
    }
    assert_eq!(picture.len(), 3);
    assert_eq!(picture[2].1, early_then_late(period, budget, 4));

    let table = table(&guide, "| ticks in a row |");
    let times: Vec<usize> = table[0][1..]
        .iter()
        .map(|cell| cell.parse().expect("a time"))
        .collect();
    let mut rows: Vec<(String, Vec<String>)> = Vec::new();
    let row = |of: &dyn Fn(usize) -> String| times.iter().map(|&time| of(time)).collect();
    for (name, ticks) in &picture {
        rows.push((
            format!("`{name}`, the fewest"),
            row(&|time| fewest(ticks, time).to_string()),
        ));
    }
    rows.push((
        "the supply".to_string(),
        row(&|time| supply(period, budget, time).to_string()),
    ));
    let tenths = |time| linear_times_p(period, budget, time);
    rows.push((
        "the linear value".to_string(),
        row(&|time| format!("{}.{}", tenths(time) / 10, tenths(time) % 10)),
    ));
    assert_eq!(table.len(), rows.len() + 1);
    for ((name, figures), cells) in rows.iter().zip(&table[1..]) {
        assert_eq!(cells[0], name);
        assert_eq!(cells[1..], figures[..]);
    }
}
