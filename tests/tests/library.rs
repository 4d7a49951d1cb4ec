//! The planner's own library against the reference: the same answer, number and place included.
//! Seeds are fixed. `ROUNDS=20 cargo test --features library --test library` makes up
//! twenty times as many inputs.

use std::env;

use reference::chart::CYCLE;
use reference::edges::{self, BY_HAND, FIELDS, GOOD};
use reference::file::LARGEST_NUMBER;
use reference::random::{self, Random};
use reference::system::Row;
use reference::{
    candidates, chart, delivery, library, name, plan, programs, supply_answer, timing, weigh,
    Refusal, PROGRAM_ROOM,
};

/// Every part number of a file of up to 16 parts, and some that no part has.
fn part_numbers(random: &mut Random) -> impl Iterator<Item = usize> {
    let odd = [18, usize::MAX, random.number() as usize];
    (0..=17).chain(odd)
}

fn same_candidates(random: &mut Random, file: &[u8]) {
    for part in part_numbers(random) {
        let text = String::from_utf8_lossy(file);
        assert_eq!(
            library::candidates(file, part),
            candidates(file, part),
            "part {part} of\n{text}"
        );
        assert_eq!(
            library::name(file, part),
            name(file, part),
            "part {part} of\n{text}"
        );
    }
}

/// What a lent byte holds before a call.
fn pattern(place: usize) -> u8 {
    (place * 7 + 3) as u8
}

/// An operation of the library in a buffer of that many bytes, against what must be written: on
/// success that stands in front, and every other byte is as it was.
fn same_bytes(
    file: &[u8],
    room: usize,
    of_library: fn(&[u8], &mut [u8]) -> Result<usize, Refusal>,
    bytes: Result<Vec<u8>, Refusal>,
) -> Result<usize, Refusal> {
    let mut out: Vec<u8> = (0..room).map(pattern).collect();
    let answer = of_library(file, &mut out);
    let text = String::from_utf8_lossy(file);
    let written = bytes.as_ref().map(Vec::len).map_err(|refusal| *refusal);
    assert_eq!(answer, written, "{room} bytes for\n{text}");
    let mut expected = bytes.unwrap_or_default();
    expected.extend((expected.len()..room).map(pattern));
    assert!(out == expected, "{room} bytes for\n{text}");
    answer
}

fn same_plan(file: &[u8], room: usize) -> Result<usize, Refusal> {
    same_bytes(file, room, library::plan, plan(file, room))
}

fn same_chart(file: &[u8], room: usize) -> Result<usize, Refusal> {
    same_bytes(file, room, library::chart, chart(file, room))
}

/// The chart in rooms that are too short, just enough and more.
fn same_chart_in_rooms(file: &[u8]) -> Result<usize, Refusal> {
    for room in [0, 1, CYCLE / 2, CYCLE - 1, CYCLE + 1, PROGRAM_ROOM] {
        let _ = same_chart(file, room);
    }
    same_chart(file, CYCLE)
}

/// The plan in every room up to two bytes more than its listing has.
fn same_in_every_room(file: &[u8]) {
    match same_plan(file, PROGRAM_ROOM) {
        Ok(length) => {
            for room in 0..length + 3 {
                assert_eq!(same_plan(file, room).is_ok(), length <= room);
            }
        }
        Err(refusal) => {
            for room in 0..3 {
                assert_eq!(same_plan(file, room), Err(refusal));
            }
        }
    }
}

/// The plan files of the cases.
fn cases() -> Vec<Vec<u8>> {
    let cases = programs::CASES.files().expect("the cases").into_iter();
    let files: Vec<Vec<u8>> = cases.map(|case| case.bytes).collect();
    assert!(files.len() > 256, "{} files", files.len());
    files
}

/// The plan files of the cases, of bench/ and of examples/.
fn files() -> Vec<Vec<u8>> {
    let bench = timing::files().expect("the bench files");
    let examples = timing::examples().expect("the examples");
    let mut files = cases();
    files.extend(bench.into_iter().chain(examples).map(|file| file.bytes));
    files
}

/// As many times this number as the environment asks for.
fn rounds(number: usize) -> usize {
    let times = env::var("ROUNDS").ok().and_then(|word| word.parse().ok());
    number * times.unwrap_or(1)
}

#[test]
fn plans_of_the_cases_and_the_bench_files_and_the_examples() {
    for file in files() {
        let _ = same_plan(&file, PROGRAM_ROOM);
    }
}

#[test]
fn plans_of_made_up_files() {
    let random = &mut Random::new(4);
    let files = random::made_up(random, rounds(2000));
    let planned = files
        .iter()
        .filter(|file| same_plan(file, PROGRAM_ROOM).is_ok());
    assert!(planned.count() > 300);
}

#[test]
fn plans_in_every_room() {
    let random = &mut Random::new(5);
    for file in cases()
        .iter()
        .step_by(8)
        .chain(&random::made_up(random, rounds(40)))
    {
        same_in_every_room(file);
    }
}

#[test]
fn charts_of_the_cases_and_the_bench_files_and_the_examples() {
    let answers = files().into_iter().map(|file| same_chart(&file, CYCLE));
    assert!(answers.filter(Result::is_ok).count() > 20);
}

#[test]
fn charts_of_made_up_files() {
    let random = &mut Random::new(9);
    let (mut charted, mut out_of_cycle) = (0, 0);
    for file in random::made_up_for_charts(random, rounds(1500)) {
        match same_chart(&file, CYCLE) {
            Ok(_) => charted += 1,
            Err(refusal) => out_of_cycle += usize::from(refusal.number == 19),
        }
    }
    assert!(
        charted > 600 && out_of_cycle > 60,
        "{charted}, {out_of_cycle}"
    );
}

#[test]
fn charts_in_other_rooms() {
    let random = &mut Random::new(10);
    let examples = timing::examples().expect("the examples").into_iter();
    let mut files = random::made_up_for_charts(random, rounds(200));
    files.extend(examples.map(|example| example.bytes));
    files.extend(cases().into_iter().step_by(8));
    for file in files {
        let answer = same_chart_in_rooms(&file);
        let room = random.index(2 * CYCLE);
        assert_eq!(
            same_chart(&file, room).is_ok(),
            answer.is_ok() && CYCLE <= room
        );
    }
    let file = b"part\tp\t720\ntask\tt\t720\t720\t720\nend\n";
    for room in 0..2 * CYCLE {
        assert_eq!(same_chart(file, room).is_ok(), CYCLE <= room);
    }
}

#[test]
fn candidates_of_the_cases_and_the_bench_files_and_the_examples() {
    let random = &mut Random::new(1);
    for file in files() {
        same_candidates(random, &file);
    }
}

#[test]
fn candidates_of_made_up_files() {
    let random = &mut Random::new(2);
    for file in random::made_up(random, rounds(400)) {
        same_candidates(random, &file);
    }
}

/// The same weighing or the same refusal.
fn same_weighing(rows: &[Row]) {
    assert_eq!(library::weigh(rows), weigh(rows), "{rows:?}");
}

#[test]
fn rows_set_by_hand() {
    let random = &mut Random::new(6);
    for _ in 0..rounds(20_000) {
        let longest = [20, 1000, 65_535, LARGEST_NUMBER][random.index(4)];
        let mut rows: Vec<Row> = random::rows(random, 16, longest)
            .into_iter()
            .map(Row::from)
            .collect();
        if random.once_in(4) && !rows.is_empty() {
            let place = random.index(rows.len());
            let edge = BY_HAND[random.index(BY_HAND.len())];
            match random.index(3) {
                0 => rows[place].period = edge,
                1 => rows[place].budget = edge,
                _ => rows[place].holding = edge,
            }
        }
        if random.once_in(50) {
            rows.resize(random.index(40), rows[0]);
        }
        same_weighing(&rows);
    }
}

#[test]
fn supplies_at_and_past_the_limits() {
    let random = &mut Random::new(3);
    for _ in 0..rounds(200_000) {
        let longest = [1000, 65_535, LARGEST_NUMBER][random.index(3)];
        let p = random.within(1..=longest);
        let q = random.within(0..=p);
        let t = random.within(0..=longest + 1);
        assert_eq!(library::supply(p, q, t), supply_answer(p, q, t));
    }
}

#[test]
fn m103_every_field_at_and_past_the_largest_number() {
    let random = &mut Random::new(7);
    for (file, _) in FIELDS {
        for digits in GOOD.map(String::from).into_iter().chain(edges::bad()) {
            let file = edges::file_with(file, &digits);
            same_in_every_room(&file);
            same_candidates(random, &file);
        }
    }
}

#[test]
fn m103_numbers_set_by_hand() {
    for p in BY_HAND {
        for q in BY_HAND {
            for other in BY_HAND {
                assert_eq!(library::supply(p, q, other), supply_answer(p, q, other));
                let row = Row::from((p, q, other));
                let lowest = Row::from((LARGEST_NUMBER, 1, LARGEST_NUMBER / 2));
                let highest = Row::from((1, 1, LARGEST_NUMBER));
                same_weighing(&[row]);
                same_weighing(&[lowest, row]);
                same_weighing(&[row, highest]);
                same_weighing(&[row; 16]);
                // The greatest L(t) that rows in range can have, if this one is.
                let mut rows = [highest; 16];
                rows[0] = row;
                same_weighing(&rows);
            }
        }
    }
}

/// The supply of an EDP resource whose deadline is its period: document 000, equation (14).
fn supply_of_000(p: i64, q: i64, t: i64) -> i64 {
    let h = (t - (p - q) + p - 1).div_euclid(p);
    0.max((h - 1) * q).max(t - (h + 1) * (p - q))
}

/// The supply of a periodic server: document 004, equation (3.1).
fn supply_of_004(p: i64, q: i64, t: i64) -> i64 {
    let delay = 2 * (p - q);
    if t < delay {
        return 0;
    }
    let m = (t - delay) / p;
    if t < delay + m * p + q {
        t - (delay + m * (p - q))
    } else {
        (m + 1) * q
    }
}

#[test]
fn supplies_as_documents_000_and_004_have_them() {
    for p in 1..=40 {
        for q in 1..=p {
            for t in 0..=4 * p + 9 {
                let ticks = library::supply(p as u64, q as u64, t as u64).map(|ticks| ticks as i64);
                assert_eq!(ticks, Ok(supply_of_000(p, q, t)), "({p},{q}) at {t}");
                assert_eq!(ticks, Ok(supply_of_004(p, q, t)), "({p},{q}) at {t}");
            }
            // The longest time without supply is 2(P - Q): document 000, equation (18).
            let delay = 2 * (p - q) as u64;
            assert_eq!(library::supply(p as u64, q as u64, delay), Ok(0));
            assert_eq!(library::supply(p as u64, q as u64, delay + 1), Ok(1));
        }
    }
}

#[test]
fn m108_the_least_over_all_deliveries() {
    for period in 1..=6 {
        for budget in 1..=period {
            let least = delivery::least_given(period, budget);
            for (time, ticks) in least.into_iter().enumerate() {
                let answer = library::supply(period as u64, budget as u64, time as u64);
                assert_eq!(answer, Ok(ticks), "({period},{budget}) at {time}");
            }
        }
    }
}
