//! The planner with the library's search against the reference: the same answer, number and place
//! included; and what the full plan files are like that its times are taken on. Seeds are fixed.

use std::collections::BTreeSet;

use reference::file::{self, MOST_LOCKS, MOST_PARTS, MOST_TASKS};
use reference::random::{self, full_kiosk, Random};
use reference::{
    candidates, literal, local, number_and_place, plan, programs, same_search, timing, Refusal,
    PROGRAM_ROOM,
};

fn lossy(file: &[u8]) -> String {
    String::from_utf8_lossy(file).into_owned()
}

/// The same plan, or the same refusal, in this room.
fn same_plan(file: &[u8], room: usize) -> Result<usize, Refusal> {
    let answer = same_search::plan(file, room);
    assert_eq!(
        answer,
        plan(file, room),
        "{room} bytes for\n{}",
        lossy(file)
    );
    answer.map(|listing| listing.len())
}

/// The same kept lists, and the same refusal for numbers that no part has.
fn same_candidates(file: &[u8]) {
    for part in 0..=MOST_PARTS + 1 {
        assert_eq!(
            same_search::candidates(file, part),
            candidates(file, part),
            "part {part} of\n{}",
            lossy(file)
        );
    }
}

/// The plan files of the cases, of bench/ and of examples/.
fn files() -> Vec<Vec<u8>> {
    let cases = programs::CASES.files().expect("the cases");
    let bench = timing::files().expect("the bench files");
    let examples = timing::examples().expect("the examples");
    let timed = bench.into_iter().chain(examples).map(|file| file.bytes);
    cases
        .into_iter()
        .map(|case| case.bytes)
        .chain(timed)
        .collect()
}

/// A file of bench/.
fn timed(name: &str) -> Vec<u8> {
    let files = timing::files().expect("the bench files").into_iter();
    let mut named = files.filter(|file| file.name == name);
    named.next().expect("a bench file").bytes
}

#[test]
fn plans_of_the_cases_and_the_bench_files_and_the_examples() {
    for file in files() {
        let _ = same_plan(&file, PROGRAM_ROOM);
    }
}

#[test]
fn plans_of_made_up_files() {
    let random = &mut Random::new(8);
    let mut answers = [0; 15];
    for file in random::made_up(random, 2000) {
        let (number, _) = number_and_place(&same_plan(&file, PROGRAM_ROOM));
        answers[number as usize] += 1;
    }
    // Planned, and refused for a part or for all of them.
    for number in [0, 10, 11] {
        assert!(answers[number] > 300, "{} of {number}", answers[number]);
    }
}

#[test]
fn plans_in_several_rooms() {
    let random = &mut Random::new(9);
    let mut planned = 0;
    for file in random::made_up(random, 100) {
        if let Ok(length) = same_plan(&file, PROGRAM_ROOM) {
            planned += 1;
            for room in [0, length - 1, length, length + 1] {
                assert_eq!(same_plan(&file, room).is_ok(), length <= room);
            }
        }
    }
    assert!(planned > 20, "{planned} planned");
}

#[test]
fn candidates_of_the_cases_and_the_bench_files_and_the_examples() {
    // A kept list at the limit of numbers takes the reference long.
    let limit = timing::files().expect("the bench files").into_iter();
    let limit = limit.filter(|file| file.name.starts_with("limit-"));
    let limit: BTreeSet<Vec<u8>> = limit.map(|file| file.bytes).collect();
    for file in files().iter().filter(|&file| !limit.contains(file)) {
        same_candidates(file);
    }
}

#[test]
fn candidates_of_made_up_files() {
    let random = &mut Random::new(10);
    for file in random::made_up(random, 400) {
        same_candidates(&file);
    }
}

#[test]
fn m113_full_kiosks_are_full_and_of_both_kinds() {
    let random = &mut Random::new(113);
    let (mut planned, mut refused) = (0, 0);
    for _ in 0..100 {
        let file = full_kiosk(random);
        let parts = file::read(&file).expect("a readable file");
        assert!(file::is_full(&parts), "{}", lossy(&file));
        match same_plan(&file, PROGRAM_ROOM) {
            Ok(_) => planned += 1,
            Err(_) => refused += 1,
        }
    }
    assert!(
        planned > 50 && refused > 10,
        "{planned} planned, {refused} refused"
    );
}

/// The different X of permitted settings: each is the holding time of a lock at some ceiling, no
/// shorter than the least of every other. Every lock is shared and has a permitted ceiling.
fn holding_times(part: &literal::Part) -> BTreeSet<i64> {
    let times_of = |lock: &String| {
        let uses = |task: &literal::Task| task.locks.iter().any(|(name, _)| name == lock);
        let users = part.tasks.iter().rposition(uses);
        let lowest = users.expect("a user") + 1;
        let ceilings = lowest..=part.tasks.len();
        let times = ceilings.filter_map(|ceiling| part.permitted_holding_time(lock, ceiling));
        let times = times.collect::<BTreeSet<i64>>();
        assert!(!times.is_empty(), "lock {lock} of {}", part.name);
        times
    };
    let times: Vec<BTreeSet<i64>> = part.shared.iter().map(times_of).collect();
    let least = times.iter().filter_map(|times| times.first()).max();
    let least = *least.expect("a shared lock");
    times
        .into_iter()
        .flatten()
        .filter(|&x| x >= least)
        .collect()
}

/// Two pairs of parts have the same X. Where the last part that holds for the blocking moved, which
/// may stand above the row, no choice would be found.
#[test]
fn m113_the_first_part_that_causes_a_blocking_moves() {
    let file = b"part\tp0\t72\ntask\tt0\t432\t5\t432\nlock\ta\t5\ntask\tt1\t288\t1\t207\n\
        part\tp1\t39\ntask\tt0\t312\t7\t312\nlock\ta\t6\ntask\tt1\t156\t1\t110\ntask\tt2\t156\t1\t72\n\
        part\tp2\t64\ntask\tt0\t384\t7\t384\nlock\ta\t6\ntask\tt1\t256\t1\t116\n\
        part\tp3\t72\ntask\tt0\t432\t5\t432\nlock\ta\t5\ntask\tt1\t288\t1\t207\nend\n";
    assert!(same_plan(file, PROGRAM_ROOM).is_ok());
}

#[test]
fn m113_values_has_as_many_holding_times_as_there_may_be() {
    let most = MOST_LOCKS * (MOST_TASKS - 1) + 1;
    let file = timed("values");
    assert!(file::is_full(&file::read(&file).expect("a readable file")));
    assert!(same_plan(&file, PROGRAM_ROOM).is_ok());
    for part in literal::read(&file).expect("a readable file") {
        assert_eq!(holding_times(&part).len(), most, "part {}", part.name);
    }
}

/// The counts of kept pairs and tasks of each part of a readable file.
fn kept_and_tasks(file: &[u8]) -> Vec<(usize, usize)> {
    let parts = file::read(file).unwrap_or_default();
    let counts = |part: &file::Part| (local::candidates(part).len(), part.tasks.len());
    parts.iter().map(counts).collect()
}

#[test]
fn m113_no_part_has_more_kept_pairs_than_tasks() {
    let random = &mut Random::new(11);
    let mut made_up = random::made_up(random, 2000);
    made_up.extend((0..100).map(|_| full_kiosk(random)));
    let (mut parts, mut reached) = (0, 0);
    for file in files().iter().chain(&made_up) {
        for (kept, tasks) in kept_and_tasks(file) {
            assert!(
                kept <= tasks,
                "{kept} pairs, {tasks} tasks in\n{}",
                lossy(file)
            );
            parts += 1;
            reached += usize::from(kept == tasks && tasks > 1);
        }
    }
    assert!(
        parts > 10_000 && reached > 100,
        "{parts} parts, {reached} with as many pairs as tasks"
    );
}

#[test]
fn m113_kept_has_as_many_kept_pairs_as_there_may_be() {
    let file = timed("kept");
    assert!(same_plan(&file, PROGRAM_ROOM).is_ok());
    assert_eq!(
        kept_and_tasks(&file),
        [(MOST_TASKS, MOST_TASKS); MOST_PARTS]
    );
    let parts = file::read(&file).expect("a readable file");
    assert!(file::is_full(&parts));
}

#[test]
fn m113_three_tasks_with_three_kept_pairs() {
    let file = b"part\tp\t24\n\
        task\tlow\t21\t7\t20\n\
        lock\tl\t7\n\
        task\tmiddle\t15\t1\t13\n\
        task\thigh\t14\t1\t9\n\
        part\to\t250\n\
        task\tu\t1000\t1\t1000\n\
        lock\tl\t1\n\
        end\n";
    let kept = same_search::candidates(file, 1).expect("a kept list");
    let kept: Vec<(i64, i64)> = kept
        .iter()
        .map(|pair| (pair.budget as i64, pair.holding as i64))
        .collect();
    assert_eq!(kept, [(20, 9), (22, 8), (24, 7)]);
    assert_eq!(literal::candidates(file, 1), Ok(kept));
}
