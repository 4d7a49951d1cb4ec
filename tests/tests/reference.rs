//! The fast reference against the expected listings, against brute force, and against the
//! readings of the paper's open places.

use reference::by_hand::{SUPPLIES, WEIGHINGS};
use reference::chart::{self, CYCLE};
use reference::edges::{self, BY_HAND, FIELDS, GOOD};
use reference::file::{self, Part, LARGEST_NUMBER, LONGEST_FILE};
use reference::local::{self, Local, Pair};
use reference::random::{self, Random, Sizes};
use reference::system::{self, Candidates, Row, Weighing};
use reference::{candidates, literal, name, number_and_place, plan, printed, programs};
use reference::{chart as charted, same_search};
use reference::{supply_answer, timing, weigh, Refusal, PROGRAM_ROOM};

// ---- helpers ----

/// A file from its lines; blanks stand for tabs.
fn w<S: AsRef<str>>(lines: &[S]) -> Vec<u8> {
    let line = |line: &S| line.as_ref().replace(' ', "\t") + "\n";
    lines.iter().map(line).collect::<String>().into_bytes()
}

/// Number and place of a plan in the program's room; (0,0) if there is one.
fn planned(file: &[u8]) -> (u32, usize) {
    number_and_place(&plan(file, PROGRAM_ROOM))
}

fn tuple(refusal: Refusal) -> literal::Refusal {
    (refusal.number, refusal.place)
}

fn signed(pairs: &[Pair]) -> Vec<(i64, i64)> {
    pairs
        .iter()
        .map(|pair| (pair.budget as i64, pair.holding as i64))
        .collect()
}

fn rows(rows: &[(u64, u64, u64)]) -> Vec<Row> {
    rows.iter().copied().map(Row::from).collect()
}

fn signed_rows(rows: &[Row]) -> Vec<literal::Row> {
    rows.iter()
        .map(|row| (row.period as i64, row.budget as i64, row.holding as i64))
        .collect()
}

/// Bounds, the load's row from 1, and the load.
fn signed_weighing(weighing: &Weighing) -> (Vec<(i64, i64)>, usize, (i64, i64)) {
    let fraction = |bound: &system::Bound| (bound.demand as i64, bound.time as i64);
    let bounds = weighing.bounds.iter().map(fraction).collect();
    (bounds, weighing.row + 1, fraction(&weighing.load()))
}

/// The kept list of a part as pairs (Q,X).
fn kept(file: &[u8], part: usize) -> Vec<(i64, i64)> {
    signed(&candidates(file, part).expect("a kept list"))
}

/// Bounds, the load's row from 1, and the load, of rows (P,Q,X).
fn weighed(list: &[(u64, u64, u64)]) -> (Vec<(i64, i64)>, usize, (i64, i64)) {
    signed_weighing(&weigh(&rows(list)).expect("a load"))
}

/// Number and place of weighing rows (P,Q,X).
fn unweighed(list: &[(u64, u64, u64)]) -> (u32, usize) {
    number_and_place(&weigh(&rows(list)))
}

fn lossy(bytes: &[u8]) -> String {
    String::from_utf8_lossy(bytes).into_owned()
}

// ---- the expected listings ----

#[test]
fn every_program_is_expected_to_print_what_the_reference_gives() {
    let cases = programs::CASES.files().expect("the cases");
    assert!(cases.len() >= 256, "only {} cases", cases.len());
    for program in programs::ALL {
        let expected = lossy(&program.expected().expect("the expected output"));
        let by_reference = lossy(&program.by_reference().expect("the program's files"));
        for (number, (line, other)) in (1..).zip(by_reference.lines().zip(expected.lines())) {
            assert_eq!(line, other, "line {number} of {}", program.name);
        }
        assert_eq!(by_reference, expected, "{}", program.name);
    }
}

// ---- the fast reference against brute force ----

/// A part in the form of the literal reader.
fn by_name(part: &Part) -> literal::Part {
    let text = |name: &[u8]| lossy(name);
    let locks = part.locks.iter().zip(part.shared);
    let shared = locks.filter(|&(_, shared)| shared);
    let task = |task: &file::Task| literal::Task {
        name: text(task.name.bytes),
        separation: task.separation as i64,
        execution: task.execution as i64,
        deadline: task.deadline as i64,
        locks: {
            let locks = part.locks_of(task);
            let mut locks: Vec<_> = locks.iter().map(|&(l, c)| (text(l), c as i64)).collect();
            locks.sort();
            locks
        },
    };
    literal::Part {
        name: text(part.name.bytes),
        period: part.period as i64,
        tasks: part.tasks.iter().map(task).collect(),
        shared: shared.map(|(name, _)| text(name.bytes)).collect(),
    }
}

/// The same parts, lock names in the same order of first mention, the same of them shared; or the
/// same refusal.
fn same_reading(bytes: &[u8]) -> (u32, usize) {
    let fast = file::read(bytes);
    let slow = literal::read(bytes);
    match (&fast, slow) {
        (Ok(fast), Ok(mut slow)) => {
            for (fast, slow) in fast.iter().zip(&slow) {
                let names: Vec<String> = fast.locks.iter().map(|name| lossy(name.bytes)).collect();
                assert_eq!(names, slow.locks(), "{}", lossy(bytes));
            }
            for task in slow.iter_mut().flat_map(|part| &mut part.tasks) {
                task.locks.sort();
            }
            let fast: Vec<literal::Part> = fast.iter().map(by_name).collect();
            assert_eq!(fast, slow, "{}", lossy(bytes));
        }
        (Err(fast), Err(slow)) => assert_eq!(tuple(*fast), slow, "{}", lossy(bytes)),
        (fast, slow) => panic!("{fast:?}\n{slow:?}\n{}", lossy(bytes)),
    }
    for part in 0..4 {
        let fast = name(bytes, part)
            .map(|stretch| (stretch.start, stretch.end))
            .map_err(tuple);
        assert_eq!(fast, literal::name(bytes, part), "{}", lossy(bytes));
    }
    number_and_place(&fast)
}

#[test]
fn damaged_files_are_read_alike() {
    let mut random = Random::new(1);
    let mut seen = [0; 10];
    for round in 0..6000 {
        let sizes = match round % 40 {
            0 => Sizes::full(),
            1..=5 => Sizes::posters(),
            6..=15 => Sizes::three_parts(),
            _ => Sizes::two_parts(),
        };
        let file = random::valid(&mut random, &sizes);
        seen[same_reading(&random::damaged(&mut random, &file)).0 as usize] += 1;
    }
    let unseen: Vec<usize> = (0..10).filter(|&number| seen[number] == 0).collect();
    assert!(
        unseen.is_empty(),
        "no file with refusals {unseen:?}: {seen:?}"
    );
}

#[test]
fn counts_at_their_limits_are_read_alike() {
    for parts in 15..=18 {
        for tasks in 15..=18 {
            for locks in 7..=10 {
                let mut lines = Vec::new();
                for part in 0..parts {
                    lines.push(format!("part p{part} 9"));
                    for task in 0..if part == 1 { tasks } else { 1 } {
                        lines.push(format!("task t{task} 9 2 9"));
                        for lock in 0..if part + 1 == parts { locks } else { 0 } {
                            lines.push(format!("lock l{lock} 1"));
                        }
                    }
                }
                lines.push("end".into());
                let number = same_reading(&w(&lines)).0;
                let within = parts <= 16 && tasks <= 16 && locks <= 8;
                assert_eq!(number, if within { 0 } else { 9 });
            }
        }
    }
}

/// The same kept list or the same refusal.
fn same_candidates(file: &[u8], part: usize) {
    let fast = candidates(file, part).map(|pairs| signed(&pairs));
    let slow = literal::candidates(file, part);
    let text = lossy(file);
    assert_eq!(fast.map_err(tuple), slow, "part {part} of\n{text}");
}

/// What a batch of files was like.
#[derive(Debug, Default)]
struct Seen {
    planned: usize,
    refused_10: usize,
    refused_11: usize,
    longer_lists: usize,
    later_pairs: usize,
    only_private: usize,
    only_shared: usize,
    mixed: usize,
}

#[test]
fn small_plans_equal_brute_force() {
    let mut random = Random::new(2);
    let mut seen = Seen::default();
    for round in 0..3000 {
        let sizes = match round % 6 {
            0 if round % 120 == 0 => Sizes::few_posters(),
            0 => Sizes::one_part(),
            1 => Sizes::three_parts(),
            _ => Sizes::two_parts(),
        };
        let file = random::valid(&mut random, &sizes);
        let slow = literal::plan(&file, PROGRAM_ROOM);
        let fast = plan(&file, PROGRAM_ROOM);
        match (&fast, &slow) {
            (Ok(_), _) => seen.planned += 1,
            (Err(Refusal { number: 10, .. }), _) => seen.refused_10 += 1,
            (Err(_), _) => seen.refused_11 += 1,
        }
        assert_eq!(
            fast.map(|listing| lossy(&listing)).map_err(tuple),
            slow,
            "{}",
            lossy(&file)
        );

        let parts = file::read(&file).expect("a readable file");
        for (number, part) in (1..).zip(&parts) {
            same_candidates(&file, number);
            let pairs = local::candidates(part);
            seen.longer_lists += usize::from(pairs.len() > 1);
            let shared = &part.shared[..part.locks.len()];
            match (shared.contains(&false), shared.contains(&true)) {
                (true, true) => seen.mixed += 1,
                (true, false) => seen.only_private += 1,
                (false, true) => seen.only_shared += 1,
                (false, false) => {}
            }
            if let (Ok(listing), Some(first)) = (&slow, pairs.first()) {
                let share = format!(
                    "share\t{}\t{}\t{}\t{}\t",
                    lossy(part.name.bytes),
                    part.period,
                    first.budget,
                    first.holding
                );
                seen.later_pairs += usize::from(!listing.contains(&share));
            }
        }
    }
    println!("{seen:?}");
    let Seen {
        planned,
        refused_10,
        refused_11,
        longer_lists,
        later_pairs,
        only_private,
        only_shared,
        mixed,
    } = seen;
    assert!(planned > 500 && refused_10 > 100 && refused_11 > 100);
    assert!(longer_lists > 100 && later_pairs > 10);
    assert!(only_private > 500 && only_shared > 500 && mixed > 100);
}

/// Every part's list and the plan built from these; there are too many choices for all budgets.
#[test]
fn example_plans_equal_brute_force() {
    let examples = timing::examples().expect("the examples");
    assert!(examples.len() >= 6, "only {} examples", examples.len());
    for example in examples {
        for part in 1..=file::read(&example.bytes).expect("a readable file").len() {
            same_candidates(&example.bytes, part);
        }
        let fast = plan(&example.bytes, PROGRAM_ROOM).map(|listing| lossy(&listing));
        let slow = literal::plan_of_kept(&example.bytes);
        assert_eq!(fast.map_err(tuple), slow, "{}", example.name);
    }
}

#[test]
fn lists_and_ceilings_of_one_part_equal_brute_force() {
    let mut random = Random::new(3);
    let mut longest = 0;
    let larger = Sizes {
        tasks: 4..=6,
        period: 30..=60,
        ..Sizes::one_part()
    };
    for round in 0..700 {
        let sizes = [Sizes::one_part(), larger.clone()];
        let file = random::valid(&mut random, &sizes[round % 2]);
        let file = random::named_elsewhere(&mut random, &file);
        let parts = file::read(&file).expect("a readable file");
        let slow = literal::read(&file).expect("a readable file").remove(0);
        let local = Local::new(&parts[0]);
        let pairs = local.candidates();
        assert_eq!(signed(&pairs), slow.kept(), "{}", lossy(&file));
        for pair in &pairs {
            let ceilings = local.ceilings(pair.holding);
            let shown = slow.ceilings_shown(pair.holding as i64);
            assert!(
                shown.iter().map(|&(_, r)| r).eq(ceilings.iter().copied()),
                "{}",
                lossy(&file)
            );
            let fast = local::blockings(&parts[0], &ceilings);
            for (i, &blocking) in (1..=slow.tasks.len()).zip(&fast) {
                assert_eq!(
                    blocking as i64,
                    slow.blocking(&shown, i),
                    "{}",
                    lossy(&file)
                );
            }
        }
        assert!(
            pairs.len() <= parts[0].tasks.len().max(1),
            "more pairs than tasks"
        );
        longest = longest.max(pairs.len());
    }
    assert!(longest >= 4, "no list longer than {longest}");
}

/// The same weighing or the same refusal, of which number and place are given.
fn same_weighing(list: &[(u64, u64, u64)]) -> (u32, usize) {
    let rows = rows(list);
    let fast = weigh(&rows);
    let answer = number_and_place(&fast);
    let fast = fast
        .map(|weighing| signed_weighing(&weighing))
        .map_err(tuple);
    assert_eq!(fast, literal::weigh(&signed_rows(&rows)), "{list:?}");
    answer
}

#[test]
fn weighing_equals_brute_force() {
    let mut random = Random::new(4);
    let mut seen = [0; 14];
    for round in 0..6000 {
        let (most, longest) = match round % 300 {
            0 => (3, LARGEST_NUMBER),
            _ => (6, [20, 100, 700][round % 3]),
        };
        let list = random::rows(&mut random, most, longest);
        seen[same_weighing(&list).0 as usize] += 1;
    }
    assert!(
        seen[0] > 1000 && seen[12] > 100 && seen[13] > 1000,
        "{seen:?}"
    );
}

#[test]
fn selection_from_made_up_lists_equals_brute_force() {
    let mut random = Random::new(5);
    let (mut passed, mut failed) = (0, 0);
    for _ in 0..2000 {
        let mut parts = Vec::new();
        let mut lists = Vec::new();
        for _ in 0..random.within(1..=4) {
            let period = random.within(8..=60);
            let pairs = random::kept_list(&mut random, 4, period);
            let signed = pairs.iter().map(|&(q, x)| (q as i64, x as i64)).collect();
            lists.push((period as i64, signed));
            let pair = |(budget, holding)| Pair { budget, holding };
            parts.push(Candidates {
                period,
                pairs: pairs.into_iter().map(pair).collect(),
            });
        }
        let slow = literal::greatest_of_least_load(&lists);
        let fast = system::select(&parts);
        match &fast {
            Some((rows, weighing)) => {
                assert_eq!(weigh(rows).as_ref(), Ok(weighing));
                passed += 1;
            }
            None => failed += 1,
        }
        assert_eq!(fast.map(|(rows, _)| signed_rows(&rows)), slow, "{parts:?}");
    }
    assert!(
        passed > 500 && failed > 100,
        "{passed} passed, {failed} failed"
    );
}

#[test]
fn kept_lists_of_the_figures_equal_brute_force() {
    for file in programs::FIGURES.files().expect("the figures") {
        let parts = file::read(&file.bytes).expect("a readable file");
        for part in 1..=parts.len() {
            same_candidates(&file.bytes, part);
        }
    }
}

#[test]
fn supplies_and_weighings_by_hand_equal_brute_force() {
    for &(period, budget, times) in SUPPLIES {
        for &time in times {
            if let Ok(ticks) = supply_answer(period, budget, time) {
                let slow = literal::supply(period as i64, budget as i64, time as i64);
                assert_eq!(ticks, slow as u64, "({period},{budget}) at {time}");
            }
        }
    }
    for list in WEIGHINGS {
        same_weighing(list);
    }
}

#[test]
fn supply_equals_the_papers_words() {
    for period in 1..=24 {
        for budget in 1..=period {
            for time in 0..=5 * period + 3 {
                let slow = literal::supply(period as i64, budget as i64, time as i64);
                assert_eq!(supply_answer(period, budget, time), Ok(slow as u64));
            }
        }
    }
}

/// The largest separation or period of the parts.
fn largest_number(parts: &[Part]) -> u64 {
    let separations = parts.iter().flat_map(|part| &part.tasks);
    let separations = separations.map(|task| task.separation);
    let periods = parts.iter().map(|part| part.period);
    separations.chain(periods).max().unwrap_or(0)
}

#[test]
fn larger_files_get_answers_that_hold() {
    let mut random = Random::new(6);
    let (mut planned, mut at_the_limit) = (0, 0);
    for round in 0..300 {
        let sizes = [Sizes::full(), Sizes::posters()];
        let file = random::valid(&mut random, &sizes[round % 2]);
        let Ok(parts) = file::read(&file) else {
            assert!(file.len() > LONGEST_FILE);
            continue;
        };
        // Every kept list rises in budget and sum and falls in holding time.
        for part in &parts {
            let pairs = local::candidates(part);
            for pair in pairs.windows(2) {
                assert!(pair[0].holding > pair[1].holding && pair[0].sum() < pair[1].sum());
            }
        }
        // A listing fits exactly from its own length on.
        if let Ok(listing) = plan(&file, PROGRAM_ROOM) {
            planned += 1;
            at_the_limit += usize::from(largest_number(&parts) == LARGEST_NUMBER);
            assert_eq!(plan(&file, listing.len()).as_ref(), Ok(&listing));
            assert_eq!(number_and_place(&plan(&file, listing.len() - 1)), (14, 0));
        }
    }
    assert!(
        planned > 60 && at_the_limit > 30,
        "{planned} planned, {at_the_limit} of these with the largest number"
    );
}

// ---- the examples of the paper ----

const A: [&str; 8] = [
    "part card 20",
    "task copy 80 8 80",
    "lock buf 2",
    "part print 10",
    "task feed 60 6 60",
    "lock buf 3",
    "task head 30 2 30",
    "end",
];

/// A with another period of card.
fn a_with_card(period: u64) -> Vec<u8> {
    let mut lines = A.map(String::from);
    lines[0] = format!("part card {period}");
    w(&lines)
}

/// Table 1 of document 001, all times doubled, and a second part that names these locks.
fn table_1(locks: &[&str]) -> Vec<u8> {
    random::with_part_naming(&table_1_alone(), locks)
}

/// The same without a second part.
fn table_1_alone() -> Vec<u8> {
    w(&[
        "part s 250",
        "task t1 1500 16 1500",
        "lock r2 8",
        "task t2 1300 100 1300",
        "lock r1 10",
        "task t3 1200 20 1200",
        "task t4 1000 70 1000",
        "lock r1 20",
        "task t5 320 2 320",
        "task t6 300 4 300",
        "end",
    ])
}

/// The first line of the listing.
fn load_line(file: &[u8]) -> String {
    let listing = lossy(&plan(file, PROGRAM_ROOM).expect("a plan"));
    listing
        .lines()
        .next()
        .unwrap_or_default()
        .replace('\t', " ")
}

#[test]
fn examples_a_to_l() {
    let listing = w(&[
        "load card 17 20",
        "share card 20 3 2 17 20",
        "ceiling buf 1",
        "share print 10 3 3 8 10",
        "ceiling buf 2",
    ]);
    assert_eq!(lossy(&printed(&w(&A))), lossy(&listing)); // A
    let slow = &literal::read(&w(&A)).expect("A is readable")[1];
    let low = vec![("buf".to_string(), 1)];
    assert_eq!(slow.holding_time(&low), Some(5)); // B: (2,5) is a candidate, not kept
    assert!(slow.passes(&low, 2) && !slow.passes(&low, 1));
    assert_eq!(kept(&w(&A), 2), [(3, 3)]);
    assert_eq!(load_line(&a_with_card(10)), "load card 10 10"); // C
    assert_eq!(load_line(&a_with_card(9)), "load card 9 9"); // D
    assert_eq!(planned(&a_with_card(8)), (11, 0)); // E
    let f = table_1(&["r1", "r2"]);
    assert_eq!(kept(&f, 1), [(102, 26), (105, 24), (112, 20)]); // F
    assert_eq!(
        weighed(&[(96, 2, 2), (20, 2, 1)]),
        (vec![(19, 96), (5, 20)], 2, (5, 20))
    ); // G
    assert_eq!(planned(b""), (4, 1)); // H
    assert_eq!(
        printed(&w(&["part p 10", "task t 10 10 10", "end"])),
        w(&["load p 10 10", "share p 10 10 0 10 10"])
    ); // I
    assert_eq!(
        planned(&w(&[
            "part p 10",
            "task t 10 6 10",
            "task u 10 6 10",
            "end"
        ])),
        (10, 1)
    ); // J
    let supplies = [14, 15, 17, 24, 25].map(|time| supply_answer(10, 3, time));
    assert_eq!(supplies, [0, 1, 3, 3, 4].map(Ok)); // K
    assert_eq!(planned(&w(&["part p 1000000"])), (4, 2)); // L
    assert_eq!(planned(&w(&["part p 1000001"])), (7, 1));
    assert_eq!(planned(&w(&["part p 010"])), (7, 1));
    assert_eq!(lossy(&printed(b"")), "refused\t4\t1\n");
}

// ---- readings of the plan file ----

/// One part with one good task.
const P_AND_T: [&str; 2] = ["part p 10", "task t 20 1 20"];

/// The lines of `P_AND_T`, then these.
fn after_p_and_t(lines: &[&str]) -> Vec<u8> {
    w(&[&P_AND_T, lines].concat())
}

#[test]
fn r1_a_last_line_without_byte_10() {
    assert_eq!(planned(b"part\tp\t10"), (2, 1));
    assert_eq!(planned(b"part\tp\t10\n"), (4, 2));
    assert_eq!(planned(&[w(&P_AND_T), b"end".to_vec()].concat()), (2, 3));
    assert_eq!(planned(b""), (4, 1));
}

#[test]
fn r2_what_follows_end() {
    assert_eq!(
        planned(&[after_p_and_t(&["end"]), b"x".to_vec()].concat()),
        (2, 4)
    );
    assert_eq!(planned(&after_p_and_t(&["end", ""])), (3, 4));
    assert_eq!(planned(&after_p_and_t(&["end", "end"])), (4, 4));
}

#[test]
fn r3_empty_lines() {
    assert_eq!(planned(b"\n"), (3, 1));
    assert_eq!(planned(b"\t\n"), (3, 1));
}

#[test]
fn r4_question_3_before_4_before_the_others() {
    assert_eq!(planned(&w(&["task T 0 0"])), (3, 1));
    assert_eq!(planned(&w(&["task T 0 0 0"])), (4, 1));
    assert_eq!(planned(&w(&["part p 10", "part p 0"])), (4, 2));
}

#[test]
fn r5_a_part_has_a_task() {
    assert_eq!(planned(&after_p_and_t(&["part q 10", "lock a 1"])), (4, 4));
    assert_eq!(planned(&after_p_and_t(&["part q 10", "end"])), (4, 4));
    assert_eq!(planned(&after_p_and_t(&["part q 10"])), (4, 4));
}

#[test]
fn r6_a_task_belongs_to_the_nearest_part() {
    let file = after_p_and_t(&["part q 10", "task u 20 1 20", "end"]);
    let parts = file::read(&file).expect("a readable file");
    let names: Vec<&[u8]> = parts
        .iter()
        .flat_map(|part| &part.tasks)
        .map(|t| t.name.bytes)
        .collect();
    assert_eq!((parts.len(), names), (2, vec![&b"t"[..], b"u"]));
}

#[test]
fn r7_new_names() {
    let lines = [
        "part a 10",
        "task a 40 1 40",
        "lock a 1",
        "task b 40 1 40",
        "lock a 1",
        "end",
    ];
    assert_eq!(planned(&w(&lines)), (0, 0));
    let lines = ["part a 10", "task a 40 1 40", "lock a 1", "lock a 1", "end"];
    assert_eq!(planned(&w(&lines)), (6, 4));
}

#[test]
fn r8_the_limit_of_lock_names() {
    let with_locks = |count: usize, more: &[&str]| {
        let mut lines = vec!["part p 10".to_string(), "task t 40 2 40".into()];
        lines.extend((0..count).map(|k| format!("lock l{k} 1")));
        lines.extend(more.iter().map(|line| line.to_string()));
        w(&lines)
    };
    assert_eq!(planned(&with_locks(8, &["lock l8 3", "end"])), (8, 11));
    assert_eq!(planned(&with_locks(8, &["lock l8 0", "end"])), (7, 11));
    assert_eq!(planned(&with_locks(9, &["end"])), (9, 11));
    assert_eq!(
        planned(&with_locks(8, &["task u 40 2 40", "lock l0 1", "end"])),
        (0, 0)
    );
}

#[test]
fn r9_the_limit_of_parts() {
    let with_part = |line: &str| {
        let mut lines = Vec::new();
        for k in 0..16 {
            lines.push(format!("part p{k} 50"));
            lines.push("task t 900 1 900".into());
        }
        lines.push(line.into());
        w(&lines)
    };
    assert_eq!(planned(&with_part("part p0 0")), (6, 33));
    assert_eq!(planned(&with_part("part q 0")), (7, 33));
    assert_eq!(planned(&with_part("part q 9")), (9, 33));
}

#[test]
fn r10_well_formed_numbers() {
    assert_eq!(planned(&w(&["part p 18446744073709551626"])), (7, 1));
    assert_eq!(planned(b"part\tp\t\n"), (7, 1));
    for number in [
        "4294967297",
        "18446744073709551617",
        "+5",
        "-1",
        "1000001",
        "0",
        "05",
        "5x",
    ] {
        assert_eq!(
            planned(&w(&[format!("part p {number}")])),
            (7, 1),
            "{number}"
        );
    }
    assert_eq!(
        planned(&w(&[format!("part p {}", "9".repeat(30_000))])),
        (7, 1)
    );
}

#[test]
fn r11_all_numbers_before_question_8() {
    assert_eq!(planned(&w(&["part p 10", "task t 5 9 0"])), (7, 2));
    assert_eq!(planned(&w(&["part p 10", "task t 5 9 5"])), (8, 2));
}

#[test]
fn r12_a_trailing_tab() {
    assert_eq!(planned(b"part\tp\t10\t\n"), (3, 1));
    assert_eq!(
        planned(&[w(&P_AND_T), b"end\t\n".to_vec()].concat()),
        (3, 3)
    );
}

#[test]
fn r13_question_1_before_everything() {
    assert_eq!(planned(&[0; 32_769]), (1, 0));
    assert_eq!(planned(&[0; 32_768]), (2, 1));
}

#[test]
fn r14_bytes_that_no_line_may_have() {
    assert_eq!(planned(b"part\tp q\t10\n"), (2, 1));
    assert_eq!(planned(b"part\tp_q\t10\n"), (5, 1));
    for byte in 0..=255 {
        let file = [b"part\tp", &[byte][..], b"\t10\n"].concat();
        let expected = match byte {
            b'\t' | b'\n' => (3, 1),
            b'a'..=b'z' | b'0'..=b'9' => (4, 2),
            33..=126 => (5, 1),
            _ => (2, 1),
        };
        assert_eq!(planned(&file), expected, "byte {byte}");
    }
}

#[test]
fn r15_all_questions_of_a_line_before_the_next() {
    assert_eq!(
        planned(&[w(&["part p 0"]), b"\x00\n".to_vec()].concat()),
        (7, 1)
    );
}

#[test]
fn m102_every_byte_behind_tabs() {
    for before in 0..=7 {
        for byte in 0..=255 {
            let file = [&b"\t".repeat(before), &[byte][..], b"\n"].concat();
            // How many tabs the first line has, and how many bytes before its byte 10.
            let found = match byte {
                9 => Some((before + 1, before + 1)),
                10 => Some((before, before)),
                33..=126 => Some((before, before + 1)),
                _ => None,
            };
            let line = found.map(|(tabs, end)| literal::Line {
                end,
                tabs: (0..tabs.min(5)).collect(),
            });
            assert_eq!(literal::line_at(&file, 0), line, "{before} tabs, {byte}");
            let number = if line.is_some() { 3 } else { 2 };
            assert_eq!(planned(&file), (number, 1), "{before} tabs, {byte}");
        }
    }
    assert_eq!(literal::line_at(b"a\n", 2), None);
    assert_eq!(literal::line_at(b"a\n", 3), None);
}

#[test]
fn m102_the_longest_file_is_a_case_and_timed() {
    let cases = programs::CASES.files().expect("the cases");
    let case = cases.iter().find(|file| file.name == "m102-longest");
    let timed = timing::files().expect("the bench files");
    let timed = timed.iter().find(|file| file.name == "longest");
    assert_eq!(case.expect("a case").bytes, timed.expect("timed").bytes);
    assert_eq!(timed.map(|file| file.bytes.len()), Some(LONGEST_FILE));
}

#[test]
fn m103_every_field_at_and_past_the_largest_number() {
    for (file, line) in FIELDS {
        for digits in GOOD {
            let file = edges::file_with(file, digits);
            assert_eq!(same_reading(&file), (0, 0), "{}", lossy(&file));
            // With a lock held for all of the only task's time the sum of Q and X exceeds P.
            let answer = if line == 3 { (11, 0) } else { (0, 0) };
            assert_eq!(planned(&file), answer, "{}", lossy(&file));
        }
        for digits in edges::bad() {
            let file = edges::file_with(file, &digits);
            assert_eq!(same_reading(&file), (7, line), "{}", lossy(&file));
        }
    }
}

#[test]
fn m103_question_7_before_8_at_the_largest_number() {
    let task = |task: &str, lock: &str| same_reading(&w(&["part p 10", task, lock, "end"]));
    for (numbers, answer) in [
        ("1000000 1000000 1000000", (0, 0)),
        ("1000000 999999 999999", (0, 0)),
        ("999999 1 1000000", (8, 2)),
        ("1000000 1000000 999999", (8, 2)),
        ("1000000 1000001 1", (7, 2)),
        ("1000000 1 1000001", (7, 2)),
        ("1000001 1000002 1000000", (7, 2)),
    ] {
        assert_eq!(
            task(&format!("task t {numbers}"), "lock l 1"),
            answer,
            "{numbers}"
        );
    }
    for (held, answer) in [("999999", (0, 0)), ("1000000", (8, 3)), ("1000001", (7, 3))] {
        let lock = format!("lock l {held}");
        assert_eq!(task("task t 1000000 999999 1000000", &lock), answer);
    }
}

#[test]
fn m103_numbers_set_by_hand() {
    let good = |number: u64| (1..=1_000_000).contains(&number);
    for p in BY_HAND {
        for q in BY_HAND {
            for other in BY_HAND {
                let in_range = good(p) && good(q) && q <= p && (other == 0 || good(other));
                let answer = supply_answer(p, q, other);
                assert_eq!(answer.is_ok(), in_range, "supply of ({p},{q}) at {other}");
                if let Ok(ticks) = answer {
                    let slow = literal::supply(p as i64, q as i64, other as i64);
                    assert_eq!(ticks as i64, slow, "supply of ({p},{q}) at {other}");
                }
                // As the only row, as the lowest of two, and as the highest.
                let row = (p, q, other);
                let alone = match (in_range, q.saturating_add(other) <= p) {
                    (false, _) => (12, 1),
                    (true, false) => (13, 1),
                    (true, true) => (0, 0),
                };
                assert_eq!(unweighed(&[row]), alone, "{row:?}");
                if alone.0 == 12 {
                    assert_eq!(unweighed(&[row, (1, 1, 0)]), (12, 1), "{row:?}");
                    assert_eq!(unweighed(&[(9, 9, 9), row]), (12, 2), "{row:?}");
                }
            }
        }
    }
    assert_eq!(supply_answer(1_000_000, 1, 1_000_000), Ok(0));
    assert_eq!(
        number_and_place(&supply_answer(1_000_000, 1, 1_000_001)),
        (12, 0)
    );
}

#[test]
fn m103_sixteen_rows_at_the_largest_number() {
    // They fill the longest period to its last tick.
    let rows = [(1_000_000, 31_250, 31_250); 16];
    assert_eq!(same_weighing(&rows), (0, 0));
    let (bounds, row, load) = weighed(&rows);
    assert_eq!((row, load), (1, (1_000_000, 1_000_000)));
    assert_eq!(bounds[15], (93_750, 1_000_000));
    // A tick more is too much for the lowest.
    let mut rows = rows;
    rows[15].1 += 1;
    assert_eq!(same_weighing(&rows), (13, 1));
    // The greatest L(t) that rows in range can have.
    let mut rows = [(1, 1, 1_000_000); 16];
    assert_eq!(same_weighing(&rows), (13, 1));
    rows[0] = (1_000_000, 1_000_000, 1_000_000);
    assert_eq!(same_weighing(&rows), (13, 1));
    assert_eq!(
        weighed(&[(1_000_000, 1_000_000, 0)]),
        (vec![(1_000_000, 1_000_000)], 1, (1_000_000, 1_000_000))
    );
}

#[test]
fn m103_plans_with_large_numbers_hold_by_brute_force() {
    let mut random = Random::new(9);
    let (mut planned, mut pairs) = (0, 0);
    let cases = programs::CASES.files().expect("the cases").into_iter();
    let cases = cases.filter(|case| case.name.starts_with("m103-"));
    let made_up = (0..40).map(|_| random::valid(&mut random, &Sizes::posters()));
    for file in cases.map(|case| case.bytes).chain(made_up) {
        let Ok(parts) = file::read(&file) else {
            continue;
        };
        // Brute force of sixteen parts would take too long.
        if parts.len() > 4 {
            continue;
        }
        let slow = literal::read(&file).expect("a readable file");
        let mut lists = Vec::new();
        for (part, slow) in parts.iter().zip(&slow) {
            let list = local::candidates(part);
            for (q, x) in signed(&list) {
                assert!(shown_for(slow, q, x), "({q},{x}) of\n{}", lossy(&file));
                pairs += 1;
            }
            lists.push(Candidates {
                period: part.period,
                pairs: list,
            });
        }
        if let Some((rows, weighing)) = system::select(&lists) {
            let slow = literal::load(&signed_rows(&rows));
            assert_eq!(Some(signed_weighing(&weighing)), slow, "{}", lossy(&file));
            planned += 1;
        }
    }
    assert!(
        planned > 20 && pairs > 100,
        "{planned} planned, {pairs} pairs"
    );
}

// ---- private locks ----

/// One part with a lock of its lower task.
const ONE_LOCK: [&str; 5] = [
    "part p 10",
    "task a 60 6 60",
    "lock l 3",
    "task b 30 2 30",
    "end",
];

/// The kept list of a part, as brute force has it too.
fn kept_by_both(file: &[u8], part: usize) -> Vec<(i64, i64)> {
    same_candidates(file, part);
    kept(file, part)
}

/// Which locks of each part are shared, as the literal reader has it too.
fn shared_locks(file: &[u8]) -> Vec<Vec<String>> {
    assert_eq!(same_reading(file), (0, 0), "{}", lossy(file));
    let parts = literal::read(file).expect("a readable file");
    let shared = |part: literal::Part| part.shared.into_iter().collect();
    parts.into_iter().map(shared).collect()
}

#[test]
fn p1_a_file_with_one_part_has_only_private_locks() {
    let file = w(&ONE_LOCK);
    assert_eq!(kept_by_both(&file, 1), [(2, 0)]);
    let named = random::with_part_naming(&file, &["l"]);
    assert_eq!(kept_by_both(&named, 1), [(3, 3)]);
    let listing = w(&["load p 2 10", "share p 10 2 0 2 10", "ceiling l 1"]);
    assert_eq!(lossy(&printed(&file)), lossy(&listing));
    let slow = literal::plan(&file, PROGRAM_ROOM);
    assert_eq!(slow, Ok(lossy(&listing)));
}

#[test]
fn p2_parts_are_counted_and_not_tasks() {
    let by_two_tasks = [
        "part p 10",
        "task a 60 6 60",
        "lock l 3",
        "task b 60 2 60",
        "lock l 1",
        "task c 30 2 30",
    ];
    let later = ["part q 10", "task a 60 1 60", "lock l 1", "end"];
    let other = ["part q 10", "task a 60 1 60", "lock m 1", "end"];
    let file = |end: &[&str]| w(&[&by_two_tasks[..], end].concat());
    assert_eq!(shared_locks(&file(&["end"])), [[""; 0]]);
    assert_eq!(shared_locks(&file(&other)), [[""; 0], []]);
    // A later part's mention counts for the earlier part, and the other way round.
    assert_eq!(shared_locks(&file(&later)), [["l"], ["l"]]);
    assert_eq!(kept_by_both(&file(&["end"]), 1), [(3, 0)]);
    assert_eq!(kept_by_both(&file(&other), 1), [(3, 0)]);
    assert_eq!(kept_by_both(&file(&later), 1), [(3, 3)]);
}

#[test]
fn p3_the_limit_of_lock_names_counts_private_ones() {
    let with_locks = |count: usize| {
        let mut lines = vec!["part p 10".to_string(), "task t 40 2 40".into()];
        lines.extend((0..count).map(|k| format!("lock l{k} 1")));
        lines.push("end".into());
        w(&lines)
    };
    for named in [&[][..], &["l0"], &["l0", "l1", "l2", "l3"]] {
        let file = |count| random::with_part_naming(&with_locks(count), named);
        assert_eq!(same_reading(&file(8)), (0, 0));
        assert_eq!(same_reading(&file(9)), (9, 11));
    }
}

#[test]
fn p4_a_private_lock_asks_no_permission() {
    let file = w(&[
        "part p 10",
        "task a 40 9 40",
        "lock x 9",
        "task b 40 1 5",
        "lock x 1",
        "end",
    ]);
    let part = |file: &[u8]| literal::read(file).expect("a readable file").remove(0);
    let setting = vec![("x".to_string(), 2)];
    let (private, shared) = (part(&file), part(&random::with_part_naming(&file, &["x"])));
    assert!(private.settings().iter().eq([&setting]));
    assert!(shared.settings().iter().eq([&setting]));
    assert_eq!(private.holding_time(&setting), Some(0));
    assert_eq!(shared.holding_time(&setting), None);
    // N8: there is no budget anyway.
    assert_eq!(planned(&file), (10, 1));
}

#[test]
fn p5_private_and_shared_locks_in_order_of_first_mention() {
    let file = w(&[
        "part p 50",
        "task t 900 1 900",
        "lock d 1",
        "lock c 1",
        "lock b 1",
        "lock a 1",
        "task u 900 1 900",
        "lock b 1",
        "task v 900 1 900",
        "part q 50",
        "task t 900 1 900",
        "lock a 1",
        "lock e 1",
        "lock c 1",
        "end",
    ]);
    assert_eq!(shared_locks(&file), [["a", "c"]; 2]);
    let listing = lossy(&printed(&file)).replace('\t', " ");
    let ceilings = listing.lines().filter(|line| line.starts_with("ceiling"));
    assert!(
        ceilings.eq([
            "ceiling d 1",
            "ceiling c 3",
            "ceiling b 2",
            "ceiling a 3",
            "ceiling a 1",
            "ceiling e 1",
            "ceiling c 1",
        ]),
        "{listing}"
    );
}

#[test]
fn p6_example_b_rests_on_both_parts() {
    assert_eq!(shared_locks(&w(&A)), [["buf"], ["buf"]]);
    assert_eq!(kept_by_both(&w(&A), 2), [(3, 3)]);
    let alone: Vec<&str> = A[3..].to_vec();
    assert_eq!(kept_by_both(&w(&alone), 1), [(2, 0)]);
}

#[test]
fn m100_example_f_with_both_locks_shared_or_one_or_none() {
    let all = [(102, 26), (105, 24), (112, 20)];
    assert_eq!(kept_by_both(&table_1(&["r1", "r2"]), 1), all);
    assert_eq!(kept_by_both(&table_1(&["r2"]), 1), [(106, 8)]);
    assert_eq!(kept_by_both(&table_1(&[]), 1), [(102, 0)]);
    assert_eq!(kept_by_both(&table_1_alone(), 1), [(102, 0)]);
}

/// Made-up files for the laws: small ones, for brute force too.
fn small_files(seed: u64, count: usize) -> impl Iterator<Item = Vec<u8>> {
    let mut random = Random::new(seed);
    (0..count).map(move |round| {
        let sizes = [Sizes::two_parts(), Sizes::three_parts(), Sizes::one_part()];
        let file = random::valid(&mut random, &sizes[round % 3]);
        match round % 2 {
            0 => random::named_elsewhere(&mut random, &file),
            _ => file,
        }
    })
}

/// The file with another name for a lock in one part, parts counted from 0.
fn with_lock_renamed(file: &[u8], part: usize, old: &str, new: &str) -> Vec<u8> {
    let (old, new) = (format!("lock\t{old}\t"), format!("lock\t{new}\t"));
    let mut parts = 0;
    let text = lossy(file);
    let line = |line: &str| {
        parts += usize::from(line.starts_with("part\t"));
        match line.strip_prefix(&old) {
            Some(rest) if parts == part + 1 => format!("{new}{rest}\n"),
            _ => format!("{line}\n"),
        }
    };
    text.lines().map(line).collect::<String>().into_bytes()
}

/// Every part of the file with each of its locks, and whether that is shared.
fn locks_of(file: &[u8]) -> Vec<(usize, String, bool)> {
    let mut found = Vec::new();
    for (index, part) in file::read(file)
        .expect("a readable file")
        .iter()
        .enumerate()
    {
        for (lock, shared) in part.locks.iter().zip(part.shared) {
            found.push((index, lossy(lock.bytes), shared));
        }
    }
    found
}

#[test]
fn m100_the_name_of_a_private_lock_makes_no_difference() {
    let mut seen = 0;
    let mut random = Random::new(11);
    let full = (0..30).map(|_| random::valid(&mut random, &Sizes::full()));
    let full = full.filter(|file| file.len() <= LONGEST_FILE);
    for file in small_files(10, 900).chain(full) {
        let listing = lossy(&printed(&file));
        for (part, lock, _) in locks_of(&file).iter().filter(|(_, _, shared)| !shared) {
            let renamed = printed(&with_lock_renamed(&file, *part, lock, "other"));
            let back = lossy(&renamed).replace("\tother\t", &format!("\t{lock}\t"));
            assert_eq!(back, listing, "{lock} of\n{}", lossy(&file));
            seen += usize::from(listing.starts_with("load"));
        }
    }
    assert!(seen > 400, "{seen} locks renamed");
}

/// The ceilings of the shared locks in each setting of a part, and its X.
fn shared_settings(part: &literal::Part) -> Vec<(literal::Setting, Option<i64>)> {
    let shared = |setting: literal::Setting| {
        let x = part.holding_time(&setting);
        let shared = |(lock, _): &(String, usize)| part.shared.contains(lock);
        (setting.into_iter().filter(shared).collect(), x)
    };
    part.settings().into_iter().map(shared).collect()
}

#[test]
fn m100_private_locks_do_not_enter_x() {
    let mut random = Random::new(13);
    let (mut changed, mut budgets) = (0, 0);
    for file in small_files(12, 900) {
        for part in literal::read(&file).expect("a readable file") {
            let private = part.locks();
            let private = private.iter().find(|lock| !part.shared.contains(*lock));
            // A lock of its own, if it has none.
            let lock = private.cloned().unwrap_or("own".to_string());
            let mut other = part.clone();
            let task = random.index(other.tasks.len());
            let task = &mut other.tasks[task];
            task.locks.retain(|(name, _)| *name != lock);
            let held = random.within(1..=task.execution as u64);
            task.locks.push((lock, held as i64));
            assert_eq!(
                shared_settings(&other),
                shared_settings(&part),
                "{}",
                lossy(&file)
            );
            changed += 1;
            budgets += usize::from(other.kept() != part.kept());
        }
    }
    assert!(
        changed > 1000 && budgets > 50,
        "{changed} changed, {budgets} with other lists"
    );
}

#[test]
fn m100_with_all_locks_shared_answers_are_those_of_before() {
    let mut random = Random::new(14);
    let mut longer = 0;
    for _ in 0..600 {
        let alone = random::valid(&mut random, &Sizes::one_part());
        let file = random::with_part_naming(&alone, &random::lock_names(&alone));
        // Every lock has a holding time and any ceiling from its lowest up.
        let mut before = literal::read(&alone).expect("a readable file").remove(0);
        before.shared = before.locks().into_iter().collect();
        let pairs = local::candidates(&file::read(&file).expect("a readable file")[0]);
        assert_eq!(signed(&pairs), before.kept(), "{}", lossy(&file));
        longer += usize::from(pairs.len() > 1);
    }
    assert!(longer > 50, "{longer} lists longer than one pair");
}

#[test]
fn m100_a_list_depends_on_the_part_and_on_its_shared_locks() {
    let mut mixed = 0;
    for file in small_files(15, 900) {
        let text = lossy(&file);
        let parts: Vec<&str> = text.trim_end_matches("end\n").split("part\t").collect();
        for (number, shared) in (1..).zip(shared_locks(&file)) {
            let alone = format!("part\t{}end\n", parts[number]).into_bytes();
            let file_of_two = random::with_part_naming(&alone, &shared);
            let pairs = |file: &[u8], part| candidates(file, part).map_err(|no| no.number);
            // A part of that name may be there.
            if parts[number].starts_with("o\t") {
                continue;
            }
            assert_eq!(
                pairs(&file_of_two, 1),
                pairs(&file, number),
                "part {number} of\n{text}"
            );
            let locks = random::lock_names(&alone).len();
            mixed += usize::from(!shared.is_empty() && shared.len() < locks);
        }
    }
    assert!(mixed > 100, "{mixed} parts with locks of both kinds");
}

/// The load of the plan, if there is one.
fn load_of(file: &[u8]) -> Option<(u64, u64)> {
    let listing = lossy(&plan(file, PROGRAM_ROOM).ok()?);
    let fields: Vec<&str> = listing.lines().next()?.split('\t').collect();
    Some((fields[2].parse().ok()?, fields[3].parse().ok()?))
}

#[test]
fn m100_one_more_private_lock_never_makes_a_load_greater() {
    let (mut same, mut less, mut newly) = (0, 0, 0);
    let mut random = Random::new(17);
    let full = (0..60).map(|_| random::valid(&mut random, &Sizes::full()));
    let full = full.filter(|file| file.len() <= LONGEST_FILE);
    for file in small_files(16, 3000).chain(full) {
        let load = load_of(&file);
        for (part, lock, _) in locks_of(&file).iter().filter(|(_, _, shared)| *shared) {
            let other = with_lock_renamed(&file, *part, lock, "other");
            match (load, load_of(&other)) {
                (Some((l, t)), Some((l2, t2))) => {
                    assert!(l2 * t <= l * t2, "{lock} of\n{}", lossy(&file));
                    *(if l2 * t < l * t2 {
                        &mut less
                    } else {
                        &mut same
                    }) += 1;
                }
                (Some(_), None) => panic!("{lock} of\n{}", lossy(&file)),
                (None, Some(_)) => newly += 1,
                (None, None) => {}
            }
        }
    }
    assert!(
        same > 100 && less > 500 && newly > 50,
        "{same} the same, {less} less, {newly} newly planned"
    );
}

/// The part without a budget, if the file is refused for that.
fn without_budget(file: &[u8]) -> Option<usize> {
    let refusal = plan(file, PROGRAM_ROOM).err()?;
    (refusal.number == 10).then_some(refusal.place)
}

#[test]
fn m100_one_more_private_lock_gives_no_part_a_budget() {
    let mut refused = 0;
    for file in small_files(18, 3000) {
        let part = without_budget(&file);
        for (of, lock, _) in locks_of(&file).iter().filter(|(_, _, shared)| *shared) {
            let other = with_lock_renamed(&file, *of, lock, "other");
            assert_eq!(without_budget(&other), part, "{lock} of\n{}", lossy(&file));
            refused += usize::from(part.is_some());
        }
    }
    assert!(refused > 100, "{refused} refused with 10");
}

// ---- readings of the numbers ----

#[test]
fn n1_two_settings_with_the_same_pair() {
    let lines = [
        "part p 10",
        "task a 60 2 60",
        "lock l 2",
        "lock m 1",
        "task b 60 1 60",
        "end",
    ];
    let file = random::with_part_naming(&w(&lines), &["l", "m"]);
    assert_eq!(kept(&file, 1), [(1, 2)]);
}

#[test]
fn n3_blocking_takes_the_lower_tasks_own_time() {
    let file = w(&[
        "part p 10",
        "task a 90 1 90",
        "lock l 1",
        "task b 90 1 90",
        "task c 90 5 90",
        "lock l 5",
        "end",
    ]);
    let parts = file::read(&file).expect("a readable file");
    assert_eq!(local::blockings(&parts[0], &[3])[..3], [0, 1, 1]);
}

#[test]
fn n4_the_smallest_time_of_the_least_ratio() {
    assert_eq!(weighed(&[(96, 2, 2), (20, 2, 1)]).0[0], (19, 96));
    assert_eq!(weighed(&[(8, 1, 0), (4, 1, 0)]).0[0], (3, 8));
    assert_eq!(weighed(&[(4, 1, 0), (2, 1, 0)]).0[0], (3, 4));
}

#[test]
fn n5_the_first_row_that_reaches_the_load() {
    let first = weighed(&[(20, 8, 2), (20, 5, 0)]);
    assert_eq!(first, (vec![(15, 20), (7, 20)], 1, (15, 20)));
    let first = weighed(&[(20, 5, 1), (10, 2, 0)]);
    assert_eq!(first, (vec![(10, 20), (3, 10)], 1, (10, 20)));
    let first = weighed(&[(40, 6, 2), (10, 2, 1)]);
    assert_eq!(first, (vec![(20, 40), (5, 10)], 1, (20, 40)));
}

#[test]
fn n6_ceilings_in_order_of_first_mention_in_the_part() {
    let file = w(&[
        "part p 50",
        "task t 900 1 900",
        "lock b 1",
        "lock a 1",
        "part q 50",
        "task t 900 1 900",
        "lock a 1",
        "lock b 1",
        "end",
    ]);
    let listing = lossy(&printed(&file));
    let lines: Vec<&str> = listing.split('\n').skip(2).collect();
    let expected = [
        "ceiling\tb\t1",
        "ceiling\ta\t1",
        "share\tq\t50\t1\t1\t3\t50",
        "ceiling\ta\t1",
        "ceiling\tb\t1",
        "",
    ];
    assert_eq!(lines, expected);
}

#[test]
fn n2_n7_n8_permission_and_least_budgets_do_not_show() {
    let mut random = Random::new(7);
    for _ in 0..200 {
        let file = random::valid(&mut random, &Sizes::one_part());
        let file = random::named_elsewhere(&mut random, &file);
        let part = literal::read(&file).expect("a readable file").remove(0);
        // N8: a setting with a passing budget is permitted.
        for setting in part.settings() {
            if part.holding_time(&setting).is_none() {
                assert!(!part.passes(&setting, part.period), "{}", lossy(&file));
            }
        }
        // N7: the ceilings shown for a kept pair have its X and its Q as least budget.
        for (q, x) in part.kept() {
            assert!(shown_for(&part, q, x), "({q},{x}) of\n{}", lossy(&file));
        }
    }
}

/// Have the ceilings shown for a pair its X, and its Q as least budget?
fn shown_for(part: &literal::Part, q: i64, x: i64) -> bool {
    let shown = part.ceilings_shown(x);
    part.holding_time(&shown) == Some(x) && part.passes(&shown, q) && !part.passes(&shown, q - 1)
}

#[test]
fn a3_b11_every_setting_of_table_1() {
    // r1, r2, X, least Q, blocking of tasks 1 to 6
    let table = [
        (4, 1, 204, 102, [0, 0, 10, 10, 0, 0]),
        (5, 1, 204, 105, [0, 0, 10, 10, 20, 0]),
        (6, 1, 204, 112, [0, 0, 10, 10, 20, 20]),
        (4, 2, 104, 102, [0, 8, 10, 10, 0, 0]),
        (5, 2, 104, 105, [0, 8, 10, 10, 20, 0]),
        (6, 2, 104, 112, [0, 8, 10, 10, 20, 20]),
        (4, 3, 84, 102, [0, 8, 10, 10, 0, 0]),
        (5, 3, 84, 105, [0, 8, 10, 10, 20, 0]),
        (6, 3, 84, 112, [0, 8, 10, 10, 20, 20]),
        (4, 4, 26, 102, [0, 8, 10, 10, 0, 0]),
        (5, 4, 24, 105, [0, 8, 10, 10, 20, 0]),
        (6, 4, 20, 112, [0, 8, 10, 10, 20, 20]),
        (4, 5, 26, 102, [0, 8, 10, 10, 8, 0]),
        (5, 5, 24, 105, [0, 8, 10, 10, 20, 0]),
        (6, 5, 20, 112, [0, 8, 10, 10, 20, 20]),
        (4, 6, 26, 106, [0, 8, 10, 10, 8, 8]),
        (5, 6, 24, 106, [0, 8, 10, 10, 20, 8]),
        (6, 6, 20, 112, [0, 8, 10, 10, 20, 20]),
    ];
    let file = table_1(&["r1", "r2"]);
    let part = literal::read(&file).expect("a readable file").remove(0);
    assert_eq!(part.settings().len(), table.len());
    let least = |r1: usize, r2: usize| {
        let setting = vec![("r2".to_owned(), r2), ("r1".to_owned(), r1)];
        (1..=part.period).find(|&budget| part.passes(&setting, budget))
    };
    for (r1, r2, x, q, blockings) in table {
        let setting = vec![("r2".to_owned(), r2), ("r1".to_owned(), r1)];
        assert!(part.settings().contains(&setting));
        assert_eq!(part.holding_time(&setting), Some(x));
        assert_eq!(least(r1, r2), Some(q));
        let blocked: Vec<i64> = (1..=6).map(|i| part.blocking(&setting, i)).collect();
        assert_eq!(blocked, blockings);
        // Lemma 5: the larger of the least budgets with only one ceiling raised.
        assert_eq!(least(r1, r2), least(r1, 1).max(least(4, r2)));
    }
}

/// The least budget that supplies `need` ticks by t: document 000, Lemma 1 and Algorithm 1, in whole
/// ticks, with its root found by whole numbers.
fn partial_budget(period: i64, need: i64, t: i64) -> i64 {
    // The floor of the positive root of P k² + (P − t) k − need. Algorithm 1 divides the need by it,
    // whether the root is whole or not.
    let value = |k: i64| period * k * k + (period - t) * k - need;
    let floor = (0..).take_while(|&k| value(k) <= 0).last().unwrap_or(0);
    let up = |a: i64, b: i64| (a + b - 1).div_euclid(b);
    let first = up(need - t + (floor + 2) * period, floor + 2);
    if floor == 0 {
        return first;
    }
    first.min(up(need, floor))
}

#[test]
fn b4_the_least_budget_by_algorithm_1() {
    let random = &mut Random::new(8);
    for _ in 0..50_000 {
        let period = random.within(1..=60) as i64;
        let t = random.within(1..=300) as i64;
        let need = random.within(1..=t as u64) as i64;
        let least = (1..=period).find(|&budget| need <= literal::supply(period, budget, t));
        let by_lemma = Some(partial_budget(period, need, t)).filter(|&budget| budget <= period);
        assert_eq!(least, by_lemma, "P = {period}, {need} ticks by {t}");
    }
}

#[test]
fn n10_weighing_in_its_order_of_questions() {
    assert_eq!(unweighed(&[(10, 1, 1_000_000)]), (13, 1));
    assert_eq!(unweighed(&[(10, 10, 10), (10, 0, 0)]), (12, 2));
    assert_eq!(unweighed(&[(0, 0, 0); 17]), (12, 0));
    assert_eq!(unweighed(&[]), (12, 0));
    assert_eq!(unweighed(&[(10, 0, 0)]), (12, 1));
    assert_eq!(unweighed(&[(1_000_000, 1, 0), (1_000_001, 1, 0)]), (12, 2));
    assert_eq!(unweighed(&[(u64::MAX, u64::MAX, u64::MAX)]), (12, 1));
}

#[test]
fn n11_supply_at_0() {
    assert_eq!(supply_answer(10, 3, 0), Ok(0));
    assert_eq!(supply_answer(10, 10, 0), Ok(0));
    assert_eq!(
        supply_answer(1_000_000, 1_000_000, 1_000_000),
        Ok(1_000_000)
    );
    for (period, budget, time) in [
        (10, 0, 0),
        (10, 11, 0),
        (1_000_001, 1, 0),
        (9, 9, 1_000_001),
        (0, 0, 0),
    ] {
        assert_eq!(
            number_and_place(&supply_answer(period, budget, time)),
            (12, 0)
        );
    }
}

#[test]
fn n12_part_numbers() {
    let file = w(&[
        "part p 10",
        "task t 10 6 10",
        "task u 10 6 10",
        "part q 10",
        "task t 40 1 40",
        "end",
    ]);
    let number = |part| number_and_place(&candidates(&file, part));
    assert_eq!(
        [0, 1, 2, 3].map(number),
        [(12, 0), (10, 1), (0, 0), (12, 0)]
    );
    assert_eq!(planned(&file), (10, 1));
    assert_eq!(name(&file, 1), Ok(5..6));
    assert_eq!(name(&file, 2).map(|stretch| &file[stretch]), Ok(&b"q"[..]));
    assert_eq!(number_and_place(&name(&file, 3)), (12, 0));
    assert_eq!(number_and_place(&name(&file, usize::MAX)), (12, 0));
}

#[test]
fn n13_room_for_the_listing() {
    let none = w(&["part p 10", "task t 10 6 10", "task u 10 6 10", "end"]);
    assert_eq!(number_and_place(&plan(&none, 0)), (10, 1));
    let file = w(&["part p 10", "task t 10 10 10", "end"]);
    let listing = b"load\tp\t10\t10\nshare\tp\t10\t10\t0\t10\t10\n";
    assert_eq!(plan(&file, 35), Ok(listing.to_vec()));
    assert_eq!(
        plan(&file, 34),
        Err(Refusal {
            number: 14,
            place: 0
        })
    );
}

// ---- the chart of a cycle ----

/// The numbers of a chart's answers in a room of a cycle: planned, refused with 10, 11 or 19, or for
/// what a line has.
#[derive(Debug, Default)]
struct Charts {
    charted: usize,
    refused_10: usize,
    refused_11: usize,
    refused_19: usize,
    unread: usize,
}

impl Charts {
    fn count(&mut self, number: u32) {
        match number {
            0 => self.charted += 1,
            10 => self.refused_10 += 1,
            11 => self.refused_11 += 1,
            19 => self.refused_19 += 1,
            1..=9 => self.unread += 1,
            _ => panic!("refused with {number}"),
        }
    }
}

/// The chart by the library's way of making it.
fn placed(file: &[u8], room: usize) -> Result<Vec<u8>, Refusal> {
    let mut out = vec![b'x'; room];
    let written = same_search::chart(file, &mut out);
    let untouched = written.as_ref().map_or(0, |&written| written);
    assert!(out[untouched..].iter().all(|&byte| byte == b'x'));
    out.truncate(untouched);
    written.map(|_| out)
}

/// The chart as it is made in both fast ways, or its refusal.
fn charted_by_both(file: &[u8], room: usize) -> Result<Vec<u8>, Refusal> {
    let answer = charted(file, room);
    assert_eq!(answer, placed(file, room), "{}", lossy(file));
    answer
}

/// The rows of the plan, from the `share` lines of its listing.
fn planned_rows(file: &[u8]) -> Vec<literal::Row> {
    let listing = lossy(&plan(file, PROGRAM_ROOM).expect("a plan"));
    let shares = listing.lines().filter(|line| line.starts_with("share"));
    let row = |line: &str| {
        let numbers = line
            .split('\t')
            .skip(2)
            .map(|field| field.parse().expect("a number"));
        let numbers: Vec<i64> = numbers.collect();
        (numbers[0], numbers[1], numbers[2])
    };
    shares.map(row).collect()
}

/// How often a part has a tick of these.
fn ticks_of(part: usize, ticks: &[u8]) -> i64 {
    ticks
        .iter()
        .filter(|&&holder| holder as usize == part)
        .count() as i64
}

/// Every part gets exactly Q ticks in each of its periods, in the cycle and in two repetitions; the
/// other ticks are nobody's.
fn every_period_has_its_budget(chart: &[u8], rows: &[literal::Row]) {
    assert_eq!(chart.len(), CYCLE);
    let mut free = CYCLE as i64;
    for (part, &(p, q, _)) in (1..).zip(rows) {
        for period in chart.repeat(3).chunks(p as usize) {
            assert_eq!(ticks_of(part, period), q, "part {part} of {rows:?}");
        }
        free -= q * CYCLE as i64 / p;
    }
    assert_eq!(ticks_of(0, chart), free, "{rows:?}");
}

/// The same chart or the same refusal by brute force, which looks at `all` choices or only at those
/// of kept pairs.
fn same_chart(file: &[u8], all: bool) -> u32 {
    let fast = charted_by_both(file, CYCLE);
    let slow = match all {
        true => literal::chart(file, CYCLE),
        false => literal::chart_of_kept(file, CYCLE),
    };
    assert_eq!(fast.clone().map_err(tuple), slow, "{}", lossy(file));
    if let Ok(chart) = &fast {
        let rows = planned_rows(file);
        every_period_has_its_budget(chart, &rows);
        assert_eq!(literal::ticks(&rows, 3 * CYCLE as i64), chart.repeat(3));
    }
    number_and_place(&fast).0
}

#[test]
fn small_charts_equal_brute_force() {
    let mut random = Random::new(10);
    let mut seen = Charts::default();
    for round in 0..1200 {
        let sizes = [Sizes::two_parts(), Sizes::three_parts(), Sizes::one_part()];
        let file = random::valid(&mut random, &sizes[round % 3]);
        let file = random::in_cycle(&mut random, &file);
        let file = match round % 8 {
            0 => random::damaged(&mut random, &file),
            _ => file,
        };
        // Damage may make numbers long or add many locks; brute force would take too long then.
        let is_small = |part: &Part| part.locks.len() <= 3 && part.tasks.len() <= 6;
        let small = |parts: &[Part]| parts.iter().all(is_small) && largest_number(parts) <= 2000;
        if file::read(&file).is_ok_and(|parts| parts.len() > 3 || !small(&parts)) {
            continue;
        }
        seen.count(same_chart(&file, true));
    }
    println!("{seen:?}");
    let Charts {
        charted,
        refused_10,
        refused_11,
        refused_19,
        unread,
    } = seen;
    assert!(charted > 300 && refused_10 > 20 && refused_11 > 100);
    assert!(refused_19 > 20 && unread > 50);
}

#[test]
fn charts_of_made_up_files_keep_every_budget() {
    let mut random = Random::new(11);
    let mut seen = Charts::default();
    let mut parts = [0; 17];
    for file in random::made_up_for_charts(&mut random, 4000) {
        let answer = charted_by_both(&file, CYCLE);
        seen.count(number_and_place(&answer).0);
        if let Ok(chart) = answer {
            let rows = planned_rows(&file);
            every_period_has_its_budget(&chart, &rows);
            assert_eq!(literal::ticks(&rows, 2 * CYCLE as i64), chart.repeat(2));
            parts[rows.len()] += 1;
        }
    }
    println!("{seen:?}, by parts {parts:?}");
    assert!(seen.charted > 1000 && seen.refused_19 > 100);
    assert!((1..=16).all(|count| parts[count] > 10), "{parts:?}");
}

/// "Accepted" is any rows that pass the system test, not only those of least load.
#[test]
fn m109_every_accepted_choice_of_rows_keeps_every_budget() {
    let mut random = Random::new(12);
    let divisors: Vec<u64> = (1..=720).filter(|&p| chart::divides_cycle(p)).collect();
    assert_eq!(divisors.len(), 30);
    let mut accepted = 0;
    for _ in 0..40_000 {
        let count = random.within(1..=16);
        let row = |_| {
            let period = divisors[random.index(30)];
            let budget = random.within(1..=(period / count).max(1));
            let holding = random.within(0..=7).saturating_sub(4);
            (period, budget, holding)
        };
        let mut rows: Vec<(u64, u64, u64)> = (0..count).map(row).collect();
        if !random.once_in(4) {
            rows.sort_by(|one, other| other.0.cmp(&one.0));
        }
        let list: Vec<Row> = rows.iter().copied().map(Row::from).collect();
        if weigh(&list).is_ok() {
            let chart = chart::of_rows(&list);
            every_period_has_its_budget(&chart, &signed_rows(&list));
            assert_eq!(chart, literal::ticks(&signed_rows(&list), CYCLE as i64));
            assert_eq!(ticks_of(0, &chart) as u64, chart::unassigned(&list));
            accepted += 1;
        }
    }
    assert!(accepted > 2000, "{accepted} accepted");
}

#[test]
fn charts_of_the_examples_equal_brute_force() {
    let examples = timing::examples().expect("the examples");
    for example in &examples {
        let number = same_chart(&example.bytes, false);
        let first = example.name.ends_with("-first");
        assert_eq!(number, if first { 11 } else { 0 }, "{}", example.name);
    }
}

#[test]
fn charts_of_the_test_program_equal_brute_force() {
    let mut charted = 0;
    for file in programs::CHARTS.files().expect("the charts") {
        let parts = file::read(&file.bytes).unwrap_or_default();
        // Brute force over all budgets of so long a period would take too long.
        if largest_number(&parts) < 100_000 {
            charted += usize::from(same_chart(&file.bytes, false) == 0);
        }
    }
    assert!(charted > 10, "{charted} charted");
}

/// One part that has its whole period, or as much of it.
fn one_part(period: u64, budget: u64) -> Vec<u8> {
    let task = format!("task t {period} {budget} {period}");
    w(&[&format!("part p {period}"), &task, "end"])
}

/// Parts with these periods, lowest first, each with little work.
fn parts_of(periods: &[u64]) -> Vec<u8> {
    let mut lines = Vec::new();
    for (index, period) in periods.iter().enumerate() {
        lines.push(format!("part p{index} {period}"));
        lines.push(format!("task t {0} 1 {0}", 4 * period.min(&250_000)));
    }
    lines.push("end".into());
    w(&lines)
}

/// Number and place of a chart in this room.
fn uncharted(file: &[u8], room: usize) -> (u32, usize) {
    number_and_place(&charted_by_both(file, room))
}

#[test]
fn m109_a_byte_is_the_number_of_a_part_and_no_digit() {
    assert_eq!(
        charted_by_both(&one_part(720, 720), CYCLE),
        Ok(vec![1; CYCLE])
    );
    assert_eq!(charted_by_both(&one_part(1, 1), CYCLE), Ok(vec![1; CYCLE]));
    let sixteen = charted_by_both(&parts_of(&[720; 16]), CYCLE).expect("a chart");
    let falling: Vec<u8> = (1..=16).rev().collect();
    assert_eq!(sixteen[..16], falling);
    assert!(sixteen[16..].iter().all(|&byte| byte == 0));
}

#[test]
fn m109_the_highest_part_is_the_later_row() {
    let chart = charted_by_both(&w(&A), CYCLE).expect("a chart");
    let period: [u8; 20] = [2, 2, 2, 1, 1, 1, 0, 0, 0, 0, 2, 2, 2, 0, 0, 0, 0, 0, 0, 0];
    assert_eq!(chart, period.repeat(36));
    // A part that is interrupted goes on in the higher part's next period.
    let file = w(&[
        "part low 720",
        "task t 1440 180 1440",
        "part high 10",
        "task t 100 40 100",
        "end",
    ]);
    let rows = planned_rows(&file);
    let chart = charted_by_both(&file, CYCLE).expect("a chart");
    every_period_has_its_budget(&chart, &rows);
    assert_eq!(rows[1].0, 10);
    assert_eq!(chart[9], 1);
    assert_eq!(chart[10], 2);
}

#[test]
fn m109_1_to_11_are_asked_before_19_and_19_before_14() {
    // 10 and 11 with a period of 7, and 9.
    let part_7 = ["part q 7", "task t 70 1 70"];
    let none = ["part p 10", "task t 10 6 10", "task u 10 6 10"];
    let with_7 = |lines: &[&str]| w(&[&part_7[..], lines, &["end"]].concat());
    assert_eq!(uncharted(&with_7(&none), 0), (10, 2));
    assert_eq!(
        uncharted(&w(&[&none[..], &part_7, &["end"]].concat()), 0),
        (10, 1)
    );
    let full = ["part p 10", "task t 10 10 10"];
    assert_eq!(uncharted(&with_7(&full), 0), (11, 0));
    assert_eq!(uncharted(&with_7(&["part q 9", "task t 9 1 9"]), 0), (6, 3));
    for room in [0, 719, 720, 721] {
        assert_eq!(
            uncharted(&w(&["part p 7", "task t 70 1 70", "end"]), room),
            (19, 1)
        );
    }
    assert_eq!(
        uncharted(&w(&["part p 10", "task t 70 1 70", "end"]), 719),
        (14, 0)
    );
}

#[test]
fn m109_the_first_part_out_of_cycle_is_named() {
    for (periods, place) in [
        (&[7, 10, 10][..], 1),
        (&[10, 7, 10], 2),
        (&[10, 10, 7], 3),
        (&[10, 7, 7], 2),
        (&[7, 7, 7], 1),
        (&[721], 1),
        (&[720, 721], 2),
        (&[1_000_000, 720], 1),
        (&[1_000_000], 1),
        (&[1440, 720], 1),
        (&[480, 720], 1),
        (&[720, 719], 2),
    ] {
        assert_eq!(
            uncharted(&parts_of(periods), CYCLE),
            (19, place),
            "{periods:?}"
        );
    }
    for period in 1..=1500 {
        let answer = uncharted(&parts_of(&[period]), CYCLE).0;
        let divides = (1..=720).any(|periods| periods * period == 720);
        assert_eq!(answer, if divides { 0 } else { 19 }, "{period}");
    }
}

#[test]
fn m109_720_bytes_are_enough_and_the_listing_may_be_longer() {
    let file = one_part(720, 720);
    for room in [0, 1, 719] {
        assert_eq!(uncharted(&file, room), (14, 0));
    }
    for room in [720, 721, PROGRAM_ROOM] {
        assert_eq!(
            charted_by_both(&file, room).map(|chart| chart.len()),
            Ok(CYCLE)
        );
    }
    // The listing's own length is not asked.
    let names: Vec<String> = (0..8)
        .map(|lock| format!("lock longlo{lock:02} 1"))
        .collect();
    let mut lines = Vec::new();
    for part in 0..16 {
        lines.push(format!("part longpt{part:02} 720"));
        lines.push("task t 7200 1 7200".into());
        lines.extend(names.clone());
    }
    lines.push("end".into());
    let file = w(&lines);
    assert_eq!(number_and_place(&plan(&file, CYCLE)), (14, 0));
    assert_eq!(uncharted(&file, CYCLE), (0, 0));
}

/// A part with budget and period alike leaves no tick to one below it, which is then refused.
#[test]
fn m109_no_ticks_are_left_over() {
    assert_eq!(planned_rows(&one_part(720, 720)), [(720, 720, 0)]);
    let whole = [
        "part low 720",
        "task t 1440 1 1440",
        "part p 1",
        "task t 9 9 9",
        "end",
    ];
    assert_eq!(uncharted(&w(&whole), CYCLE), (11, 0));
    // Every tick is given: 1/2 and 1/2.
    let file = w(&[
        "part p 2",
        "task t 22 10 22",
        "part q 2",
        "task t 22 10 22",
        "end",
    ]);
    let rows = planned_rows(&file);
    every_period_has_its_budget(&charted_by_both(&file, CYCLE).expect("a chart"), &rows);
}
