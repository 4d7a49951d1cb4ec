//! The safe interface: what it hands over, what it gives back, and every refusal. That the answers
//! are right is proved, and tested against a reference in the repository's tests/.

use std::error::Error;
use std::thread;

use planner::*;

const CARD: &str = "part\tcard\t20\ntask\tcopy\t80\t8\t80\nlock\tbuf\t2\n";
const PRINT: &str = "part\tprint\t10\ntask\tfeed\t60\t6\t60\nlock\tbuf\t3\ntask\thead\t30\t2\t30\n";
const LISTING: &str = "load\tcard\t17\t20\nshare\tcard\t20\t3\t2\t17\t20\nceiling\tbuf\t1\n\
                       share\tprint\t10\t3\t3\t8\t10\nceiling\tbuf\t2\n";

/// Card and print, above each other.
fn both() -> Vec<u8> {
    format!("{CARD}{PRINT}end\n").into_bytes()
}

fn row(period: u64, budget: u64, holding: u64) -> Row {
    Row {
        period,
        budget,
        holding,
    }
}

/// Number and place of the refusal that an answer is.
fn refused<T>(answer: Result<T, Refusal>) -> (u64, u64) {
    let refusal = answer.err().expect("a refusal");
    (refusal.number, refusal.place)
}

#[test]
fn a_plan_is_the_same_given_back_and_lent() {
    assert_eq!(plan(&both()).as_deref(), Ok(LISTING));
    for spare in [0, 1, ROOM] {
        let mut out = vec![b'.'; LISTING.len() + spare];
        let listing = plan_into(&both(), &mut out).map(|listing| listing.to_vec());
        assert_eq!(listing.as_deref(), Ok(LISTING.as_bytes()));
        assert_eq!(out, [LISTING.as_bytes(), &vec![b'.'; spare]].concat());
    }
}

#[test]
fn a_refused_plan_leaves_the_lent_bytes_alone() {
    let mut out = vec![b'.'; LISTING.len() - 1];
    assert_eq!(refused(plan_into(&both(), &mut out)), (14, 0));
    assert_eq!(refused(plan_into(b"end\n", &mut out)), (4, 1));
    assert!(out.iter().all(|&byte| byte == b'.'));
    assert_eq!(refused(plan_into(&both(), &mut [])), (14, 0));
}

/// The first period of card in the chart of both: print has 3 of every 10 ticks, card 3 of 20.
const TICKS: [u8; 20] = [2, 2, 2, 1, 1, 1, 0, 0, 0, 0, 2, 2, 2, 0, 0, 0, 0, 0, 0, 0];

#[test]
fn a_chart_is_the_same_given_back_and_lent() {
    let ticks = TICKS.repeat(CYCLE / 20);
    assert_eq!(
        chart(&both()).map(|chart| chart.to_vec()),
        Ok(ticks.clone())
    );
    for spare in [0, 1, ROOM] {
        let mut out = vec![b'.'; CYCLE + spare];
        let chart = chart_into(&both(), &mut out).map(|chart| chart.to_vec());
        assert_eq!(chart.as_ref(), Ok(&ticks));
        assert_eq!(out, [&ticks[..], &vec![b'.'; spare]].concat());
    }
}

#[test]
fn a_refused_chart_leaves_the_lent_bytes_alone() {
    let mut out = vec![b'.'; CYCLE];
    assert_eq!(refused(chart_into(&both(), &mut out[1..])), (14, 0));
    assert_eq!(refused(chart_into(b"end\n", &mut out)), (4, 1));
    let out_of_cycle = format!("{}{PRINT}end\n", CARD.replace("card\t20", "card\t21"));
    assert_eq!(
        refused(chart_into(out_of_cycle.as_bytes(), &mut out)),
        (19, 1)
    );
    assert_eq!(refused(chart(out_of_cycle.as_bytes())), (19, 1));
    assert!(out.iter().all(|&byte| byte == b'.'));
    assert_eq!(refused(chart_into(&both(), &mut [])), (14, 0));
}

#[test]
fn a_name_is_a_stretch_of_the_file() {
    let file = both();
    for (part, wanted) in [(1, "card"), (2, "print")] {
        let name = name(&file, part).expect("a name");
        assert_eq!(name, wanted);
        assert!(file.as_ptr_range().contains(&name.as_ptr()));
    }
    for part in [0, 3, usize::MAX] {
        assert_eq!(refused(name(&file, part)), (12, 0));
        assert_eq!(refused(candidates(&file, part)), (12, 0));
    }
}

#[test]
fn a_kept_list_has_its_pairs_in_order() {
    let file = b"part\ts\t250\n\
        task\tt1\t1500\t16\t1500\nlock\tr2\t8\ntask\tt2\t1300\t100\t1300\nlock\tr1\t10\n\
        task\tt3\t1200\t20\t1200\ntask\tt4\t1000\t70\t1000\nlock\tr1\t20\n\
        task\tt5\t320\t2\t320\ntask\tt6\t300\t4\t300\n\
        part\to\t250\ntask\tu\t1000\t1\t1000\nlock\tr1\t1\nlock\tr2\t1\nend\n";
    let pairs = [(102, 26), (105, 24), (112, 20)];
    let kept = pairs.map(|(budget, holding)| Pair { budget, holding });
    assert_eq!(candidates(file, 1), Ok(kept.to_vec()));
}

#[test]
fn a_weighing_has_a_bound_for_each_row() {
    let weighing = weigh(&[row(20, 3, 2), row(10, 3, 3)]).expect("a weighing");
    let bounds = [(17, 20), (8, 10)].map(|(num, den)| Fraction { num, den });
    assert_eq!(weighing.bounds, bounds);
    assert_eq!((weighing.load, weighing.row), (bounds[0], 1));
}

/// A file for each of the refusals 1 to 11, with the place of the refusal.
fn refused_files() -> [(u64, String); 11] {
    let parts = ('a'..='q').map(|name| format!("part\t{name}\t9\ntask\tt\t9\t1\t9\n"));
    let full = "part\tp\t9\ntask\tt\t9\t9\t9\ntask\tu\t9\t9\t9\nend\n";
    [
        (0, "\n".repeat(MOST_BYTES + 1)),
        (4, format!("{CARD}end")),
        (1, "part\tcard\n".to_owned()),
        (1, "end\n".to_owned()),
        (1, "part\tCARD\t20\n".to_owned()),
        (4, format!("{CARD}{CARD}")),
        (1, "part\tcard\t020\n".to_owned()),
        (3, CARD.replace("lock\tbuf\t2", "lock\tbuf\t9")),
        (33, parts.collect()),
        (1, full.to_owned()),
        (
            0,
            format!("{CARD}{}end\n", PRINT.replace("\t10\n", "\t4\n")),
        ),
    ]
}

#[test]
fn refusals_of_a_file() {
    for (number, (place, file)) in (1..).zip(refused_files()) {
        let file = file.as_bytes();
        assert_eq!(refused(plan(file)), (number, place));
        assert_eq!(refused(chart(file)), (number, place));
        if number < 10 {
            assert_eq!(refused(name(file, 1)), (number, place));
        }
        if number < 11 {
            assert_eq!(refused(candidates(file, 1)), (number, place));
        }
    }
}

#[test]
fn refusals_of_numbers_set_by_hand() {
    let good = row(MOST_NUMBER, 1, MOST_NUMBER / 16 - 1);
    assert!(weigh(&[good; MOST_ROWS]).is_ok());
    assert_eq!(refused(weigh(&[])), (12, 0));
    assert_eq!(refused(weigh(&[good; MOST_ROWS + 1])), (12, 0));
    assert_eq!(refused(weigh(&[good, row(MOST_NUMBER + 1, 1, 0)])), (12, 2));
    assert_eq!(refused(weigh(&[row(20, 9, 2), row(10, 3, 3)])), (13, 1));
    assert_eq!(
        supply(MOST_NUMBER, MOST_NUMBER, MOST_NUMBER),
        Ok(MOST_NUMBER)
    );
    assert_eq!(refused(supply(MOST_NUMBER, 1, MOST_NUMBER + 1)), (12, 0));
    assert_eq!(refused(supply(MOST_NUMBER, 0, 1)), (12, 0));
}

#[test]
fn the_longest_file_is_read() {
    let line = "part\tcard\t20\n";
    let longest = line.to_owned() + &"x".repeat(MOST_BYTES - line.len());
    assert_eq!(longest.len(), MOST_BYTES);
    assert_eq!(refused(plan(longest.as_bytes())), (2, 2));
    assert_eq!(refused(plan((longest + "x").as_bytes())), (1, 0));
}

#[test]
fn the_text_of_a_refusal() {
    let text = |number| Refusal { number, place: 3 }.text();
    assert_eq!(text(0), "no refusal");
    for number in [15, 16, 17, 18, 20, u64::MAX] {
        assert_eq!(text(number), "unknown refusal");
    }
    for number in (1..15).chain([19]) {
        assert!((0..=20).all(|other| other == number || text(other) != text(number)));
    }
    let told = |file: &[u8]| -> Result<String, Box<dyn Error>> { Ok(plan(file)?) };
    let error = told(b"part\tcard\n").expect_err("a refusal");
    assert_eq!(
        error.to_string(),
        format!("refused with 3 at 1: {}", text(3))
    );
}

/// What the standard library puts on the stack of a thread beside the call.
const BESIDE: usize = 32 * 1024;

#[test]
fn calls_at_the_same_time_in_small_threads() {
    let file = both();
    let small = |bytes| thread::Builder::new().stack_size(bytes + BESIDE);
    thread::scope(|scope| {
        let plans = [(); 8].map(|_| small(STACK_PLAN).spawn_scoped(scope, || plan(&file)));
        let charts = [(); 8].map(|_| small(STACK_CHART).spawn_scoped(scope, || chart(&file)));
        let lists =
            [(); 8].map(|_| small(STACK_CANDIDATES).spawn_scoped(scope, || candidates(&file, 2)));
        for plan in plans {
            let answer = plan.expect("a thread").join().expect("an answer");
            assert_eq!(answer.as_deref(), Ok(LISTING));
        }
        for chart in charts {
            let answer = chart.expect("a thread").join().expect("an answer");
            assert_eq!(answer.map(|ticks| ticks[..20] == TICKS), Ok(true));
        }
        for list in lists {
            let answer = list.expect("a thread").join().expect("an answer");
            assert_eq!(answer.map(|kept| kept.len()), Ok(1));
        }
    });
}
