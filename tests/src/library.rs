//! The planner's own library, as rust/planner gives it. Each operation is asked twice, through the
//! safe interface and through the raw one: the raw answer must say the same, and have zeros wherever
//! there is nothing to say. Anything else is a fault of the library.

use std::array;
use std::ops::Range;

use planner::{raw, MOST_ROWS};

use crate::local::Pair;
use crate::system::{Bound, Row, Weighing};
use crate::{number_and_place, Refusal};

/// An answer with its refusal as the reference has it, and the number and the place that the raw
/// answer must have.
fn settled<T>(answer: Result<T, planner::Refusal>) -> (Result<T, Refusal>, u64, u64) {
    let answer = answer.map_err(|refusal| Refusal {
        number: refusal.number as u32,
        place: refusal.place as usize,
    });
    let (number, place) = number_and_place(&answer);
    (answer, number.into(), place as u64)
}

/// How many bytes were written, or the refusal, and the raw answer that says the same.
fn written(
    answer: Result<&mut [u8], planner::Refusal>,
) -> (Result<usize, Refusal>, raw::PlanAnswer) {
    let (answer, number, place) = settled(answer.map(|bytes| bytes.len()));
    let raw = raw::PlanAnswer {
        number,
        place,
        written: answer.unwrap_or(0),
    };
    (answer, raw)
}

/// The plan of the file: its listing is in the first bytes of `out`, as many as are counted.
pub fn plan(file: &[u8], out: &mut [u8]) -> Result<usize, Refusal> {
    let (answer, expected) = written(planner::plan_into(file, out));
    // SAFETY: the pointers and the lengths are those of the slices; the call writes only to `out`.
    let raw = unsafe { raw::planner_plan(file.as_ptr(), file.len(), out.as_mut_ptr(), out.len()) };
    assert_eq!(raw, expected);
    answer
}

/// The chart of the file: it is in the first bytes of `out`, as many as are counted. The chart given
/// back is the same, or has the same refusal but for the room.
pub fn chart(file: &[u8], out: &mut [u8]) -> Result<usize, Refusal> {
    let (answer, expected) = written(planner::chart_into(file, out));
    let before = out.to_vec();
    // SAFETY: the pointers and the lengths are those of the slices; the call writes only to `out`.
    let raw = unsafe { raw::planner_chart(file.as_ptr(), file.len(), out.as_mut_ptr(), out.len()) };
    assert_eq!(raw, expected);
    assert!(out == before, "the raw call writes other bytes");
    let given = planner::chart(file);
    match answer {
        Ok(count) => assert!(given.is_ok_and(|chart| chart == out[..count])),
        Err(Refusal { number: 14, .. }) => assert!(given.is_ok()),
        Err(refusal) => assert_eq!(settled(given).0, Err(refusal)),
    }
    answer
}

/// The stretch of the file that is the name of the part, parts counted from 1.
pub fn name(file: &[u8], part: usize) -> Result<Range<usize>, Refusal> {
    let stretch = planner::name(file, part).map(|name| {
        let start = name.as_ptr() as usize - file.as_ptr() as usize;
        start..start + name.len()
    });
    let (answer, number, place) = settled(stretch);
    let stretch = answer.clone().unwrap_or(0..0);
    let expected = raw::NameAnswer {
        number,
        place,
        start: stretch.start,
        length: stretch.len(),
    };
    // SAFETY: the pointer and the length are those of the slice, which the call only reads.
    let raw = unsafe { raw::planner_name(file.as_ptr(), file.len(), part) };
    assert_eq!(raw, expected);
    answer
}

/// The first numbers of a list in an array, zeros after them.
fn padded<T: Copy + Default, const N: usize>(list: &[T]) -> [T; N] {
    array::from_fn(|place| list.get(place).copied().unwrap_or_default())
}

/// Weighs rows set by hand, lent and by value; after the sixteenth only their count is handed over
/// by value.
pub fn weigh(rows: &[Row]) -> Result<Weighing, Refusal> {
    let as_lent = |row: &Row| planner::Row {
        period: row.period,
        budget: row.budget,
        holding: row.holding,
    };
    let rows: Vec<planner::Row> = rows.iter().map(as_lent).collect();
    let (answer, number, place) = settled(planner::weigh(&rows));
    let weighed = answer.as_ref().ok();
    let expected = raw::WeighAnswer {
        number,
        place,
        bounds: padded(weighed.map_or(&[], |weighed| &weighed.bounds)),
        load: weighed.map(|weighed| weighed.load).unwrap_or_default(),
        row: weighed.map_or(0, |weighed| weighed.row),
    };
    let by_value = raw::Rows {
        rows: padded::<_, MOST_ROWS>(&rows),
        count: rows.len(),
    };
    // SAFETY: the pointer and the count are those of the list, which the call only reads.
    let lent = unsafe { raw::planner_weigh_slice(rows.as_ptr(), rows.len()) };
    assert_eq!(lent, expected);
    // SAFETY: numbers in, numbers out.
    assert_eq!(unsafe { raw::planner_weigh(by_value) }, expected);
    let weighed = answer?;
    let bound = |of: &planner::Fraction| Bound {
        demand: of.num,
        time: of.den,
    };
    let weighing = Weighing {
        bounds: weighed.bounds.iter().map(bound).collect(),
        row: weighed.row as usize - 1,
    };
    assert_eq!(bound(&weighed.load), weighing.load());
    Ok(weighing)
}

/// The kept list of one part of the file, parts counted from 1.
pub fn candidates(file: &[u8], part: usize) -> Result<Vec<Pair>, Refusal> {
    let (answer, number, place) = settled(planner::candidates(file, part));
    let kept = answer.as_ref().map_or(&[][..], Vec::as_slice);
    let expected = raw::CandidatesAnswer {
        number,
        place,
        pairs: padded(kept),
        count: kept.len(),
    };
    // SAFETY: the pointer and the length are those of the slice, which the call only reads.
    let raw = unsafe { raw::planner_candidates(file.as_ptr(), file.len(), part) };
    assert_eq!(raw, expected);
    let pairs = answer?.into_iter().map(|pair| Pair {
        budget: pair.budget,
        holding: pair.holding,
    });
    Ok(pairs.collect())
}

/// The supply of a budget in a server period over `time` ticks.
pub fn supply(period: u64, budget: u64, time: u64) -> Result<u64, Refusal> {
    let (answer, number, place) = settled(planner::supply(period, budget, time));
    let expected = raw::SupplyAnswer {
        number,
        place,
        ticks: answer.unwrap_or(0),
    };
    // SAFETY: numbers in, numbers out.
    let raw = unsafe { raw::planner_supply(period, budget, time) };
    assert_eq!(raw, expected);
    answer
}
