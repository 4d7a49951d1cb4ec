//! The chart: which part has which tick of a cycle, and its printed form.

use crate::system::Row;
use crate::{refuse, Refusal};

/// The ticks of a cycle.
pub const CYCLE: usize = 720;

/// Question 19: the period of every row divides the cycle.
pub fn in_cycle(rows: &[Row]) -> Result<(), Refusal> {
    match rows.iter().position(|row| !divides_cycle(row.period)) {
        Some(index) => refuse(19, index + 1),
        None => Ok(()),
    }
}

/// Does this period divide the cycle?
pub fn divides_cycle(period: u64) -> bool {
    (CYCLE as u64).is_multiple_of(period)
}

/// The number of the part that has each tick of the cycle, 0 where none has it.
///
/// Goes from one start of a period to the next. In between the parts that are still due ticks get
/// them in one piece each, the highest first.
pub fn of_rows(rows: &[Row]) -> Vec<u8> {
    let mut chart = vec![0; CYCLE];
    let mut due = vec![0; rows.len()];
    let mut tick = 0;
    while tick < CYCLE {
        let now = tick as u64;
        for (due, row) in due.iter_mut().zip(rows) {
            if now.is_multiple_of(row.period) {
                *due = row.budget;
            }
        }
        let starts = rows.iter().map(|row| (now / row.period + 1) * row.period);
        let next = starts
            .min()
            .map_or(CYCLE, |start| CYCLE.min(start as usize));
        let mut free = &mut chart[tick..next];
        for (index, due) in due.iter_mut().enumerate().rev() {
            let (taken, rest) = free.split_at_mut(free.len().min(*due as usize));
            taken.fill(index as u8 + 1);
            *due -= taken.len() as u64;
            free = rest;
        }
        tick = next;
    }
    chart
}

/// How many ticks of a cycle the rows leave to no part.
pub fn unassigned(rows: &[Row]) -> u64 {
    let given = rows
        .iter()
        .map(|row| row.budget * (CYCLE as u64 / row.period));
    CYCLE as u64 - given.sum::<u64>()
}

/// How many ticks a printed line has.
pub const LINE: usize = 60;

/// The chart as text: `.` for a tick without a part, 1 to 9 and then letters for the parts.
pub fn text(chart: &[u8]) -> Vec<u8> {
    let letter = |&part: &u8| b".123456789abcdefg"[usize::from(part)];
    chart.iter().map(letter).collect()
}
