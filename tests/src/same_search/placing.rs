//! The chart of a cycle as the library makes it: the highest part first, each takes the first Q free
//! ticks of each of its periods.

use crate::chart::CYCLE;
use crate::system::Row;

/// Writes the number of the part that has each tick, 0 where none has it. The periods of the rows
/// divide the cycle.
pub fn place(rows: &[Row], ticks: &mut [u8; CYCLE]) {
    ticks.fill(0);
    for (index, row) in rows.iter().enumerate().rev() {
        for period in ticks.chunks_exact_mut(row.period as usize) {
            let free = period.iter_mut().filter(|tick| **tick == 0);
            free.take(row.budget as usize)
                .for_each(|tick| *tick = index as u8 + 1);
        }
    }
}
