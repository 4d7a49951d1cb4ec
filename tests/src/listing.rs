//! The printed bytes: one tab between fields, byte 10 after each line.

use crate::file::{Name, Part};
use crate::system::{Row, Weighing};
use crate::Refusal;

/// The listing of a plan: its rows with their bounds, and the ceilings of each part.
pub fn of_plan<C: IntoIterator<Item = usize>>(
    parts: &[Part],
    rows: &[Row],
    weighing: &Weighing,
    ceilings: impl Fn(usize, &Row) -> C,
) -> Vec<u8> {
    let mut listing = Listing(Vec::with_capacity(1024));
    let load = weighing.load();
    listing.line("load", parts[weighing.row].name, &[load.demand, load.time]);
    for (index, part) in parts.iter().enumerate() {
        let (row, bound) = (&rows[index], weighing.bounds[index]);
        let numbers = [
            row.period,
            row.budget,
            row.holding,
            bound.demand,
            bound.time,
        ];
        listing.line("share", part.name, &numbers);
        for (lock, ceiling) in part.locks.iter().zip(ceilings(index, row)) {
            listing.line("ceiling", *lock, &[ceiling as u64]);
        }
    }
    listing.0
}

/// The line that the program prints for a refusal.
pub fn of_refusal(refusal: Refusal) -> Vec<u8> {
    format!("refused\t{}\t{}\n", refusal.number, refusal.place).into_bytes()
}

struct Listing(Vec<u8>);

impl Listing {
    /// One line: a word, a name and numbers.
    fn line(&mut self, word: &str, name: Name, numbers: &[u64]) {
        self.0.extend_from_slice(word.as_bytes());
        self.0.push(b'\t');
        self.0.extend_from_slice(name.bytes);
        for &number in numbers {
            self.0.push(b'\t');
            self.number(number);
        }
        self.0.push(b'\n');
    }

    /// A number in base ten.
    fn number(&mut self, number: u64) {
        if number >= 10 {
            self.number(number / 10);
        }
        self.0.push(b'0' + (number % 10) as u8);
    }
}
