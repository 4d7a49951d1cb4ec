//! The ticks that a budget gives, from first principles (request M-108): every assignment of ticks
//! that gives exactly Q of them in each period nP to (n+1)P, for small numbers by brute force.

/// Whether each tick is given, from tick 0 on.
pub type Assignment = Vec<bool>;

/// The number of given ticks in the window of `time` ticks from `start` on.
pub fn given(assignment: &[bool], start: usize, time: usize) -> usize {
    let window = &assignment[start..start + time];
    window.iter().filter(|&&tick| tick).count()
}

/// Whether exactly `budget` ticks are given in each period; the assignment has whole periods.
pub fn delivers(assignment: &[bool], period: usize, budget: usize) -> bool {
    assignment
        .chunks(period)
        .all(|ticks| given(ticks, 0, period) == budget)
}

/// A budget delivered early in the first period and late in every one after it.
pub fn early_then_late(period: usize, budget: usize, periods: usize) -> Assignment {
    let early = |tick| tick < budget;
    let late = |tick| period - budget <= tick;
    let tick = |y: usize| {
        if y < period {
            early(y)
        } else {
            late(y % period)
        }
    };
    (0..periods * period).map(tick).collect()
}

/// Of each number of ticks up to three periods: how many are given at least in any window of so
/// many, over all ways to deliver the budget. What follows a period of a delivery is a delivery
/// too, so a window that starts in a later period is one that starts in the first, of another
/// delivery: it is enough to try the starts of the first period, and four periods in all.
pub fn least_given(period: usize, budget: usize) -> Vec<u64> {
    let ticks = |bits: u32| bits.count_ones() as usize;
    let ways: Vec<u32> = (0..1 << period)
        .filter(|&bits| ticks(bits) == budget)
        .collect();
    let mut deliveries = vec![0];
    for n in 0..4 {
        let longer = |bits| ways.iter().map(move |way| bits | way << (n * period));
        deliveries = deliveries.into_iter().flat_map(longer).collect();
    }
    let least = |time: usize| {
        let window = |bits: u32, start: usize| bits >> start & ((1 << time) - 1);
        let counts =
            |bits| (0..period).map(move |start| u64::from(window(bits, start).count_ones()));
        deliveries.iter().copied().flat_map(counts).min()
    };
    (0..=3 * period)
        .map(|time| least(time).expect("a window"))
        .collect()
}
