//! Hunts for plan files that the library takes long for: `hunt SECONDS [SEED] [FOLDER]`. Each round
//! starts with the slowest of some files of one kind and climbs by small changes; where all parts
//! are alike, first with one of them. Prints each new slowest, at the end the slowest of each kind,
//! and keeps the slowest of all as FOLDER/slowest.plan.

use std::hint::black_box;
use std::path::PathBuf;
use std::time::{Duration, Instant};
use std::{env, error::Error, fs};

use reference::file::MOST_PARTS;
use reference::hunt::starts::{start, Kind};
use reference::hunt::{changes, climb, Sketch};
use reference::random::Random;
use reference::{timing, PROGRAM_ROOM};

/// A changed file is taken if it is slower by this factor.
const SLOWER: f64 = 1.02;
/// Changes in vain that end a climb.
const PATIENCE: u32 = 600;
/// Rounds that share the time, about.
const ROUNDS: u32 = 24;
/// Milliseconds that need not be timed again.
const LONG: f64 = 100.0;

/// A file and its milliseconds.
type Found = (Sketch, f64);

struct Hunt {
    random: Random,
    begin: Instant,
    end: Instant,
    /// The files of bench/.
    timed: Vec<Sketch>,
    /// How many files were tried.
    tried: u64,
    /// The slowest of each kind, in the order of `Kind::ALL`.
    found: Vec<Option<Found>>,
}

/// The slowest of all that were found.
fn slowest(found: &[Option<Found>]) -> Option<&Found> {
    let found = found.iter().flatten();
    found.max_by(|a, b| a.1.total_cmp(&b.1))
}

impl Hunt {
    /// A few files of the kind, then changes of the slowest; keeps it if it is the slowest of its
    /// kind, and tells whether it is the slowest of all.
    fn round(&mut self, place: usize, share: Duration) -> bool {
        let now = Instant::now();
        let [a_third, two_thirds, all] =
            [1, 2, 3].map(|thirds| self.end.min(now + share * thirds / 3));
        let mut best = self.slowest_start(place, a_third);
        if best.0.is_alike() {
            best = self.climb_alone(best, two_thirds);
        }
        best = self.climb(best, all);
        self.keep(place, best.0)
    }

    /// Climbs with one of the parts, which are alike: that is quicker. Then it is repeated.
    fn climb_alone(&mut self, from: Found, until: Instant) -> Found {
        let alone = Sketch::repeated(&from.0.parts[0], 1);
        let time = score(&mut self.tried, &alone, 0.0);
        let alone = self.climb((alone, time), until).0;
        let repeated = Sketch::repeated(&alone.parts[0], MOST_PARTS);
        let time = score(&mut self.tried, &repeated, 0.0);
        if time > from.1 || from.0.parts.len() == 1 {
            (repeated, time)
        } else {
            from
        }
    }

    /// The slowest of some files of the kind. All files of bench/ are tried as they are at first.
    fn slowest_start(&mut self, place: usize, until: Instant) -> Found {
        let kind = Kind::ALL[place];
        let mut best = (self.timed[0].clone(), 0.0);
        if kind == Kind::Timed && self.found[place].is_none() {
            for sketch in &self.timed {
                best = slower(&mut self.tried, best, sketch.clone());
            }
            return best;
        }
        let tries = match kind {
            Kind::Turns => 2,
            Kind::Timed | Kind::Again => 4,
            _ => 100,
        };
        for tried in 0..tries {
            if tried > 0 && Instant::now() > until {
                break;
            }
            let slowest = slowest(&self.found).map_or(&self.timed[0], |(sketch, _)| sketch);
            let sketch = start(&mut self.random, kind, &self.timed, slowest);
            best = slower(&mut self.tried, best, sketch);
        }
        best
    }

    fn climb(&mut self, from: Found, until: Instant) -> Found {
        let (random, tried) = (&mut self.random, &mut self.tried);
        let change = |sketch: &mut Sketch| {
            for _ in 0..random.within(1..=3) {
                changes::change(random, sketch);
            }
        };
        let score = |sketch: &Sketch, least: f64| score(tried, sketch, least);
        let over = || Instant::now() > until;
        climb(from, PATIENCE, SLOWER, change, score, over)
    }

    fn keep(&mut self, place: usize, sketch: Sketch) -> bool {
        // Timed once more: the times before were chosen for being long.
        let time = sketch.bytes().map_or(0.0, |bytes| plan(&bytes, 0.0).0);
        let is_slowest = slowest(&self.found).is_none_or(|&(_, top)| time > top);
        let of_kind = &mut self.found[place];
        if of_kind.as_ref().is_none_or(|&(_, top)| time > top) {
            *of_kind = Some((sketch, time));
        }
        is_slowest
    }
}

/// The slower one.
fn slower(tried: &mut u64, best: Found, other: Sketch) -> Found {
    let time = score(tried, &other, best.1);
    if time > best.1 {
        (other, time)
    } else {
        best
    }
}

/// The time of a plan, 0 if the file is too long. A part that stands alone counts for as many as
/// there may be, unless it is refused: then those behind it would not be looked at.
fn score(tried: &mut u64, sketch: &Sketch, least: f64) -> f64 {
    let Some(bytes) = sketch.bytes() else {
        return 0.0;
    };
    *tried += 1;
    let alone = sketch.parts.len() == 1;
    let times = |refused: bool| {
        if alone && !refused {
            MOST_PARTS as f64
        } else {
            1.0
        }
    };
    let (time, refused) = plan(&bytes, least / times(false));
    time * times(refused)
}

/// The milliseconds that a plan takes of the processor, and whether a part is refused: the least
/// time of three, of fewer where it is not above `least`, or long anyway.
fn plan(bytes: &[u8], least: f64) -> (f64, bool) {
    let mut out = [0u8; PROGRAM_ROOM];
    let (mut time, mut refused) = (f64::MAX, false);
    for _ in 0..3 {
        let begin = timing::used();
        let answer = black_box(planner::plan_into(black_box(bytes), &mut out));
        time = time.min(1000.0 * (timing::used() - begin).as_secs_f64());
        refused = answer.is_err_and(|refusal| refusal.number == 10);
        if time <= least || time > LONG {
            break;
        }
    }
    (time, refused)
}

fn main() -> Result<(), Box<dyn Error>> {
    let mut words = env::args().skip(1);
    let seconds = words.next().ok_or("for how many seconds?")?.parse()?;
    let seed = words.next().map_or(Ok(1), |word| word.parse())?;
    let folder = words.next().map(PathBuf::from);
    let begin = Instant::now();
    let time = Duration::from_secs(seconds);
    let timed = timing::files()?;
    let mut hunt = Hunt {
        random: Random::new(seed),
        begin,
        end: begin + time,
        timed: timed
            .iter()
            .filter_map(|file| Sketch::read(&file.bytes))
            .collect(),
        tried: 0,
        found: vec![None; Kind::ALL.len()],
    };
    println!("seconds          ms  kind        files");
    for place in (0..Kind::ALL.len()).cycle() {
        if Instant::now() > hunt.end {
            break;
        }
        if !hunt.round(place, time / ROUNDS) {
            continue;
        }
        if let Some((sketch, time)) = slowest(&hunt.found) {
            let (seconds, kind) = (hunt.begin.elapsed().as_secs(), Kind::ALL[place].name());
            println!("{seconds:>7}{time:>12.3}  {kind:<8}{:>9}", hunt.tried);
            if let (Some(folder), Some(bytes)) = (&folder, sketch.bytes()) {
                fs::write(folder.join("slowest.plan"), bytes)?;
            }
        }
    }
    println!("\nslowest of a kind, in ms; {} files", hunt.tried);
    for (kind, found) in Kind::ALL.iter().zip(&hunt.found) {
        let time = found.as_ref().map_or(0.0, |&(_, time)| time);
        println!("{:<8}{time:>11.3}", kind.name());
    }
    Ok(())
}
