//! What the hunt makes is readable, its locks are shared, and its two searches find the same.

use reference::file::{self, read, LARGEST_NUMBER, MOST_PARTS};
use reference::hunt::changes::change;
use reference::hunt::starts::{start, tight_above, Kind};
use reference::hunt::turns::{Column, Search};
use reference::hunt::{Part, Sketch};
use reference::random::Random;
use reference::timing;

/// The files of bench/.
fn timed() -> Vec<Sketch> {
    let files = timing::files().expect("the bench files");
    let read = |file: &timing::BenchFile| Sketch::read(&file.bytes).expect("a readable file");
    files.iter().map(read).collect()
}

/// The file is readable, and as long when what was read is written again, unless it is too long.
fn same_when_read(sketch: &Sketch) -> bool {
    let Some(bytes) = sketch.bytes() else {
        return false;
    };
    assert!(read(&bytes).is_ok(), "{}", String::from_utf8_lossy(&bytes));
    let again = Sketch::read(&bytes).and_then(|sketch| sketch.bytes());
    assert_eq!(again.map(|bytes| bytes.len()), Some(bytes.len()));
    true
}

#[test]
fn files_are_readable() {
    let random = &mut Random::new(3);
    let timed = timed();
    let mut readable = 0;
    for kind in Kind::ALL {
        let starts = if kind == Kind::Turns { 2 } else { 60 };
        for _ in 0..starts {
            let mut sketch = start(random, kind, &timed, &timed[0]);
            readable += u32::from(same_when_read(&sketch));
            for _ in 0..60 {
                change(random, &mut sketch);
                readable += u32::from(same_when_read(&sketch));
            }
        }
    }
    assert!(readable > 18_000, "{readable} files");
}

/// In a file with this part alone, and with it 16 times: are all of its locks shared?
fn locks_are_shared(part: &Part) -> bool {
    [1, MOST_PARTS].iter().all(|&times| {
        let bytes = Sketch::repeated(part, times).bytes();
        let bytes = bytes.expect("a file that is not too long");
        let first = &read(&bytes).expect("a readable file")[0];
        first.shared[..first.locks.len()]
            .iter()
            .all(|&shared| shared)
    })
}

#[test]
fn locks_of_a_part_alone_are_shared() {
    let random = &mut Random::new(5);
    let timed = timed();
    let mut with_locks = 0;
    for _ in 0..200 {
        let mut sketch = start(random, Kind::Parts, &timed, &timed[0]);
        for _ in 0..20 {
            change(random, &mut sketch);
        }
        let part = &sketch.parts[0];
        assert!(locks_are_shared(part), "{part:?}");
        let held = part.tasks.iter().flat_map(|task| task.held).max();
        with_locks += u32::from(held > Some(0));
    }
    assert!(with_locks > 100, "{with_locks} parts with locks");
}

#[test]
fn which_locks_are_shared_is_kept() {
    // The locks of each part, and which of them are shared.
    let shared = |bytes: &[u8]| {
        let parts = read(bytes).expect("a readable file");
        let of_part = |part: &file::Part| (part.locks.len(), part.shared);
        parts.iter().map(of_part).collect::<Vec<_>>()
    };
    for timed in timing::files().expect("the bench files") {
        let sketch = Sketch::read(&timed.bytes).expect("a readable file");
        let bytes = sketch.bytes().expect("a file that is not too long");
        assert_eq!(shared(&bytes), shared(&timed.bytes), "{}", timed.name);
    }
}

#[test]
fn both_searches_find_the_same() {
    let random = &mut Random::new(4);
    let (mut found, mut fewer) = (0, 0);
    for _ in 0..2000 {
        let own = random.of_any_size(1..=100);
        let count = 1 + random.index(12);
        let tasks = tight_above(random, count, own);
        let column = Column { own, tasks };
        let (plain, turns) = column.search(Search::Plain, LARGEST_NUMBER);
        let (lines, turns_of_lines) = column.search(Search::Lines, LARGEST_NUMBER);
        assert_eq!(lines, plain, "{column:?}");
        found += u32::from(plain.is_some());
        fewer += u32::from(turns_of_lines < turns);
    }
    assert!(found > 1000 && fewer > 500, "{found} found, {fewer} fewer");
}
