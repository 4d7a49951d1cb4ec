//! How the cost of a plan grows, by the planner's own library and by the reference: from one file
//! with 8 parts of 8 tasks and 4 locks, more or fewer parts, tasks, locks, and larger numbers.

use std::fmt::Write;
use std::hint::black_box;

use reference::timing::time_of;
use reference::{plan, PROGRAM_ROOM};

#[derive(Clone, Copy)]
struct Size {
    parts: u64,
    tasks: u64,
    locks: u64,
    scale: u64,
}

/// Tasks of rising priority and falling separation, each with some of the part's locks.
fn file(size: Size) -> Vec<u8> {
    let mut text = String::new();
    for part in 0..size.parts {
        let period = (20 + 2 * (size.parts - part)) * size.scale;
        writeln!(text, "part\tp{part}\t{period}").unwrap();
        for task in 0..size.tasks {
            let separation = (400 + 40 * (size.tasks - task) + 3 * part) * size.scale;
            let cost = 4 * size.scale / size.parts.min(size.scale) + 1;
            writeln!(text, "task\tt{task}\t{separation}\t{cost}\t{separation}").unwrap();
            for lock in (0..size.locks).filter(|lock| (lock + task) % 2 == 0 || task == *lock) {
                let held = 1 + (lock * 7 + task * 3) % cost;
                writeln!(text, "lock\tl{lock}\t{held}").unwrap();
            }
        }
    }
    text.push_str("end\n");
    text.into_bytes()
}

fn line(what: &str, value: u64, size: Size) {
    let bytes = file(size);
    let mut out = [0u8; PROGRAM_ROOM];
    let answer = match planner::plan_into(&bytes, &mut out) {
        Ok(_) => "planned".to_owned(),
        Err(refusal) => format!("{} ({})", refusal.number, refusal.place),
    };
    let ours = time_of(|| planner::plan_into(black_box(&bytes), &mut out).is_ok());
    let theirs = time_of(|| plan(black_box(&bytes), PROGRAM_ROOM));
    let ratio = ours as f64 / theirs as f64;
    let length = bytes.len();
    println!("{what:<8}{value:>4}{length:>7}{ours:>10}{theirs:>10}{ratio:>7.2}  {answer}");
}

fn main() {
    let size = Size {
        parts: 8,
        tasks: 8,
        locks: 4,
        scale: 8,
    };
    println!("              bytes   library reference  ratio  (ns a plan)");
    for parts in [1, 2, 4, 8, 16] {
        line("parts", parts, Size { parts, ..size });
    }
    for tasks in [1, 2, 4, 8, 16] {
        line("tasks", tasks, Size { tasks, ..size });
    }
    for locks in [0, 1, 2, 4, 8] {
        line("locks", locks, Size { locks, ..size });
    }
    for scale in [1, 4, 16, 64, 256, 1024] {
        line("numbers", scale, Size { scale, ..size });
    }
}
