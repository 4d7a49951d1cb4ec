//! Runs one side once, for instruction counts: `once SIDE FILE plan` plans the file, `once SIDE FILE
//! chart` charts it, `once SIDE FILE PART..` asks for the candidates of each part; part 0 is refused
//! right behind the reading. The sides are `library`, `same_search` and `reference`.

use std::hint::black_box;
use std::{env, error::Error, fs};

use reference::chart::CYCLE;
use reference::{candidates, chart, plan, same_search, PROGRAM_ROOM};

fn main() -> Result<(), Box<dyn Error>> {
    let mut words = env::args().skip(1);
    let side = words.next().unwrap_or_default();
    let bytes = fs::read(words.next().ok_or("which file?")?)?;
    let plan_once: fn(&[u8]) = match side.as_str() {
        "library" => |bytes| {
            let mut out = [0u8; PROGRAM_ROOM];
            let _ = black_box(planner::plan_into(bytes, &mut out));
        },
        "same_search" => |bytes| drop(black_box(same_search::plan(bytes, PROGRAM_ROOM))),
        "reference" => |bytes| drop(black_box(plan(bytes, PROGRAM_ROOM))),
        _ => return Err("library, same_search or reference?".into()),
    };
    let chart_once: fn(&[u8]) = match side.as_str() {
        "library" => |bytes| {
            let mut out = [0u8; CYCLE];
            let _ = black_box(planner::chart_into(bytes, &mut out));
        },
        "same_search" => |bytes| {
            let mut out = [0u8; CYCLE];
            let _ = black_box(same_search::chart(bytes, &mut out));
        },
        _ => |bytes| drop(black_box(chart(bytes, CYCLE))),
    };
    let candidates_once: fn(&[u8], usize) = match side.as_str() {
        "library" => |bytes, part| drop(black_box(planner::candidates(bytes, part))),
        "same_search" => |bytes, part| drop(black_box(same_search::candidates(bytes, part))),
        _ => |bytes, part| drop(black_box(candidates(bytes, part))),
    };
    for word in words {
        match word.as_str() {
            "plan" => plan_once(&bytes),
            "chart" => chart_once(&bytes),
            part => candidates_once(&bytes, part.parse()?),
        }
    }
    Ok(())
}
