//! Times the reference on the files of bench/: nanoseconds a run.

use std::error::Error;
use std::hint::black_box;

use reference::timing::{self, time_of, BenchFile};
use reference::{file, local, plan, PROGRAM_ROOM};

fn main() -> Result<(), Box<dyn Error>> {
    println!("ns a run                read      candidates        plan");
    for BenchFile { name, bytes, .. } in timing::files()? {
        let read = time_of(|| file::read(black_box(&bytes)));
        let parts = file::read(&bytes).map_err(|refusal| format!("{name}: {refusal:?}"))?;
        let candidates = time_of(|| {
            black_box(&parts)
                .iter()
                .map(local::candidates)
                .collect::<Vec<_>>()
        });
        let planned = time_of(|| plan(black_box(&bytes), PROGRAM_ROOM));
        println!("{name:<16}{read:>12}{candidates:>16}{planned:>12}");
    }
    Ok(())
}
