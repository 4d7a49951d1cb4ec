//! What docs/GUIDE.md shows of plan files is what the reference answers: each file with its listing,
//! the tables of ceilings, budgets and locks, and the chart of the kiosk. What it shows of deliveries is tested by
//! tests/delivery.rs.

use std::fs;
use std::io::Write;
use std::process::{Command, Stdio};

use reference::chart::{self, CYCLE, LINE};
use reference::page::{blocks, table};
use reference::{chart as charted, literal, number_and_place, printed, PROGRAM_ROOM};

/// A file of the repository.
fn source(path: &str) -> String {
    let path = format!("{}/../{path}", env!("CARGO_MANIFEST_DIR"));
    fs::read_to_string(&path).expect(&path)
}

/// Titles and bytes of the blocks of a page, from the one on that begins so.
fn from_block(page: &str, begin: &str) -> Vec<(String, String)> {
    let blocks = blocks(page).into_iter();
    blocks
        .map(|(title, lines)| (title.to_string(), lines.join("\n") + "\n"))
        .skip_while(|(_, text)| !text.starts_with(begin))
        .collect()
}

fn example_a() -> String {
    from_block(&source("README.md"), "part\tcard\t")[0]
        .1
        .clone()
}

/// The listing of a file, or its refusal.
fn listing(file: &str) -> String {
    String::from_utf8(printed(file.as_bytes())).expect("a listing is ASCII")
}

/// The same, as brute force has it too.
fn listing_by_both(file: &str) -> String {
    let slow = literal::plan(file.as_bytes(), PROGRAM_ROOM)
        .unwrap_or_else(|(number, place)| format!("refused\t{number}\t{place}\n"));
    assert_eq!(listing(file), slow, "{file}");
    slow
}

/// The fields of the first line that begins so.
fn fields<'a>(listing: &'a str, begin: &str) -> Vec<&'a str> {
    let line = listing.lines().find(|line| line.starts_with(begin));
    line.expect(begin).split('\t').collect()
}

fn load(listing: &str) -> String {
    let load = fields(listing, "load\t");
    format!("{}/{}", load[2], load[3])
}

/// Budget and holding time of a part.
fn pair(listing: &str, part: &str) -> String {
    let share = fields(listing, &format!("share\t{part}\t"));
    format!("({},{})", share[3], share[4])
}

/// The file with other bytes in the one place that has these.
fn with(file: &str, old: &str, new: &str) -> String {
    assert_eq!(file.matches(old).count(), 1, "{old}");
    file.replace(old, new)
}

#[test]
fn each_plan_file_has_its_listing() {
    let guide = source("docs/GUIDE.md");
    let blocks = from_block(&guide, "part\t");
    let mut files = 0;
    for pair in blocks.windows(2) {
        let [(_, file), (_, shown)] = pair else {
            unreachable!("two blocks");
        };
        if file.starts_with("part\t") {
            assert_eq!(*shown, listing(file));
            files += 1;
        }
    }
    assert_eq!(files, 3);
}

#[test]
fn ceiling_against_budget() {
    let guide = source("docs/GUIDE.md");
    let rows = table(&guide, "| ceiling of buf in print |");
    let parts = literal::read(example_a().as_bytes()).expect("a readable file");
    let print = &parts[1];
    let settings = print.settings();
    assert_eq!(rows.len(), settings.len() + 1);
    for (row, setting) in rows[1..].iter().zip(&settings) {
        let x = print.holding_time(setting).expect("a permitted setting");
        let q = (1..=print.period).find(|&q| print.passes(setting, q));
        let q = q.expect("a budget");
        assert!(row[0].starts_with(&format!("{}:", setting[0].1)));
        assert_eq!(row[1..], [x, q, q + x].map(|number| number.to_string()));
    }

    let file = source("crates/cases/data/a7-22");
    for row in &table(&guide, "| P of the part above |")[1..] {
        let part = format!("part\ttop\t{}\n", row[0]);
        let listing = listing(&with(&file, "part\ttop\t22\n", &part));
        match row[1] {
            "refused with 11" => assert_eq!(listing, "refused\t11\t0\n"),
            chosen => {
                assert!(chosen.starts_with(&pair(&listing, "s")), "{row:?}");
                assert_eq!(row[2], load(&listing));
            }
        }
    }
}

/// Budget and holding time of the part `view`, and the load, as the guide has them.
fn of_view(file: &str) -> String {
    match listing_by_both(file).as_str() {
        "refused\t11\t0\n" => "refused with 11".to_string(),
        listing => format!("{}, {}", pair(listing, "view"), load(listing)),
    }
}

#[test]
fn m100_private_and_shared_locks() {
    let guide = source("docs/GUIDE.md");
    let blocks = from_block(&guide, "part\tview\t");
    let [(_, private), _, (_, shown), ..] = &blocks[..] else {
        panic!("a file and two listings");
    };
    let named = "lock\tpicbuf\t8\n";
    let shared = with(private, named, &format!("{named}lock\tcache\t1\n"));
    assert_eq!(*shown, listing_by_both(&shared));

    let view = &literal::read(shared.as_bytes()).expect("a readable file")[0];
    let low = view.settings().remove(0);
    assert_eq!(low[0], ("cache".to_string(), 2));
    let least = (1..=view.period).find(|&q| view.passes(&low, q));
    assert_eq!((least, view.holding_time(&low)), (Some(27), Some(40)));

    let rows = table(&guide, "| `decode` holds `cache` for |");
    assert_eq!(rows.len(), 6);
    for row in &rows[1..] {
        let held = format!("lock\tcache\t{}\n", row[0]);
        let of = |file| of_view(&with(file, "lock\tcache\t24\n", &held));
        assert_eq!(row[1..], [of(&shared), of(private)], "{}", row[0]);
    }
}

/// What the guide's command prints of a file.
fn named_once(command: &str, file: &str) -> String {
    let mut shell = Command::new("sh")
        .args(["-c", &with(command, "FILE", "-")])
        .stdin(Stdio::piped())
        .stdout(Stdio::piped())
        .spawn()
        .expect("a shell");
    let mut input = shell.stdin.take().expect("its input");
    input.write_all(file.as_bytes()).expect("a file is taken");
    drop(input);
    let output = shell.wait_with_output().expect("its output");
    assert!(output.status.success());
    String::from_utf8(output.stdout).expect("names are ASCII")
}

#[test]
fn m100_the_misspelt_lock() {
    let guide = source("docs/GUIDE.md");
    let good = example_a();
    let blocks = from_block(&guide, "part\tcard\t");
    let [(_, bad), _, (title, command), (_, shown), ..] = &blocks[..] else {
        panic!("a file, its listing, a command and what it prints");
    };
    assert_eq!(*bad, with(&good, "lock\tbuf\t3", "lock\tbfu\t3"));
    assert_eq!(title, "sh");
    assert_eq!(named_once(command, bad), *shown);
    assert_eq!(named_once(command, &good), "");
    let view = &from_block(&guide, "part\tview\t")[0].1;
    assert_eq!(named_once(command, view), "cache view\n");

    let signs = |file: &str| {
        let listing = listing_by_both(file);
        let x = |part| fields(&listing, &format!("share\t{part}\t"))[4].to_string();
        let ceiling = listing.lines().last().expect("a ceiling").split('\t');
        let kept = |part| {
            let pairs = literal::candidates(file.as_bytes(), part).expect("a kept list");
            let pairs = pairs.iter().map(|(q, x)| format!("({q},{x})"));
            pairs.collect::<Vec<_>>().join(" ")
        };
        [
            load(&listing),
            x("card"),
            x("print"),
            ceiling.last().expect("its number").to_string(),
            kept(1),
            kept(2),
        ]
    };
    let (good, bad) = (signs(&good), signs(bad));
    let rows = table(&guide, "| | `buf` in both |");
    assert_eq!(rows.len(), good.len() + 1);
    for (row, signs) in rows[1..].iter().zip(good.iter().zip(&bad)) {
        assert_eq!((row[1], row[2]), (signs.0.as_str(), signs.1.as_str()));
    }
}

#[test]
fn m109_the_chart_of_the_kiosk() {
    let guide = source("docs/GUIDE.md");
    let kiosk = source("examples/kiosk.plan");
    let ticks = charted(kiosk.as_bytes(), CYCLE).expect("a chart");
    let slow = literal::chart_of_kept(kiosk.as_bytes(), CYCLE);
    assert_eq!(Ok(&ticks), slow.as_ref());
    let text = String::from_utf8(chart::text(&ticks)).expect("letters");
    let lines = (0..CYCLE).step_by(LINE).map(|at| &text[at..at + LINE]);
    let lines: Vec<&str> = lines.collect();
    assert_eq!(from_block(&guide, "4444")[0].1, lines.join("\n") + "\n");

    let listing = listing(&kiosk);
    let rows = table(&guide, "| part | Q of P |");
    let ticks_of = |part| ticks.iter().filter(|&&holder| holder == part).count();
    for row in &rows[1..5] {
        let (number, name) = row[0].split_once(", ").expect("a number and a name");
        let share = fields(&listing, &format!("share\t{}\t", name.trim_matches('`')));
        assert_eq!(row[1], format!("{} of {}", share[3], share[2]));
        let period: usize = share[2].parse().expect("a period");
        assert_eq!(row[2], (CYCLE / period).to_string());
        let number = number.parse().expect("a part's number");
        assert_eq!(row[3], ticks_of(number).to_string());
    }
    assert_eq!(rows[5], ["unassigned", "", "", &ticks_of(0).to_string()]);
    assert_eq!(rows.len(), 6);
    let given = CYCLE - ticks_of(0);
    let said = format!(
        "{} with one in every period, and {given} ticks of 720",
        load(&listing)
    );
    assert!(words(&guide).contains(&said), "{said}");
    // The load is that of the lowest part, with an overrun in every period of the cycle.
    let share =
        |line: &str| -> Vec<usize> { line.split('\t').skip(2).flat_map(str::parse).collect() };
    let shares = listing
        .lines()
        .filter(|line| line.starts_with("share"))
        .map(share);
    let with_overruns: usize = shares.map(|row| CYCLE / row[0] * (row[1] + row[2])).sum();
    assert_eq!(load(&listing), format!("{with_overruns}/{CYCLE}"));
}

/// The words of a page, one blank between two.
fn words(page: &str) -> String {
    page.split_whitespace().collect::<Vec<_>>().join(" ")
}

#[test]
fn m109_periods_out_of_the_cycle() {
    let guide = source("docs/GUIDE.md");
    let words = words(&guide);
    let divisors = (1..720).filter(|&period| chart::divides_cycle(period));
    let divisors: Vec<String> = divisors.map(|period| period.to_string()).collect();
    assert_eq!(divisors.len() + 1, 30);
    let said = format!("Thirty periods do: {} and 720.", divisors.join(", "));
    assert!(words.contains(&said), "{said}");

    let engine = source("examples/engine.plan");
    let with_100 = with(&engine, "part\tmix\t90\n", "part\tmix\t100\n");
    assert_eq!(
        number_and_place(&charted(with_100.as_bytes(), CYCLE)),
        (19, 2)
    );
    assert_eq!(number_and_place(&charted(engine.as_bytes(), CYCLE)), (0, 0));
    let (one, other) = (load(&listing(&with_100)), load(&listing(&engine)));
    assert!(words.contains(&format!(
        "is planned with a load of {one} and has no chart; with `part mix 90` the load is {other},"
    )));
}
