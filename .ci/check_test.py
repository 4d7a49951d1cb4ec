#!/usr/bin/env python3
"""The gate's own checks can fail: a small tree on which no check has a fault, and for each check slips in that tree which it must report; then .ci/run with
an rt that fails in every way."""
import os
import subprocess
import sys
import tempfile
import unittest
from contextlib import contextmanager
from pathlib import Path

sys.dont_write_bytecode = True
import believed
import check
import interface
import papers
import statements

HERE = Path(__file__).resolve().parent
LEAST = '''// `ensures { .. }` in a comment is no clause.
pub struct Frac {
    pub num: u64,
}

#[inline]
pub fn ceil_div(
    t: u64,
    period: u64,
) -> u64
    requires { Positive {0} {1} period }
    ensures rounded { result ≡ ceil_of t period }
{
    inner(t)
}

fn inner(t: u64) -> u64 {
    t
}

impl Frac {
    pub fn next(self) -> Frac
        ensures { result ≡ next_of self }
    {
        self
    }
}
'''
BARE = 'pub fn anything(a: u64) -> u64 {\n    a / 2\n}\n'
HALF = '#[unsafe(no_mangle)]\npub extern "C" fn planner_half(a: u64) -> u64 {\n    a / 2\n}\n'
FOLLOWS = 'was not admitted (it has holes or undetermined implicits, or was rejected), so this cannot be checked'
# What the log says of two wrong versions of `least`: an error in a law, and a goal of the function at a line of the code.
DOWN_SAID = './proofs/Round.antt:1:2: error: `ceil_least`: `omega`: the goal fails'
STEP_SAID = 'note: src/lib.rt:25:9: it is not proved that what the function ensures holds when it returns (`returns`)'
TRACE = '''| mark | definition | theorem or contract | test |
|---|---|---|---|
| I1 | `least ceil_of` | – | `least must-fail/down` |
| F12 | – | `planning plan` | `docs/PAPER-01.md`, `must-fail/` |
| D1 | `planner Demand1` | – | – |
'''
LOG = check.LOG
M_102, LANDED = 'docs/landings/m-102.md', 'Landed: docs/landings/m-102.md.'
NOTE = '''# M-102: lines walked once

## Moved

- Definitions: one new.
- Promises: none.
- Proofs: one new.

## Stayed

- Definitions: all others.
- Promises: all.
- Proofs: all others.

## Check

All crates: 4 min 19 s before, 1 h 2 min after.

## Changed

- Lines: specs +9 −0, src +0 −0, proofs +31 −2.
- Crates: scan.
- Renames: none.
'''
DEMAND = """-- Demand 1 as a statement.
use Rattle.answers.specs.Answers.{HandedOver}

abbrev pub OfTheFile : Refusal → Type 0
OfTheFile r = refusal_number r ≤ 9

pub record Demand1 (Promise : List ℕ → Type 0) : Type 0 where
  -- a listing or a refusal
  pub plan : (s : List ℕ) → Promise s →
      Listing s ⊎ Refusal s
  pub untouched : (s : List ℕ) → Unwritten s

pub record Demand3 : Type 0 where
  pub untouched : (s : List ℕ) → Unwritten s
"""
HANDED = """pub plan_of : List ℕ → ℕ

pub record HandedOver (r : Planned) : Type 0 where
  pub result : r ≡ planned
  pub bytes : Written r
"""
DEMAND_1, SCAN = 'crates/planner/specs/Demand1.antt', 'crates/scan/specs/Scan.antt'
SCAN_CODE, CURSOR = 'crates/scan/src/lib.rt', 'crates/records/src/lib.rt'
LIMIT, LIMIT_CODE = 'crates/refusal/specs/Limits.antt', 'crates/refusal/src/lib.rt'
SCANNED = """abbrev pub EveryLineScanned : Type 0
EveryLineScanned = (s : List ℕ) → ScanIs s
"""
# A page that must be believed, each definition for another reason, and one that need not be.
LOAD, ROWS, LOAD_CODE = 'crates/load/specs/Load.antt', 'crates/load/specs/Code/Rows.antt', 'crates/load/src/lib.rt'
LOAD_PAGE = """-- no_row is only named here.
use Rattle.refusal.specs.Limits.{number_limit as most}

infix 50 ◌⊑◌
pub record ◌⊑◌ (a b : ℕ) : Type 0 where
  pub cross : first (min a most) ≡ b

abbrev pub Kind : Type 1
Kind = Type 0

module _ {A : Kind} where
  abbrev pub first : A → A
  first a = a

pub data Load : Type 0 where
  none : Load
  some : ℕ → Load

abbrev pub load_of : Load → ℕ
load_of none = 0
load_of (some n) = n
"""
ROWS_PAGE = """use Rattle.load.specs.Load.Load.{none}

unfoldable pub no_row : ℕ
no_row = load_of none

pub data Row : Type 0 where
  row_at : ℕ → Row
"""
# Names every definition outside the promises and Code/, but the pages above.
NAMED = 'crates/examples/specs/Named.antt'
HEADER = """/* "no 15", PLANNER_MOST = 7 */
#define PLANNER_VERSION_MAJOR 1
#define PLANNER_VERSION_MINOR 2
#define PLANNER_VERSION_PATCH 3
#define PLANNER_VERSION "1.2.3"
enum { PLANNER_MOST_NUMBER = 1000000, PLANNER_ROOM = 8192, PLANNER_CYCLE = 720 };
enum { PLANNER_MOST_BYTES = 32768, PLANNER_MOST_PAIRS = 15, PLANNER_MOST_ROWS = 14 };
enum {
    PLANNER_STACK_PLAN = 184 * 1024
};
switch (number) {
"""
RUST = """/// The greatest number.
pub const MOST_NUMBER: u64 = 1_000_000;
pub const MOST_BYTES: usize = 32768;
pub const MOST_PAIRS: usize = 15;
pub const MOST_ROWS: usize = 14;

/// Bytes.
pub const ROOM: usize = 8192;
pub const CYCLE: usize = 720;
pub const STACK_PLAN: usize = 184 * 1024;
match self.number {
"""
# What a crate of the tree names; what `plan` is handed, too.
LISTS = {
    'answers': 'least', 'records': 'scan', 'planner': 'least refusal load answers inquiries hand_set planning', 'examples': 'planner', 'plan': 'least answers planner', 'console': 'libc',
}
VERDICT = 'logic=proved functions=2 sum=0 native=nat,char,string logic-built=trusted libraries-built=trusted statements=trusted'
# A static library's names the processor that it is built for.
BUILT = VERDICT.replace('sum', 'target=x86_64-unknown-linux-gnu cpu=x86-64-v2 sum')


def edit(breaks):
    return f'# A `task` line has one answer: {breaks} must break.\nfile: src/lib.rt\nold: a\nnew: b\n'


def block(name, verdict=VERDICT):
    """What rt ci prints of a crate that it proves."""
    tests = f'== {name}: its tests\n{VERDICT.replace("sum", "tests=1 axioms=9 sum")}\nrt: {name}: its tests are proved\n'
    return f'== {name}\nrt: the check was killed, most likely for memory: once more\nfn {name}::a: proved\n{verdict}\nrt: {name} proved\n{tests}'


def kept(name):
    """What it prints of one that an earlier run proved."""
    return f'rt: {name} is kept: an earlier run on this machine proved the same files over the same libraries\n'


def request(name, landed='Not landed.'):
    """The section of paper 02 on a request, or on all of them."""
    head = f'## {name}\n' if name == papers.ALL else f'## {name} A title\n\n{landed}\n'
    return f'\n{head}\n' + ''.join(f'- {mark}. A sentence.\n' for mark in papers.wanted_marks(name))


def right_tree():
    """The files of a tree without a fault, by path."""
    said = {'least/down': DOWN_SAID, 'least/step': STEP_SAID}
    rows = [f'at "{letter}" (refuses [] {row} 1)\n' for letter, count in check.ROWS.items() for row in range(count)]
    files = {
        'crates/least/src/lib.rt': LEAST,
        'crates/least/specs/Round.antt': 'pub ceil_of : ℕ → ℕ\n',
        'crates/least/proofs/Round.antt': 'pub ceil_least : Least ceil_of\n\nceil_covers : Covers ceil_of\n',
        'crates/least/must-fail/down.edit': edit('law `ceil_least`, so `ceil_covers`,'),
        'crates/least/must-fail/step.edit': edit('`Frac::next/returns` and `inner`, so `ceil_div`,'),
        'crates/planner/src/lib.rt': 'pub use answers::Supplied;\npub use least::Frac;\n',
        'crates/examples/src/lib.rt': '// Nothing.\n',
        'crates/examples/specs/Files.antt': 'file_a = bytes "part\\tcard\\t20\\nend\\n"\nlisting_a = bytes "load\\tcard\\n"\n',
        'crates/examples/specs/Table.antt': 'abbrev pub table : List Example\ntable =\n    ' + '    ∷ '.join(rows) + '    ∷ []\n\ninfixr 60 _and_\n',
        'crates/answers/src/lib.rt': 'use least::Frac;\n\npub struct Supplied {\n    pub ticks: Frac,\n}\n',
        'crates/plan/src/main.rt': 'use planner::{Span, Supplied};\n\nfn main() {\n    planner::plan(1);\n}\n',
        'README.md': 'A file:\n\npart\tcard\t20\nend\n\nits plan:\n\nload\tcard\n\n' + ''.join(f'| {number} | 0 | no {number} | write it |\n' for number in interface.NUMBERS),
        DEMAND_1: DEMAND,
        SCAN: SCANNED,
        SCAN_CODE: 'for i in at..s.len() {\n    let b = s[i];\n    if b == 10 {\n        return Scanned { good: true, end: i };\n    }\n}\n',
        CURSOR: 'let l = scan::line_at(s, at);\n',
        LOAD: LOAD_PAGE,
        LOAD_CODE: 'ghost use Rattle.load.specs.Load.{◌⊑◌};\n',
        ROWS: ROWS_PAGE,
        'crates/examples/specs/Code/Spare.antt': 'abbrev pub spare : ℕ\nspare = 0\n',
        LIMIT: 'abbrev pub number_limit : ℕ\nnumber_limit = 1000000\nfile_limit = 32768\nabbrev pub kept_limit : ℕ\nkept_limit = task_limit\nabbrev pub cycle : ℕ\ncycle = 720\n',
        LIMIT_CODE: 'pub const NUMBER_LIMIT: u64 = 1000000;\npub const FILE_LIMIT: usize = 32768;\npub const TASK_LIMIT: usize = 15;\npub const KEPT_LIMIT: usize = TASK_LIMIT;\npub const ROW_LIMIT: usize = 14;\npub const CYCLE: usize = 720;\n',
        'crates/answers/specs/Answers.antt': HANDED,
        'crates/answers/specs/Choice.antt': 'pub record Choice : Type 0 where\n  pub rows : List Row\n',
        'crates/examples/specs/WrongPlanners.antt': 'use Rattle.planner.specs.Demand1.{Demand1, Demand3}\nabbrev pub ShutOut : Type 0\nShutOut = Demand3 → ⊥\n',
        'docs/PAPER-01.md': '## Scope\n\n- I1. Times are whole ticks.\n- F12. A name.\n- D1. Demand 1: Whoever asks gets an answer. A refusal writes nothing.\n',
        'docs/PAPER-02.md': '# Paper 02\n' + ''.join(request(name, LANDED if name == 'M-102' else 'Not landed.') for name in papers.SENTENCES),
        'docs/TRACE.md': TRACE + ''.join(f'| {mark} | `least ceil_of` | – | – |\n' for name in (papers.ALL, 'M-102') for mark in papers.wanted_marks(name)),
        'docs/landings/base-1.md': '# Base 1\n',
        'docs/GUIDE.md': 'A file:\n\n```\npart\tp\t9\nend\n```\n\n```\nload\tp\n```\n',
        'crates/cases/data/m103-poster': 'part\tp\t9\nend\n',
        'crates/cases/stdout': '== m103-poster\nload\tp\n== more\nend\n',
        M_102: NOTE,
        'CHANGELOG.md': '# Changes\n\n## M-102 A title\n\nNo answer changes.\n',
        interface.HEADER: HEADER + ''.join(f'    case {number}:\n        return "no {number}";\n' for number in [0, *interface.NUMBERS]) + '}\n',
        interface.RUST: RUST + ''.join(f'    {number} => "no {number}",\n' for number in [0, *interface.NUMBERS]) + '}\n',
        interface.RAW: '',
        interface.PACKAGE: '[package]\nversion = "1.2.3"\n',
        'tests/src/library.rs': '',
        'tests/tests/library.rs': '#[test]\nfn plans() {}\n',
        'rust/planner/tests/operations.rs': '#[test]\nfn plans() {}\n',
    }
    files['docs/DEMANDS.md'] = '> Whoever asks gets an answer.\n\n> A refusal writes nothing.\n'
    files['docs/REQUESTS.md'] = '> A sentence.\n'
    for document, pages in statements.PAGES.items():
        for page in [*([DEMAND_1] if document == statements.DEMANDS else []), *pages, *statements.NAMED[document]]:
            files.setdefault(page, f'abbrev pub word : Type 0\nword = {page.split("/")[1]}\n')
            text = files[page].replace('pub plan_of : List ℕ → ℕ\n', '').replace('→\n      Listing', '→ Listing')
            files[document] += f'\n`{page}`\n\n```\n{text}```\n'
    for crate, name, says in check.THEOREMS:
        path = f'crates/{crate}/proofs/Theorems.antt'
        files[path] = files.get(path, '') + f'pub {name} : {says}\n{name} = refl\n'
    for name in sorted(check.OPERATIONS):
        crate, fn = name.split('::')
        path = f'crates/{crate}/src/lib.rt'
        head = '#[unsafe(no_mangle)]\npub extern "C" fn' if crate == 'planner_c' else 'pub fn'
        says = 'result ⊑ a' if name == 'load::weigh' else 'result ≡ a'
        files[path] = files.get(path, '') + f'{head} {fn}(a: u64) -> u64\n    ensures {{ {says} }}\n{{\n    a\n}}\n'
        for label in (f'{fn}_low', f'{fn}_high'):
            files[f'crates/{crate}/must-fail/{label}.edit'] = edit(f'`{fn}`')
            said[f'{crate}/{label}'] = f'./proofs/{fn}/Answers.antt:1:2: error: `returns`: the two types differ'
        if crate == 'planner_c':
            files[interface.HEADER] += f'answer {fn}(const uint8_t *file);\n'
            files[interface.RAW] += f'    pub fn {fn}(file: *const u8);\n'
            files['tests/src/library.rs'] += f'    raw::{fn}(file);\n'
        elif crate != 'console':
            files['crates/planner/src/lib.rt'] += f'pub use {name};\n'
    files['crates/console/must-fail/print_low.edit'] = edit('`print`').replace('new: b', 'new: libc::b')
    others = [path for path in files if '/specs/' in path and path not in (LOAD, ROWS) and path.split('/')[1] not in believed.PROMISING]
    named = [(path, one.name) for path in others for one in believed.definitions(path, files[path])]
    files[NAMED] = 'use Rattle.load.specs.Load.{load_of}\nuse Rattle.load.specs.Load.Load.{some as few}\n' + ''.join(
        f'use Rattle.{path.split("/")[1]}.specs.{Path(path).stem}.{{{name} as name{at}}}\n' for at, (path, name) in enumerate(named))
    files[NAMED] += '\nabbrev pub every : Type 0\nevery = few load_of' + ''.join(f' name{at}' for at in range(len(named))) + '\n'
    names = sorted({path.split('/')[1] for path in files if path.startswith('crates/')})
    files['crates.txt'] = '# all\n' + ''.join(f'{name}{" staticlib" if name == "planner_c" else ""}: {LISTS.get(name, "")}\n' for name in names)
    files[LOG] = ''.join(kept(name) if name == 'scan' else block(name, {'plan': VERDICT.replace('sum', 'axioms=9 sum'), 'planner_c': BUILT}.get(name, VERDICT)) for name in names)
    files[LOG] += ''.join(f'rt: must-fail {name}.edit: refused, as it must be: {error}\n' for name, error in said.items())
    files[LOG] += f'rt: ok; handles allowed: none; must-fail edits: {len(said)} refused; done in this run: 9 of the 9 proofs\n9 passed, 0 failed\n'
    return files


# Each slip: the check that must report it, a part of what it says, the file, and what stands there in place of what (nothing in place of a whole file: the file is
# removed; something in place of nothing: it stands at the end, or is a file that was not there).
PAPER_2, PARTS = 'docs/PAPER-02.md', papers.sections(NOTE)
ITEMS = [(heading, *line.partition(':')[::2]) for heading, text in PARTS for line in text.splitlines() if line.startswith('- ')]
CLAUSE = '    ensures rounded { result ≡ ceil_of t period }'
PLAN_LOW = 'planning/plan_low.edit: refused, as it must be: ./proofs/plan/Answers.antt:1:2: error: `returns`: the two types differ\n'
SLIPS = [
    (check.check_contracts, 'least::anything: a public function without', 'crates/least/src/lib.rt', '', BARE),
    (check.check_contracts, 'least::anything: a public function without', 'crates/least/src/lib.rt', '', 'pub fn anything(a: u64) -> u64 { a / 2 }\n'),
    (check.check_contracts, 'least::anything: a public function without', 'crates/least/src/lib.rt', '#[inline]', BARE + '\n#[inline]'),
    (check.check_contracts, 'least::anything: a public function without', 'crates/least/src/lib.rt', '', '#[inline]\npub fn anything(\n    a: u64,\n) -> u64 {\n    a / 2\n}\n'),
    (check.check_contracts, 'least::ceil_div: a public function without', 'crates/least/src/lib.rt', '    ensures rounded {', '    // ensures rounded {'),
    (check.check_contracts, 'least::next: a public function without', 'crates/least/src/lib.rt', '        ensures {', '        requires {'),
    (check.check_contracts, 'planner_c::planner_half: a public function without', 'crates/planner_c/src/lib.rt', '', HALF),
    (check.check_contracts, 'planner_c::planner_half: an operation that .ci/check.py does not name', 'crates/planner_c/src/lib.rt', '', HALF),
    (check.check_contracts, 'console::print: an operation with a requires', 'crates/console/src/lib.rt', '\n    ensures', '\n    requires { a < 2 }\n    ensures'),
    (check.check_contracts, 'console::print: an operation with a requires', 'crates/console/src/lib.rt', '}\n{\n', '}\n    requires small { a < 2 }\n{\n'),
    (check.check_contracts, 'console::print: an operation whose signature was not found', 'crates/console/src/lib.rt', 'fn print(', 'fn printed('),
    (check.check_contracts, 'planning::plan: an operation whose signature was not found', 'crates/planning/src/lib.rt', 'pub fn plan(', 'fn plan('),
    (check.check_contracts, 'planning::plan: named by .ci/check.py, but no operation', 'crates/planner/src/lib.rt', 'pub use planning::plan;\n', ''),
    (check.check_contracts, 'planning::half: an operation that .ci/check.py does not name', 'crates/planner/src/lib.rt', 'planning::plan;', 'planning::{plan, half};'),
    (check.check_contracts, 'planning::half: an operation that .ci/check.py does not name', 'crates/planner/src/lib.rt', 'planning::plan;', 'planning::{\n    half,\n    plan,\n};'),
    *((check.check_contracts, f'planner: `pub use planning::{form}` is not of the form crate::name', 'crates/planner/src/lib.rt', 'planning::plan;', f'planning::{form};') for form in [
        '*', 'plan as half', '{plan as half}', '{more::half, plan}', '{more::{half}, plan}', 'more::half',
    ]),
    (check.check_contracts, 'least::ceil_div: an operation that .ci/check.py does not name', 'crates/planner/src/lib.rt', '', 'pub use least::ceil_div;\n'),
    (check.check_contracts, 'least::ceil_div: a public function without', 'crates/least/src/lib.rt', CLAUSE, f'    /* {CLAUSE} */'),
    (check.check_contracts, 'least::ceil_div: a public function without', 'crates/least/src/lib.rt', CLAUSE, f'    /* /* both */\n{CLAUSE} */'),
    (check.check_contracts, 'least::anything: a public function without', 'crates/least/src/lib.rt', '', f'const OPEN: &str = "/*";\n{BARE}'),
    (check.check_contracts, 'least::ceil_div: an ensures that says nothing', 'crates/least/src/lib.rt', 'result ≡ ceil_of t period', 'Unit'),
    (check.check_contracts, 'least::ceil_div: an ensures that says nothing', 'crates/least/src/lib.rt', 'result ≡ ceil_of t period', 'ceil_of t period ≡ ceil_of t period'),
    (check.check_contracts, 'least::ceil_div: an ensures that says nothing', 'crates/least/src/lib.rt', '{ result ≡ ceil_of t period }', '{ (⊤) }'),
    (check.check_contracts, 'console::print: an ensures that says nothing', 'crates/console/src/lib.rt', '{ result ≡ a }', '{ (result ≡ result) }'),
    (check.check_names, 'the crate least declares no ceil_of', 'crates/least/specs/Round.antt', 'pub ceil_of : ℕ → ℕ\n', '{-\npub ceil_of : ℕ → ℕ\n{- both -} -}\n'),
    (check.check_names, 'the crate least declares no floor_div', 'docs/TRACE.md', '| I1 | `least ceil_of`', '| I1 | `least floor_div`'),
    (check.check_names, 'the crate least declares no ceil_of', 'crates/least/specs/Round.antt', 'pub ceil_of', '-- pub ceil_of'),
    (check.check_names, 'the crate least declares no must-fail/down', 'crates/least/must-fail/down.edit', None, None),
    (check.check_names, 'no file docs/PAPER-03.md', 'docs/TRACE.md', 'PAPER-01', 'PAPER-03'),
    (check.check_names, 'neither a file nor', 'docs/TRACE.md', '`planning plan`', '`nowhere plan`'),
    (check.check_crates, 'crates.txt: load lists least and does not use it', 'crates.txt', 'load: \n', 'load: least\n'),
    (check.check_crates, 'crates.txt: records lists io and does not use it', 'crates.txt', 'records: scan\n', 'records: scan io\n'),
    (check.check_crates, 'crates.txt: plan lists inquiries and does not use it', 'crates.txt', 'answers planner\n', 'answers inquiries planner\n'),
    (check.check_crates, 'crates.txt: records lists scan and does not use it', CURSOR, 'scan::line_at', 'line_at'),
    (check.check_crates, 'crates.txt: records lists scan and does not use it', CURSOR, 'let l', '// let l'),
    (check.check_crates, 'crates.txt: records lists scan and does not use it', CURSOR, 'scan::line_at', 'Cursor::scan::line_at'),
    (check.check_crates, 'crates.txt: examples lists planner and does not use it', 'crates/examples/specs/WrongPlanners.antt', 'use Rattle.planner.', 'use Rattle.planner_c.'),
    (check.check_crates, 'crates.txt: examples lists planner and does not use it', 'crates/examples/specs/WrongPlanners.antt', 'use Rattle.planner.', '-- use Rattle.planner.'),
    (check.check_crates, 'crates.txt: console lists libc and does not use it', 'crates/console/must-fail/print_low.edit', 'new: libc::b', 'old: libc::b'),
    (check.check_crates, 'crates.txt: plan lists least and does not use it', 'crates/answers/src/lib.rt', 'ticks: Frac', 'ticks: u64'),
    (check.check_crates, 'crates.txt: plan lists least and does not use it', 'crates/answers/src/lib.rt', 'pub struct Supplied {\n    pub ticks: Frac,', 'pub enum Supplied {\n    Frac(u64),'),
    (check.check_crates, 'crates.txt: plan lists planning and does not use it', 'crates.txt', 'least answers planner\n', 'least answers planning planner\n'),
    (check.check_crates, 'crates.txt: plan lists least and does not use it', 'crates/plan/src/main.rt', '{Span, Supplied}', '{Span, plan}'),
    (check.check_crates, 'crates.txt: plan lists answers and does not use it', 'crates/planner/src/lib.rt', 'pub use answers::Supplied;\n', ''),
    (check.check_crates, 'crates.txt: plan lists answers and does not use it', 'crates/planner/src/lib.rt', 'pub use answers::Supplied;\n', 'pub use answers::{Supply, supplied};\n'),
    (check.check_crates, 'crates.txt: plan lists answers and does not use it', 'crates/plan/src/main.rt', '{Span, Supplied}', '{Span, Supply}'),
    (check.check_trace, 'sentence F12 has no entry', 'docs/TRACE.md', '| F12 |', '| F13 |'),
    (check.check_trace, 'the entry F13 is of no sentence', 'docs/TRACE.md', '| F12 |', '| F13 |'),
    (check.check_trace, 'the entry of sentence I1 names nothing', 'docs/TRACE.md', '`least ceil_of` | – | `least must-fail/down`', '– | – | –'),
    (check.check_trace, 'no sentence with a mark', 'docs/PAPER-01.md', '- I1. Times are whole ticks.\n- F12. A name.\n- D1. ', 'Times.\n'),
    (check.check_trace, 'two sentences have the mark I1', 'docs/PAPER-01.md', '- F12. ', '- I1. '),
    (check.check_trace, 'two sentences have the mark Ma', 'docs/PAPER-01.md', '- F12. ', '- Ma. '),
    (check.check_trace, 'sentence I1 has two entries', 'docs/TRACE.md', '', '| I1 | – | – | – |\n'),
    (check.check_trace, 'sentence Mb has no entry', 'docs/TRACE.md', '| Mb |', '| Md |'),
    (check.check_trace, 'sentence M102e has no entry', 'docs/TRACE.md', '| M102e | `least ceil_of` | – | – |\n', ''),
    (check.check_trace, 'the entry of sentence M102c names nothing', 'docs/TRACE.md', '| M102c | `least ceil_of` |', '| M102c | – |'),
    (check.check_trace, 'the entry of sentence M102c names nothing', 'docs/TRACE.md', '| M102c | `least ceil_of` |', '| M102c | see below |'),
    (check.check_trace, 'the entry M102f is of no sentence', 'docs/TRACE.md', '', '| M102f | `least ceil_of` | – | – |\n'),
    (check.check_trace, 'the entry M103a is of a request that has not landed', 'docs/TRACE.md', '', '| M103a | `least ceil_of` | – | – |\n'),
    (check.check_trace, 'the entry M102a is of a request that has not landed', M_102, None, None),
    (check.check_trace, 'sentence M100a has no entry', 'docs/landings/m-100.md', '', NOTE),
    (check.check_words, 'the words of a section are others: no line `', PAPER_2, '- M103c. A sentence.', '- M103c. A word.'),
    (check.check_words, 'no section has the words of the line `', PAPER_2, '- M103c. A sentence.', '- M103c. A word.'),
    (check.check_words, 'the words of a section are others: no line `', PAPER_2, '## M-104 A title', '## M-104 Another'),
    (check.check_words, 'the words of a section are others: no line `', 'docs/PAPER-01.md', 'whole ticks', 'ticks'),
    (check.check_words, 'the words of a section are others: no line `', papers.WORDS, None, None),
    (check.check_requests, 'CHANGELOG.md: nothing on M-102', 'CHANGELOG.md', '## M-102', '## M-103'),
    (check.check_requests, 'CHANGELOG.md: nothing on M-102', 'CHANGELOG.md', 'No answer changes.', ''),
    (check.check_requests, 'CHANGELOG.md: nothing on M-102', 'CHANGELOG.md', None, None),
    (check.check_requests, 'the sentences of M-113 are M113a M113b M113c M113d M113e, and must be', PAPER_2, '- M113f. A sentence.\n', ''),
    (check.check_requests, 'the sentences of M-103 are M103a M103b M103d M103e, and must be', PAPER_2, '- M103c. A sentence.\n', ''),
    (check.check_requests, 'the sentences of M-103 are M103a M103b M103c M103d M103f, and must be', PAPER_2, '- M103e.', '- M103f.'),
    (check.check_requests, 'the sentences of M-103 are M103a M103b M103c M103d, and must be', PAPER_2, '- M103e. A sentence.', '- M103e.'),
    (check.check_requests, 'the sentences of M-103 are M103a M103c M103b M103d M103e, and must be', PAPER_2, 'b. A sentence.\n- M103c.', 'c. A sentence.\n- M103b.'),
    (check.check_requests, 'the sentences of All requests are Ma Mb, and must be Ma Mb Mc', PAPER_2, '- Mc. A sentence.\n', ''),
    (check.check_requests, 'M-111, M-113, M-112, and must be All requests, M-100, M-101', PAPER_2, request('M-112') + request('M-113'), request('M-113') + request('M-112')),
    (check.check_requests, 'M-106, M-108, M-109, M-110, M-111, M-112, M-113, and must be', PAPER_2, request('M-107'), ''),
    (check.check_requests, 'M-112, M-113, M-114, and must be', PAPER_2, '', '\n## M-114 A title\n\nNot landed.\n\n- M114a. A sentence.\n'),
    (check.check_requests, 'the sections are none, and must be All requests', PAPER_2, None, None),
    (check.check_requests, 'M-113 says `Landed: docs/landings/m-113.md.`, and must say `Not landed.`', PAPER_2, request('M-113'), request('M-113', LANDED.replace('102', '113'))),
    (check.check_requests, f'M-102 says `{LANDED}`, and must say `Not landed.`: {M_102} is not there', M_102, None, None),
    (check.check_requests, f'M-102 says `Not landed.`, and must say `{LANDED}`: {M_102} is there', PAPER_2, LANDED, 'Not landed.'),
    (check.check_requests, 'M-102 says `Landed: docs/landings/m-103.md.`, and must say', PAPER_2, LANDED, 'Landed: docs/landings/m-103.md.'),
    (check.check_requests, 'M-102 says ``, and must say', PAPER_2, LANDED, ''),
    (check.check_requests, 'M-100 says `Not landed.`, and must say `Landed: docs/landings/m-100.md.`', 'docs/landings/m-100.md', '', NOTE),
    *((check.check_notes, f'{M_102}: no section `## {heading}`', M_102, f'## {heading}\n', '## More\n') for heading, _ in PARTS),
    *((check.check_notes, f'{M_102}: its section {heading} has no item `{item}:', M_102, f'{item}:{said}', '') for heading, item, said in ITEMS),
    *((check.check_notes, f'{M_102}: its section {heading} has no item `{item}:', M_102, f'{item}:{said}', f'{item}:') for heading, item, said in ITEMS),
    (check.check_notes, 'its section Changed has no item `- Lines: specs .., src .., proofs ..`', M_102, ', src +0 −0', ''),
    (check.check_notes, 'its section Check has no time before, like `4 min 19 s before`', M_102, '4 min 19 s before', 'some minutes before'),
    (check.check_notes, 'its section Check has no time after, like `4 min 19 s after`', M_102, ', 1 h 2 min after', ''),
    (check.check_notes, f'{M_102}: its first line is not `# M-102: ..`', M_102, '# M-102:', '# M-103:'),
    (check.check_notes, f'{M_102}: its first line is not `# M-102: ..`', M_102, '# M-102: lines walked once\n', '# M-102:\n'),
    (check.check_notes, f'{M_102}: 121 lines, and a short note has at most 120', M_102, '', '\n' * (121 - len(NOTE.splitlines()))),
    (check.check_notes, f'{M_102}: something in it is still TODO', M_102, 'scan.', 'TODO.'),
    (check.check_notes, 'docs/landings/m-114.md: a note of no request in docs/PAPER-02.md', 'docs/landings/m-114.md', '', NOTE.replace('M-102', 'M-114')),
    (check.check_notes, 'docs/landings/m102.md: a note of no request in docs/PAPER-02.md', 'docs/landings/m102.md', '', NOTE),
    (check.check_notes, f'{M_102}: a note of no request in docs/PAPER-02.md', PAPER_2, '## M-102 A', '## M-102A'),
    (check.check_statements, f'DEMANDS.md: Demand1.untouched is not so on {DEMAND_1}', DEMAND_1, '⊎ Refusal s\n  pub untouched : (s : List ℕ) → Unwritten s\n', '⊎ Refusal s\n'),
    (check.check_statements, f'DEMANDS.md: Demand1.plan is not so on {DEMAND_1}', DEMAND_1, '⊎ Refusal s', '⊎ Unit'),
    (check.check_statements, f'{DEMAND_1}: Demand1.plan is not so in docs/DEMANDS.md', DEMAND_1, '⊎ Refusal s', '⊎ Unit'),
    (check.check_statements, f'DEMANDS.md: Demand1.plan is not so on {DEMAND_1}', DEMAND_1, '  pub plan :', '  -- pub plan :'),
    (check.check_statements, f'DEMANDS.md: OfTheFile is not so on {DEMAND_1}', DEMAND_1, 'OfTheFile r = refusal_number r ≤ 9\n', 'OfTheFile r = {- refusal_number -} r ≤ 9\n'),
    (check.check_statements, f'{DEMAND_1}: OfTheFile is not so in', DEMAND_1, 'refusal_number r ≤ 9\n', 'refusal_number r ≤ 9\nOfTheFile r = Unit\n'),
    (check.check_statements, f'DEMANDS.md: Demand3.untouched is not so on {DEMAND_1}', DEMAND_1, 'pub record Demand3 : Type 0 where\n', 'abbrev pub Demand3 : Type 0\nDemand3 = Unit\n\npub record Spare : Type 0 where\n'),
    (check.check_statements, f'{DEMAND_1}: Demand3.unread is not so in', DEMAND_1, '', '  pub unread : ℕ\n'),
    (check.check_statements, f'{DEMAND_1}: Demand4 is not so in', DEMAND_1, '', '\nabbrev pub Demand4 : Type 0\nDemand4 = Unit\n'),
    (check.check_statements, f'DEMANDS.md: Demand1.plan is not so on {DEMAND_1}', DEMAND_1, None, None),
    (check.check_statements, 'DEMANDS.md: HandedOver.bytes is not so on', 'crates/answers/specs/Answers.antt', '  pub bytes : Written r\n', ''),
    (check.check_statements, 'Answers.antt: HandedOver.more is not so in', 'crates/answers/specs/Answers.antt', '', '  pub more : ℕ\n'),
    (check.check_statements, 'Table.antt: table is not so in', 'crates/examples/specs/Table.antt', 'at "E" (refuses [] 0 1)', 'at "E" (refuses [] 0 2)'),
    (check.check_statements, 'DEMANDS.md: a block with no page named before it', 'docs/DEMANDS.md', f'`{DEMAND_1}`\n', 'A page:\n'),
    (check.check_statements, f'DEMANDS.md: pub is not so on {DEMAND_1}', 'docs/DEMANDS.md', f'`{DEMAND_1}`\n\n```\n', f'`{DEMAND_1}`\n\n```\n  pub plan : ℕ\n'),
    (check.check_statements, f'docs/REQUESTS.md: EveryLineScanned is not so on {SCAN}', SCAN, '→ ScanIs s', '→ length s < 0 → ScanIs s'),
    (check.check_statements, f'{SCAN}: EveryLineScanned is not so in docs/REQUESTS.md', SCAN, '→ ScanIs s', '→ length s < 0 → ScanIs s'),
    (check.check_statements, f'{SCAN}: EveryLineScanned is not so in docs/REQUESTS.md', 'docs/REQUESTS.md', None, None),
    (check.check_uses, f'{DEMAND_1}: HandedOver is not that of crates/answers/specs/Answers.antt', DEMAND_1, 'answers.specs.Answers', 'answers.specs.Weak'),
    (check.check_uses, f'WrongPlanners.antt: Demand3 is not that of {DEMAND_1}', 'crates/examples/specs/WrongPlanners.antt', 'Demand3}', 'Demand1 as Demand3}'),
    (check.check_uses, f'Theorems.antt: Demand1 is not that of {DEMAND_1}', 'crates/planner/proofs/Theorems.antt', '', 'use Rattle.planner.specs.Weak.Demand1\n'),
    (check.check_quotes, 'no demand has the words: A refusal writes little', 'docs/DEMANDS.md', 'writes nothing', 'writes little'),
    (check.check_quotes, 'of D1 is not quoted: 1: . A refusal writes nothing', 'docs/DEMANDS.md', '> A refusal writes nothing.\n', ''),
    (check.check_quotes, 'docs/REQUESTS.md: no landed request has the words: A word', 'docs/REQUESTS.md', '> A sentence', '> A word'),
    (check.check_quotes, 'docs/REQUESTS.md: of M102c is not quoted: A sentence.', 'docs/REQUESTS.md', '> A sentence', '> A word'),
    (check.check_quotes, 'docs/REQUESTS.md: no landed request has the words: A sentence', M_102, None, None),
    (check.check_quotes, 'docs/PAPER-01.md: no demand', 'docs/PAPER-01.md', '- D1. ', '- '),
    (check.check_edits, 'planning/plan_low: no outcome of this must-fail edit', LOG, 'rt: must-fail ' + PLAN_LOW, ''),
    (check.check_edits, 'planning/plan_low: no outcome of this must-fail edit', LOG, None, None),
    (check.check_edits, 'planning/plan_more: no outcome of this must-fail edit', 'crates/planning/must-fail/plan_more.edit', '', edit('`plan`')),
    *((check.check_edits, f'planning/plan_low: not refused by what it means: {said}', LOG, PLAN_LOW, f'planning/plan_low.edit: {said}\n') for said in [
        'NOT REFUSED: the crate is still proved with this edit', "BAD EDIT: an 'old:' text is in src/lib.rt 0 times, and not once", 'NOT TRIED: its check was killed', 'refused, as it must be',
        'refused, as it must be (only because a proof file names what the edit took away, so this says little of the contract: change a value and keep the names): ./proofs/plan/Answers.antt:1:2',
        'refused, as it must be (only by a limit of the prover, which gave no verdict, so this says less of the contract: choose a change that it refuses sooner): ./proofs/plan/Answers.antt:1:2',
    ]),
    (check.check_edits, 'target/ci.log: must-fail edits: none, and there are ', LOG, None, None),
    (check.check_edits, 'target/ci.log: must-fail edits: none, and there are ', LOG, 'rt: ok; handles', 'rt: FAILED: planning handles'),
    (check.check_edits, ' refused, 1 bad, and there are ', LOG, ' refused; done', ' refused, 1 bad; done'),
    (check.check_edits, ' refused, 1 of them only by a limit, and there are ', LOG, ' refused; done', ' refused, 1 of them only by a limit; done'),
    (check.check_edits, 'target/ci.log: must-fail edits: 3', LOG, 'must-fail edits: ', 'must-fail edits: 3'),
    (check.check_edits, 'planning/plan_low: its comment does not say', 'crates/planning/must-fail/plan_low.edit', 'must break', 'breaks'),
    (check.check_edits, 'planning/plan_low: its comment does not say', 'crates/planning/must-fail/plan_low.edit', '`plan`', 'the plan'),
    (check.check_edits, 'planning/plan_low: its comment does not say', 'crates/planning/must-fail/plan_low.edit', '`plan` must', '`print_plan` or `plan` must'),
    (check.check_edits, 'planning/plan_low: the crate declares no print_plan', 'crates/planning/must-fail/plan_low.edit', '`plan` must', '`print_plan` and law `plan` must'),
    (check.check_edits, 'planning/plan_low: the crate declares no print_plan', 'crates/planning/must-fail/plan_low.edit', '`plan` must', '`plan`, so `print_plan`, must'),
    (check.check_edits, 'planning/plan_low: the crate declares no print_plan', 'crates/planning/must-fail/plan_low.edit', '`plan` must', '`plan` and `print_plan/returns` must'),
    (check.check_edits, 'planning/plan_low: it changes a proof', 'crates/planning/must-fail/plan_low.edit', 'file: src/lib.rt', 'file: proofs/Plan.antt'),
    (check.check_edits, 'planning/plan_low: chart must break, and first breaks returns in proofs/plan/Answers.antt', 'crates/planning/must-fail/plan_low.edit', '`plan`', '`chart`'),
    (check.check_edits, 'planning/plan_low: chart must break, and first breaks returns in proofs/plan/Answers.antt', 'crates/planning/must-fail/plan_low.edit', '`plan` must', '`chart`, so `plan`, must'),
    (check.check_edits, 'planning/plan_low: plan/returns-then-a must break, and first breaks returns in', 'crates/planning/must-fail/plan_low.edit', '`plan`', '`plan/returns-then-a`'),
    (check.check_edits, 'planning/plan_low: plan must break, and first breaks returns in proofs/print_plan/', LOG, PLAN_LOW, PLAN_LOW.replace('plan/Answers', 'print_plan/Answers')),
    (check.check_edits, 'planning/plan_low: refused before any proof', LOG, PLAN_LOW, PLAN_LOW.replace('error', 'note')),
    *((check.check_edits, 'planning/plan_low: refused for a vacuous reason', LOG, PLAN_LOW, PLAN_LOW.replace('the two types differ', said)) for said in [
        f'`law` {FOLLOWS}', 'module `Goals` has no `returns-then-a`', 'module `Goals` has no name that can be named from here', 'record `Lts` has no field `args`', '`plan_of` is not in scope',
        '`cc` met a bound of its own', '`plan` calls `print_plan`, which is not proved', '(`returns`); `search` gave up at one of its limits', '`grind` stopped at its own limit of depth',
    ]),
    (check.check_edits, 'planning/plan_low: refused before any proof: specs/', LOG, PLAN_LOW, PLAN_LOW.replace('proofs/plan/Answers', 'specs/Plan')),
    (check.check_edits, 'planning/plan_low: refused before any proof: src/', LOG, PLAN_LOW, 'planning/plan_low.edit: refused, as it must be: src/lib.rt:1:2: error[mismatched-types]: expected `u64`\n'),
    (check.check_edits, 'least/down: ceil_least must break, and first breaks ceil_most in proofs/Round.antt', LOG, 'error: `ceil_least`', 'error: `ceil_most`'),
    (check.check_edits, 'least/down: ceil_least must break, and first breaks ceil_least in proofs/ceil_div/Answers.antt', LOG, 'proofs/Round.antt:1', 'proofs/ceil_div/Answers.antt:1'),
    (check.check_edits, 'least/down: refused for a vacuous reason', LOG, '`omega`: the goal fails', f'`ceil_none` {FOLLOWS}'),
    (check.check_edits, 'least/down: the crate declares no ceil_covers', 'crates/least/proofs/Round.antt', 'ceil_covers :', 'ceil_is :'),
    (check.check_edits, 'least/step: Frac::next/returns and inner must break, and first breaks returns in proofs/ceil_div/', LOG, 'src/lib.rt:25:9', 'src/lib.rt:11:5'),
    (check.check_edits, 'least/step: Frac::next/returns and inner must break, and first breaks returns in proofs/ceil_div/', LOG, 'src/lib.rt:25:9', 'src/lib.rt:6:1'),
    (check.check_edits, 'least/step: Frac::next/returns and inner must break, and first breaks returns in proofs/ceil_div/', LOG, 'src/lib.rt:25:9', 'src/lib.rt:16:1'),
    (check.check_edits, 'least/step: Frac::next/returns and inner must break, and first breaks returns-then-a in proofs/Frac/next/', LOG, '(`returns`)', '(`returns-then-a`)'),
    (check.check_edits, 'least/step: refused before any proof: src/more.rt', LOG, 'src/lib.rt:25:9', 'src/more.rt:25:9'),
    (check.check_edits, 'least/step: refused before any proof: src/lib.rt', LOG, 'src/lib.rt:25:9', 'src/lib.rt:1:1'),
    (check.check_shut_outs, 'least: a library with fewer than two', 'crates/least/must-fail/down.edit', None, None),
    (check.check_shut_outs, 'planning::plan: an operation that fewer than two', 'crates/planning/must-fail/plan_low.edit', None, None),
    (check.check_shut_outs, 'console::print: an operation that fewer than two', 'crates/console/must-fail/print_low.edit', '`print`', '`write`'),
    (check.check_theorems, 'no theorem `demand_3 : Demand3 PlanAnswered`', 'crates/planner/proofs/Theorems.antt', 'pub demand_3 : Demand3 PlanAnswered', 'pub demand_3 : Demand3 other'),
    (check.check_theorems, 'no theorem `demand_2 : Demand2`', 'crates/planner/proofs/Theorems.antt', 'demand_2 : Demand2\n', 'demand_2 : Demand2 → Demand2\n'),
    (check.check_theorems, 'no theorem `demand_1 : Demand1 PlanAnswered`', 'crates/planner/proofs/Theorems.antt', 'pub demand_1', '-- pub demand_1'),
    (check.check_theorems, 'no theorem `every_refusal : EveryRefusal`', 'crates/planner/proofs/Theorems.antt', 'every_refusal : EveryRefusal\n', 'every_refusal : Unit\n'),
    (check.check_theorems, 'no theorem `local_test : LocalTest`', 'crates/planner/proofs/Theorems.antt', 'pub local_test : LocalTest\n', '{-\npub local_test : LocalTest\n-}\n'),
    (check.check_theorems, 'no theorem `examples : AllHold table`', 'crates/examples/proofs/Theorems.antt', 'AllHold table\n', 'AllHold short\n'),
    (check.check_theorems, 'table, of which the theorem examples speaks', 'crates/examples/proofs/Theorems.antt', '', 'abbrev table : List Example\ntable = []\n'),
    (check.check_table, 'the rows of table are A B', 'crates/examples/specs/Table.antt', '    ∷ at "K" (refuses [] 4 1)\n', ''),
    (check.check_table, 'the rows of table are A B', 'crates/examples/specs/Table.antt', '    ∷ at "K" (refuses [] 4 1)\n', '    -- ∷ at "K" (refuses [] 4 1)\n'),
    (check.check_table, 'the rows of table are', 'crates/examples/specs/Table.antt', 'at "D" (refuses [] 0 1)\n    ∷ at "E"', 'at "E" (refuses [] 0 1)\n    ∷ at "D"'),
    (check.check_table, 'the rows of table are', 'crates/examples/specs/Table.antt', 'at "A"', 'at "M"'),
    (check.check_table, 'the rows of table are', 'crates/examples/specs/Table.antt', 'table =\n', 'table = short\nlong =\n'),
    (check.check_example_a, 'README.md: file_a', 'README.md', 'part\tcard\t20', 'part\tcard\t21'),
    (check.check_example_a, 'README.md: listing_a', 'crates/examples/specs/Files.antt', 'listing_a = bytes', 'listing = bytes'),
    (check.check_poster, 'the file of crates/cases/data/m103-poster does not', 'docs/GUIDE.md', 'part\tp\t9', 'part\tp\t8'),
    (check.check_poster, 'the plan of crates/cases/data/m103-poster does not', 'docs/GUIDE.md', 'load\tp', 'load p'),
    (check.check_poster, 'the plan of crates/cases/data/m103-poster does not', 'crates/cases/stdout', 'load', 'share'),
    (check.check_poster, 'the plan of crates/cases/data/m103-poster does not', 'crates/cases/stdout', '== m103-poster', '== m103-posters'),
    (check.check_one_pass, 'scan: a loop stands 2 times', SCAN_CODE, '', 'while i < at {\n}\n'),
    (check.check_one_pass, 'scan: a loop stands 0 times', SCAN_CODE, 'for', '// for'),
    (check.check_one_pass, 'scan: a place where the file is read stands 2 times', SCAN_CODE, 's[i];', 's[i];\n    let c = s[at];'),
    (check.check_one_pass, 'scan: a place where the file is read stands 2 times', SCAN_CODE, '', 'let t = fields::tabs_of(s, at);\n'),
    (check.check_one_pass, 'scan: the place in the line moves by `i = at - 1;`', SCAN_CODE, 's[i];', 's[i];\n    let mut i = at - 1;'),
    (check.check_one_pass, 'scan: the place in the line moves by `i -= 1;`', SCAN_CODE, 's[i];', 's[i];\n    i -= 1;'),
    (check.check_one_pass, 'scan: the place in the line moves by `i = i / 2;`', SCAN_CODE, 'let b', 'let i = i / 2;\n    let b'),
    (check.check_one_pass, 'scan: a loop `for i in 0..s.len()`, and not over the places', SCAN_CODE, 'at..s', '0..s'),
    (check.check_one_pass, 'scan: a loop `while i < s.len()`, and not over the places', SCAN_CODE, 'for i in at..s.len()', 'while i < s.len()'),
    (check.check_one_pass, 'records: a call of scan::line_at stands 2 times', CURSOR, '', 'let m = scan::line_at(s, at);\n'),
    (check.check_one_limit, 'the limit of numbers stands 2 times in the definitions', 'crates/least/specs/Round.antt', '', 'most : ℕ\nmost = 1000000\n'),
    (check.check_one_limit, 'the limit of numbers stands 0 times in the definitions', LIMIT, '1000000', '65535'),
    (check.check_one_limit, 'the limit of numbers stands 2 times in the code', 'crates/least/src/lib.rt', '', 'const UNKNOWN: u64 = 1_000_001;\n'),
    (check.check_one_limit, 'the limit of numbers stands 0 times in the code', LIMIT_CODE, 'pub const N', '// pub const N'),
    *((check.check_one_limit, 'the limit of numbers stands 2 times in the code', 'crates/least/src/lib.rt', '', f'    if {most} < t {{\n') for most in ['1000000u64', '1_000_000_u64', '0xF4240', '1000 * 1000']),
    (check.check_one_limit, 'the limit of numbers stands 2 times in the definitions', 'crates/least/specs/Round.antt', '', 'most = 10 ^ 6\n'),
    (check.check_one_limit, 'the limit of numbers stands 0 times in the code', 'crates.txt', 'refusal: \n', ''),
    (check.check_one_limit, 'the limit of bytes in a file stands 2 times in the code', 'crates/plan/src/main.rt', '', '    let mut file = [0u8; 32769];\n'),
    (check.check_one_limit, 'the limit of bytes in a file stands 0 times in the definitions', LIMIT, '32768', '65536'),
    (check.check_one_limit, 'PLANNER_MOST_NUMBER is 65535, and the limit NUMBER_LIMIT of the code 1000000', interface.HEADER, '1000000', '65535'),
    (check.check_one_limit, 'PLANNER_MOST_NUMBER is None, and', interface.HEADER, 'enum { PLANNER_MOST_NUMBER', '// enum { PLANNER_MOST_NUMBER'),
    (check.check_one_limit, 'PLANNER_MOST_PAIRS is 121, and the limit KEPT_LIMIT of the code 15', interface.HEADER, 'PAIRS = 15', 'PAIRS = 121'),
    (check.check_one_limit, 'PLANNER_MOST_PAIRS is 15, and the limit KEPT_LIMIT of the code 121', LIMIT_CODE, '= TASK_LIMIT', '= 121'),
    (check.check_one_limit, 'PLANNER_MOST_PAIRS is 15, and the limit KEPT_LIMIT of the code None', LIMIT_CODE, 'pub const KEPT', '// pub const KEPT'),
    (check.check_one_limit, 'PLANNER_MOST_ROWS is 15, and the limit ROW_LIMIT of the code 14', interface.HEADER, 'ROWS = 14', 'ROWS = 15'),
    (check.check_one_limit, 'the limit of ticks of a cycle stands 2 times in the code', 'crates/least/src/lib.rt', '', '    if t < 720 {\n'),
    (check.check_one_limit, 'the limit of ticks of a cycle stands 0 times in the definitions', LIMIT, '= 720', '= 360'),
    (check.check_one_limit, 'PLANNER_CYCLE is 719, and the limit CYCLE of the code 720', interface.HEADER, '720', '719'),
    (check.check_one_limit, 'PLANNER_MOST_BYTES is 32767, and the limit FILE_LIMIT of the code 32768', interface.HEADER, 'BYTES = 32768', 'BYTES = 32767'),
    *((check.check_believed, f'{ROWS}: {name} stands in Code/, and must be believed: {who} names it', path, old, new) for name, who, path, old, new in [
        ('no_row', 'load::weigh', LOAD_CODE, 'Load.{◌⊑◌}', 'Code.Rows.{no_row as ◌⊑◌}'),
        ('no_row', 'every_line_scanned', 'crates/scan/proofs/Theorems.antt', '', 'use Rattle.load.specs.Code.Rows.{no_row as line_at}\n'),
        ('no_row', f'load_of of {LOAD}', LOAD, 'load_of none = 0\n', 'load_of none = no_row\nuse Rattle.load.specs.Code.Rows.{no_row}\n'),
        ('no_row', f'◌⊑◌ of {LOAD}', LOAD, 'refusal.specs.Limits.{number_limit as', 'load.specs.Code.Rows.{no_row as'),
        ('Row', f'every of {NAMED}', NAMED, 'Load.Load.{some as', 'Code.Rows.Row.{row_at as'),
        ('Row', f'load_of of {LOAD}', LOAD, 'load_of none = 0\n', 'load_of none = Row.row_at\nuse Rattle.load.specs.Code.Rows.{Row}\n'),
        ('no_row', f'load_of of {LOAD}', LOAD, 'load_of none = 0\n', 'load_of none = λ x.no_row\nuse Rattle.load.specs.Code.Rows.{no_row}\n'),
        ('no_row', f'load_of of {LOAD}', LOAD, 'load_of none = 0\n', 'load_of none = ∣ 0 ∣\nuse Rattle.load.specs.Code.Rows.{no_row as ∣◌∣}\n'),
        ('no_row', f'first of {LOAD}', LOAD, 'module _ {A : Kind} where\n  abbrev pub first : A → A\n  first a = a\n',
         'module _ {A : Kind no_row} where\n  module _ (b : A) where\n    abbrev pub first : A → A\n    first a = a\nuse Rattle.load.specs.Code.Rows.{no_row}\n'),
    ]),
    *((check.check_believed, f'{path}: {name} does not stand in Code/, and need not be believed', path, old, new) for name, path, old, new in [
        ('spare', LOAD, '', '\nabbrev pub spare : ℕ\nspare = 0\n'), ('Spare', LOAD, '', '\npub record Spare : Type 0 where\n  pub some : ℕ\n'),
        ('spare', LOAD, '', '\nspare : ℕ\nspare = spare\n'), ('spare', 'crates/load/specs/Spare.antt', '', 'abbrev pub spare : ℕ\nspare = 0\n'),
        ('spare', LOAD, '  first a = a\n', '  first a = a\n\n  abbrev pub spare : A → A\n  spare a = a\n'),
        ('first', LOAD, 'first (min a most)', '{- first -} (min a most) -- first'),
    ]),
    (check.check_believed, f'{LOAD}: ◌⊑◌ does not stand in Code/', LOAD_CODE, 'result ⊑ a', 'result ≡ a'),
    (check.check_believed, f'{LOAD}: load_of does not stand in Code/', NAMED, 'few load_of', 'few'),
    (check.check_believed, f'{LOAD}: Load does not stand in Code/', NAMED, 'few load_of', ''),
    (check.check_believed, f'{LOAD}: Rattle.refusal.specs.Limits declares no low_limit', LOAD, '{number_limit as', '{low_limit as'),
    (check.check_believed, f'{ROWS}: Rattle.load.specs.Load.Load declares no few', ROWS, '{none}', '{few}'),
    (check.check_believed, f'{LOAD}: number_limit is taken from a proof', LOAD, 'refusal.specs.Limits', 'refusal.proofs.Limits'),
    (check.check_believed, f'{LOAD}: Rattle.load.specs.Code.Rows.no_row stands with its whole path', LOAD, 'none = 0', 'none = Rattle.load.specs.Code.Rows.no_row'),
    (check.check_believed, f'{LOAD}: `use Rattle.load.specs.Code.Rows as rows` cannot be read', LOAD, '', 'use Rattle.load.specs.Code.Rows as rows\n'),
    *((check.check_believed, f'{LOAD}: `use Rattle.load.specs.Code.Rows.{{no_row}}` cannot be read', LOAD, '', line + '\n') for line in [
        'use  Rattle.load.specs.Code.Rows.{no_row}', '  use Rattle.load.specs.Code.Rows.{no_row}', 'use Rattle.load.specs.Code.Rows.{no_row} ',
    ]),
    (check.check_believed, f'{LOAD_CODE}: `ghost use Rattle.load.specs.Code.Rows;` cannot be read', LOAD_CODE, '', 'ghost use Rattle.load.specs.Code.Rows;\n'),
    *((check.check_believed, 'README.md: it must say once that ', 'README.md', old, new) for old, new in [
        (' definitions must be believed', '0 definitions must be believed'), (' of the\n', '0 of the\n'), (' must be believed', ' may be believed'), ('', '1 of the 2 definitions must be believed.\n'),
    ]),
    (check.check_verdicts, 'planning: no verdict', LOG, None, None),
    (check.check_verdicts, 'planning: no verdict', LOG, block('planning'), ''),
    (check.check_verdicts, 'planning: no verdict', LOG, block('planning'), block('planning', VERDICT.replace('=proved', '=not-proved'))),
    (check.check_verdicts, 'planning: no verdict', LOG, block('planning'), block('planning').replace(VERDICT + '\n', '')),
    (check.check_verdicts, 'planning: no verdict', LOG, 'rt: planning proved\n', 'rt: planning NOT PROVED\n'),
    (check.check_verdicts, 'scan: no verdict', LOG, kept('scan'), ''),
    (check.check_verdicts, 'scan: no verdict', LOG, kept('scan'), kept('scans')),
    (check.check_verdicts, 'scan: crates/scan/proofs/Theorems.antt postulates', 'crates/scan/proofs/Theorems.antt', '', 'postulate pub line : Line\n'),
    (check.check_verdicts, 'load: crates/load/specs/Load.antt postulates', LOAD, '', 'pub postulate line : Line\n'),
    *((check.check_verdicts, f'planning: the verdict names an assumption, {word}', LOG, block('planning'), block('planning', VERDICT.replace('sum', f'{word}=1 sum'))) for word in [
        'axioms', 'foreign', 'may-abort', 'may-wait', 'hides', 'bugs', 'incremental', 'cache',
    ]),
    (check.check_verdicts, 'planning: the verdict names an assumption, cpu', LOG, block('planning'), block('planning', BUILT)),
    (check.check_verdicts, 'planner_c: the verdict names an assumption, target', 'crates.txt', 'planner_c staticlib:', 'planner_c:'),
    (check.check_verdicts, 'planner_c: the verdict names an assumption, axioms', LOG, BUILT, BUILT.replace('sum', 'axioms=1 sum')),
    (check.check_verdicts, 'target/ci.log: it must say once that no handle is allowed', LOG, 'handles allowed: none', 'handles allowed: Wait'),
    (check.check_verdicts, 'target/ci.log: it must say once that no handle is allowed', LOG, 'rt: ok; ', 'rt: '),
    (check.check_tests, 'include/planner.h: planner_weigh is not declared', interface.HEADER, 'planner_weigh(', 'planner_weight('),
    (check.check_tests, 'rust/planner/src/raw.rs: planner_weigh is not declared', interface.RAW, 'planner_weigh(', 'planner_weight('),
    (check.check_tests, 'tests/src/library.rs: planner_name is not declared', 'tests/src/library.rs', '    raw::planner_name(', '    // raw::planner_name('),
    (check.check_tests, 'tests/tests/library.rs: no test', 'tests/tests/library.rs', '#[test]', '// #[test]'),
    (check.check_tests, 'tests/tests/library.rs: no test', 'tests/tests/library.rs', '#[test]', '#[test]\n#[ignore]'),
    (check.check_tests, 'rust/planner/tests/operations.rs: no test', 'rust/planner/tests/operations.rs', '#[test]', '// #[test]'),
    (check.check_refusals, 'README.md: refusal 5 is `never`, and in include/planner.h `no 5`', 'README.md', '| no 5 |', '| never |'),
    (check.check_refusals, 'README.md: refusal 5 is `no 5`, and in include/planner.h `never`', interface.HEADER, '"no 5"', '"never"'),
    (check.check_refusals, 'rust/planner/src/lib.rs: refusal 5 is `never`, and in include/planner.h `no 5`', interface.RUST, '"no 5"', '"never"'),
    (check.check_refusals, 'rust/planner/src/lib.rs: refusal 0 is `never`', interface.RUST, '"no 0"', '"never"'),
    (check.check_refusals, 'rust/planner/src/lib.rs: refusal 19 is `None`', interface.RUST, '    19 =>', '    // 19 =>'),
    (check.check_refusals, 'rust/planner/src/lib.rs: refusal 5 is `None`', interface.RUST, '"no 5"', '/* "no 5" */'),
    (check.check_refusals, 'rust/planner/src/lib.rs: the refusals are 0 1 2 3 4 6 5', interface.RUST, '    5 => "no 5",\n    6 => "no 6",\n', '    6 => "no 6",\n    5 => "no 5",\n'),
    (check.check_refusals, 'include/planner.h: the refusals are 0 1 2 3 4 6', interface.HEADER, 'case 5:\n        return "no 5";', ''),
    (check.check_refusals, 'in include/planner.h `None`', interface.HEADER, 'return "no 19"', 'return "no 19" "no 20"'),
    (check.check_refusals, 'in include/planner.h `no 15`', interface.HEADER, 'case 19:', 'case 15:\n        return "no 15";\n    case 19:'),
    (check.check_refusals, 'README.md: refusal 19 is `None`, and in include/planner.h `no 19`', 'README.md', '| 19 | 0 | no 19 | write it |\n', ''),
    (check.check_refusals, 'README.md: refusal 15 is `no 15`, and in include/planner.h `None`', 'README.md', '| 19 |', '| 15 | 0 | no 15 | write it |\n| 19 |'),
    (check.check_refusals, 'README.md: the refusals are 1 2 3 4 6', 'README.md', '| 5 | 0 | no 5 | write it |\n', ''),
    (check.check_refusals, 'README.md: the refusals are 1 2 3 4 6', 'README.md', '| no 5 | write it |', '| no 5 |  |'),
    (check.check_constants, 'ROOM is 8192, and in include/planner.h 4096', interface.HEADER, '8192', '4096'),
    (check.check_constants, 'ROOM is None, and in include/planner.h 8192', interface.RUST, 'pub const ROOM', '// pub const ROOM'),
    (check.check_constants, 'STACK_PLAN is 188416, and in include/planner.h 189440', interface.HEADER, '184 * 1024', '185 * 1024'),
    (check.check_constants, 'STACK_PLAN is 188416, and in include/planner.h None', interface.HEADER, 'PLANNER_STACK_PLAN', 'PLANNER_STACK'),
    *((check.check_constants, 'include/planner.h: the version is', path, old, new) for path, old, new in [
        (interface.PACKAGE, '1.2.3', '1.2.4'), (interface.HEADER, '"1.2.3"', '"1.2.4"'), (interface.HEADER, 'PATCH 3', 'PATCH 4'), (interface.HEADER, '#define PLANNER_VERSION_MINOR 2\n', ''),
        (interface.HEADER, '#define PLANNER_VERSION "1.2.3"\n', ''), (interface.PACKAGE, 'version', 'edition'),
    ]),
]


class Checks(unittest.TestCase):
    @classmethod
    def setUpClass(cls):
        folder = tempfile.TemporaryDirectory()
        cls.addClassCleanup(folder.cleanup)
        cls.top = Path(folder.name)
        scripts = {f'.ci/{name}': (HERE / name).read_text() for name in ('believed.py', 'check.py', 'interface.py', 'papers.py', 'statements.py')}
        for path, text in {**right_tree(), **scripts}.items():
            (cls.top / path).parent.mkdir(parents=True, exist_ok=True)
            (cls.top / path).write_text(text)
        (cls.top / papers.WORDS).write_text(''.join(f'{line}\n' for line in papers.digests(cls.top)))
        count = len(believed.Pages(cls.top).all)
        (cls.top / 'README.md').write_text((cls.top / 'README.md').read_text() + f'{count - 3} of the\n{count} definitions must be believed.\n')

    @contextmanager
    def slip(self, path, old, new):
        """The tree with one slip."""
        file = self.top / path
        text = file.read_text() if file.exists() else None
        if old is None:
            file.unlink()
        elif old == '':
            file.write_text((text or '') + new)
        else:
            self.assertEqual(text.count(old), 1, f'how often {old!r} stands in {path}')
            file.write_text(text.replace(old, new))
        try:
            yield
        finally:
            file.unlink() if text is None else file.write_text(text)

    def script(self):
        run = subprocess.run([sys.executable, self.top / '.ci' / 'check.py'], capture_output=True, text=True)
        return run.returncode, run.stdout.splitlines()[-1]

    def test_right_tree_has_no_fault(self):
        for run in check.CHECKS:
            self.assertEqual(list(run(self.top)), [], run.__name__)
        self.assertEqual(self.script(), (0, 'own checks: 0 faults'))

    def test_every_slip_is_reported(self):
        for run, fault, path, old, new in SLIPS:
            with self.subTest(check=run.__name__, fault=fault, path=path, old=old, new=new):
                with self.slip(path, old, new):
                    faults = list(run(self.top))
                self.assertTrue(any(fault in said for said in faults), faults)

    def test_a_fault_fails_the_script(self):
        with self.slip(LOG, PLAN_LOW, PLAN_LOW.replace('the two types differ', 'record `Lts` has no field `args`')):
            self.assertEqual(self.script(), (1, 'own checks: 1 faults'))

    def test_every_check_is_run_and_has_a_slip(self):
        named = {name for name in dir(check) if name.startswith('check_')}
        self.assertEqual(named, {run.__name__ for run in check.CHECKS})
        self.assertEqual(named, {slip[0].__name__ for slip in SLIPS})


# Stands in for rt and every other command of .ci/run: notes what it is asked, and does as it is told.
FAKE = '''#!/bin/sh
asked="${0##*/} $*"
echo "$asked" >>"$ASKED"
[ "$asked" != 'rt ci' ] || eval "$CI"
[ "$asked" != "$FAILING" ]
'''
COMMANDS = [
    'rt ci', 'python3 .ci/check_test.py', 'python3 .ci/check.py', 'build plan', 'build library',
    'cargo test --offline --quiet --features library --manifest-path tests/Cargo.toml', 'cargo test --offline --quiet --manifest-path rust/planner/Cargo.toml --target-dir target/rust',
    'integrators ', 'stack ', 'program ', 'wrapper ', 'install ', 'example_plans ',
]
# What is counted if all pass: three of `rt ci`, and every other command.
ALL = 3 + len(COMMANDS[1:])


class Gate(unittest.TestCase):
    def gate(self, ci, failing='', without='', tee=''):
        """.ci/run where `rt ci` does as told, one command fails, one is not there, and tee is another: status, last line, commands. What it leaves of rt ci for check.py is then in `left`."""
        with tempfile.TemporaryDirectory() as folder:
            top = Path(folder)
            for path in ('.ci/run', 'bin/rt', 'bin/python3', 'bin/cargo', 'scripts/build', 'tests/integrators', 'tests/stack', 'tests/program', 'tests/wrapper', 'tests/install', 'tests/example_plans'):
                (top / path).parent.mkdir(parents=True, exist_ok=True)
                (top / path).write_text((HERE / 'run').read_text() if path == '.ci/run' else FAKE)
                (top / path).chmod(0o755)
            (top / LOG).parent.mkdir()
            (top / LOG).write_text('an earlier run\n3 passed, 0 failed\n')
            if without:
                (top / without).unlink()
            if tee:
                (top / 'bin' / 'tee').write_text(tee)
                (top / 'bin' / 'tee').chmod(0o755)
            told = {**os.environ, 'PATH': f'{top}/bin:/usr/bin:/bin', 'ASKED': f'{top}/asked', 'CI': ci, 'FAILING': failing}
            run = subprocess.run([top / '.ci' / 'run'], env=told, capture_output=True, text=True)
            asked = (top / 'asked').read_text().splitlines() if (top / 'asked').exists() else []
            self.left = (top / LOG).read_text()
            return run.returncode, run.stdout.splitlines()[-1], asked

    def test_all_passes(self):
        self.assertEqual(self.gate('echo rt: ok; echo 3 passed, 0 failed'), (0, f'{ALL} passed, 0 failed', COMMANDS))
        self.assertEqual(self.left, 'rt: ok\n3 passed, 0 failed\n')

    def test_what_rt_says_is_left(self):
        for ci in ('echo 0 passed, 1 failed; exit 1', 'echo 0 passed, 1 failed >&2; exit 1'):
            self.gate(ci)
            self.assertEqual(self.left, '0 passed, 1 failed\n')

    def test_rt_ci_fails(self):
        for ci, last in [
            ('echo 3 passed, 1 failed; exit 1', '3 passed, 1 failed'),
            ('echo 3 passed, 1 failed', '3 passed, 1 failed'),
            ('echo 3 passed, 0 failed; exit 1', '3 passed, 1 failed'),
            ('echo 3 passed, 0 failed; echo more', '0 passed, 1 failed'),
            ('echo rt: 3 passed, 0 failed', '0 passed, 1 failed'),
            ('echo 0 passed, 0 failed', '0 passed, 1 failed'),
            ('kill -9 $$', '0 passed, 1 failed'),
            ('exit 0', '0 passed, 1 failed'),
        ]:
            with self.subTest(ci=ci):
                self.assertEqual(self.gate(ci), (1, last, ['rt ci']))

    def test_no_rt(self):
        self.assertEqual(self.gate('', without='bin/rt'), (1, '0 passed, 1 failed', []))

    def test_nothing_is_noted(self):
        self.assertEqual(self.gate('echo 3 passed, 0 failed', tee='#!/bin/sh\ncat\n'), (1, '0 passed, 1 failed', ['rt ci']))
        self.assertEqual(self.left, '')

    def test_another_command_fails(self):
        for command in COMMANDS[1:]:
            with self.subTest(command=command):
                self.assertEqual(self.gate('echo 3 passed, 0 failed', failing=command), (1, f'{ALL - 1} passed, 1 failed', COMMANDS))


class Program(unittest.TestCase):
    """tests/program with a stand-in for the program, where each case must come back as it is."""
    def program(self, stand_in, names='short\nlong\n', printed='== short\nend\n== long\n' + 'end\n' * 99):
        with tempfile.TemporaryDirectory() as folder:
            top = Path(folder)
            files = {'args': names, 'stdout': printed, 'data/short': 'end\n', 'data/long': 'end\n' * 99}
            files = {f'crates/cases/{path}': text for path, text in files.items()} | {'tests/program': (HERE.parent / 'tests' / 'program').read_text()}
            for path, text in {**files, **({'target/bin/plan': f'#!/bin/sh\n{stand_in}\n'} if stand_in else {})}.items():
                (top / path).parent.mkdir(parents=True, exist_ok=True)
                (top / path).write_text(text)
                (top / path).chmod(0o755)
            return subprocess.run([sys.executable, top / 'tests' / 'program'], capture_output=True).returncode

    def test_the_right_one_passes(self):
        self.assertEqual(self.program('cat'), 0)

    def test_a_wrong_one_fails(self):
        for stand_in in ['echo end', 'cat; echo', 'cat; exit 3', 'head -c 200', 'exec dd bs=32769 count=1 2>/dev/null', 'true', '']:
            with self.subTest(stand_in=stand_in):
                self.assertEqual(self.program(stand_in), 1)

    def test_wrong_cases_fail(self):
        for names, printed in [('', ''), ('short\n', ''), ('', '== short\nend\n'), ('short\nlong\n', '== short\nend\n'), ('short\n', '== short\nend \n')]:
            with self.subTest(names=names, printed=printed):
                self.assertEqual(self.program('cat', names, printed), 1)


class FirstError(unittest.TestCase):
    def test_a_goal_at_a_line(self):
        for what, goal in [('what the function ensures holds when it returns (`returns`)', 'returns'), ('what `half` requires holds at this call (`half-requires`); `search` gave up', 'half-requires')]:
            with self.subTest(goal=goal):
                self.assertEqual(check.first_error(Path('none'), f'note: src/lib.rt:25:9: it is not proved that {what}')[1], goal)

    def test_a_limit_of_the_search_is_no_fact(self):
        for what, limit in [
            ('what the function ensures holds when it returns (`returns`)', False), ('what the function ensures holds when it returns (`returns`); `search` gave up at one of its limits', True),
            ('what `half` requires holds at this call (`half-requires`)', False), ('what `half` requires holds at this call (`half-requires`); `search` gave up at one of its limits', True),
            ('what the function ensures holds when it returns (`returns`); the facts known there allow values at which this goal is false', False),
        ]:
            with self.subTest(what=what):
                said = check.first_error(Path('none'), f'note: src/lib.rt:25:9: it is not proved that {what}')[2]
                self.assertEqual(bool(check.VACUOUS.search(said)), limit)


class Stack(unittest.TestCase):
    """tests/stack with a stand-in for gcc, which leaves a program that prints what is told."""
    def stack(self, stated, printed='PLAN 20000\nSUPPLY 72\n', status=0):
        with tempfile.TemporaryDirectory() as folder:
            top = Path(folder)
            gcc = f"#!/bin/sh\nfor last; do :; done\nprintf '#!/bin/sh\\necho \"{printed}\"\\n' >$last\nchmod +x $last\nexit {status}\n"
            for path, text in {'include/planner.h': stated, 'tests/stack': (HERE.parent / 'tests' / 'stack').read_text(), 'bin/gcc': gcc}.items():
                (top / path).parent.mkdir(parents=True, exist_ok=True)
                (top / path).write_text(text)
                (top / path).chmod(0o755)
            told = {**os.environ, 'PATH': f'{top}/bin:{os.environ["PATH"]}'}
            return subprocess.run([sys.executable, top / 'tests' / 'stack'], env=told, capture_output=True).returncode

    def stated(self, plan, supply):
        return f'enum {{\n    PLANNER_STACK_PLAN = {plan} * 1024,\n    PLANNER_STACK_SUPPLY = {supply} * 1024\n}};\n'

    def test_numbers_that_fit_pass(self):
        for plan in (20, 21):
            self.assertEqual(self.stack(self.stated(plan, 1)), 0)

    def test_numbers_that_do_not_fit_fail(self):
        for stated in (self.stated(19, 1), self.stated(22, 1), self.stated(20, 0), self.stated(20, 2), self.stated(20, 1).replace('SUPPLY', 'WEIGH'), ''):
            with self.subTest(stated=stated):
                self.assertEqual(self.stack(stated), 1)

    def test_nothing_measured_fails(self):
        self.assertEqual(self.stack('', ''), 1)
        self.assertEqual(self.stack(self.stated(20, 1), status=1), 1)


if __name__ == '__main__':
    unittest.main()
