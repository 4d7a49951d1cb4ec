#!/usr/bin/env python3
"""The repository's own checks, after rt ci. Prints one line for each fault; exit status 1 if there is one.

Each check takes the top folder and gives its faults. .ci/check_test.py has, for each, wrong inputs that it must report.
"""
import re
import sys
from pathlib import Path

sys.dont_write_bytecode = True
import believed
from interface import HEADER, RAW, check_constants, check_refusals
from papers import check_notes, check_requests, check_trace, check_words
from statements import check_quotes, check_statements, check_uses, source

# What a caller may ask with any input: what planner passes on, what planner_c exports, and what the program prints.
OPERATIONS = {
    'planning::plan', 'planning::chart', 'inquiries::candidates', 'inquiries::name', 'inquiries::name_outcome', 'inquiries::name_stretch',
    'load::weigh', 'hand_set::weigh_slice', 'hand_set::supply', 'refusal::number', 'refusal::place', 'console::print',
    'planner_c::planner_plan', 'planner_c::planner_chart', 'planner_c::planner_candidates', 'planner_c::planner_name',
    'planner_c::planner_weigh', 'planner_c::planner_weigh_slice', 'planner_c::planner_supply',
}
# The theorems that the documents promise: crate, name, and what it says.
THEOREMS = [
    ('planner', 'demand_1', 'Demand1 PlanAnswered'),
    ('planner', 'demand_2', 'Demand2'),
    ('planner', 'demand_3', 'Demand3 PlanAnswered'),
    ('planner', 'demand_3_in_words', 'Demand3InWords PlanAnswered'),
    ('planner', 'every_refusal', 'EveryRefusal'),
    ('planner', 'every_number', 'EveryNumber'),
    ('planner', 'local_test', 'LocalTest'),
    ('planner', 'system_test', 'SystemTest'),
    ('planner', 'nothing_free', 'NothingFree'),
    ('examples', 'examples', 'AllHold table'),
    ('examples', 'all_shut_out', 'AllShutOut'),
    ('scan', 'every_line_scanned', 'EveryLineScanned line_at'),
    ('scan', 'scan_settled', 'ScanSettled'),
    ('ranges', 'numbers_up_to', 'NumbersUpTo 1000000'),
    ('ranges', 'greatest_values', 'GreatestValues 1000000'),
    ('supply', 'supply_signed', 'SignsMakeNoDifference'),
    ('supply', 'linear_under_supply', 'LinearUnderSupply'),
    ('first_principles', 'first_principles', 'FirstPrinciples'),
    ('private_locks', 'private_locks', 'PrivateLocks'),
    ('kept_pairs', 'kept_pairs', 'KeptPairs'),
    ('cycle_chart', 'cycle_chart', 'CycleChart'),
]
# What rt ci printed, as .ci/run leaves it.
LOG = 'target/ci.log'
# How many rows of the table of examples each letter of paper 01 has, and each request of paper 02 with examples there.
ROWS = {'A': 1, 'B': 5, 'C': 2, 'D': 1, 'E': 1, 'F': 1, 'G': 1, 'H': 1, 'I': 1, 'J': 1, 'K': 5, 'L': 3, 'M100': 4, 'M109': 8}


def listed(top):
    """Each crate of crates.txt, with the crates that it lists; between its name and the colon may stand what is built of it, as `staticlib`."""
    lines = [line.split('#')[0].partition(':') for line in (top / 'crates.txt').read_text().splitlines()]
    return {name.split()[0]: names.split() for name, _, names in lines if name.strip()}


def crates(top):
    return list(listed(top))


# ---- contracts

def after_brace(text, at):
    """The place after the brace that closes the one at `at`."""
    depth = 0
    for i in range(at, len(text)):
        depth += {'{': 1, '}': -1}.get(text[i], 0)
        if depth == 0:
            return i + 1
    return len(text)


def signatures(text):
    """(name, its clauses) of each public function: clauses are between the result and the body, each a word and a statement in braces."""
    for fn in re.finditer(r'\bpub\s+(?:extern\s+"C"\s+|[a-z]+\s+)?fn\s+(\w+)', text):
        clauses, at = [], fn.end()
        while (brace := text.find('{', at)) >= 0:
            clause = re.search(r'\b(requires|ensures)(?:\s+\w+)?\s*$', text[at:brace])
            if not clause:
                break
            at = after_brace(text, brace)
            clauses.append((clause[1], text[brace + 1:at - 1]))
        yield fn[1], clauses


def says_nothing(statement):
    """Whether a clause has a statement that is true of everything: `Unit`, `⊤`, or the same on both sides."""
    return bool(re.fullmatch(r'[\s()]*(?:Unit|⊤|([^≡]*?)\s*≡\s*\1)?[\s()]*', statement))


def public(top, name):
    """The public functions of a crate with their clauses."""
    return [found for path in sorted((top / 'crates' / name / 'src').glob('**/*.rt')) for found in signatures(source(path))]


def check_contracts(top):
    """Every public function has an `ensures`, and each says something; the operations, which are those of OPERATIONS, have no `requires`."""
    offered = set()
    for use in re.findall(r'^\s*pub use ([^;]*);', source(top / 'crates' / 'planner' / 'src' / 'lib.rt'), re.M):
        form = re.fullmatch(r'(\w+)::(\w+|\{\s*\w+(?:,\s*\w+)*,?\s*\})', use)
        if not form:
            yield f'planner: `pub use {use}` is not of the form crate::name or crate::{{name, name}}'
        else:
            offered |= {f'{form[1]}::{name}' for name in re.findall(r'\w+', form[2]) if name[0].islower()}
    for name in ('planner', 'planner_c', 'console'):
        offered |= {f'{name}::{fn}' for fn, _ in public(top, name)}
    for name in sorted(offered ^ OPERATIONS):
        yield f'{name}: ' + ('an operation that .ci/check.py does not name' if name in offered else 'named by .ci/check.py, but no operation')
    seen = set()
    for crate in crates(top):
        for fn, clauses in public(top, crate):
            name, words = f'{crate}::{fn}', [word for word, _ in clauses]
            seen.add(name)
            if 'ensures' not in words:
                yield f'{name}: a public function without an ensures'
            if any(word == 'ensures' and says_nothing(statement) for word, statement in clauses):
                yield f'{name}: an ensures that says nothing'
            if name in OPERATIONS and 'requires' in words:
                yield f'{name}: an operation with a requires'
    for name in sorted(OPERATIONS - seen):
        yield f'{name}: an operation whose signature was not found'


# ---- names in docs/TRACE.md

def declarations(text):
    """What a file of definitions or proofs declares: definitions, laws, records, fields, constructors."""
    named = re.findall(r'^\s*(?:(?:unfoldable|abbrev|pub) )*(\S+)(?: \{[^}]*\})? :', text, re.M)
    return {*named, *re.findall(r'^\s*(?:pub )?(?:record|data) (\S+)', text, re.M)}


def declared(top, name):
    """What a crate declares, and its wrong versions."""
    crate = top / 'crates' / name
    found = {'must-fail/' + path.stem for path in crate.glob('must-fail/*.edit')}
    for path in [*crate.glob('specs/**/*.antt'), *crate.glob('proofs/**/*.antt')]:
        found |= declarations(source(path))
    for path in crate.glob('src/**/*.rt'):
        found |= set(re.findall(r'\b(?:fn|struct|enum|const) (\w+)', source(path)))
    return found


def check_names(top):
    """docs/TRACE.md names only what exists: a file, or what a crate declares."""
    trace = (top / 'docs' / 'TRACE.md').read_text()
    known = {name: declared(top, name) for name in crates(top)}
    for quoted in sorted(set(re.findall(r'`([^`\n]+)`', trace))):
        crate, _, name = quoted.partition(' ')
        if re.fullmatch(r'[\w./-]+', quoted):
            if not quoted.endswith('/') and not (top / quoted).exists():
                yield f'docs/TRACE.md: no file {quoted}'
        elif crate not in known or ' ' in name:
            yield f'docs/TRACE.md: `{quoted}` is neither a file nor `crate name`'
        elif name not in known[crate]:
            yield f'docs/TRACE.md: the crate {crate} declares no {name}'


# ---- crates.txt

# A function's signature, without its clauses.
SIGNATURE = re.compile(r'\bfn (\w+)(.*?)(?:\brequires\b|\bensures\b|\{)', re.S)


def named(top, name):
    """The crates that the files of a crate name, and other words: in code what stands before `::`, elsewhere what stands behind `Rattle.`. What a wrong version puts in counts too."""
    crate, found = top / 'crates' / name, set()
    for path in [*crate.glob('src/**/*.rt'), *crate.glob('specs/**/*.antt'), *crate.glob('proofs/**/*.antt'), *crate.glob('must-fail/*.edit')]:
        text = ' '.join(re.findall(r'^new: (.*)', path.read_text(), re.M)) if path.suffix == '.edit' else source(path)
        found |= {*re.findall(r'\bRattle\.(\w+)', text), *(re.findall(r'(?<![\w:])(\w+)::', text) if path.suffix != '.antt' else [])}
    return found


def one_by_one(text):
    """Code where each `use crate::{name, name};` stands as `use crate::name; use crate::name;`."""
    return re.sub(r'\buse (\w+)::\{([^{}]*)\};', lambda use: ' '.join(f'use {use[1]}::{item.strip()};' for item in use[2].split(',') if item.strip()), text)


def offered(top, name):
    """Of the code of a crate: what it takes by `use`, as {name: crate}; what it declares, as {name: the types in it}, for a function those of its signature, for a type those of its
    fields and methods; and what it asks for under another crate's name."""
    text = '\n'.join(one_by_one(source(path)) for path in sorted((top / 'crates' / name / 'src').glob('**/*.rt')))
    parts = SIGNATURE.findall(text)
    for kind in re.finditer(r'\b(struct|enum|impl) (\w+)\s*(?=\{)', text):
        body = text[kind.end():after_brace(text, kind.end())]
        types = {'struct': [body], 'enum': re.findall(r'\(.*?\)', body, re.S), 'impl': [types for _, types in SIGNATURE.findall(body)]}
        parts.append((kind[2], ' '.join(types[kind[1]])))
    declares = {}
    for item, types in parts:
        declares.setdefault(item, set()).update(re.findall(r'\b[A-Z]\w*', types))
    return {item: crate for crate, item in re.findall(r'\buse (\w+)::(\w+);', text)}, declares, re.findall(r'(?<![\w:])(\w+)::(\w+)', text)


def handed(known, name):
    """The crates that declare the types that the code of a crate is handed: of what it asks for under another crate's name, and the types in those."""
    todo, seen = list(known[name][2]), set()
    while todo:
        crate, item = todo.pop()
        if crate in known and (crate, item) not in seen:
            seen.add((crate, item))
            takes, declares, _ = known[crate]
            todo += [(takes[item], item)] if item in takes else [(takes.get(word, crate), word) for word in declares.get(item, ())]
    return {crate for crate, item in seen if item[0].isupper() and item in known[crate][1]}


def check_crates(top):
    """crates.txt lists for a crate only what its files name, and what declares a type that its code is handed. What is missing there rt ci reports."""
    lists = listed(top)
    known = {name: offered(top, name) for name in lists}
    for name, names in lists.items():
        used = named(top, name) | handed(known, name)
        for other in names:
            if other not in used:
                yield f'crates.txt: {name} lists {other} and does not use it'


# ---- must-fail edits

# How an edit's comment ends, behind a colon or a full stop: "`a` and law `b` must break.", "`a`, so `b`, must break." A function's goal, as rt names it, is `a/returns`.
NAME = r'(?:laws? |the function )?`[^`\s]+`'
NAMES = rf'{NAME}(?:(?:, | and ){NAME})*'
MUST_BREAK = re.compile(rf'[:.] ({NAMES})(?:, so ({NAMES}),)? must break\.$')
# An error that says nothing of a fact: the proof no longer fits the code, something cannot be read, or a tactic gave up.
VACUOUS = re.compile(r'that can be named from here|has no field|has no `|not in scope|is not declared|expected an expression|Parse|cannot be read|met a bound of its own|`search` gave up|stopped at its own limit')
# An error that is there only because of another one.
FOLLOWS = re.compile(r'was not admitted|, which is not proved')
# What rt says of an edit that it refused by its meaning; behind that stands the first error, cut off after some words, or the first goal that is not proved.
REFUSED = 'refused, as it must be: '


def folder(fn):
    """Where the proof of a function stands."""
    return f'proofs/{fn.replace("::", "/")}/'


def is_of(thing, place, law):
    """Whether an error at this place, in this law, is one of what must break: a function, one of its goals, or a law."""
    fn, _, need = thing.partition('/')
    return place.startswith(folder(fn)) and need in ('', law) or law == thing and place.count('/') == 1


def edits(top):
    """Each must-fail edit: its crate, its file, and what its comment says must break, first of all and then because of that."""
    for crate in crates(top):
        for path in sorted((top / 'crates' / crate / 'must-fail').glob('*.edit')):
            comment = ' '.join(line[1:].strip() for line in path.read_text().splitlines() if line.startswith('#'))
            said = MUST_BREAK.search(comment)
            first, then = said.groups(default='') if said else ('', '')
            yield crate, path, re.findall(r'`([^`]+)`', first), re.findall(r'`([^`]+)`', then)


def functions(text):
    """Each function of a file of code, in order, as (its first line, which may be an attribute, its name); that of a method is `Type::name`."""
    kind, start, found = '', 0, []
    for number, line in enumerate(text.splitlines(), 1):
        if line and not line[0].isspace():
            kind = (re.match(r'impl(?:<[^>]*>)? (?:[\w:]+(?:<[^>]*>)? for )?(\w+)', line) or ('', ''))[1]
        if fn := re.match(r'\s*(?:pub(?:\(\w+\))? )?(?:extern "C" |const |unsafe )*fn (\w+)', line):
            found.append((start or number, f'{kind}::{fn[1]}' if kind and line[0].isspace() else fn[1]))
            start = 0
        elif line.lstrip().startswith('#['):
            start = start or number
        elif re.match(r'\s*(?:pub(?:\(\w+\))? )?(?:struct|enum|impl|const|static|type|trait|mod|use|ghost)\b', line):
            start = 0
    return found


def first_error(crate, said):
    """Of what rt says of a refused edit: the place in the crate, the law or goal, what is said. What is not proved at a place of the code counts as in the folder of the function there."""
    if goal := re.match(r'note: (\S+?):(\d+):\d+: (it is not proved that (?:[^`]|`[^`]*`)*?\(`([^`]+)`\).*)', said):
        path = crate / goal[1]
        above = [fn for number, fn in functions(path.read_text()) if number <= int(goal[2])] if path.exists() else []
        return folder(above[-1]) if above else goal[1], goal[4], goal[3]
    error = re.match(r'(?:\./)?(\S+?):\d+:\d+: error\S*: (?:`([^`]+)`: )?(.*)', said)
    return (error[1], error[2] or '', error[3]) if error else ('', '', said)


def outcomes(top):
    """What the log of rt ci says of each must-fail edit, by `crate/name`."""
    log = top / LOG
    return dict(re.findall(r'^rt: must-fail (\S+)\.edit: (.*)', log.read_text(errors='replace'), re.M)) if log.exists() else {}


def check_edits(top):
    """No edit was refused for a vacuous reason: what breaks first is what its comment says must break, and by a fact. As many were refused as there are, and none was bad."""
    told, count = outcomes(top), 0
    for crate, path, first, then in edits(top):
        name, count = f'{crate}/{path.stem}', count + 1
        if not first:
            yield f'{name}: its comment does not say what must break'
        known = declared(top, crate) if first else set()
        for thing in first + then:
            if thing.split('/')[0].split('::')[-1] not in known:
                yield f'{name}: the crate declares no {thing}'
        if re.search(r'^file: proofs/', path.read_text(), re.M):
            yield f'{name}: it changes a proof, which shows nothing'
        if name not in told:
            yield f'{name}: no outcome of this must-fail edit in {LOG}'
        elif not told[name].startswith(REFUSED):
            yield f'{name}: not refused by what it means: {told[name][:200]}'
        else:
            place, law, said = first_error(top / 'crates' / crate, told[name][len(REFUSED):])
            if not place.startswith('proofs/'):
                yield f'{name}: refused before any proof: {place}: {said[:200]}'
            elif VACUOUS.search(said) or FOLLOWS.search(said):
                yield f'{name}: refused for a vacuous reason: {said[:200]}'
            elif not any(is_of(thing, place, law) for thing in first):
                yield f'{name}: {" and ".join(first)} must break, and first breaks {law} in {place}'
    refused = re.findall(r'^rt: ok; .*; must-fail edits: (.*?);', (top / LOG).read_text(errors='replace') if (top / LOG).exists() else '', re.M)
    if refused != [f'{count} refused']:
        yield f'{LOG}: must-fail edits: {" and ".join(refused) or "none"}, and there are {count}'


def check_shut_outs(top):
    """Every library with functions has two or more wrong versions, and every operation is named by two or more."""
    made = [crate for crate, *_ in edits(top)]
    for crate in crates(top):
        if made.count(crate) < 2 and any(re.search(r'\bfn ', source(path)) for path in (top / 'crates' / crate / 'src').glob('lib.rt')):
            yield f'{crate}: a library with fewer than two wrong versions'
    named = [f'{crate}::{fn}' for crate, _, first, then in edits(top) for fn in {thing.split('/')[0] for thing in first + then}]
    for name in sorted(OPERATIONS):
        if named.count(name) < 2:
            yield f'{name}: an operation that fewer than two wrong versions name'


# ---- one pass over a line

def check_one_pass(top):
    """The search of a line for forbidden bytes and tabs is one pass (M102b), which no contract can say: scan has one loop, over the places of the file from `at` on, and reads the file at one place of
    it, and the cursor has a line scanned once."""
    scan, cursor = (source(top / 'crates' / name / 'src' / 'lib.rt') for name in ('scan', 'records'))
    for what, form, text in (
        ('scan: a loop', r'\b(?:while|loop|for)\b', scan), ('scan: a place where the file is read', r'\bs\b(?!:|\.len\(\)|\.now\b)', scan), ('records: a call of scan::line_at', r'\bline_at\(', cursor),
    ):
        if (found := len(re.findall(form, text))) != 1:
            yield f'{what} stands {found} times, and must stand once'
    for change in re.findall(r'\bi\s*(?:[-+*/%]?=(?!=)[^;]*);', scan):
        yield f'scan: the place in the line moves by `{change}`'
    for over in re.findall(r'\b(?:while|loop|for)\b[^{]*', scan):
        if over.strip() != 'for i in at..s.len()':
            yield f'scan: a loop `{over.strip()}`, and not over the places from `at` on'


# ---- each limit once

# The limits, each with the number above it.
LIMITS = {'numbers': (1_000_000, 1_000_001), 'bytes in a file': (32_768, 32_769), 'ticks of a cycle': (720, 721)}
# The constants of the header that are limits of the code; that of kept pairs is there the limit of tasks (M113c).
IN_HEADER = {'MOST_NUMBER': 'NUMBER_LIMIT', 'MOST_BYTES': 'FILE_LIMIT', 'MOST_PAIRS': 'KEPT_LIMIT', 'MOST_ROWS': 'ROW_LIMIT', 'CYCLE': 'CYCLE'}
# A number as it is written down, with or without its type; and the limit as a power or a product.
WRITTEN = re.compile(r'(?<![\w.])(0x[0-9a-fA-F_]+|[0-9][0-9_]*?)(?:_?[ui](?:8|16|32|64|size))?(?!\w)')
MADE = re.compile(r'\b10 ?\^ ?6\b|\b1_?000 ?\* ?1_?000\b')


def written(text):
    """The numbers that are written down in a text; a power or a product is a million."""
    return [int(number, 16 if number.startswith('0x') else 10) for number in WRITTEN.findall(text)] + [1_000_000] * len(MADE.findall(text))


def check_one_limit(top):
    """Each of LIMITS, that of numbers (M103b) among them, is written down once in the definitions, for everything that is asked, and once in the code; the programs that are tests, and the table of
    examples, have their own. The header's limits are those of the code."""
    for what, kind, tests in (('the definitions', 'specs/**/*.antt', {'examples'}), ('the code', 'src/**/*.rt', {'by_hand', 'scanned'})):
        places = [path for name in crates(top) if name not in tests for path in sorted((top / 'crates' / name).glob(kind))]
        numbers = [(str(path.relative_to(top)), number) for path in places for number in written(source(path))]
        for limit, values in LIMITS.items():
            found = [path for path, number in numbers if number in values]
            if len(found) != 1 or not found[0].startswith('crates/refusal/'):
                yield f'the limit of {limit} stands {len(found)} times in {what}, and must stand once, in refusal: ' + ', '.join(found)
    code = dict(re.findall(r'^pub const (\w+): \w+ = (\w+);', source(top / 'crates/refusal/src/lib.rt'), re.M))
    header = dict(re.findall(r'\bPLANNER_(\w+) = (\w+)', source(top / HEADER)))
    for name, limit in IN_HEADER.items():
        value = code.get(limit)
        if not header.get(name) or header.get(name) != code.get(value, value):
            yield f'{HEADER}: PLANNER_{name} is {header.get(name)}, and the limit {limit} of the code {code.get(value, value)}'


# ---- theorems, examples, verdicts

def check_theorems(top):
    """The theorems that are promised are there, as they are promised, of the definitions in specs."""
    for crate, name, says in THEOREMS:
        texts = [source(path) for path in sorted((top / 'crates' / crate / 'proofs').glob('**/*.antt'))]
        if not any(re.search(rf'^pub {re.escape(name)} : {re.escape(says)}$', text, re.M) for text in texts):
            yield f'{crate}: no theorem `{name} : {says}`'
        for word in says.split():
            if any(word in declarations(text) for text in texts):
                yield f'{crate}: {word}, of which the theorem {name} speaks, is declared in a proof'


def promises(top):
    """What callers and readers are promised: (who says it, the file, the words) of each operation's contract and each promised theorem."""
    for name in sorted(OPERATIONS):
        crate, fn = name.split('::')
        for path in sorted((top / 'crates' / crate / 'src').glob('**/*.rt')):
            yield from ((name, path, words) for found, clauses in signatures(source(path)) if found == fn for _, words in clauses)
    for crate, name, says in THEOREMS:
        for path in sorted((top / 'crates' / crate / 'proofs').glob('**/*.antt')):
            if re.search(rf'^pub {re.escape(name)} :', source(path), re.M):
                yield name, path, says


def check_believed(top):
    """What must be believed is all of specs/ but specs/Code/, and README.md says how much that is."""
    yield from believed.wrong(top, promises(top))


def check_table(top):
    """The table of examples has its letters in order, each with its rows."""
    text = source(top / 'crates' / 'examples' / 'specs' / 'Table.antt')
    table = re.search(r'^table =\n((?:    .*\n)*?)    ∷ \[\]$', text, re.M)
    letters = re.findall(r'^    (?:∷ )?at "(\w+)" ', table[1], re.M) if table else []
    wanted = [letter for letter, rows in ROWS.items() for _ in range(rows)]
    if letters != wanted:
        yield f'examples: the rows of table are {" ".join(letters)}, and must be {" ".join(wanted)}'


def check_example_a(top):
    """Example A of the README is the file and the listing of the table of examples, byte for byte."""
    text = source(top / 'crates' / 'examples' / 'specs' / 'Files.antt')
    for name in ('file_a', 'listing_a'):
        literal = re.search(rf'^{name} = bytes "(.+)"$', text, re.M)
        if not literal or literal[1].replace('\\t', '\t').replace('\\n', '\n') not in (top / 'README.md').read_text():
            yield f'README.md: {name} of crates/examples/specs/Files.antt does not stand in it'


def check_poster(top):
    """The file of long jobs in the guide, and its plan, are those of the test program `cases`, byte for byte."""
    cases, guide = top / 'crates' / 'cases', (top / 'docs' / 'GUIDE.md').read_text()
    printed = re.search(r'^== m103-poster\n((?:[a-z].*\n)+)', (cases / 'stdout').read_text(), re.M)
    for what, text in (('the file', (cases / 'data' / 'm103-poster').read_text()), ('the plan', printed and printed[1])):
        if not text or f'```\n{text}```' not in guide:
            yield f'docs/GUIDE.md: {what} of crates/cases/data/m103-poster does not stand in it'


def check_verdicts(top):
    """Every library is proved, and its verdict names nothing that is assumed. Where rt ci kept it, since an earlier run proved the same files, there is no new verdict, and none of its files
    postulates."""
    log = (top / LOG).read_text(errors='replace') if (top / LOG).exists() else ''
    parts = re.split(r'^== (\w+)\n', log, flags=re.M)
    blocks = dict(zip(parts[1::2], parts[2::2]))
    for name in crates(top):
        crate = top / 'crates' / name
        if not (crate / 'src' / 'lib.rt').exists():
            continue
        for path in [*crate.glob('specs/**/*.antt'), *crate.glob('proofs/**/*.antt')]:
            if re.search(r'^\s*(?:pub )?postulate\b', source(path), re.M):
                yield f'{name}: {path.relative_to(top)} postulates'
        if re.search(rf'^rt: {name} is kept: an earlier run on this machine proved the same files', log, re.M):
            continue
        said, is_proved, _ = blocks.get(name, '').partition(f'\nrt: {name} proved\n')
        verdicts = re.findall(r'^logic=.*', said, re.M)
        if not is_proved or not verdicts or not verdicts[-1].startswith('logic=proved '):
            yield f'{name}: no verdict in {LOG}'
            continue
        words = {word.split('=')[0] for word in verdicts[-1].split()}
        # a static library's verdict names the processor that it is built for, too
        built = {'target', 'cpu'} if re.search(rf'^{name} staticlib\s*:', (top / 'crates.txt').read_text(), re.M) else set()
        for word in sorted(words - {'logic', 'functions', 'sum', 'native', 'logic-built', 'libraries-built', 'statements'} - built):
            yield f'{name}: the verdict names an assumption, {word}'
    if re.findall(r'^rt: ok; (.*?);', log, re.M) != ['handles allowed: none']:
        yield f'{LOG}: it must say once that no handle is allowed'


def check_tests(top):
    """Every exported operation is in the C header, in the Rust package and in what the Rust tests call; no file of tests is empty, and no test is left out."""
    for place in (HEADER, RAW, 'tests/src/library.rs'):
        for fn in sorted(name.split('::')[1] for name in OPERATIONS if name.startswith('planner_c::')):
            if not re.search(rf'\b{fn}\(', source(top / place)):
                yield f'{place}: {fn} is not declared'
    for path in [*sorted(top.glob('tests/tests/*.rs')), *sorted(top.glob('rust/planner/tests/*.rs'))]:
        if '#[test]' not in source(path) or '#[ignore' in source(path):
            yield f'{path.relative_to(top)}: no test, or one that is ignored'


CHECKS = [
    check_contracts, check_names, check_crates, check_words, check_trace, check_requests, check_notes, check_statements, check_uses, check_quotes,
    check_edits, check_shut_outs, check_one_pass, check_one_limit, check_theorems, check_believed, check_table, check_example_a, check_poster, check_verdicts, check_tests,
    check_refusals, check_constants,
]

if __name__ == '__main__':
    top = Path(__file__).resolve().parent.parent
    faults = [fault for check in CHECKS for fault in check(top)]
    for fault in faults:
        print(fault)
    print(f'own checks: {len(faults)} faults')
    sys.exit(1 if faults else 0)
