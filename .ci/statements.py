"""docs/DEMANDS.md and docs/REQUESTS.md beside the pages that they quote: no statement of theirs is dropped, weakened or added unless the document says so too."""
import re

from papers import PAPER_1, page, promised, sentences

DEMANDS, REQUESTS = 'docs/DEMANDS.md', 'docs/REQUESTS.md'
# The pages that must be in a document: these, for the demands those of crates/planner/specs too, and of the others what is named.
PAGES = {
    DEMANDS: [
        'crates/answers/specs/Choice.antt', 'crates/examples/specs/Table.antt', 'crates/examples/specs/Files.antt', 'crates/examples/specs/WrongPlanners.antt',
        'crates/candidates/specs/Statement.antt', 'crates/plan_file/specs/Statement.antt', 'crates/refusal/specs/FirstNo.antt', 'crates/least/specs/Each.antt',
    ],
    REQUESTS: [
        'crates/scan/specs/Line.antt', 'crates/scan/specs/Scan.antt', 'crates/ranges/specs/Ranges.antt',
        'crates/delivery/specs/Assignment.antt', 'crates/first_principles/specs/FirstPrinciples.antt', 'crates/supply/specs/Linear.antt',
        'crates/private_locks/specs/PrivateLocks.antt', 'crates/kept_pairs/specs/KeptPairs.antt',
        'crates/layout/specs/Layout.antt', 'crates/cycle_chart/specs/CycleChart.antt',
    ],
}
NAMED = {
    DEMANDS: {
        'crates/answers/specs/Answers.antt': ['planned', 'buffer_after', 'HandedOver', 'PlanAnswered', 'ChartAnswered'],
        'crates/answers/specs/Plan.antt': ['Plan', 'partitions'],
        'crates/load/specs/Weigh.antt': ['RowFits'],
        'crates/plan_file/specs/Numbers.antt': ['PlanPart', 'namers', 'is_shared_in', 'plan_part', 'plan_parts', 'parts_of', 'no_plan_part', 'part_at'],
        'crates/plan_file/specs/PartLines.antt': ['own_lines', 'lines_by_part', 'lines_of_part'],
        'crates/refusal/specs/Limits.antt': ['task_limit', 'kept_limit', 'cycle'],
        'crates/refusal/specs/Number.antt': ['is_of_the_file'],
        'crates/task_set/specs/Partition.antt': ['Partition', 'is_shared', 'shared_locks'],
        'crates/supply/specs/Signed.antt': ['larger', 'ceil_of', 'signed_round', 'signed_at', 'signed_supply'],
    },
    REQUESTS: {
        'crates/text/specs/Bytes.antt': ['Line', 'into_line', 'lines_of'],
        'crates/refusal/specs/Limits.antt': ['number_limit', 'cycle'],
        'crates/answers/specs/Plan.antt': ['cycle_questions', 'in_cycle_plan', 'cycle_plan'],
        'crates/answers/specs/Answers.antt': ['in_room', 'charted_in', 'chart_of'],
        'crates/holding/specs/Holding.antt': ['highest_ceiling', 'in_range', 'permitted', 'holding_time_of'],
        'crates/candidates/specs/Candidates.antt': ['kept_among', 'kept_list', 'kept_from', 'kept_answer', 'shown_ceiling'],
        'crates/supply/specs/Supply.antt': ['round_of', 'supply_at', 'supply_of'],
        'crates/supply/specs/Signed.antt': ['SignsMakeNoDifference'],
    },
}
# The crates with the proofs of what the pages say.
PROVERS = ['answers', 'planner', 'examples', 'scan', 'ranges', 'supply', 'delivery', 'first_principles', 'private_locks', 'kept_pairs', 'layout', 'cycle_chart']


def without_comments(text, antt):
    """A text without its comments. Block comments nest, in Rattle as in antt; a mark in a string is none."""
    line, start, end = (r'(?<!\S)--', r'\{-', r'-\}') if antt else ('//', r'/\*', r'\*/')
    outside, inside = re.compile(rf'("(?:\\.|[^"\\\n])*")|{line}.*|({start})'), re.compile(f'({start})|{end}')
    kept, at, depth = [], 0, 0
    while mark := (inside if depth else outside).search(text, at):
        if depth:
            depth += 1 if mark[1] else -1
        else:
            kept += [text[at:mark.start()], mark[1] or ' ']
            depth = 1 if mark[2] else 0
        at = mark.end()
    return ''.join(kept) + ('' if depth else text[at:])


def source(path):
    """A file's text without its comments."""
    return without_comments(path.read_text(), path.suffix == '.antt')


# ---- statements

def groups(text, margin=''):
    """Each line that begins at the margin, with the lines after it that do not; also what is before the first of them."""
    return [group for group in re.split(rf'^(?={margin}\S)', text, flags=re.M) if group.strip()]


def statements(text):
    """What a page or a block says, as {(name, words)}: the first line of a record or data type; each field or constructor, as `Type.field`; each definition with its
    clauses. How the words are parted into lines makes no difference."""
    found = []
    for group in groups(text):
        if re.match(r'(?:pub )?(?:use|mod) |infix', group):
            continue
        kind = re.match(r'(?:pub )?(?:record|data) (\S+)', group)
        signature = re.match(r'(?:(?:unfoldable|abbrev|pub) )*(\S+)(?: \{[^}]*\})? :', group)
        if kind:
            head, where, body = (*re.split(r'(\bwhere\b)', group, maxsplit=1), '', '')[:3]
            found.append([kind[1], head + where])
            margin = re.match(r'\s*\n( +)|', body)[1] or ''
            found += [[f'{kind[1]}.{field.split(" :")[0].replace("pub ", "").strip()}', field] for field in groups(body, margin)]
        elif signature or group[0].isspace() or not found:
            found.append([signature[1] if signature else group.split()[0], group])
        else:
            found[-1][1] += '\n' + group
    return {(name, ' '.join(words.split())) for name, words in found}


def blocks(text):
    """The code blocks of the document, as (the page named on the line before, what the block says)."""
    for named, block in re.findall(r'(?:^`(\S+\.antt)`:?\n\n?)?^```\w*\n(.*?)^```$', text, re.M | re.S):
        yield named, statements(without_comments(block, True))


def whole_pages(top, document):
    """The pages of which every statement must be in the document."""
    every = (top / 'crates/planner/specs').rglob('*.antt') if document == DEMANDS else []
    return [*PAGES[document], *(str(path.relative_to(top)) for path in every if path.name != 'Lib.antt')]


def check_statements(top):
    """Every statement in docs/DEMANDS.md and docs/REQUESTS.md is on the page that is named before it, word for word, and every statement of the pinned pages is in the document."""
    for document in PAGES:
        quoted, whole = {}, whole_pages(top, document)
        for named, said in blocks(page(top, document)):
            if not named:
                yield f'{document}: a block with no page named before it: {sorted(said)[:1]}'
            quoted.setdefault(named, set()).update(said)
        for path in sorted({*whole, *NAMED[document], *quoted} - {''}):
            there = statements(source(top / path)) if (top / path).exists() else set()
            wanted = {said for said in there if path in whole or said[0].split('.')[0] in NAMED[document].get(path, [])}
            for name, words in sorted(quoted.get(path, set()) - there):
                yield f'{document}: {name} is not so on {path}: {words}'
            for name, words in sorted(wanted - quoted.get(path, set())):
                yield f'{path}: {name} is not so in {document}: {words}'


def check_uses(top):
    """What a pinned page declares is taken from that page and from no other place, on the pinned pages and in the proofs of PROVERS."""
    whole = [path for document in PAGES for path in whole_pages(top, document) if (top / path).exists()]
    parts = [path for document in PAGES for path in NAMED[document] if (top / path).exists()]
    homes = {name: path for path in [*whole, *parts] for name, _ in statements(source(top / path)) if name[0].isupper() and '.' not in name}
    proofs = [path for crate in PROVERS for path in sorted((top / 'crates' / crate / 'proofs').rglob('*.antt'))]
    for path in [*(top / name for name in whole), *proofs]:
        for module, items in re.findall(r'\buse (\S+?)\.(\{[^}]*\}|\w+$)', source(path), re.M):
            for item in items.strip('{}').split(','):
                name = item.split()[-1] if item.strip() else ''
                _, crate, _, home = homes.get(name, '///').split('/')
                if crate and not re.fullmatch(rf'Rattle\.{crate}\.specs\.{home[:-5]} {name}', f'{module} {item.strip()}'):
                    yield f'{path.relative_to(top)}: {name} is not that of {homes[name]}'


def check_quotes(top):
    """The quotes in docs/DEMANDS.md are the demands of docs/PAPER-01.md, whole, those in docs/REQUESTS.md the sentences of the requests that have landed: nothing is left of these without the
    quotes, and nothing of a quote is not theirs."""
    demands = [(mark, words) for mark, words in sentences(page(top, PAPER_1)) if re.fullmatch(r'D\d', mark)]
    if not demands:
        yield f'{PAPER_1}: no demand'
    for document, wanted in ((DEMANDS, demands), (REQUESTS, promised(top))):
        quotes = [' '.join(quote.split()).strip(' .,:;…') for quote in re.findall(r'^> (.*)', page(top, document), re.M)]
        for quote in quotes:
            if not any(quote in words for _, words in wanted):
                yield f'{document}: no {"demand" if document == DEMANDS else "landed request"} has the words: {quote}'
        for mark, words in wanted:
            covered = {at for quote in ['Demand', *quotes] for found in re.finditer(re.escape(quote), words) for at in range(*found.span())}
            rest = ''.join(' ' if at in covered else letter for at, letter in enumerate(words))
            if re.search(r'[a-z]', rest):
                yield f'{document}: of {mark} is not quoted: {" ".join(rest.split())}'
