"""The sentences of the two papers: none changes its words, each one that holds has an entry in docs/TRACE.md, and each request that has landed has its note."""
import re
from hashlib import sha256
from string import ascii_lowercase

PAPER_1, PAPER_2, TRACE, LANDINGS, CHANGES, WORDS = 'docs/PAPER-01.md', 'docs/PAPER-02.md', 'docs/TRACE.md', 'docs/landings', 'CHANGELOG.md', '.ci/words.txt'
# The sections of paper 02, in order, and how many sentences each has.
ALL = 'All requests'
SENTENCES = {
    ALL: 3, 'M-100': 10, 'M-101': 14, 'M-102': 5, 'M-103': 5, 'M-104': 10, 'M-105': 15, 'M-106': 10,
    'M-107': 4, 'M-108': 6, 'M-109': 8, 'M-110': 10, 'M-111': 9, 'M-112': 8, 'M-113': 6,
}
# The sections of a note, and what stands in each: how a fault names it, and its form.
KINDS = {f'item `- {kind}: ..`': rf'^- {kind}: \S' for kind in ('Definitions', 'Promises', 'Proofs')}
NOTE = {
    'Moved': KINDS,
    'Stayed': KINDS,
    'Check': {f'time {when}, like `4 min 19 s {when}`': rf'\d (?:h|min|s) {when}\b' for when in ('before', 'after')},
    'Changed': {
        'item `- Lines: specs .., src .., proofs ..`': r'^- Lines: specs \S.*, src \S.*, proofs \S',
        'item `- Crates: ..`': r'^- Crates: \S',
        'item `- Renames: ..`': r'^- Renames: \S',
    },
}
MOST_LINES = 120


def page(top, path):
    """The text of a page; none if it is gone."""
    return (top / path).read_text() if (top / path).exists() else ''


def sections(text):
    """The sections of a page, in order, as (heading, what stands under it)."""
    parts = re.split(r'^## (.*)$', text, flags=re.M)
    return list(zip(parts[1::2], parts[2::2]))


def sentences(text):
    """The sentences in a text, in order, as (mark, words)."""
    return re.findall(r'^- (\w+)\. (\S.*)', text, re.M)


def marks(text):
    """The marks of the sentences in a text, in order."""
    return [mark for mark, _ in sentences(text)]


def twice(names):
    """Those that are there more than once."""
    return sorted({name for name in names if names.count(name) > 1})


# ---- the words

def digests(top):
    """For each section of the papers a digest of its title and its sentences, as a line of .ci/words.txt."""
    for paper in (PAPER_1, PAPER_2):
        for heading, text in sections(page(top, paper)):
            said = ''.join(f'{mark} {words}\n' for mark, words in [('', heading), *sentences(text)])
            yield f'{sha256(said.encode()).hexdigest()[:16]} {paper} {heading}'


def check_words(top):
    """The papers have the words of which .ci/words.txt has the digests. Whoever restates a sentence changes its line there too."""
    kept, found = page(top, WORDS).splitlines(), list(digests(top))
    for line in found:
        if line not in kept:
            yield f'{WORDS}: the words of a section are others: no line `{line}`'
    for line in kept:
        if line not in found:
            yield f'{WORDS}: no section has the words of the line `{line}`'


# ---- paper 02

def requests(top):
    """The sections of paper 02, in order, as (`M-100` or ALL, what stands under it)."""
    return [(re.sub(r'^(M-\d+) \S.*', r'\1', heading), text) for heading, text in sections(page(top, PAPER_2))]


def note_of(request):
    return f'{LANDINGS}/{request.lower()}.md'


def has_landed(top, request):
    """Whether the sentences of a section hold: those of a request from its landing on, which its note shows."""
    return request == ALL or (top / note_of(request)).exists()


def promised(top):
    """The sentences of the requests that have landed, in order, as (mark, words)."""
    return [sentence for name, text in requests(top) if name != ALL and has_landed(top, name) for sentence in sentences(text)]


def wanted_marks(request):
    """M100a, M100b, .. of a request; Ma, Mb, .. of all."""
    return [('M' if request == ALL else request.replace('-', '')) + letter for letter in ascii_lowercase[:SENTENCES[request]]]


def check_requests(top):
    """docs/PAPER-02.md has its requests in order, each with all of its sentences, and says that those have landed whose note is there, and no others; CHANGELOG.md has a section on each of
    these."""
    found = requests(top)
    names = [name for name, _ in found]
    if names != [*SENTENCES]:
        yield f'{PAPER_2}: the sections are {", ".join(names) or "none"}, and must be {", ".join(SENTENCES)}'
    for name, text in found:
        if name in SENTENCES and marks(text) != wanted_marks(name):
            yield f'{PAPER_2}: the sentences of {name} are {" ".join(marks(text)) or "none"}, and must be {" ".join(wanted_marks(name))}'
        there = has_landed(top, name)
        said, must = text.partition('\n- ')[0].strip(), f'Landed: {note_of(name)}.' if there else 'Not landed.'
        if name != ALL and said != must:
            yield f'{PAPER_2}: {name} says `{said}`, and must say `{must}`: {note_of(name)} is {"" if there else "not "}there'
        if name != ALL and there and not any(heading.startswith(f'{name} ') and said.strip() for heading, said in sections(page(top, CHANGES))):
            yield f'{CHANGES}: nothing on {name}'


# ---- docs/TRACE.md

def entries(top):
    """The entries of docs/TRACE.md, in order, as (mark, what stands beside it)."""
    return [(mark, entry) for mark, entry in re.findall(r'^\| (\w+) \|(.*)\|$', page(top, TRACE), re.M) if mark != 'mark']


def check_trace(top):
    """docs/TRACE.md has one entry for each sentence of paper 01, each of paper 02 that is for all requests or of one that has landed, and for nothing else."""
    found = entries(top)
    made, beside = [mark for mark, _ in found], dict(found)
    first = marks(page(top, PAPER_1))
    holding = first + [mark for name, text in requests(top) if has_landed(top, name) for mark in marks(text)]
    waiting = [mark for name, text in requests(top) if not has_landed(top, name) for mark in marks(text)]
    if not first:
        yield f'{PAPER_1}: no sentence with a mark'
    for mark in twice(holding + waiting):
        yield f'{PAPER_1} and {PAPER_2}: two sentences have the mark {mark}'
    for mark in twice(made):
        yield f'{TRACE}: sentence {mark} has two entries'
    for mark in holding:
        if mark not in made:
            yield f'{TRACE}: sentence {mark} has no entry'
        elif '`' not in beside[mark]:
            yield f'{TRACE}: the entry of sentence {mark} names nothing'
    for mark in sorted({*made} - {*holding}):
        yield f'{TRACE}: the entry {mark} is of ' + ('a request that has not landed' if mark in waiting else 'no sentence')


# ---- notes

def wrong_in_note(request, text):
    """What a note of the landing of a request has wrong."""
    if not re.match(rf'# {request}: \S', text):
        yield f'its first line is not `# {request}: ..`'
    if (lines := len(text.splitlines())) > MOST_LINES:
        yield f'{lines} lines, and a short note has at most {MOST_LINES}'
    if 'TODO' in text:
        yield 'something in it is still TODO'
    found = dict(sections(text))
    for heading, parts in NOTE.items():
        if heading not in found:
            yield f'no section `## {heading}`'
        for part, form in parts.items():
            if heading in found and not re.search(form, found[heading], re.M):
                yield f'its section {heading} has no {part}'


def check_notes(top):
    """Each note in docs/landings is of a base, or of a request in docs/PAPER-02.md and in the form that paper 02 asks for: what moved, what stayed, how long the check took."""
    named = {note_of(name): name for name, _ in requests(top)}
    for path in sorted((top / LANDINGS).glob('*')):
        note = f'{LANDINGS}/{path.name}'
        if note in named:
            yield from (f'{note}: {fault}' for fault in wrong_in_note(named[note], path.read_text()))
        elif not re.fullmatch(r'base-\d+\.md', path.name):
            yield f'{note}: a note of no request in {PAPER_2}'
