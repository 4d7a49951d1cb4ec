#!/usr/bin/env python3
"""What must be believed stands apart: it is all of specs/ but specs/Code/.

It is what the operations' contracts, the promised theorems, the demands and the examples name, and what these definitions name in turn.
Run by itself, this prints how much that is."""
import re
import sys
from pathlib import Path

sys.dont_write_bytecode = True
from statements import groups, source

# The libraries of the toolchain whose words the crates take; what is believed of these is said in README.md.
LIBRARIES = ('std', 'io')
# The crates whose definitions, all of them, are promises or examples.
PROMISING = ('planner', 'examples')
WORD = re.compile(r'"(?:\\.|[^"\\\n])*"|[^\s(){}\[\];,"]+')


class Definition:
    """A definition with its clauses, a record with its fields, or a data type with its constructors; and the lines `module _ .. where` over it."""
    def __init__(self, path, name, text, head):
        self.path, self.name, self.text, self.head = path, name, text, head
        self.is_inner = '/specs/Code/' in path
        is_data = re.match(r'(?:pub )?data ', text)
        self.constructors = [group.split()[0] for group in groups(text.partition('where\n')[2], '  ')] if is_data else []

    def __str__(self):
        return f'{self.name} of {self.path}'


def definitions(path, text, head=''):
    """The definitions of a page, in order."""
    found = []
    for group in groups(text):
        kind = re.match(r'(?:pub )?(?:record|data) (\S+)', group)
        signature = re.match(r'(?:(?:unfoldable|abbrev|pub) )*(\S+)(?: \{[^}]*\})? :', group)
        if group.startswith('module '):
            line, _, body = group.partition('where\n')
            found += definitions(path, re.sub('^  ', '', body, flags=re.M), head + line)
        elif kind or signature:
            found.append(Definition(path, (kind or signature)[1], group, head))
        elif found and not re.match(r'(?:pub )?(?:use|mod) |infix', group):
            found[-1].text += group
    return found


# ---- names

def marks(name):
    """The words by which a text names this: `◌⊑◌` and `⊑` for `◌⊑◌`."""
    return {name, *(part for part in name.split('◌') if part)}


def words(text):
    """The words of a text, and of a word with dots in it, `Load.none` or `x.none`, its pieces; but no field of a record, `.none`."""
    for word in WORD.findall(text):
        if word[0] not in '".':
            yield from (word, *word.split('.')) if '.' in word else (word,)


USE = re.compile(r'^(?:(?:pub|ghost) )?use (\S+?)\.\{([^}]*)\};?$', re.M)


def uses(text):
    """What the lines `use module.{name, name as other}` of a text take, as (module, name there, name here)."""
    for module, items in USE.findall(text):
        yield from ((module, item.split()[0], item.split()[-1]) for item in items.split(',') if item.strip())


def unread(text):
    """The other lines that take something from a crate, in whatever layout."""
    return [' '.join(line.split()) for line in re.findall(r'^.*\buse\s.*Rattle\..*', USE.sub('', text), re.M)]


def page_of(top, module):
    """The page of a module of specs, and what of the page is named: `Rattle.load.specs.Code.Rows` is crates/load/specs/Code/Rows.antt. No page has the
    structs and enums of the code, which are `declared`, nor the words of a library of the toolchain."""
    said = re.fullmatch(rf'Rattle\.(?!(?:{"|".join(LIBRARIES)})\.)(\w+)\.specs\.(?!declared\b)(\S+)', module)
    steps = said[2].split('.') if said else []
    paths = [f'crates/{said[1]}/specs/{"/".join(steps[:end])}.antt' for end in range(len(steps), 0, -1)]
    there = [(path, steps[len(steps) - at:]) for at, path in enumerate(paths) if (top / path).exists()]
    return (there or [(paths[0] if paths else '', [])])[0]


# ---- what is reached

class Pages:
    """The pages of definitions, by their paths."""
    def __init__(self, top):
        self.top, self.faults = top, []
        self.pages = {str(path.relative_to(top)): path for path in sorted(top.glob('crates/*/specs/**/*.antt'))}
        self.pages = {name: definitions(name, source(path)) for name, path in self.pages.items()}
        self.all = [one for page in self.pages.values() for one in page]

    def meant(self, path):
        """What each word means in a file, if it means a definition."""
        known = {mark: one for one in self.pages.get(path, []) for name in (one.name, *one.constructors) for mark in marks(name)}
        text = source(self.top / path)
        for module, name, here in uses(text):
            page, within = page_of(self.top, module)
            there = {given: one for one in self.pages.get(page, []) for given in (one.name, *one.constructors) if within in ([], [one.name])}
            if page and name not in there:
                self.faults.append(f'{path}: {module} declares no {name}')
            elif page:
                known.update({mark: there[name] for mark in marks(here)})
        # definitions and contracts take what they need by name, and from specs
        if '/proofs/' not in path:
            self.faults += [f'{path}: `{line}` cannot be read' for line in unread(text)]
            self.faults += [f'{path}: {name} is taken from a proof' for module, name, _ in uses(text) if re.match(r'Rattle\.\S+\.proofs\.', module)]
        return known

    def named(self, path, known, text):
        """The definitions that a text of a file names."""
        self.faults += [f'{path}: {word} stands with its whole path' for word in WORD.findall(text) if word[0] != '"' and 'Rattle.' in word]
        return [known[word] for word in words(text) if word in known]

    def believed(self, promises):
        """The definitions that must be believed, each with what names it. `promises` are (who says it, the file, the words). A variable with the name
        of a definition counts as that definition, so there may be too many of them, but not too few."""
        found = {one: f'the crate {one.path.split("/")[1]}' for one in self.all if one.path.split('/')[1] in PROMISING and not one.is_inner}
        known = {path: self.meant(path) for path in self.pages}
        for who, path, words in promises:
            name = str(path.relative_to(self.top))
            known[name] = known.get(name) or self.meant(name)
            for one in self.named(name, known[name], words):
                found.setdefault(one, who)
        waiting = list(found)
        for one in waiting:
            for other in self.named(one.path, known[one.path], one.head + one.text):
                if other not in found:
                    found[other] = str(one)
                    waiting.append(other)
        return found


def wrong(top, promises):
    """The faults: a definition in specs/Code/ that must be believed, one elsewhere in specs/ that need not be, other numbers in README.md."""
    pages = Pages(top)
    found = pages.believed(promises)
    yield from dict.fromkeys(pages.faults)
    for one in pages.all:
        if one.is_inner and one in found:
            yield f'{one.path}: {one.name} stands in Code/, and must be believed: {found[one]} names it'
        elif not one.is_inner and one not in found:
            yield f'{one.path}: {one.name} does not stand in Code/, and need not be believed: no promise reaches it'
    said = f'{len(found)} of the {len(pages.all)} definitions must be believed'
    if re.findall(r'[\d,]+ of the [\d,]+ definitions must be believed', ' '.join((top / 'README.md').read_text().split())) != [said]:
        yield f'README.md: it must say once that {said}'


if __name__ == '__main__':
    from check import promises
    pages = Pages(Path(__file__).resolve().parent.parent)
    found = pages.believed(promises(pages.top))
    lines = {one: sum(1 for line in one.text.splitlines() if line.strip()) for one in pages.all}
    print(f'{len(found)} of the {len(pages.all)} definitions must be believed, {sum(lines[one] for one in found)} of {sum(lines.values())} lines')
