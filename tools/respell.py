#!/usr/bin/env python3
"""Spells the repository's own definitions and lemmas as Rattle spells names: words in snake case, types and modules in upper camel case.

usage: tools/respell.py [--table] [TOP]        once, after the toolchain's port.py; --table prints old and new names and changes nothing

A dash stays where it joins two definitions, as in `due_of-take`; a plain word is added with `_`, as in `ceil_div_mono`.
A name that starts with a capital is a type or a statement: it keeps its capital, and the dash behind it.
What turns: the code and the code spans of .antt files; the clauses and ghost items of .rt files; the code spans of .md files; the strings of .ci/*.py;
the lines of must-fail edits, as the file that they name. What stays: Rust's names, strings, generated names, and a name that a file takes from a library.
"""
import re
import sys
from pathlib import Path

WORD = re.compile(r'[^\s(){}.;,@"«»]+')
COMMENT = re.compile(r'(?<![^\s(){}.;,@"«»])--[^\n]*')
STRING = re.compile(r'"(?:[^"\\\n]|\\.)*"')
SPAN = re.compile(r'`[^`\n]+`')
DECLARED = re.compile(r'^[ \t]*(?:(?:pub|abbrev|unfoldable|postulate) )*([^\s(){}.;,@"«»:]+)(?: \{[^{}]*\})* :(?= |$)', re.M)
NAMED = re.compile(r'^[ \t]*(?:pub )?(?:record|data) (\S+)', re.M)
FIELD = re.compile(r'^[ \t]+pub ([^\s(){}.;,@"«»:]+) :(?= |$)', re.M)
USE = re.compile(r'^use ([^\s{]+)\.\{([^}]*)\}', re.M)
CLAUSE = re.compile(r'\b(?:requires|ensures)\s*\*?\s*(?:\w+\s*)?\{|\bghost\s+(?!use\b)[^;{]*\{|\bghost\s+use\b[^;]*;')
# Words of the library that a lemma's name may join by a dash.
LIBRARY = set('length take drop map filter reverse append cons sum max min get get_or set zip fold concat replicate'.split())


def snake(part):
    """One part of a name in snake case; a type keeps its capital."""
    if part[:1].isupper():
        return part
    return re.sub(r'(?<=[a-z0-9])([A-Z])', lambda m: '_' + m[1].lower(), part)


def words(text):
    return STRING.sub(' ', COMMENT.sub(' ', text))


def files(top, pattern):
    return sorted(p for p in top.glob(pattern) if p.is_file() and 'out' not in p.relative_to(top).parts)


def table(top):
    """Each own name that is spelled otherwise, with its new spelling; and the names of fields."""
    declared, defined, fields = set(), set(), set()
    for path in files(top, 'crates/*/specs/**/*.antt') + files(top, 'crates/*/proofs/**/*.antt'):
        text = words(path.read_text(encoding='utf-8'))
        here = set(DECLARED.findall(text)) | set(NAMED.findall(text))
        declared |= here
        fields |= set(FIELD.findall(text))
        if '/specs/' in path.as_posix():
            defined |= {snake(n) for n in re.findall(r'^(?:(?:pub|abbrev|unfoldable) )+([^\s(){}.;,@"«»:-]+) :', text, re.M)}
    known = defined - fields | LIBRARY
    turned = {}
    for name in sorted(declared):
        if not re.search(r'-|[a-z0-9][A-Z]', name) or not re.match(r"[\w-]+'*$", name, re.A):
            continue
        parts = [snake(p) for p in name.split('-')]
        new = parts[0]
        for before, part in zip(parts, parts[1:]):
            joins = name not in fields and (before[:1].isupper() or part[:1].isupper() or before in known and part in known)
            new += ('-' if joins else '_') + part
        if new != name:
            turned[name] = new
    return apart(top, turned, fields), fields


def apart(top, turned, fields):
    """Where a file would have two names in one, the lemma gets `_lem` and the field `_is`."""
    olds = {}
    for old, new in turned.items():
        olds.setdefault(new, {new}).add(old)
    out = dict(turned)
    for path in files(top, 'crates/*/specs/**/*.antt') + files(top, 'crates/*/proofs/**/*.antt'):
        text = words(path.read_text(encoding='utf-8'))
        here = set(WORD.findall(re.sub(r'^use [^{\n]*', '', text, flags=re.M)))
        for old in here & turned.keys():
            if '-' in old and (olds[turned[old]] - {old}) & here and (old not in fields or old in FIELD.findall(text)):
                out[old] = turned[old] + ('_is' if old in fields else '_lem')
    return out


class Turner:
    def __init__(self, names, fields):
        self.names, self.fields, self.left, self.generated = names, fields, set(), False

    def code(self, text):
        def word(m):
            made = self.generated and text[m.start() - 1:m.start()] == '.' and m[0] not in self.fields
            return m[0] if made or m[0] in self.left else self.names.get(m[0], m[0])
        return WORD.sub(word, text)

    def prose(self, text):
        """A comment: what stands between backticks, and names with a hump, which no plain word has."""
        humps = lambda t: WORD.sub(lambda m: self.humped(m[0]), t)
        return self.between(SPAN, text, lambda m: self.span(m[0]), humps)

    def humped(self, word):
        return re.sub(r"[A-Za-z][\w'-]*", lambda m: self.names[m[0]] if re.search('[a-z0-9][A-Z]', m[0]) and m[0] in self.names and m[0] not in self.left else m[0], word)

    def span(self, text):
        return '`' + WORD.sub(lambda m: self.names.get(m[0], m[0]) if m[0] not in self.left else m[0], text[1:-1]) + '`'

    @staticmethod
    def between(pattern, text, inside, outside):
        out, at = [], 0
        for m in pattern.finditer(text):
            out += [outside(text[at:m.start()]), inside(m)]
            at = m.end()
        return ''.join(out + [outside(text[at:])])

    def antt(self, text):
        """Code of definitions and proofs. A name that the file takes from a library stays."""
        self.left = {n for path, items in USE.findall(text) if not own(path) for n in WORD.findall(items)}
        self.generated = ' as tie' in text
        strings = lambda t: self.between(STRING, t, lambda m: m[0], self.code)
        return aligned(text, self.between(COMMENT, text, lambda m: self.prose(m[0]), strings))

    def rt(self, text):
        """The clauses and ghost items of code; in comments the code spans."""
        self.left, self.generated = set(), False
        out, at = [], 0
        while m := CLAUSE.search(text, at):
            end = m.end() if m[0].endswith(';') else closing(text, m.end())
            out += [self.rust(text[at:m.start()]), self.code(text[m.start():end])]
            at = end
        return ''.join(out + [self.rust(text[at:])])

    def rust(self, text):
        return self.between(re.compile(r'//[^\n]*'), text, lambda m: self.prose(m[0]), lambda t: t)

    def md(self, text):
        self.left = set()
        return SPAN.sub(lambda m: self.span(m[0]), text)

    def py(self, text):
        self.left = set()
        quoted = re.compile(r"'(?:[^'\\\n]|\\.)*'|`[^`\n]+`")
        return quoted.sub(lambda m: WORD.sub(lambda w: re.sub(r"[A-Za-z][\w-]*", lambda n: self.names.get(n[0], n[0]), w[0]), m[0]), text)

    def edit(self, text):
        """A wrong version: its lines are of the file that it names, a clause or a definition."""
        of = re.search(r'^file: (\S+)', text, re.M)
        if not of or not of[1].endswith(('.antt', '.rt')):
            return text
        self.left = set()
        self.generated = False
        if of[1].endswith('.antt'):
            turn = lambda t: self.between(COMMENT, t, lambda m: self.prose(m[0]), self.code)
        else:
            turn = lambda t: self.rt(t) if CLAUSE.search(t) else t
        return re.sub(r'^((?:old|new): )(.*)$', lambda m: m[1] + turn(m[2]), text, flags=re.M)


def own(path):
    head = path.split('.')
    return head[0] == 'Rattle' and len(head) > 1 and head[1] not in ('std', 'core', 'io', 'libc', 'os')


def closing(text, at):
    """The place of the brace that closes the one before `at`."""
    depth = 1
    while depth and at < len(text):
        depth += {'{': 1, '}': -1}.get(text[at], 0)
        at += 1
    return at - 1


def aligned(old, new):
    """Lines that stood under the item behind `where`, `do` or `let` stand under it again."""
    opener = re.compile(r'(?<![^\s(){};,])(?:where|do|let|mutual) +(?=\S)')
    was, now = old.split('\n'), new.split('\n')
    for row, (a, b) in enumerate(zip(was, now)):
        if a == b:
            continue
        for x, y in zip(opener.finditer(COMMENT.sub('', a)), opener.finditer(COMMENT.sub('', b))):
            by, below = y.end() - x.end(), row + 1
            while by and below < len(was) and (not was[below].strip() or not was[below][:x.end()].strip()):
                if was[below].strip():
                    now[below] = ' ' * by + now[below] if by > 0 else now[below][-by:]
                below += 1
    return '\n'.join(now)


def main(args):
    top = Path(next((a for a in args if not a.startswith('--')), '.'))
    names, fields = table(top)
    if '--table' in args:
        print('\n'.join(f'{old}\t{new}' for old, new in names.items()))
        return
    turner = Turner(names, fields)
    turns = [('crates/*/specs/**/*.antt', turner.antt), ('crates/*/proofs/**/*.antt', turner.antt), ('crates/*/src/**/*.rt', turner.rt),
             ('crates/*/must-fail/*.edit', turner.edit), ('*.md', turner.md), ('docs/**/*.md', turner.md), ('tests/*.md', turner.md), ('.ci/*.py', turner.py)]
    changed = 0
    for pattern, turn in turns:
        for path in files(top, pattern):
            old = path.read_text(encoding='utf-8')
            new = turn(old)
            if new != old:
                path.write_text(new, encoding='utf-8')
                changed += 1
    print(f'{len(names)} names, {changed} files')


if __name__ == '__main__':
    main(sys.argv[1:])
