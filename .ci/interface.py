"""The interface for C, C++ and Rust: include/planner.h, rust/planner and README.md say the same."""
import re
from math import prod

from statements import source

HEADER, PACKAGE, RUST, RAW = 'include/planner.h', 'rust/planner/Cargo.toml', 'rust/planner/src/lib.rs', 'rust/planner/src/raw.rs'


# The numbers of the refusals that there are.
NUMBERS = [*range(1, 15), 19]
# A text by its number, in the header and in the Rust package.
IN_C, IN_RUST = r'^ *case (\d+):\s*return {};$', r'^ *(\d+) => {},$'


def quoted(form, text):
    """The texts of that form by their numbers, and these in the order in which they stand there."""
    found = [(int(number), said) for number, said in re.findall(form.replace('{}', r'"((?:[^"\\]|\\.)*)"'), text, re.M)]
    return dict(found), [number for number, _ in found]


def check_refusals(top):
    """What is wrong at a refusal is said with the same words in README.md, in the header and in the Rust package, for each of NUMBERS in order; in the code also for 0."""
    rows = re.findall(r'^\| (\d+) \| [^|]*[^| ] \| ([^|]*[^| ]) \| [^|]*[^| ] \|$', (top / 'README.md').read_text(), re.M)
    (header, in_header), (rust, in_rust) = quoted(IN_C, source(top / HEADER)), quoted(IN_RUST, source(top / RUST))
    for place, found, wanted in (('README.md', [int(number) for number, _ in rows], NUMBERS), (HEADER, in_header, [0, *NUMBERS]), (RUST, in_rust, [0, *NUMBERS])):
        if found != wanted:
            yield f'{place}: the refusals are {" ".join(map(str, found))}, and must be {" ".join(map(str, wanted))}'
    for place, texts in (('README.md', {0: header.get(0), **{int(number): text for number, text in rows}}), (RUST, rust)):
        for number in sorted(header.keys() | texts.keys() | {0, *NUMBERS}):
            if not texts.get(number) or texts.get(number) != header.get(number):
                yield f'{place}: refusal {number} is `{texts.get(number)}`, and in {HEADER} `{header.get(number)}`'


def numbers(form, text):
    """The constants of that form, by name: numbers or products."""
    return {name: prod(int(factor) for factor in value.replace('_', '').split('*')) for name, value in re.findall(form, text)}


def check_constants(top):
    """The constants of the header are those of the Rust package, and the versions are one."""
    text, value = source(top / HEADER), r'(\d[\d_]*(?: \* \d+)*)'
    header, rust = numbers(rf'\bPLANNER_(\w+) = {value}(?=[\s,}}])', text), numbers(rf'\bpub const (\w+): \w+ = {value};', source(top / RUST))
    for name in sorted(header.keys() | rust.keys()):
        if header.get(name) != rust.get(name):
            yield f'{RUST}: {name} is {rust.get(name)}, and in {HEADER} {header.get(name)}'
    version = re.findall(r'^#define PLANNER_VERSION "(.*)"$', text, re.M)
    parts = [number for part in ('MAJOR', 'MINOR', 'PATCH') for number in re.findall(rf'^#define PLANNER_VERSION_{part} (\d+)$', text, re.M)]
    package = re.findall(r'^version = "(.*)"$', (top / PACKAGE).read_text(), re.M)
    if not version or not version == package == ['.'.join(parts)]:
        yield f'{HEADER}: the version is {version} of the parts {parts}, and in {PACKAGE} {package}'
