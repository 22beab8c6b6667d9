"""Holds what generated books reach of the original to the list unreached.txt. Run by the script coverage.

coverage.py check EXPORT   prints what is reached and what is not, and exits 1 where the list is not true
coverage.py test EXPORT    tries wrong lists, and exits 1 where one is taken for true
"""

import json
import os
import re
import sys
from collections import Counter, defaultdict, namedtuple
from pathlib import Path

HERE = Path(__file__).resolve().parent
SOURCE = HERE / 'vexil' / 'source'
HARNESS = HERE / 'vexil' / 'src' / 'harness'
LIST = HERE / 'unreached.txt'
# Other files of the original that the lowering calls.
OTHERS = ['ir/types.rs', 'ir/mod.rs', 'diagnostic.rs', 'span.rs']
# The parts of the lowering (docs/FORMAT.md, 5.1): with all that they call, these are in scope.
NAMED = ['register_declarations', 'lower_alias', 'evaluate_constants', 'lower_message', 'lower_union', 'lower_newtype']
# What the harness calls besides. These two are in scope, but not what they call for declarations that are left out.
CALLED = ['LowerCtx::new', 'lower_decl']
# What stands between the functions of a file, if any of it has regions.
OUTSIDE = 'outside functions'
# How llvm-cov numbers regions of code, among other kinds of regions.
CODE = 0

Function = namedtuple('Function', 'name first last')
# number: of the line; count: how many regions that start there are unreached, or 'whole' for a function never entered; what: in
# words, for people
Entry = namedtuple('Entry', 'function number count what why')
# scope: the table, from function to why it is in; entries: what is explained; faults: what cannot be read
Listed = namedtuple('Listed', 'scope entries faults')

HEAD = re.compile(r'( *)(?:pub(?:\([a-z]+\))? )?(?:const )?fn (\w+)')
IMPL = re.compile(r'impl(?:<[^>]*>)? (?:[\w:]+(?:<[^>]*>)? for )?(\w+)')
CLOSING = re.compile(r'[})\];,]+')
ENTRY = re.compile(r'(\d+) +(\d+|whole) +(.*)')


def last_line(lines, first, indent):
    """The line that ends a function: its first where the body stands there too, else the brace in the same column."""
    if lines[first - 1].endswith('}'):
        return first
    return lines.index(indent + '}', first) + 1


def functions(lines):
    """The functions of a file that rustfmt laid out, those of an `impl` behind its type's name."""
    owner = ''
    for number, line in enumerate(lines, 1):
        if line.startswith('impl'):
            owner = IMPL.match(line)[1] + '::'
        elif line == '}':
            owner = ''
        head = HEAD.match(line)
        if head:
            name = owner + head[2] if head[1] else head[2]
            yield Function(name, number, last_line(lines, number, head[1]))


class File:
    """A source file, and of each of its functions the regions, each with the count of what reached it."""

    def __init__(self, path, counts):
        self.lines = path.read_text().splitlines()
        self.functions = list(functions(self.lines))
        self.regions = {f.name: {} for f in self.functions}
        for region, count in sorted(counts.items()):
            self.regions.setdefault(self.holder(region), {})[region] = count
        if OUTSIDE in self.regions:
            self.functions.append(Function(OUTSIDE, len(self.lines), len(self.lines)))

    def holder(self, region):
        """The innermost function that a region stands in, a closure's too."""
        inside = [f.name for f in self.functions if f.first <= region[0] and region[2] <= f.last]
        return inside[-1] if inside else OUTSIDE

    def text(self, number):
        """The text of a line; where it only closes a block, that of the line in the same column that opens it too."""
        line = self.lines[number - 1]
        if not CLOSING.fullmatch(line.strip()):
            return line.strip()
        indent = line[:len(line) - len(line.lstrip())]
        openers = (above.strip() for above in reversed(self.lines[:number - 1]) if re.match(indent + r'[^ })\]]', above))
        return f'{line.strip()} of {next(openers)}'

    def body(self, function):
        """The text of a function behind its first line, without comments and strings."""
        text = '\n'.join(line.split('//')[0] for line in self.lines[function.first:function.last])
        return re.sub(r'"(?:[^"\\]|\\.)*"', '""', text, flags=re.S)

    def unreached(self, name):
        return [region for region, count in self.regions[name].items() if count == 0]

    def is_whole(self, name):
        """Whether a function that has regions was never entered."""
        return self.regions[name] and len(self.unreached(name)) == len(self.regions[name])


def counts_of(export):
    """Of each file its regions, each with its count: the highest among the instances of generic functions."""
    files = defaultdict(dict)
    for function in export['data'][0]['functions']:
        for *place, count, file, _, kind in function['regions']:
            if kind == CODE:
                counts = files[os.path.realpath(function['filenames'][file])]
                counts[tuple(place)] = max(count, counts.get(tuple(place), 0))
    return files


def file_at(path, files):
    return File(path, files.get(os.path.realpath(path), {}))


def calls(body, name):
    """Whether a body calls a function of lower.rs, or hands it on."""
    owner, _, own = name.rpartition('::')
    if owner:
        return re.search(rf'\b(?:ctx\.|self\.|{owner}::){own}\(', body)
    return re.search(rf'(?<![\w.:]){own}\s*[(),]', body)


def scope_of(lower):
    """The functions in scope, each with why: it is a part of the lowering, or the harness or functions in scope call it."""
    callees = {f.name: [g.name for g in lower.functions if calls(lower.body(f), g.name)] for f in lower.functions}
    inside, todo = set(), list(NAMED)
    while todo:
        name = todo.pop()
        if name not in inside:
            inside.add(name)
            todo += callees[name]
    scope = {name: 'a part of the lowering' for name in NAMED} | {name: 'called by the harness' for name in CALLED}
    for f in lower.functions:
        if f.name in inside and f.name not in scope:
            scope[f.name] = ', '.join(g.name for g in lower.functions if g.name in inside and f.name in callees[g.name])
    return scope


def listed(text):
    """The table and the entries of the list: paragraphs, in which lines that start with # are remarks."""
    scope, entries, faults = {}, [], []
    for paragraph in text.split('\n\n'):
        head, *lines = [line for line in paragraph.splitlines() if line and line[0] != '#'] or ['']
        if head == 'scope':
            scope = dict(line.split(': ', 1) for line in lines)
        elif head:
            why = ' '.join(line[2:] for line in lines if line.startswith('= '))
            found = [ENTRY.fullmatch(line) for line in lines if not line.startswith('= ')]
            if not (why and found and all(found)):
                faults.append(f'{head}: no function with lines of the form NUMBER COUNT WORDS, and = with the reason')
                continue
            entries += [Entry(head, int(m[1]), m[2], m[3], why) for m in found]
    return Listed(scope, entries, faults)


def unreached_lines(lower, scope):
    """Function and line of all that is unreached in scope, each with how many regions start there, or 'whole'."""
    found = Counter()
    for f in lower.functions:
        if f.name in scope and lower.is_whole(f.name):
            found[f.name, f.first] = 'whole'
        elif f.name in scope:
            found.update((f.name, region[0]) for region in lower.unreached(f.name))
    return {place: str(count) for place, count in found.items()}


def fault_of(entry, lower, now):
    """What is wrong with an entry, if anything is."""
    place = f'{entry.function}, line {entry.number}'
    holders = [f.name for f in lower.functions if f.first <= entry.number <= f.last]
    count = now.get((entry.function, entry.number))
    if entry.function not in holders:
        return f'not a line of that function: {place}: {entry.what}'
    text = lower.text(entry.number)
    if count is None:
        return f'explained, but reached or out of scope: {place}: {text}'
    if count != entry.count:
        return f'explained for {entry.count} unreached there, but it is {count}: {place}: {text}'
    return None


def faults(lower, scope, text):
    """All in which the list is not true."""
    known = listed(text)
    now = unreached_lines(lower, scope)
    yield from known.faults
    for name in sorted(scope.keys() | known.scope.keys()):
        if scope.get(name) != known.scope.get(name):
            yield f'scope: {name} is {scope.get(name, "out")} by the source, {known.scope.get(name, "out")} by the table'
    explained = Counter((e.function, e.number) for e in known.entries)
    for place, count in now.items():
        if place not in explained:
            yield f'unexplained: {place[0]}, line {place[1]}, {count}: {lower.text(place[1])}'
    yield from (f'explained twice: {p[0]}, line {p[1]}' for p, times in explained.items() if times > 1)
    yield from filter(None, (fault_of(e, lower, now) for e in known.entries))


def print_regions(file, name):
    """The unreached regions of a function, those of the same lines together, with the text of these lines."""
    together = defaultdict(list)
    for region in file.unreached(name):
        together[region[0], region[2]].append('{}:{}-{}:{}'.format(*region))
    for (first, last), places in sorted(together.items()):
        print('    ' + ' '.join(places))
        for line in file.lines[first - 1:last]:
            print('        ' + line)


def print_function(file, f, regions_too):
    unreached = len(file.unreached(f.name))
    total = len(file.regions[f.name])
    print(f'{f.name}: {total} regions, {total - unreached} reached, {unreached} unreached')
    if regions_too and file.is_whole(f.name):
        print(f'    {f.first}-{f.last} the whole function')
    elif regions_too:
        print_regions(file, f.name)


def print_short(title, file):
    """A file in a few lines: its functions with reached and all regions, then those that were never entered."""
    names = [f.name for f in file.functions if file.regions[f.name]]
    entered = [n for n in names if not file.is_whole(n)]
    told = [f'{n} {len(file.regions[n]) - len(file.unreached(n))}/{len(file.regions[n])}' for n in entered]
    print(f'{title}, reached: {", ".join(told) or "none"}')
    print(f'{title}, never: {", ".join(n for n in names if n not in entered) or "none"}')


def print_sum(lower, scope, entries):
    """The figures: of all that is in scope, and of what is unreached by reason."""
    total = sum(len(lower.regions[name]) for name in scope)
    unreached = sum(len(lower.unreached(name)) for name in scope)
    print(f'{len(scope)} functions in scope, {total} regions, {total - unreached} reached, {unreached} unreached')
    reasons = Counter()
    for e in entries:
        reasons[e.why] += len(lower.regions.get(e.function, ())) if e.count == 'whole' else int(e.count)
    for why, count in reasons.most_common():
        print(f'{count:4} {why}')


def check(lower, files, text):
    """Prints all of it, and gives the exit code."""
    scope = scope_of(lower)
    print('\n-- lower.rs, in scope')
    for f in lower.functions:
        if f.name in scope:
            print_function(lower, f, True)
    print('\n-- lower.rs, out of scope')
    for f in lower.functions:
        if f.name not in scope:
            print_function(lower, f, False)
    print('\n-- the files beside it: regions reached/all')
    for name in OTHERS:
        print_short(name, file_at(SOURCE / name, files))
    print('\n-- the harness: regions reached/all, and unreached ones')
    for path in sorted(HARNESS.glob('*.rs')):
        harness = file_at(path, files)
        print_short(path.name, harness)
        for f in harness.functions:
            if not harness.is_whole(f.name):
                print_regions(harness, f.name)
    print()
    wrong = list(faults(lower, scope, text))
    print_sum(lower, scope, [] if wrong else listed(text).entries)
    for line in wrong:
        print(line)
    print('every unreached region is explained' if not wrong else f'{len(wrong)} differences from unreached.txt')
    return 1 if wrong else 0


def without(text, line):
    return text.replace(line + '\n', '', 1)


def wrong_lists(lower, scope, text):
    """Wrong lists, each with what it is and the start of what has to be said of it."""
    known = listed(text)
    for e in known.entries:
        line = f'{e.number} {e.count} {e.what}'
        place = f'{e.function}, line {e.number}'
        yield f'without {place}', without(text, line), f'unexplained: {place},'
        yield f'{place} as another line', text.replace(line, f'1{line}'), f'not a line of that function: {e.function}, line 1'
        yield f'{place} with another count', text.replace(line, f'{e.number} 99 {e.what}'), 'explained for 99 unreached'
        yield f'{place} twice', text.replace(line, line + '\n' + line), f'explained twice: {place}'
    for name in scope:
        yield f'{name} out of the table', without(text, f'{name}: {scope[name]}'), f'scope: {name} is'
        whole = {region[0] for region in lower.regions[name]} - {region[0] for region in lower.unreached(name)}
        for number in sorted(whole)[:1]:
            entry = f'\n\n{name}\n{number} 1 reached\n= It is reached.\n'
            yield f'{name}, line {number} added', text + entry, f'explained, but reached or out of scope: {name}, line'
    yield 'no reasons', re.sub(r'(?m)^= .*\n?', '', text), known.entries[0].function


def not_entered(lower, scope):
    """The same run, but for one function in scope after the other that it enters no more."""
    for name in scope:
        counts = lower.regions[name]
        if not lower.is_whole(name):
            lower.regions[name] = dict.fromkeys(counts, 0)
            yield f'{name} never entered'
            lower.regions[name] = counts


def test(lower, text):
    """Tries each wrong list on the run, then the list on wrong runs, and gives the exit code."""
    scope = scope_of(lower)
    if list(faults(lower, scope, text)):
        print('the list is not true by itself: run oracle/coverage')
        return 1
    found = {}
    for what, wrong, said in wrong_lists(lower, scope, text):
        found[what] = any(line.startswith(said) for line in faults(lower, scope, wrong))
    for what in not_entered(lower, scope):
        found[what] = any(faults(lower, scope, text))
    missed = [what for what in found if not found[what]]
    for what in missed:
        print(f'taken for true: {what}')
    print(f'{len(found)} wrong lists and runs tried, {len(missed)} taken for true')
    return 1 if missed else 0


def main(command, path):
    files = counts_of(json.loads(Path(path).read_text()))
    lower = file_at(SOURCE / 'lower.rs', files)
    text = LIST.read_text()
    return test(lower, text) if command == 'test' else check(lower, files, text)


if __name__ == '__main__':
    sys.exit(main(*sys.argv[1:]))
