#!/usr/bin/env python3
"""usage: house.py

Counts what keeps the house in order, prints one line for each count, and ends with status 1 if a count is above its bound."""
import collections
import os
import re
import sys

import rattle_source

# The most of each. A change that lowers a count lowers its bound; one that must raise it says so in its commit.
BOUNDS = {
    'crates': 46,
    'longest chain': 15,
    'ways down crates.txt': 227808,
    'definition names in two crates': 50,
    'longest function outside tests': 37,
    'contracts over eight clauses': 13,
    'fields that are premises alone': 0,
}

# Optional fields that stand in a premise of their record and are tied by what another field's definition says of them.
TIED = {
    'CarriesOut machine': '`due` says of each answer whether there is a machine',
}


def chain_and_ways(rows):
    """The longest chain of crates, and the ways down: of each crate 1 and the ways of those that it stands on."""
    long, ways = {}, {}

    def visit(name):
        if name not in ways:
            for below in rows[name]:
                visit(below)
            long[name] = 1 + max([long[below] for below in rows[name]], default=0)
            ways[name] = 1 + sum(ways[below] for below in rows[name])
    for name in rows:
        visit(name)
    return max(long.values()), sum(ways.values())


def records(lines):
    """The records of a file of definitions: name, first line, and of each field its name and its type."""
    name, first, fields = None, 0, {}
    for at, line in enumerate(lines):
        if not line.startswith(' ') and line.strip():
            if name:
                yield name, first, fields
            head = re.match(r"(?:pub )?record ([^\s(){}\[\],;=:]+)(?= [({:])", line)
            name, first, fields = (head.group(1) if head else None), at + 1, {}
        field = re.match(r"  (?:pub )?([\w'-]+) : (.*)", line)
        if field:
            last = field.group(1)
            fields[last] = field.group(2)
        elif name and fields and line.startswith('   '):
            fields[last] += ' ' + line.strip()
    if name:
        yield name, first, fields


def premises_alone(lines):
    """The optional fields of records of which a premise asks whether they are told, and of which no field says that they are: a body
    may choose None, and then what stands behind the premise says nothing."""
    for record, at, fields in records(lines):
        for field, kind in fields.items():
            if kind.startswith('Option') and record + ' ' + field not in TIED:
                name = r"(?<![\w'.])%s(?![\w'])" % re.escape(field)
                others = [text for other, text in fields.items() if other != field]
                asked = any(re.search(name + r' (?:≢ None|≡ Some \S+) →', text) for text in others)
                if asked and not any(re.search(name + r' ≢ None$|' + name + r' ≡ [^→]*$', text) for text in others):
                    yield '%s:%d' % (record, at), field


def main():
    if sys.argv[1:]:
        print(__doc__.split('\n')[0], file=sys.stderr)
        return 2
    rows = rattle_source.crates()
    chain, ways = chain_and_ways(rows)
    where, found, alone = collections.defaultdict(set), [], []
    for crate in rows:
        for path in rattle_source.files(crate, 'specs', '.antt'):
            lines = rattle_source.read(path).split('\n')
            for name in rattle_source.public_definitions(lines):
                where[name].add(crate)
            alone += ['%s %s %s' % (path, record, field) for record, field in premises_alone(lines)]
        tests = {name + '.rt' for name in rattle_source.test_modules(crate)}
        for path in rattle_source.files(crate, 'src', '.rt'):
            if os.path.basename(path) not in tests:
                found += [(path, it) for it in rattle_source.functions(rattle_source.read(path).split('\n'))]
    twice = sorted(name for name, homes in where.items() if len(homes) > 1)
    longest_in, longest = max(found, key=lambda it: len(it[1].body))
    over = sorted(((path, it, len(it.clauses())) for path, it in found if len(it.clauses()) > 8), key=lambda it: -it[2])
    counts = {
        'crates': (len(rows), ''),
        'longest chain': (chain, ''),
        'ways down crates.txt': (ways, ''),
        'definition names in two crates': (len(twice), ' of %d: %s' % (len(where), ' '.join(twice))),
        'longest function outside tests': (len(longest.body), ' lines: %s:%d %s' % (longest_in, longest.first, longest.name)),
        'contracts over eight clauses': (len(over), ' of %d: %s' % (
            len(found), ', '.join('%s:%d %s (%d)' % (path, it.first, it.name, count) for path, it, count in over))),
        'fields that are premises alone': (len(alone), ' '.join(['', *alone])),
    }
    for name, (count, rest) in counts.items():
        print('%s: %d%s' % (name, count, rest))
    above = ['%s: %d, at most %d' % (name, counts[name][0], most) for name, most in BOUNDS.items() if counts[name][0] > most]
    for line in above:
        print('ABOVE ITS BOUND: ' + line)
    if above:
        return 1
    return 0


if __name__ == '__main__':
    sys.exit(main())
