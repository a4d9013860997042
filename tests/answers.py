#!/usr/bin/python3
"""answers.py [check]: writes what crates/test_collect must print of the kept cases, from the original's answers in
oracle/kept: the marks of each, and the whole answer (entries, kept ones, map, index lists, bytes), or the number of its
refusal. With `check` nothing is written, and the files are compared with what would be.

oracle/keep makes the cases. Each stands once: in crates/test_collect/data, of its family where the original's answer
tells the marks too, in dangling.bundles where it is a refusal by 8; and in oracle/kept where the port is not held to
it: cases with a listed difference, and headers that are refused (the original's errors don't tell 1 from 2). Names of
big-endian cases end with -big, before which those of the 64-bit format have -64, before that those of version 4 -4, and
before all of these those with the choice of fixed addresses on -fixed, and those with a keep list -kept."""
import os
import sys

from units import CRATES, TESTS, Part, bundles, placed, read, with_parts, write

KEPT = os.path.join(TESTS, '..', 'oracle', 'kept')
DATA = os.path.join(CRATES, 'test_collect', 'data')
BIG, WIDE, OLDER, FIXED, LISTED = '-big', '-64', '-4', '-fixed', '-kept'
# The keep list of each family that has one: tags and treatments.
LISTS = {'valid': {0x24: 1, 0x2e: 2}, 'trees': {0x0b: 1, 0x13: 2, 0x24: 2, 0x2e: 2}, 'addresses': {0x05: 1, 0x34: 2}}
# little-endian ones first, as `files` has them
LAYOUTS = tuple(version + width + order for order in ('', BIG) for version in ('', OLDER) for width in ('', WIDE))
SUFFIXES = LAYOUTS + tuple(kind + layout for kind in (FIXED, LISTED) for layout in LAYOUTS)
NAMES = ('small bytes valid lists expressions trees deep refused damaged listed headers declarations numbers operations kinds '
         'siblings sums no-table failures addresses tables').split()
# What version 4 has of its own in every byte order and format.
OLDER_NAMES = ('lists', 'kinds', 'headers')


def is_kept(name, suffix):
    """The tables are those of compilers' units of version 5 in the 32-bit format. With the choice of fixed addresses on,
    one family in every byte order, format and version, and compilers' units; with a keep list, the families that have one."""
    if suffix.startswith(FIXED):
        return name == 'addresses' or name + suffix == 'tables' + FIXED
    if suffix.startswith(LISTED):
        return name in LISTS
    if name == 'tables':
        return suffix in ('', BIG)
    return name in OLDER_NAMES or not suffix.startswith(OLDER) or suffix == OLDER


FAMILIES = [name + suffix for suffix in SUFFIXES for name in NAMES if is_kept(name, suffix)]
ERRORS = {'ParseUnitAbbreviations': 3, 'ParseUnit': 4, 'Read': 5, 'Address': 6, 'AddressPastEnd': 17,
          'UnexpectedSectionAbsoluteReference': 7, 'MalformedDebugInfo': 8}
FIELDS = ('entries', 'kept', 'map', 'ranges', 'locations', 'strings', 'bytes')


def is_big(name):
    """Whether a family, or a file of bundles, is big-endian."""
    return name.split('.')[0].endswith(BIG)


def is_fixed(name):
    """Whether the choice of fixed addresses is on."""
    return FIXED in name


def split(family):
    """Its name, and the suffix that says byte order, format, version and choice."""
    return next((name, family[len(name):]) for name in NAMES if family[len(name):] in SUFFIXES and family.startswith(name))


def answer(line):
    """The line that an answer of the original gives, or none."""
    words, more = (part.split() for part in line.split(' | '))
    if more[-2:] != ['listed', '-']:
        return None
    if words[0] in ('rewritten', 'untouched'):
        found = dict(zip(words[1::2], words[2::2]))
        return ' '.join([words[0]] + ['%s %s' % (f, found[f]) for f in FIELDS]) + '\n'
    if words[0] == 'error' and words[1] in ERRORS and words[-1] != 'OffsetOutOfBounds':
        return 'refused %d\n' % ERRORS[words[1]]
    return None


def marks(line):
    """The lines of its marks, or its refusal."""
    words = line.split()
    if words[0] == 'error':
        return answer(line)
    found = dict(zip(words[1::2], words[2::2]))
    held = [] if found['marks'] == '-' else found['marks'].split(',')
    head = 'entries %s kept %s\n' % (found['entries'], found['kept'])
    return head + ''.join('%s %s\n' % (m[:-1], m[-1]) for m in held)


def place(family, line):
    """The file of a case."""
    if answer(line) is None:
        return os.path.join(KEPT, family + '.bundles')
    if answer(line) == 'refused 8\n':
        family = 'dangling' + split(family)[1]
    return os.path.join(DATA, family + '.bundles')


def lines(family):
    return read(os.path.join(KEPT, family + '.lines')).decode().splitlines()


def kept():
    """The cases of the crate with the original's lines, by file, in order."""
    # with a keep list there are none of 8
    held = [name for suffix in SUFFIXES
            for name in [f for f in FAMILIES if split(f)[1] == suffix] + ['dangling' + suffix] * (not suffix.startswith(LISTED))]
    out = {os.path.join(DATA, name + '.bundles'): [] for name in held}
    for family in FAMILIES:
        for line in lines(family):
            if answer(line) is not None:
                out[place(family, line)].append(line)
    cases = {}
    for path, held in out.items():
        found = bundles(read(path))
        if len(found) != len(held):
            sys.exit('%s has %d cases, oracle/kept %d lines' % (path, len(found), len(held)))
        cases[os.path.basename(path)] = list(zip(found, held))
    return cases


def printed(cases, of):
    return ''.join(placed(name, [(data, of(line)) for data, line in held]) for name, held in cases.items())


def files(cases, words):
    """The arguments that name the files: the big-endian ones come last, after the word that says so."""
    big = [name for name in cases if is_big(name)]
    return words + [name for name in cases if not is_big(name)] + ['--big-endian'] + big


def two(cases, which, words):
    """Marks and answers of cases, after these words."""
    marked = {name: held for name, held in cases.items() if not name.startswith('dangling')}
    return [Part('marks of kept cases' + which, 'marks', files(marked, words), printed(marked, marks)),
            Part('answers for kept cases' + which, 'collect', files(cases, words), printed(cases, answer))]


def parts(cases, fixed):
    """The parts of the cases with the choice of fixed addresses off, or on, and no keep list."""
    held = {name: held for name, held in cases.items() if is_fixed(name) == fixed and LISTED not in name}
    return two(held, ', fixed addresses' * fixed, ['--fixed-addresses'] * fixed)


def parts_listed(cases):
    """The parts of the cases with a keep list, a family each."""
    out = []
    for family, keep in LISTS.items():
        held = {name: held for name, held in cases.items() if name.startswith(family + LISTED)}
        word = '--keep-list=' + ','.join('0x%02x=%d' % pair for pair in keep.items())
        out += two(held, ', %s with a keep list' % family, [word])
    return out


def main():
    cases = kept()
    wrong = write(with_parts('test_collect', parts(cases, False) + parts(cases, True) + parts_listed(cases)), sys.argv[1:] == ['check'])
    print('answers: %s' % ', '.join('%s %d' % (name.split('.')[0], len(held)) for name, held in cases.items()))
    sys.exit(wrong > 0)


if __name__ == '__main__':
    main()
