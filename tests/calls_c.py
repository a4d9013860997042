#!/usr/bin/python3
"""calls_c: reads the machine code of the archive for hosts in C (tests/archive; another one may be named) by objdump, and
fails where it says otherwise than include/collector.h: `walk_expression` is the only function that can reach itself by
calls, and the archive takes no name from outside but memset."""
import os
import re
import subprocess
import sys

HERE = os.path.dirname(os.path.abspath(__file__))
RECURSIVE = {'readers::expressions::walk_expression'}
OUTSIDE = {'memset'}

SECTION = re.compile(r'^Disassembly of section (.+):$')
FUNCTION = re.compile(r'^[0-9a-f]+ <(.+)>:$')
BRANCH = re.compile(r'\b(call|j[a-z]+)\s+[0-9a-f]+ <(.+?)(?:\+0x[0-9a-f]+)?>$')
RELOCATION = re.compile(r'\bR_X86_64_\w+\s+(.+?)(?:[-+]0x[0-9a-f]+)?$')
POINTER = re.compile(r'\bcall\s+\*')


def objdump(archive, *options):
    return subprocess.run(['objdump', *options, archive], capture_output=True, text=True, check=True).stdout.split('\n')


def calls_of(lines):
    """For each function the names that it may go to: of functions, of sections, from outside. A relocation names what the
    instruction above it goes to; without one the instruction's own words do. Each name in a function's code counts as
    one that it may call, but for its own jumps."""
    calls, sections, pointers = {}, {}, set()
    section = name = branch = None
    for line in [*lines, '']:
        relocation = RELOCATION.search(line)
        if branch and not relocation:
            how, target = branch
            if how == 'call' or target != name:
                calls[name].add(target)
        branch = None
        if relocation:
            calls[name].add(relocation[1])
        elif SECTION.match(line):
            section = SECTION.match(line)[1]
        elif FUNCTION.match(line):
            name = FUNCTION.match(line)[1]
            calls.setdefault(name, set())
            sections.setdefault(section, set()).add(name)
        elif BRANCH.search(line):
            branch = BRANCH.search(line).groups()
        elif POINTER.search(line):
            pointers.add(name)
    # a relocation may name the section that a function stands in
    inside = {f: {g for n in names for g in sections.get(n, {n}) if g in calls} for f, names in calls.items()}
    return inside, pointers


def reached(calls, start):
    seen, todo = set(), [start]
    while todo:
        for name in calls[todo.pop()] - seen:
            seen.add(name)
            todo.append(name)
    return seen


def main():
    archive = sys.argv[1] if len(sys.argv) > 1 else os.path.join(HERE, '../target/staticlib/libcollector.a')
    calls, pointers = calls_of(objdump(archive, '-d', '-r', '--no-show-raw-insn'))
    recursive = {f for f in calls if f in reached(calls, f)}
    symbols = [re.match(r'^[0-9a-f]+ .*\*UND\*\s+[0-9a-f]+ (.+)$', line) for line in objdump(archive, '-t')]
    outside = {found[1] for found in symbols if found} - set(calls)
    wrong = ['%s is recursive' % f for f in sorted(recursive - RECURSIVE)]
    wrong += ['%s is not there, or not recursive' % f for f in sorted(RECURSIVE - recursive)]
    wrong += ['%s calls through a pointer' % f for f in sorted(pointers)]
    wrong += ['%s is taken from outside' % name for name in sorted(outside - OUTSIDE)]
    for words in wrong:
        print('calls_c: %s' % words, file=sys.stderr)
    if not wrong:
        print('calls_c: %d functions, %s alone is recursive; from outside: %s'
              % (len(calls), ', '.join(recursive), ', '.join(sorted(outside)) or 'nothing'))
    return 1 if wrong else 0


if __name__ == '__main__':
    sys.exit(main())
