#!/usr/bin/python3
"""report.py KEPT DOCS: writes DOCS/BENCH.md and DOCS/bench.svg from what bench/run left in KEPT."""
import math
import os
import re
import statistics
import sys
import textwrap

HOME = os.path.dirname(os.path.abspath(__file__))
COLUMNS = ('kind name layout size entries kept references section new port original own tables answer '
           'port_stack original_stack own_stack runs').split()
TEXT = COLUMNS[:3]
# By entries, each up to this many.
CLASSES = ((50, 'up to 50'), (500, '51 to 500'), (5000, '501 to 5,000'), (math.inf, 'above'))
# The folders of oracle/target.
FOLDERS = {'units': 'tests/sources', 'large-units': 'bench/sources', 'rust-units': 'rustc: the oracle', 'crates': 'rustc: crates'}
# Families that are quadratic in both: each of n entries has its list of n places read.
QUADRATIC = ('range-list-shared', 'location-list-shared')
# Sizes at which no other family is to be slower, and those that the own tables of collector_collect hold.
FAMILY_SIZES = (1000, 100000)
OWN_SIZES = (1000, 2000)
PLAIN = '5 32 little 8'
# Units of a kind by their layout: version, format, byte order, address size.
LAYOUTS = (
    ('version 5, 32-bit format, little-endian, 64 bits', lambda v, f, o, a: (v, f, o, a) == tuple(PLAIN.split())),
    ('addresses of 32 bits', lambda v, f, o, a: a == '4'),
    ('64-bit format', lambda v, f, o, a: f == '64'),
    ('big-endian', lambda v, f, o, a: o == 'big'),
    ('version 4', lambda v, f, o, a: v == '4'),
)


def rows(path):
    with open(path) as f:
        for line in f:
            cells = line.rstrip('\n').split('\t')
            if len(cells) == len(COLUMNS):
                row = dict(zip(COLUMNS, cells))
                for key in COLUMNS[len(TEXT):]:
                    row[key] = None if row[key] == '-' else float(row[key])
                yield row


def refused(path):
    with open(path) as f:
        return [line.rstrip('\n').split('\t')[1:] for line in f if line.startswith('refused')]


def peaks(path):
    with open(path) as f:
        found = [line.rstrip('\n').split('\t') for line in f]
    return {(c[1], int(c[2])): int(c[4]) for c in found if c[3] == 'answered'}


def instructions(kept):
    """By name and size: instructions of each side, and entries."""
    found = {}
    with open(os.path.join(kept, 'instructions')) as f:
        for line in f:
            name, size, entries, side, total = line.rstrip('\n').split('\t')
            found.setdefault((name, int(size)), {'entries': int(entries)})[side] = int(total)
    return found


def annotated(path):
    """Function, instructions and share, as callgrind_annotate lists them."""
    with open(path) as f:
        for line in f:
            m = re.match(r' *([0-9,]+) \( *([0-9.]+)%\) +[^:]*:(.*?)( \[.*)?$', line.rstrip('\n'))
            if m:
                yield m.group(3), int(m.group(1).replace(',', '')), float(m.group(2))


def profile(kept, unit, side):
    """Functions with their own instructions and share, and the share with what they call; the largest first."""
    with_called = {name: share for name, _, share in annotated(os.path.join(kept, 'inclusive-%s-%s' % (unit, side)))}
    listed = annotated(os.path.join(kept, 'profile-%s-%s' % (unit, side)))
    return [(name, n, share, with_called.get(name)) for name, n, share in listed if share < 99.99]


def time(ns):
    if ns is None:
        return '-'
    for unit, scale in (('ns', 1), ('µs', 1e3), ('ms', 1e6), ('s', 1e9)):
        if ns < 1000 * scale or unit == 's':
            return '%.3g %s' % (ns / scale, unit)


def count(n):
    return '-' if n is None else '{:,}'.format(int(n))


def ratio(a, b):
    return '-' if not a or not b else '%.2f' % (a / b)


def exponent(points):
    """The slope of the last decade of sizes, on logarithmic axes."""
    points = [(math.log(s), math.log(t)) for s, t in points if t]
    points = [p for p in points if points and p[0] >= points[-1][0] - math.log(10.1)]
    if len(points) < 2:
        return None
    x, y = statistics.mean(p[0] for p in points), statistics.mean(p[1] for p in points)
    return sum((a - x) * (b - y) for a, b in points) / sum((a - x) ** 2 for a, b in points)


def spread(values):
    """How many, the best, the median and the worst, and how many are above 1."""
    values = sorted(values)
    if not values:
        return ['-'] * 5
    shown = ['%.2f' % v for v in (values[0], statistics.median(values), values[-1])]
    return [count(len(values))] + shown + [count(sum(v > 1 for v in values))]


def table(head, lines):
    yield '| ' + ' | '.join(head) + ' |'
    yield '|' + '---|' * len(head)
    for line in lines:
        yield '| ' + ' | '.join(line) + ' |'


def folder(row):
    return FOLDERS[row['name'].split('/')[0]]


def short(name):
    return name.split('/')[-1]


def by_entries(units):
    least = 0
    for most, name in CLASSES:
        yield name, [r for r in units if least < r['entries'] <= most]
        least = most
    yield 'all', units


def by_folder(units):
    for name in FOLDERS.values():
        yield name, [r for r in units if folder(r) == name]


def by_layout(units):
    for name, is_so in LAYOUTS:
        yield name, [r for r in units if is_so(*r['layout'].split())]


class Measured:
    """What was measured, and ratios of it."""

    def __init__(self, kept):
        self.units = list(rows(os.path.join(kept, 'units')))
        self.families = [r for r in rows(os.path.join(kept, 'families')) if r['layout'] == PLAIN]
        self.other_families = [r for r in rows(os.path.join(kept, 'families')) if r['layout'] != PLAIN]
        self.counted = instructions(kept)
        self.refused = refused(os.path.join(kept, 'units'))
        self.peak = peaks(os.path.join(kept, 'peak'))

    def of(self, row):
        return self.counted.get((row['name'], int(row['size'])), {}) if row['layout'] == PLAIN or not row['size'] else {}

    def instruction_ratios(self, held):
        return [self.of(r)['port'] / self.of(r)['original'] for r in held if 'original' in self.of(r)]

    def an_entry(self, row, side):
        found = self.of(row)
        return count(found[side] / found['entries']) if side in found else '-'


def times(held, side):
    return [r[side] / r['original'] for r in held if r[side] and r['original']]


def family_ratios(m, size):
    """By family, the largest first; infinite where a call of the port would take too long, and of the original not."""
    held = [r for r in m.families if r['size'] == size and r['original']]
    found = [(r['port'] / r['original'] if r['port'] else math.inf, r['name']) for r in held]
    return {name: by for by, name in sorted(found, reverse=True)}


def goals(m):
    """What was aimed at, what was found, and whether that is it."""
    def verdict(name, values, median, most=1.0):
        if not values:
            return [name, '-', '-', '-', '-']
        middle, above = statistics.median(values), sum(v > most for v in values)
        return [name, '%.2f%s' % (middle, ' (at most %.1f)' % median if median else ''), '%.2f' % max(values), str(above),
                'met' if not above and (not median or middle <= median) else 'missed']
    yield verdict('`collector_collect_lent`, time', times(m.units, 'port'), 0.5)
    yield verdict('`collector_collect_lent`, instructions', m.instruction_ratios(m.units), 0.6)
    yield verdict('`collector_collect`, time, units of up to 2,048 entries', times(m.units, 'own'), None)
    for name, held in by_layout(m.units):
        yield verdict('time, ' + name, times(held, 'port'), 0.5)
    for size in OWN_SIZES:
        held = [r for r in m.families if r['size'] == size and r['name'] not in QUADRATIC]
        yield verdict('`collector_collect`, time, families at ' + count(size), times(held, 'own'), None)
    for size in FAMILY_SIZES:
        held = [by for name, by in family_ratios(m, size).items() if name not in QUADRATIC]
        yield verdict('time, families at ' + count(size), held, None)


def slower_families(m):
    """By size that was measured: the families that are above the original's time, with their ratios."""
    for size in FAMILY_SIZES:
        held = family_ratios(m, size)
        above = ['%s %s' % (name, 'not called' if by == math.inf else '%.2f' % by) for name, by in held.items() if by > 1]
        if held:
            yield 'Above the original\'s time at %s: %s.' % (count(size), ', '.join(above) or 'none')


def unit_rows(m, groups):
    for name, held in groups:
        if held:
            own = [r for r in held if r['own']]
            yield [name] + spread(times(held, 'port')) + spread(m.instruction_ratios(held)) + spread(times(own, 'own'))


def units_section(m):
    units = m.units
    yield '## Compilers\' units'
    yield ''
    yield 'About half of the addresses are dead. For each group: how many units, the best, the median and the worst ratio of times,'
    yield 'and how many units are slower than the original; the same of instructions, of a sample; and of `collector_collect`, on the'
    yield 'units that its own tables hold (2,048 entries, 8,192 references).'
    yield ''
    columns = ['number', 'best', 'median', 'worst', 'slower'] + ['instructions: number', 'best', 'median', 'worst', 'more']
    columns += ['collector_collect: number', 'best', 'median', 'worst', 'slower']
    yield from table(['entries'] + columns, unit_rows(m, by_entries(units)))
    yield ''
    yield from table(['of'] + columns, unit_rows(m, by_folder(units)))
    yield ''
    yield from table(['layout'] + columns, unit_rows(m, by_layout(units)))
    yield ''
    yield 'The slowest against the original:'
    yield ''
    slowest = sorted(units, key=lambda r: -r['port'] / r['original'])[:20]
    head = ['unit', 'entries', 'kept', 'port', 'original', 'ratio', 'port, ns an entry', 'original']
    head += ['port, instructions an entry', 'original', 'collector_collect']

    def line(r):
        return [short(r['name']), count(r['entries']), count(r['kept']), time(r['port']), time(r['original']), ratio(r['port'], r['original']),
                '%.0f' % (r['port'] / r['entries']), '%.0f' % (r['original'] / r['entries']), m.an_entry(r, 'port'), m.an_entry(r, 'original'),
                time(r['own'])]
    yield from table(head, map(line, slowest))
    yield ''
    yield 'The largest:'
    yield ''
    yield from table(head, map(line, largest(units)))
    yield ''
    small = [r for r in units if r['own'] and r['entries'] <= 20]
    if small:
        middle = {side: time(statistics.median(r[side] for r in small)) for side in ('own', 'port', 'original')}
        yield 'On the %d units of up to 20 entries `collector_collect` takes %s (median), `collector_collect_lent` %s, the original %s.' % (
            len(small), middle['own'], middle['port'], middle['original'])
        yield ''
    why = ['%d %s' % (sum(u[1] == reason for u in m.refused), reason) for reason in sorted({u[1] for u in m.refused})]
    yield 'Not measured, for both sides refuse them: %d units (%s).' % (len(m.refused), '; '.join(why))
    yield ''


def largest(units):
    return sorted(units, key=lambda r: -r['entries'])[:20]


def families_section(m):
    yield '## Families'
    yield ''
    yield 'Each has one shape, and grows until a call would take more than 5 s, or to the size that was asked for. The exponent is'
    yield 'the slope of time over size in the last decade of sizes: 1 linear, 2 quadratic. `%s` are quadratic in both programs,' % '`, `'.join(QUADRATIC)
    yield 'for each of n entries has its list of n places read.'
    yield ''
    names = list(dict.fromkeys(r['name'] for r in m.families))

    def growth():
        for name in names:
            held = [r for r in m.families if r['name'] == name]
            by = {side: [(r['size'], r[side]) for r in held if r[side]] for side in ('port', 'original')}
            slopes = {side: exponent(by[side]) for side in by}
            last = [r for r in held if r['port'] and r['original']][-1]
            at = {size: next((ratio(r['port'], r['original']) for r in held if r['size'] == size), '-') for size in FAMILY_SIZES}
            own = {size: next((ratio(r['own'], r['original']) for r in held if r['size'] == size), '-') for size in OWN_SIZES}
            found = m.of(held[0])
            yield [name] + [x for side in by for x in ('%.2f' % slopes[side] if slopes[side] else '-', count(by[side][-1][0]))] + [
                *at.values(), *own.values(), count(last['size']), time(last['port']), time(last['original']), ratio(last['port'], last['original']),
                count(found['port'] / 1000) if found else '-', count(found['original'] / 1000) if found else '-']
    yield from table(['family', 'port, exponent', 'up to', 'original, exponent', 'up to', 'ratio at 1,000', 'at 100,000',
                      'collector_collect at 1,000', 'at 2,000', 'largest of both', 'port', 'original', 'ratio', 'port, instructions an item (at 1,000)', 'original'], growth())
    yield ''
    if m.other_families:
        yield 'Ratios at 1,000 in other layouts:'
        yield ''
        layouts = list(dict.fromkeys(r['layout'] for r in m.other_families))
        found = {(r['name'], r['layout']): ratio(r['port'], r['original']) for r in m.other_families if r['size'] == 1000}
        yield from table(['family'] + [layout_name(layout) for layout in layouts],
                         ([name] + [found.get((name, layout), '-') for layout in layouts] for name in names))
        yield ''
    yield 'All sizes (entries: how many the unit has):'
    yield ''
    yield from table(['family', 'size', 'entries', 'port', 'original', 'ratio'],
                     ([r['name'], count(r['size']), count(r['entries']), time(r['port']), time(r['original']), ratio(r['port'], r['original'])]
                      for r in m.families))
    yield ''


def layout_name(layout):
    version, form, order, _ = layout.split()
    return 'version %s, %s-bit format, %s-endian' % (version, form, order)


def memory_section(m):
    yield '## Memory'
    yield ''
    yield 'Bytes at most, beside the sections. The port: tables that are lent, what holds the answer, and the stack that a call wrote'
    yield '(painted before, read after); nothing else. The original: what it had from the allocator at most (a counting one, in a'
    yield 'program of its own), and the stack. `collector_collect` has its tables on the stack.'
    yield ''
    shown = [r for r in largest(m.units) if (r['name'], 0) in m.peak] + [r for r in m.families if r['size'] == 1000]

    def memory():
        for r in shown:
            heap = m.peak.get((r['name'], int(r['size'])))
            port = r['tables'] + r['answer'] + (r['port_stack'] or 0)
            original = (heap or 0) + (r['original_stack'] or 0)
            yield [short(r['name']), count(r['entries']), count(r['tables']), count(r['answer']), count(r['port_stack']), count(heap),
                   count(r['original_stack']), ratio(port, original), count(r['own_stack'])]
    yield from table(['unit', 'entries', 'port: tables', 'answer', 'stack', 'original: heap', 'stack', 'port by original',
                      'collector_collect: stack'], memory())
    yield ''


def profile_section(kept, names):
    yield '## Where the time goes'
    yield ''
    yield 'Instructions of each function in one call (callgrind).'
    yield ''
    for unit, what in (('largest', 'the unit of the most entries'), ('slowest', 'the slowest unit against the original')):
        for side in ('port', 'original'):
            yield '%s on %s, %s:' % (side.capitalize(), short(names[unit]), what)
            yield ''
            yield from table(['function', 'own instructions', 'share', 'with what it calls'],
                             (['`%s`' % name[:90].replace('|', ' '), count(n), '%.1f %%' % share, '%.1f %%' % total if total else '-']
                              for name, n, share, total in profile(kept, unit, side)[:20] if share >= 0.5))
            yield ''


def report(kept):
    m = Measured(kept)
    with open(os.path.join(kept, 'where')) as f:
        date, model, cores, load, archive, rustc, valgrind, most, slow = f.read().splitlines()
    yield '# Speed, measured'
    yield ''
    yield 'Written by `bench/run` from what it measured; bench/README.md has the units and the rules. %s, %s, %s cores; load average %s at the end%s.' % (
        date, model, cores, load, ', so others ran beside it and times are rough' if float(load) > 1.2 else '')
    yield 'The port is `collector_collect_lent` (archive %s), the original `gc_debug_info` of gc.rs over gimli 0.27.0 (%s, release;' % (archive, rustc)
    yield 'without the hook that oracle/ has), both in one process on the same bytes.'
    yield 'A time is that of the thread, the least of nine measurements of at least 2 ms each (of three where a call takes more than'
    yield '0.1 s; one call where it takes more than 1 s). Each row\'s answers were compared first: new unit, map and the lengths of the'
    yield 'lists are the same. The port\'s time has the clearing of all that it is lent: tables of the unit\'s size, a map of all its'
    yield 'items, an output as long as the section. The original\'s has its allocations and their freeing.'
    yield 'Ratio: port by original; below 1 the port is faster. Instructions: callgrind (%s), one call after one that is not counted.' % valgrind
    yield ''
    yield '![times of both sides](bench.svg)'
    yield ''
    yield '## Goals'
    yield ''
    yield 'At the median at most half of the original\'s time and 0.6 of its instructions, and no unit slower; no family slower at 1,000'
    yield 'and 100,000 but those that are quadratic in both.'
    yield ''
    yield from table(['goal', 'median', 'worst', 'above 1', ''], goals(m))
    yield ''
    yield from slower_families(m)
    yield ''
    yield from units_section(m)
    yield from families_section(m)
    yield from memory_section(m)
    yield from profile_section(kept, {'largest': most, 'slowest': slow})
    with open(os.path.join(HOME, 'notes.md')) as f:
        yield f.read().rstrip('\n')


def filled(lines):
    """Paragraphs at 118 characters a line; headings, tables, pictures and the notes stay as they are."""
    prose = []
    for line in list(lines) + ['']:
        if line and '\n' not in line and line[0] not in '#|!':
            prose.append(line)
            continue
        yield from textwrap.wrap(' '.join(prose), 118, break_long_words=False, break_on_hyphens=False)
        prose = []
        yield line


def svg(kept):
    """Small plots, one a family and one of all units, on logarithmic axes: size across, time up."""
    families = [r for r in rows(os.path.join(kept, 'families')) if r['layout'] == PLAIN]
    units = list(rows(os.path.join(kept, 'units')))
    names = list(dict.fromkeys(r['name'] for r in families))
    plots = [('compilers\' units (entries)', [(r['entries'], r['port'], r['original']) for r in units], False)]
    plots += [(n, [(r['size'], r['port'], r['original']) for r in families if r['name'] == n], True) for n in names]
    across, width, height = 5, 250, 190
    left, right, top, bottom = 44, 10, 24, 24
    colours = ('#c0392b', '#2468b0')
    down = -(-len(plots) // across)
    yield '<svg xmlns="http://www.w3.org/2000/svg" viewBox="0 0 %d %d" font-family="sans-serif" font-size="10">' % (across * width, down * height + 24)
    yield '<rect width="100%" height="100%" fill="white"/>'
    yield '<text x="10" y="16" font-size="12"><tspan fill="%s">port</tspan>, <tspan fill="%s">original</tspan>: time of a call over the size; grey lines are linear growth</text>' % colours
    for number, (title, points, lines) in enumerate(plots):
        x0, y0 = number % across * width, 24 + number // across * height
        low_x, high_x = (0, 5) if not lines else (3, 6)
        low_y, high_y = (3, 9) if not lines else (3, 10.3)

        def place(size, ns):
            x = x0 + left + (math.log10(size) - low_x) / (high_x - low_x) * (width - left - right)
            y = y0 + height - bottom - (math.log10(ns) - low_y) / (high_y - low_y) * (height - top - bottom)
            return x, y
        yield '<text x="%.1f" y="%.1f" font-weight="bold">%s</text>' % (x0 + left, y0 + 16, title)
        yield '<rect x="%.1f" y="%.1f" width="%.1f" height="%.1f" fill="none" stroke="#999"/>' % (x0 + left, y0 + top, width - left - right, height - top - bottom)
        yield '<clipPath id="c%d"><rect x="%.1f" y="%.1f" width="%.1f" height="%.1f"/></clipPath>' % (number, x0 + left, y0 + top, width - left - right, height - top - bottom)
        for power in range(math.ceil(low_y), math.floor(high_y) + 1, 2):
            y = place(10 ** low_x, 10 ** power)[1]
            label = {3: '1 µs', 4: '10 µs', 5: '100 µs', 6: '1 ms', 7: '10 ms', 8: '100 ms', 9: '1 s', 10: '10 s'}[power]
            yield '<text x="%.1f" y="%.1f" text-anchor="end">%s</text>' % (x0 + left - 3, y + 3, label)
        for power in range(low_x, high_x + 1):
            x = place(10 ** power, 10 ** low_y)[0]
            yield '<text x="%.1f" y="%.1f" text-anchor="middle">%s</text>' % (x, y0 + height - bottom + 12, '{:,}'.format(10 ** power) if power < 6 else '10^6')
        for power in range(-2, 9):
            a, b = place(10 ** low_x, 10 ** (power + low_x)), place(10 ** high_x, 10 ** (power + high_x))
            yield '<line x1="%.1f" y1="%.1f" x2="%.1f" y2="%.1f" stroke="#e4e4e4" clip-path="url(#c%d)"/>' % (a + b + (number,))
        for side, colour in ((1, colours[0]), (2, colours[1])):
            placed = [place(p[0], p[side]) for p in points if p[side]]
            if lines and placed:
                yield '<polyline fill="none" stroke="%s" points="%s"/>' % (colour, ' '.join('%.1f,%.1f' % p for p in placed))
            for x, y in placed:
                yield '<circle cx="%.1f" cy="%.1f" r="%s" fill="%s"/>' % (x, y, 2 if lines else 1.5, colour)
    yield '</svg>'


def main():
    if len(sys.argv) != 3:
        sys.exit(__doc__)
    for name, lines in (('BENCH.md', filled(report(sys.argv[1]))), ('bench.svg', svg(sys.argv[1]))):
        text = '\n'.join(lines).rstrip('\n') + '\n'
        with open(os.path.join(sys.argv[2], name), 'w') as f:
            f.write(text)


if __name__ == '__main__':
    main()
