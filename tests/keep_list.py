"""Keep lists (document 02, point 10): lists, units and answers that marks.py, collect.py and points.py have in common;
units.py has the notation.

A list is `TAG=TREATMENT ..`, hexadecimal; or the bytes of its tags and its treatments, a pair of texts. A case is what
it is about, a list, a unit, its abbreviations, its answer, and its other sections by name; where `counts` is among
these, fixed addresses count. The answer is the number of a refusal; or marks, as `12R 13L`, and for a unit that is
rewritten the map and the new entries.

A tree is a unit by its entries, each with its depth, its tag, what its root test finds and which entries it names; what
is kept of it under a list, and what is written, is worked out here by demand 3 of document 01 alone."""
from units import A5, FIVE, T, octets, uleb

# ---- lists


def lent(keep):
    """The bytes of a list's tags, and of its treatments."""
    if isinstance(keep, tuple):
        return tuple(octets(part) for part in keep)
    pairs = [pair.split('=') for pair in keep.split()]
    return b''.join(int(tag, 16).to_bytes(2, 'big') for tag, _ in pairs), bytes(int(k, 16) for _, k in pairs)


def word(keep):
    """The argument of the programs: numbers in turn hexadecimal and decimal."""
    tags, treatments = lent(keep)
    pairs = []
    for i, k in enumerate(treatments):
        tag = int.from_bytes(tags[2 * i:2 * i + 2], 'big')
        pairs.append('0x%x=%d' % (tag, k) if i % 2 == 0 else '%d=0x%02X' % (tag, k))
    return '--keep-list=' + ','.join(pairs)


def treatments_of(keep):
    """The treatment of each tag; or the number of a refusal."""
    tags, treatments = lent(keep)
    tags = [256 * high + low for high, low in zip(tags[::2], tags[1::2])]
    if len(tags) != len(treatments) or set(treatments) - {1, 2}:
        return 19
    if any(tag <= before for before, tag in zip(tags, tags[1:])):
        return 20
    return dict(zip(tags, treatments))


# ---- lists that are refused, whatever they are lent with, and why
REFUSED = [
    ('10.1: treatment 0', '24=0', 19), ('10.1: treatment 3', '24=3', 19), ('10.1: treatment 255', '24=ff', 19),
    ('10.1: treatment 128', '24=80', 19), ('10.1: treatment 0 last of three', '4=1 24=2 2e=0', 19),
    ('10.1: treatment 3 first of three', '4=3 24=2 2e=1', 19), ('10.1: in the middle', '4=1 24=4 2e=1', 19),
    ('10.1, 10/treatments-without-tags', ('', '01'), 19), ('10.1: a tag without a treatment', ('0024', ''), 19),
    ('10.1: one treatment too few', ('0024 002e', '01'), 19), ('10.1: one too many', ('0024', '01 02'), 19),
    ('10.1: twice as many', ('0024 002e', '01 02 01 02'), 19), ('10.1: half as many', ('0024 002e', '01'), 19),
    ('10.1, 10/c-call-half-a-tag-alone', ('04', '01'), 19), ('10.1: half a tag with a treatment of its own',
                                                             ('0024 00', '01 01'), 19),
    ('10.1: half a tag, and a treatment too few', ('0024 002e 00', '01'), 19),
    ('10.4: equal tags', '24=1 24=1', 20), ('10.4: with two treatments', '24=1 24=2', 20),
    ('10.4: tag 0 twice', '0=2 0=2', 20), ('10.4: tag 65,535 twice', 'ffff=1 ffff=1', 20),
    ('10.4: descending', '25=1 24=1', 20), ('10.4: by one in the high byte', '100=1 ff=1', 20),
    ('10.4: from the largest to the least', 'ffff=1 0=1', 20), ('10.4: the last two of three', '4=1 2e=1 24=2', 20),
    ('10.4: the first two', '2e=1 24=1 34=2', 20), ('10.4: the last two are equal', '4=1 24=1 2e=2 2e=2', 20),
    ('10.4: with half a tag behind them', ('0024 0024 00', '01 01'), 20),
    ('0.3, 10/19-over-the-whole-list-first', '5=1 5=1 6=0', 19), ('0.3: 19 before 20', '5=0 5=1', 19),
    ('0.3: 19 behind 20', '25=1 24=3', 19), ('0.3: not one for each tag, and equal tags', ('0005 0005', '01'), 19),
    ('0.3: not one for each, and descending', ('0025 0024', '01 01 01'), 19),
]

# Lists that are taken and change nothing of the five-entry unit.
UNCHANGED = [
    ('10: an empty list', ''), ('10.1: half a tag and nothing else', ('04', '')), ('10.1: of value 36', ('24', '')),
    ('10.4, 10/tags-that-don\'t-occur', '0=1 7=2 ffff=1'), ('10.4: the least tag', '0=1'),
    ('10.4: the largest', 'ffff=1'), ('10.4: tags beside those of the unit', '10=1 12=2 23=1 25=1 2d=2 2f=2'),
    ('10.4: bytes of its tags in the other order', '1100=1 2400=1 2e00=2'),
    ('10.4: its tags with a high byte', '111=1 124=1 12e=2 ff24=1 ff2e=2'),
    ('10.4: what is named', '24=2'), ('10.2: the first entry', '11=2'), ('10: both', '11=2 24=2'),
]

# ---- answers that are worked by hand

SIX = 'H 01 020010 03 0405 00 03 00'
A6 = '1 11 children; 2 2e 11/1b 49/11; 3 24; 4 04 children; 5 28'
P = '1 11 children; 2 2e 11/1b'
V = '1 11 children; 2 34 02/18'
R = '1 11 children; 2 2e 55/23'
SIX_LIVE = '12R 13L 16L 17L 18L 20L'
BY_TYPE = ('12R 13L 16L 17D 18D 20D', '12>12@0 13>13@1 16>16@1 21>17@1', '01 020010 03 00')
BY_ENUMERATION = ('12R 13D 16D 17L 18L 20D', '12>12@0 17>13@1 18>14@2 19>15@2 21>16@1', '01 0405 00 00')
ALONE = ('12R 13D 16D 17D 18D 20D', '12>12@0 21>13@1', '01 00')
FIVE_LIVE = '12R 13L 16L 17L 18L'
FIVE_ALONE = ('12R 13D 16D 17D 18D', '12>12@0 21>13@1', '01 00')
P1 = ('12R 13L 16D 17L 18D', '12>12@0 13>13@1 17>16@1 21>17@1', '01 020010 03 00')

HAND = [
    # OPEN-POINTS-02
    ('0.3, 10/19-empty-section', '5=0', '', '', 19, {}),
    ('0.3, 10/20-empty-section', '5=1 5=1', '', '', 20, {}),
    ('0.3, 10/19-over-the-whole-list-first', '5=1 5=1 6=0', SIX, A6, 19, {'addresses': '01'}),
    ('7.4, 10/variable-2-with-choice', '34=2', 'H 01 02 09 03 8:1 00', V,
     ('12R 13D', '12>12@0 24>13@1', '01 00'), {'counts': 1}),
    ('10.1, 10/c-call-half-a-tag', ('0004 00', '01'), SIX, A6,
     ('12R 13L 16L 17L 18L 20D', '12>12@0 13>13@1 16>16@1 17>17@1 18>18@2 19>19@2 21>20@1', '01 020010 03 0405 00 00'),
     {'addresses': '01'}),
    ('10.1, 10/c-call-half-a-tag-alone', ('04', '01'), SIX, A6, 19, {'addresses': '01'}),
    ('10.1, 10/treatments-without-tags', ('', '01'), SIX, A6, 19, {'addresses': '01'}),
    ('10.2, 10/unit-always', '11=1', SIX, A6, (SIX_LIVE,), {'addresses': '00'}),
    ('10.2, 10/unit-never-first-entry-stays', '11=2', SIX, A6, ALONE, {'addresses': '00'}),
    ('10.2, 10/first-entry-root-by-2', '2e=2', 'H 01 00 02 00', '1 2e children 11/1b; 2 24',
     ('12R 14D', '12>12@0 15>14@1', '01 00 00'), {'addresses': '01'}),
    ('10.3, 10/6-under-1', '2e=1', SIX, A6, 6, {'addresses': '02'}),
    ('10.3, 10/5-of-the-expression-under-2', '34=2', 'H 01 02 01 ff 00', V, 5, {}),
    ('10.3, 10/17-under-2', '2e=2', 'H 01 02 01 00', P, 17, {'addresses': '00'}),
    ('10.4, 10/tags-that-don\'t-occur', '0=1 7=2 ffff=1', SIX, A6, BY_TYPE, {'addresses': '01'}),
    ('10.4, 10/descendant-of-1-though-2', '4=1 28=2', SIX, A6, BY_ENUMERATION, {'addresses': '00'}),
    ('10.4, 10/named-though-2', '24=2', SIX, A6, BY_TYPE, {'addresses': '01'}),
    ('10.4: the parent of a root, under 2', '4=2 28=1', SIX, A6, ('12R 13D 16D 17R 18L 20D', *BY_ENUMERATION[1:]),
     {'addresses': '00'}),
    # the five-entry unit
    ('10: base types, nothing live', '24=1', FIVE, A5,
     ('12R 13D 16L 17L 18D', '12>12@0 16>13@1 17>14@1 21>15@1', '01 03 03 00'), {'addresses': '0000'}),
    ('10: no subprograms, all live', '2e=2', FIVE, A5, FIVE_ALONE, {'addresses': '0101'}),
    ('10: no base types, which are named', '24=2', FIVE, A5, P1, {'addresses': '0100'}),
    ('10: no subprograms, and 6', '2e=2', FIVE, A5, 6, {'addresses': '0200'}),
    ('10: no subprograms, and 17', '2e=2', FIVE, A5, 17, {'addresses': '01'}),
    ('10.2: units', '11=1', FIVE, A5, (FIVE_LIVE,), {'addresses': '0000'}),
    ('10: treatment 3', '24=3', FIVE, A5, 19, {'addresses': '0100'}),
    ('10: a tag twice', '24=1 24=1', FIVE, A5, 20, {'addresses': '0100'}),
    ('10: descending, and treatment 3', '25=1 24=3', FIVE, A5, 19, {'addresses': '0100'}),
    ('10: a treatment too many', ('0024', '01 01'), FIVE, A5, 19, {'addresses': '0100'}),
    ('10: an empty list', '', FIVE, A5, P1, {'addresses': '0100'}),
    ('10: a range list that is unreadable, under 1', '2e=1', 'H 01 02 00 00', R, 5, {'ranges': T + 'ff'}),
    ('10: dead subprograms, always', '2e=1', FIVE, A5, (FIVE_LIVE,), {'addresses': '0000'}),
    ('10: live ones, always', '2e=1', FIVE, A5, (FIVE_LIVE,), {'addresses': '0100'}),
    ('10: with no address table', '24=1', FIVE, A5, (FIVE_LIVE,), {}),
    ('10: never, with no address table', '2e=2', FIVE, A5, FIVE_ALONE, {}),
    ('10: both treatments, with no address table', '24=1 2e=2', FIVE, A5,
     ('12R 13D 16L 17L 18D', '12>12@0 16>13@1 17>14@1 21>15@1', '01 03 03 00'), {}),
    ('10.2: the first entry is a root, named by its child', '11=1', 'H 01 02 0c 00', '1 11 children; 2 24 49/11',
     ('12L 13L',), {}),
    ('10.2: a first entry that names itself', '11=2', 'H 01 0c 02 00', '1 11 children 49/11; 2 24', ('12L 14L',), {}),
    ('10: two compile units, the second a root', '11=1', 'H 01 02 00 01 02 00', '1 11 children; 2 24',
     ('12R 13L 15L 16L',), {}),
    ('10: two compile units, neither', '11=2', 'H 01 02 00 01 02 00', '1 11 children; 2 24',
     ('12R 13D 15D 16D', '12>12@0 14>13@1', '01 00'), {}),
    ('10: two compile units, what is below the second', '24=1 28=2', 'H 01 03 00 01 02 00',
     '1 11 children; 2 24; 3 28', ('12R 13D 15R 16L', '12>12@0 14>13@1 15>14@0 16>15@1 17>16@1', '01 00 01 02 00'), {}),
    ('10.4: tag 65,535', 'ffff=1', 'H 01 02 00', '1 11 children; 2 ffff', ('12R 13L',), {}),
    ('10.4: of the first entry', 'ffff=1', 'H 01 02 00', '1 ffff children; 2 24', ('12R 13L',), {}),
    ('10.4: never tag 65,535', 'ffff=2', 'H 01 02 00', '1 11 children; 2 ffff',
     ('12R 13D', '12>12@0 14>13@1', '01 00'), {}),
    ('10.4: tags 0x00ff and 0xff00', 'ff=1 ff00=2', 'H 01 02 03 00', '1 11 children; 2 ff; 3 ff00',
     ('12R 13L 14D', '12>12@0 13>13@1 15>14@1', '01 02 00'), {}),
    ('10.4: the other way round', 'ff=2 ff00=1', 'H 01 02 03 00', '1 11 children; 2 ff; 3 ff00',
     ('12R 13D 14L', '12>12@0 14>13@1 15>14@1', '01 03 00'), {}),
    ('10.4: tags 0x0102 and 0x0201', '102=1', 'H 01 02 03 00', '1 11 children; 2 102; 3 201',
     ('12R 13L 14D', '12>12@0 13>13@1 15>14@1', '01 02 00'), {}),
    ('10.4: tag 0 listed, and tag 1', '0=1 1=2', 'H 01 02 00', '1 11 children; 2 1',
     ('12R 13D', '12>12@0 14>13@1', '01 00'), {}),
    ('10: a declaration that no entry uses', '28=1', 'H 01 02 00', '1 11 children; 2 24; 3 28',
     ('12R 13D', '12>12@0 14>13@1', '01 00'), {}),
    ('10: no entries', '11=1', 'H', A5, (), {}), ('10: an empty section', '11=1', '', A5, (), {}),
    ('10: terminators alone', '11=1', 'H 00 00', A5, (), {}),
]

# ---- refusals of the second entry, which no list changes: what, the number, the entry's tag
ENTRY_REFUSALS = [
    ('unknown code', 4, '24', 'H 01 02 63 00', '1 11 children; 2 24', {}),
    ('a value that is cut', 4, '24', 'H 01 02 00', '1 11 children; 2 24 03/05', {}),
    ('an unknown operation', 5, '34', 'H 01 02 01 ff 00', V, {}),
    ('an operation behind a live index', 5, '34', 'H 01 02 03 a100 ff 00', V, {'addresses': '01'}),
    ('an unknown kind of a range list', 5, '2e', 'H 01 02 00 00', R, {'ranges': T + 'ff'}),
    ('a location list past its section', 5, '24', 'H 01 02 00 00', '1 11 children; 2 24 02/22', {'locations': 'z t:5'}),
    ('an expression of another entry', 5, '24', 'H 01 02 01 ff 00', '1 11 children; 2 24 40/18', {}),
    ('a byte above 1', 6, '2e', 'H 01 02 00 00', P, {'addresses': '02'}),
    ('a byte above 1 of a variable', 6, '34', 'H 01 02 02 a100 00', V, {'addresses': 'ff'}),
    ('a byte above 1 of a range list', 6, '2e', 'H 01 02 00 00', R, {'ranges': T + '020000 00', 'addresses': '02'}),
    ('an index past the end', 17, '2e', 'H 01 02 07 00', P, {'addresses': '00'}),
    ('an index past the end of a variable', 17, '34', 'H 01 02 02 a107 00', V, {'addresses': '01'}),
    ('ref_addr', 7, '24', 'H 01 02 4:0 00', '1 11 children; 2 24 49/10', {}),
    ('call_ref', 7, '34', 'H 01 02 05 9a 4:0 00', V, {}),
]


def around(tag):
    """Lists with this tag, and with that of units."""
    return ['%s=1' % tag, '%s=2' % tag, '11=1', '11=2'] + [
        ' '.join(sorted(('11=%d' % a, '%s=%d' % (tag, b)), key=lambda pair: int(pair.split('=')[0], 16)))
        for a in (1, 2) for b in (1, 2)]


# ---- fixed addresses and treatments: a variable at an address, or at a tombstone; whether it is live where fixed
# addresses do not count, and where they do
AT = [('1', 'an address', (False, True)), ('0', 'a tombstone', (False, False)), ('-1', 'all ones', (False, False))]
KINDS = (('H', 8), ('H4', 4), ('G', 8), ('G4', 4))


def at_addresses():
    """Why, list, unit, abbreviations, whether the variable is live off and on."""
    for kind, size in KINDS:
        for address, what, live in AT:
            of_unit = '%s 01 02 %02x 03 %d:%x 00' % (kind, size + 1, size, int(address) % 256 ** size)
            for k, answers in ((1, (True, True)), (2, (False, False)), (0, live)):
                yield ('7.4: %s, treatment %d' % (what, k), '34=%d' % k if k else '35=1', of_unit, V,
                       *('live' if answer else 'dead' for answer in answers))


# ---- where a tag stands in a list: the second of two entries has it

def searched():
    """Why, list, the entry's tag, whether it is live: lists of up to nine tags, each place and each gap; then longer
    ones. Other tags have the other treatment."""
    for n in range(1, 10):
        tags = [0x100 + 0x10 * i for i in range(n)]
        for i, tag in enumerate(tags):
            yield 'tag %d of %d' % (i + 1, n), with_own(tags, tag, 1), tag, True
        for gap in [0xf8] + [tag + 8 for tag in tags]:
            yield 'between the tags of %d' % n, with_own(tags, None, 1), gap, False
    for n in (64, 255, 256, 257, 1000):
        tags = [0x40 + 0x20 * i for i in range(n)]
        for i in (0, 1, n // 2 - 1, n // 2, n - 2, n - 1):
            yield 'tag %d of %d' % (i + 1, n), with_own(tags, tags[i], 1), tags[i], True
        for gap in (0x3f, tags[0] + 1, tags[n // 2] - 1, tags[-1] - 1, tags[-1] + 1):
            yield 'between the tags of %d' % n, with_own(tags, None, 1), gap, False


def with_own(tags, own, k):
    """A list in which one tag has a treatment, and all others the other one; where there is none, all have it."""
    return ' '.join('%x=%d' % (tag, k if own in (tag, None) else 3 - k) for tag in tags)


EVERY = ''.join('%x=%d ' % (tag, 1 if tag in (0x04, 0xffff) else 2) for tag in range(0x10000))

# ---- trees

LIVE, DEAD, FIXED, TOMBSTONE = 'live', 'dead', 'fixed', 'tombstone'  # what a root test finds
TREES = {
    'a type that a subprogram names, and enumerations':
        [(0, 0x11), (1, 0x2e, LIVE, 2), (1, 0x24), (1, 0x04), (2, 0x28), (2, 0x28), (1, 0x24), (1, 0x2e, DEAD, 6)],
    'parents of a root, and what is beside it':
        [(0, 0x11), (1, 0x39), (2, 0x13), (3, 0x2e, LIVE), (3, 0x0d, '', 7), (2, 0x34, DEAD, 4), (1, 0x0b), (1, 0x24)],
    'what is below a named entry':
        [(0, 0x11), (1, 0x2e, LIVE, 3), (2, 0x05), (1, 0x13, '', 7), (2, 0x0d, '', 6), (2, 0x2e, DEAD), (1, 0x24),
         (1, 0x04), (2, 0x28), (1, 0x13), (2, 0x0d)],
    'two units': [(0, 0x11), (1, 0x24), (0, 0x11), (1, 0x2e, LIVE, 1), (1, 0x24), (0, 0x24)],
    'a first entry that is a root':
        [(0, 0x2e, LIVE), (1, 0x05, '', 3), (1, 0x34, DEAD), (1, 0x24)],
    'a first entry that is named': [(0, 0x11), (1, 0x2e, LIVE, 0), (1, 0x24), (1, 0x34, LIVE, 2)],
    'subprograms in each other, and a chain of types':
        [(0, 0x11), (1, 0x2e, DEAD), (2, 0x0b), (3, 0x34, LIVE, 6), (3, 0x2e, DEAD), (2, 0x05, '', 7), (1, 0x24, '', 7),
         (1, 0x16, '', 8), (1, 0x24), (1, 0x16, '', 6)],
    'variables at fixed addresses':
        [(0, 0x11), (1, 0x34, FIXED, 4), (1, 0x34, TOMBSTONE, 5), (1, 0x2e, DEAD), (1, 0x24), (1, 0x24), (1, 0x34)],
}


class Tree:
    """A unit by its entries, of the kind H or G."""
    def __init__(self, rows, kind='H'):
        self.kind, self.start = kind, 11 if kind == 'G' else 12
        self.rows = [(*row, *('', None)[len(row) - 2:]) for row in rows]
        self.parents = [max((j for j in range(i) if self.rows[j][0] < depth), default=None)
                        if depth else None for i, (depth, *_) in enumerate(self.rows)]
        self.declared, self.codes = [], []
        for i, (_, tag, test, names) in enumerate(self.rows):
            words = '%x%s' % (tag, ' children' * (i in self.parents))
            words += {0x2e: ' 11/1b', 0x34: ' 02/18'}[tag] if test else ''
            words += '' if names is None else ' 49/12'
            if words not in self.declared:
                self.declared.append(words)
            self.codes.append(self.declared.index(words) + 1)
        self.table = '; '.join('%d %s' % pair for pair in enumerate(self.declared, 1))

    def parts(self, entries):
        """What is written where these entries are kept, in order: which entry or whose terminator, depth, bytes."""
        out, open_ = [], []
        for i in [*range(len(self.rows)), None]:
            depth = self.rows[i][0] if i is not None else 0
            while open_ and self.rows[open_[-1]][0] >= depth:
                last = open_.pop()
                if last in entries:
                    out.append((('end', last), self.rows[last][0] + 1, '00'))
            if i is None:
                return out
            if i in self.parents:
                open_.append(i)
            if i in entries:
                out.append((i, depth, self.entry(i)))

    def entry(self, i):
        _, tag, test, names = self.rows[i]
        size = 8
        text = '%02x' % self.codes[i]
        if test in (LIVE, DEAD):
            index = '01' if test == LIVE else '00'
            text += ' ' + index if tag == 0x2e else ' 02 a1' + index
        elif test:
            text += ' %02x 03 %d:%x' % (size + 1, size, test == FIXED)
        return text if names is None else text + ' 2:{%d}' % names

    def written(self, entries):
        """Where each part stands, and the entries' bytes."""
        places, at, text = {}, self.start, []
        for part, _, data in self.parts(entries):
            places[part] = at
            at += len(octets(data.format(*[0] * len(self.rows))))
            text.append(data)
        where = ['%x' % places.get(i, 0) for i in range(len(self.rows))]
        return places, ' '.join(text).format(*where)

    def unit(self):
        return '%s %s' % (self.kind, self.written(range(len(self.rows)))[1])

    def above(self, i):
        """The parent of an entry, its parent, and so on."""
        while self.parents[i] is not None:
            i = self.parents[i]
            yield i

    def below(self, i):
        return {j for j in range(len(self.rows)) if i in self.above(j)}

    def roots(self, listed, fixed):
        found = set()
        for i, (_, tag, test, _) in enumerate(self.rows):
            live = test == LIVE or test == FIXED and fixed
            if {1: True, 2: False}.get(listed.get(tag), live):
                found.add(i)
        return found

    def marked(self, keep, fixed=False):
        """The letters of the entries; or the number that a list is refused with."""
        listed = treatments_of(keep)
        if isinstance(listed, int):
            return listed
        roots = self.roots(listed, fixed)
        live = roots.union(*(self.below(i) for i in roots))
        named, before = set(), None
        while before != (live, named):
            before = set(live), set(named)
            kept = self.kept(live)
            named |= {self.rows[i][3] for i in kept} - {None}
            live |= named.union(*(self.below(i) for i in named))
        kept = self.kept(live)
        letters = ['L' if i in live else 'R' if i in kept else 'D' for i in range(len(self.rows))]
        letters[0] = 'L' if 0 in named else 'R'
        return ''.join(letters)

    def kept(self, live):
        """These, the first entry, and all parents."""
        return {0}.union(live, *(self.above(i) for i in live))

    def answer(self, keep, fixed=False):
        """As a case has it."""
        letters = self.marked(keep, fixed)
        if isinstance(letters, int):
            return letters
        old, _ = self.written(range(len(self.rows)))
        marks = ' '.join('%d%s' % (old[i], letter) for i, letter in enumerate(letters))
        if 'D' not in letters:
            return (marks,)
        entries = [i for i, letter in enumerate(letters) if letter != 'D']
        new, text = self.written(entries)
        places = ' '.join('%d>%d@%d' % (old[part], new[part], depth) for part, depth, _ in self.parts(entries))
        return marks, places, text


def tags_of(trees):
    return sorted({row[1] for rows in trees for row in rows})


def lists_of(tags):
    """Each tag with either treatment, beside each other one with the other treatment or the same; and all of them."""
    for k in (1, 2):
        for tag in tags:
            yield '%x=%d' % (tag, k)
        yield ' '.join('%x=%d' % (tag, k) for tag in tags)
        yield ' '.join('%x=%d' % (tag, k if i % 2 else 3 - k) for i, tag in enumerate(tags))
    for low, high in zip(tags, tags[1:]):
        for k in (1, 2):
            yield '%x=%d %x=%d' % (low, k, high, 3 - k)


def trees(kind):
    """Why, list, unit, abbreviations, answer, sections: each tree under lists of its own tags."""
    for why, rows in TREES.items():
        tree = Tree(rows, kind)
        for keep in ['', *lists_of(tags_of([rows]))]:
            for fixed in (False, True) if any(FIXED in row for row in rows) else (False,):
                about = '10.5: %s, by %s' % (why, keep or 'no list') + ', fixed addresses' * fixed
                yield (about, keep, tree.unit(), tree.table, tree.answer(keep, fixed),
                       {'addresses': '0001', 'counts': int(fixed)})


# What all trees are marked by, in marks.py.
LISTS = ['', *lists_of(tags_of(TREES.values())), '24=0', '2e=3 34=1', '24=1 24=2', '2e=2 24=1', '0=2 ffff=1',
         '25=1 2d=2']
