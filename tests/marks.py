#!/usr/bin/python3
"""marks.py [check]: writes the units made by hand of crates/test_marks and the marks that it must print of them; of
crates/marks too.

Each case has the point that it is about (one with a dot is document 02's), its bytes (units.py has the notation) and
the marks that the specification gives, never from a run. It stands in both byte orders, with the same marks, and in
both formats, with the marks of the same entries (wide.py). Units with fixed addresses (fixed.py) have files of their
own, which are marked twice: where these addresses do not count, and where they do. So have units with keep lists
(keep_list.py): a file for those that have a list in common, and one whose units are marked by many lists, one after
another. With `check` nothing is written, and the files are compared with what would be."""
import sys

import failures
import fixed
import keep_list
import older
from units import (A5, BIG, CUT, DANGLING, ESCAPE, FAR, FIVE, FIVE64, FIVE_4, FORMATS, LARGEST, ORDERS, T, T64, Part,
                   asking, bundle_of, far, of_two, placed, unit, with_parts, write)
from wide import OneFormat, Wide

points = {(wide, big): [] for wide in FORMATS for big in ORDERS}  # by the format, and the order that is told
at_fixed = {key: [] for key in points}  # the same, with two answers
by_list = {big: {} for big in ORDERS}  # of the 32-bit format, by the keep list
by_lists = {key: [] for key in points}  # with an answer for each list, and then for each where fixed addresses count


def ways(of_unit, table, expected, locations='', ranges='', addresses='', wrong=False, both=True, older=None):
    """A case in each format and byte order: these, its bundle, and its lines for each of the marks expected."""
    alone = isinstance(of_unit, str) and of_unit.startswith(('W', ESCAPE.hex()))
    for big in ORDERS:
        data = bundle_of(of_unit, table, locations, ranges, addresses, big=big != wrong, older=older)
        yield (alone, big), data, [letters(marks) for marks in expected]
        if both and not alone:
            try:
                made = Wide(of_unit, table, locations, ranges, big=big != wrong, older=older)
            except OneFormat:
                continue
            held = made.bundle(addresses)
            if held != data:
                moved = [marks if marks.startswith('refused') else made.marks(marks) for marks in expected]
                yield (True, big), held, [letters(marks) for marks in moved]


def case(why, of_unit, table, expected, **sections):
    """expected: marks as `12R 13L`, or `refused N`. wrong: the unit is of the order that is not told. A unit `W ..` is
    of the 64-bit format alone; both says whether another stands in both."""
    for way, data, (lines,) in ways(of_unit, table, [expected], **sections):
        points[way].append((why, data, lines))


def twice(why, of_unit, table, off, on, **sections):
    """The marks where fixed addresses do not count, and where they do."""
    for way, data, lines in ways(of_unit, table, [off, on], **sections):
        at_fixed[way].append((why, data, lines))


def second(of_unit, answer):
    """The marks of a unit of two entries, whose second is live or dead; or a refusal by its number."""
    if answer in ('live', 'dead'):
        return '%dR %d' % of_two(of_unit)[:2] + {'live': 'L', 'dead': 'D'}[answer]
    return 'refused %d' % answer


def judged(why, of_unit, table, answer, **sections):
    """answer: of a unit of two entries whether the second is live or dead; or the number of a refusal."""
    case(why, of_unit, table, second(of_unit, answer), **sections)


def letters(expected):
    """The lines of marks."""
    if expected.startswith('refused'):
        return expected + '\n'
    marks = expected.split()
    kept = [m for m in marks if m[-1] in 'RL']
    return ''.join(['entries %d kept %d\n' % (len(marks), len(kept))] + ['%s %s\n' % (m[:-1], m[-1]) for m in marks])


# ---- the five-entry unit
for addresses, expected in (('0100', '12R 13L 16D 17L 18D'), ('0000', '12R 13D 16D 17D 18D'), ('0001', '12R 13D 16L 17D 18L'),
                            ('0101', '12R 13L 16L 17L 18L'), ('0200', 'refused 6'), ('01', 'refused 17')):
    case('P1 to P6 (5.3: P5, P6)', FIVE, A5, expected, addresses=addresses)
case('P7', '', A5, '')

# ---- points
R = '1 11 children; 2 2e 55/23'
V = '1 11 children; 2 34 02/18'
L = '1 24 children 02/22; 2 24'
X = '1 24 02/18; 2 24'
case('1: data4 is another form, so ranges are live', 'H 01 02 00000000 00', '1 11 children; 2 2e 55/06', '12R 13L')
case('1: a location in data4 is nothing', 'H 01 4:1', '1 34 02/06', '12R')
case('1: behind indirect too', 'H 01 02 06 00000000 00', '1 11 children; 2 2e 55/16', '12R 13L')
case('11: a surplus terminator before the first entry', 'H 00 03 03', A5, '13R 14D')
case('11: a list of children that is open at the end', 'H 01 03', A5, '12R 13D')
case('11: a second tree', 'H 03 03', A5, '12R 13D')
case('11: a surplus terminator at the end', 'H 03 00', A5, '12R')
case('12: what follows a live index in its expression is asked', 'H 01 02 04 a101a102 00', V, 'refused 17', addresses='0001')
case('13: what follows a live location is not', 'H 01 02 02a101 02a107 00', '1 11 children; 2 34 02/18 02/18', '12R 13L', addresses='0001')
case('14: a nested entry value is stepped over', 'H 01 02 05 a301ff a102 00', V, 'refused 17', addresses='0001')
case('14: its indexes are not asked', 'H 01 02 04 a302 a101 00', V, '12R 13D', addresses='0001')
case('15: an entry is read whole before it is judged', 'H 01 02 00 00', R, 'refused 5', ranges=T + '0200', addresses='02')
case('16: the section\'s end is an empty list', 'H 01 02 00 00', R, '12R 13D', ranges=T)
case('16: past it is live', 'H 01 02 00 00', R, '12R 13L', ranges='z t:5')
case('16: so is a table place that is cut', 'H 01 02 00 00', R, '12R 13L', ranges=CUT)
case('16: locations at the end', 'H 01 00 02 00', L, '12R 14D', locations=T)
case('16: locations past it', 'H 01 00 02 00', L, 'refused 5', locations='z t:5')
case('16: a table place of locations that is cut', 'H 01 00 02 00', L, 'refused 5', locations=CUT)
case('17: an index whose place is above 64 bits', 'H 01 02 %s 00' % BIG, R, '12R 13L', ranges=T)
case('17: of locations', 'H 01 %s 02 00' % BIG, L, 'refused 5', locations=T)
case('18: what follows a live range is not read', 'H 01 02 00 00', R, '12R 13L', ranges=T + '040000ff')
case('18: nor what follows a live low_pc', 'H 01 02 00 07 00 00', '1 11 children; 2 2e 11/1b 11/1b 55/23', '12R 13L', ranges=T + 'ff', addresses='01')
case('19: base_addressx asks though no pair follows', 'H 01 02 00 00', R, 'refused 6', ranges=T + '0100', addresses='02')
case('a dead base makes its pairs dead', 'H 01 02 00 00', R, '12R 13D', ranges=T + '0100 040001 00', addresses='00')
case('a live base after it', 'H 01 02 00 00', R, '12R 13L', ranges=T + '0100 040001 0101 040001 00', addresses='0001')
case('a dead base leaves start forms alone', 'H 01 02 00 00', R, '12R 13L', ranges=T + '0100 030101 00', addresses='0001')
case('20: the older test asks no table', 'H 01 02 00000000 00', '1 11 children; 2 2e 55/17', '12R 13L', ranges='0100', addresses='02')
for entries in ('0101', '0102'):
    case('20, 5.3: the older test asks no table: %s' % entries, 'H 01 02 00000000 00', '1 11 children; 2 2e 55/17', '12R 13L',
         ranges=entries, addresses='0002')
case('20: its end entry is dead', 'H 01 02 00000000 00', '1 11 children; 2 2e 55/17', '12R 13D', ranges='00')
case('20: base_address only is skipped', 'H 01 02 00000000 00', '1 11 children; 2 2e 55/17', '12R 13D', ranges='05' + '11' * 8 + '00')
case('21: of two bases the last', 'H 01 4:0 4:4 02 00 00', '1 11 children 74/17 74/17; 2 2e 55/23', '12R 21D',
     ranges='ffffffff t:4 00')
case('21: a nested unit entry counts, from itself on', 'H 01 02 00 03 4:4 02 00 00', '1 11 children; 2 2e 55/23; 3 11 74/17', '12R 13D 15D 20L',
     ranges='4:0 t:4 04010200 |ffffffff t:4')
case('21: only a compile unit\'s own', 'H 01 4:4 02 00 00', '1 24 children 74/17; 2 2e 55/23', '12R 17D',
     ranges='4:0 t:4 04010200 |ffffffff t:0 0000')
case('22: low_pc in a reference form', 'H 01 02 0c 00', '1 11 children; 2 2e 11/11', '12L 13L')
case('23: the root test before the references', 'H 01 02 00000000 00 00', '1 11 children; 2 2e 49/10 55/23', 'refused 5', ranges=T + 'ff')
case('24: an expression before the next list entry', 'H 01 00 02 00', L, 'refused 7',
     locations=T + '05 05|09 9a o:0 ff')
case('25: a dangling reference in a location list', 'H 01 00 02', '1 24 02/22; 2 24', '12R 14D',
     locations=T + '050398 2@63 00')
case('57: one that names an entry', 'H 01 00 02', '1 24 02/22; 2 24', '12R 14L', locations=T + '050398 2@e 00')
case('a list under another name counts for nothing', 'H 01 00 02', '1 24 40/22; 2 24', '12R 14D',
     locations=T + '050398 2@e 00')
case('26: call2 with 0 dangles', 'H 01 03 98 2:0 02', X, '12R 17D')
case('26: convert with 0 is no reference', 'H 01 02 a800 02', X, '12R 16D')
case('26: so with a padded 0', 'H 01 03 a88000 02', X, '12R 17D')
case('27: a reference to a terminator marks nothing', 'H 01 0f 02 00', '1 24 children 49/11; 2 24', '12R 14D')
case('28: a block is no expression', 'H 01 03 980e00 02', '1 24 02/0a; 2 24', '12R 17D')
case('an exprloc is, under any name', 'H 01 03 98 2:11 02', '1 24 40/18; 2 24', '12R 17L')
case('29: breg31', 'H 01 02 8f00 02', X, '12R 16D')
case('29: register 65,536', 'H 01 05 a580800400 02', X, 'refused 5')
case('29: 0xf0', 'H 01 01 f0 02', X, 'refused 5')
case('30: a base in data4 does not count', 'H 01 4:4 02 00 00', '1 11 children 74/06; 2 2e 55/23', '12R 17L')
case('31: a first entry that is a root', 'H 01 00 02 00', '1 2e children 11/1b; 2 24', '12R 14L', addresses='01')
case('31: one that names itself', 'H 01 0c', '1 24 49/11', '12L')
case('31: one that a dead entry names', 'H 01 02 0c 00', '1 11 children; 2 24 49/11', '12R 13D')
case('31: one that a survivor names, and all below it', 'H 01 02 00 0c 03 00', '1 11 children; 2 2e 11/1b 49/11; 3 24', '12L 13L 16L', addresses='01')
case('38: sec_offset behind indirect', 'H 01 02 17 00000000 00', '1 11 children; 2 2e 55/16', '12R 13D', ranges='00')
case('39: low_pc of another tag is not asked', 'H 01 02 07 00', '1 11 children; 2 0b 11/1b', '12R 13D', addresses='00')
case('39: nor an index in a location list', 'H 01 02 00 00', '1 11 children; 2 34 02/22', '12R 13D', locations=T + '0502a107 00', addresses='00')
case('41: the first ranges attribute decides', 'H 01 02 00 00 00', '1 11 children; 2 2e 55/23 55/0b', '12R 13D', ranges=T)
case('42: a section-absolute sibling', 'H 01 00000000', '1 24 01/10', '12R')
case('42: ref_addr behind indirect', 'H 01 10 00000000', '1 24 49/16', '12R')
case('ref_addr', 'H 01 00000000', '1 24 49/10', 'refused 7')
case('40: GNU_variable_value', 'H 01 05 fd00000000 02', X, 'refused 7')
case('44: 5 before 7 in one expression', 'H 01 08 9a00000000a301ff 02', X, 'refused 5')
case('56: each low_pc in turn', 'H 01 02 00 01 00', '1 11 children; 2 2e 11/1b 11/1b', '12R 13L', addresses='0001')
case('a sibling names nothing', 'H 01 0e 02', '1 24 01/11; 2 24', '12R 14D')
case('constx is no addrx', 'H 01 02 02 a200 00', V, '12R 13D', addresses='01')
case('GNU_addr_index is', 'H 01 02 02 fb00 00', V, '12R 13L', addresses='01')
case('a direct address makes no root', 'H 01 02 09 03 8:8877665544332211 00', V, '12R 13D')
case('of a subprogram it does', 'H 01 02 8:8877665544332211 00', '1 11 children; 2 2e 11/01', '12R 13L')
case('but for a tombstone', 'H 01 02 ffffffffffffffff 00', '1 11 children; 2 2e 11/01', '12R 13D')
case('references of a retained entry', 'H 01 0f 02 02', '1 24 49/11; 2 24', '12R 14D 15L')
case('a parent of a named entry is retained, and its references count', 'H 01 10 02 12 03 00 03 03 00', '1 11 children 49/11; 2 24 children 49/11; 3 24', '12R 14R 16L 18L 19D')
case('every form that names', 'H 01 1d 2:1e 4:1f 8:20 21 02 02 02 02 02 02', '1 11 49/11 49/12 49/13 49/14 49/15; 2 24', '12R 29L 30L 31L 32L 33L 34D')

# ---- 36: the tables' lengths among an entry's other numbers
MANY = '1 11 children; 2 24; 3 24 49/10; 4 24 49/11 49/11 49/11 49/11 49/11; 5 24 49/11 49/11; 6 24 49/11 02/18; 7 34 02/18'
FULL = b'\1' + b'\2' * 2047
ROWS = '12R ' + ' '.join('%dD' % n for n in range(13, 2060))
case('36: exactly full', FULL, MANY, ROWS)
case('36: one more entry', FULL + b'\2', MANY, 'refused 10')
case('36: one more that is unreadable', FULL + b'\x63', MANY, 'refused 4')
case('36: one more whose references are refused', FULL + b'\3' + bytes(4), MANY, 'refused 10')
case('36: one more whose root test is refused', FULL + b'\7\2\xa1\7', MANY, 'refused 10', addresses='00')
case('36: terminators need no room', FULL + b'\0\0\0', MANY, ROWS)
SIX = b'\1' + b'\4\1\1\1\1\1' * 1638  # 8,190 references, all dangling
PLACES = [12] + [13 + 6 * k for k in range(1639)]
case('36: exactly full of references', SIX + b'\5\1\1', MANY, '12R ' + ' '.join('%dD' % n for n in PLACES[1:]))
case('36: one entry with too many', SIX + b'\4\1\1\1\1\1', MANY, 'refused 11')
case('36: its own refusal goes first', SIX + b'\5\1\1' + b'\6\1\1\xff', MANY, 'refused 5')
case('36: before the next entry', SIX + b'\4\1\1\1\1\1' + b'\x63', MANY, 'refused 11')

# ---- document 02, point 2: a table of length 0 knows no address, and each index that is asked is live
P = '1 11 children; 2 2e 11/%s'
case('2.4, 5.1: the five-entry unit with no table', FIVE, A5, '12R 13L 16L 17L 18L')
case('2.4: what nothing asks for is dead all the same', 'H 01 020011 03 03 03 00', A5, '12R 13L 16D 17L 18D')
case('2.4: a first entry that is a root', 'H 01 07 02 00', '1 2e children 11/1b; 2 24', '12R 14L')
case('2.4: one with no children', 'H 01 02a107 02', '1 34 02/18; 2 24', '12R 16D')
for index in ('00', '07', '8780808000', LARGEST):
    for asks, of_unit, table, ranges in asking(index):
        case('2.3: %s, index %s' % (asks, index), of_unit, table, '12R 13L', ranges=ranges)
for form, index in (('29', '07'), ('29', 'ff'), ('2a', '2:7'), ('2a', 'ffff'), ('2b', '3:7'), ('2b', 'ffffff'), ('2c', '4:7'), ('2c', 'ffffffff'),
                    ('16', '1b07'), ('16', '2c 4:7')):
    case('2.1: low_pc in form %s, %s' % (form, index), 'H 01 02 %s 00' % index, P % form, '12R 13L')
case('2.1: the second low_pc', 'H 01 02 0000000000000000 07 00', P % '01 11/1b', '12R 13L')
case('2.1: ranges after a dead low_pc', 'H 01 02 0000000000000000 00 00', P % '01 55/23', '12R 13L', ranges=T + '030701 00')
case('2.1: a location behind indirect', 'H 01 02 18 02 a107 00', '1 11 children; 2 34 02/16', '12R 13L')
case('2.1: the second location', 'H 01 02 00 02a107 00', '1 11 children; 2 34 02/18 02/18', '12R 13L')
for kind, size in (('H', 8), ('H4', 4)):
    for address in ('00' * size, 'ff' * size):
        case('2.1: low_pc, a direct address %s' % address, '%s 01 02 %s 00' % (kind, address), P % '01', '12R 13D')
        for entry in ('05%s 040001', '06%s' + ' %d:1 ' % size, '07%s 01'):
            case('2.1: range list kind %s, %s' % (entry[:2], address), kind + ' 01 02 00 00', R, '12R 13D', ranges=T + entry % address + '00')
        case('2.1: DW_OP_addr, %s' % address, '%s 01 02 %02x 03 %s 00' % (kind, size + 1, address), V, '12R 13D')
case('2.1: an address that is no tombstone', 'H 01 02 8:ffffffff 00', P % '01', '12R 13L')
case('2.1: but in DW_OP_addr', 'H 01 02 09 03 8:ffffffff 00', V, '12R 13D')
case('2.1: a dead base behind a live one', 'H 01 02 00 00', R, '12R 13D', ranges=T + '0105 05' + '00' * 8 + '040000 00')
case('2.1: a live base behind a dead one', 'H 01 02 00 00', R, '12R 13L', ranges=T + '05' + '00' * 8 + '0105 040000 00')
case('2.1: a start form under a dead base', 'H 01 02 00 00', R, '12R 13L', ranges=T + '05' + '00' * 8 + '030501 00')
case('2.2: base_addressx with no pair', 'H 01 02 00 00', R, '12R 13D', ranges=T + '0105 00')
for expression in ('a205', 'fc05', 'a302a105', 'f302a105', 'a304a302a105', '9e02a105'):
    case('2.2: no addrx: %s' % expression, 'H 01 02 %02x %s 00' % (len(expression) // 2, expression), V, '12R 13D')
case('2.2: one behind an entry value', 'H 01 02 06 a302a105 a105 00', V, '12R 13L')
case('2.2: every kind of location list entry with an index', 'H 01 02 00 00', '1 11 children; 2 34 02/22', '12R 13D',
     locations=T + '0107 02070802a107 03070102a107 0502a107 00')
for tag in ('05', '0a', '11', '1d', '24', '34', '48'):
    case('2.2: low_pc of the tag %s' % tag, 'H 01 02 07 00', '1 11 children; 2 %s 11/1b' % tag, '12R 13D')
for tag in ('05', '0b', '24', '2e', '48'):
    case('2.2: a location of the tag %s' % tag, 'H 01 02 02a107 00', '1 11 children; 2 %s 02/18' % tag, '12R 13D')
for name in ('12', '52'):
    case('2.2: a subprogram\'s attribute %s' % name, 'H 01 02 07 00', '1 11 children; 2 2e %s/1b' % name, '12R 13D')
case('2.2: a variable\'s attribute 40', 'H 01 02 02a107 00', '1 11 children; 2 34 40/18', '12R 13D')
case('2.2: a location in a block', 'H 01 02 02a107 00', '1 11 children; 2 34 02/0a', '12R 13D')
case('2.3: a live index, then an unknown operation', 'H 01 02 03 a105ff 00', V, 'refused 5')
case('2.3: a live index, then call_ref', 'H 01 02 07 a105 9a00000000 00', V, 'refused 7')
case('2.3: a live location, then one that is unreadable', 'H 01 02 02a105 01ff 00', '1 11 children; 2 34 02/18 02/18', 'refused 5')
case('2.3: an operation\'s index that is cut', 'H 01 02 02 a180 00', V, 'refused 5')
case('2.3: one above 64 bits', 'H 01 02 0b a1ffffffffffffffffff02 00', V, 'refused 5')
case('2.3: low_pc above 64 bits', 'H 01 02 ffffffffffffffffff02 00', P % '1b', 'refused 4')
case('2.3: low_pc that is cut', 'H 01 02 87', P % '1b', 'refused 4')
for entries in ('01', '0187', '0207', '0287', '020787', '0307', '030787', '03ffffffffffffffffff0201', '0107ff', '010704'):
    case('2.3: a range list %s' % entries, 'H 01 02 00 00', R, 'refused 5', ranges=T + entries)
for entries in ('020708ff', '030701ff', '0107040001ff', '030701'):
    case('2.3: what follows a live range is not read: %s' % entries, 'H 01 02 00 00', R, '12R 13L', ranges=T + entries)
case('2.3: nor what follows a live low_pc', 'H 01 02 07 07 00 00', P % '1b 11/1b 55/23', '12R 13L', ranges=T + 'ff')
case('2.5: 15 with no table', 'H 01 02 00 00', R, 'refused 5', ranges=T + '0200')
case('2.5: 19 with no table', 'H 01 02 00 00', R, '12R 13D', ranges=T + '0100')
case('2.5: 20 with no table', 'H 01 02 00000000 00', '1 11 children; 2 2e 55/17', '12R 13L', ranges='0100')
case('2.5: 36 with no table', FULL + b'\7\2\xa1\7', MANY, 'refused 10')
case('2.5: 39 with no table', 'H 01 02 07 00', '1 11 children; 2 0b 11/1b', '12R 13D')
for addresses, index, expected in (('00', '00', '12R 13D'), ('00', '01', 'refused 17'), ('01', '00', '12R 13L'),
                                   ('01', '01', 'refused 17'), ('02', '00', 'refused 6')):
    for asks, of_unit, table, ranges in asking(index):
        case('2.4, 5.3: a table %s: %s, index %s' % (addresses, asks, index), of_unit, table, expected, ranges=ranges,
             addresses=addresses)

# ---- document 02, point 5: 6 for a byte above 1, 17 for an index past the end of a table that isn't empty
for why, of_unit, table, answer, sections in failures.cases():
    judged(why, of_unit, table, answer, **sections)
for n, byte in failures.EVERY:
    places, of_unit, table, ranges, addresses = failures.every(n, byte)
    case('5.3: the last index of %d' % n, of_unit, table, '12R ' + ' '.join('%d%s' % (at, 'DL'[byte]) for at in places),
         ranges=ranges, addresses=addresses)
case('5.2: 10 of the same entry', FULL + b'\7\2\xa1\0', MANY, 'refused 10', addresses='02')

# ---- document 02, point 12: all cases stand in both byte orders. Told wrongly, a unit is refused; fields whose bytes
# differ, so that the other order would read another number
TURNED = '%s 2:500 01 08 4:0 01 020011 03 03 020110 00'
case('12.3: the five-entry unit, told wrongly', FIVE, A5, 'refused 1', addresses='0100', wrong=True)
case('12.3: its version alone is of the other order', TURNED % '4:12', A5, 'refused 2', addresses='0100')
case('12.3: its length alone', TURNED % '4:12', A5, 'refused 1', addresses='0100', wrong=True)
case('12.3: a length of 0xfffffff0', '4:fffffff0 2:5 01 08 4:0', A5, 'refused 2')
case('12.3: the same, told wrongly', '4:fffffff0 2:5 01 08 4:0', A5, 'refused 1', wrong=True)
case('12.3: a length of 0xf0ffffff', '4:f0ffffff 2:5 01 08 4:0', A5, 'refused 1')
case('12.3: the same, told wrongly', '4:f0ffffff 2:5 01 08 4:0', A5, 'refused 2', wrong=True, both=False)
case('12.3, 6.1: a length of all ones, told wrongly', 'ffffffff', A5, 'refused 1', wrong=True)
case('12.3: an empty section, told wrongly', '', A5, '', wrong=True)
case('12.3: a unit with no entries, told wrongly', 'H', A5, 'refused 1', wrong=True)
case('12: unit type 5', 'H5 01 020019 03 03 020118 00', A5, '20R 21L 24D 25L 26D', addresses='0100')
case('12: abbreviations from 0x102 on', 'HA 01 020011 03 03 020110 00', 'ff' * 258 + A5, '12R 13L 16D 17L 18D', addresses='0100')
case('12: references of each width', 'H ' + far(301) + ' 02' * 8, FAR, '12R ' + ' '.join('%dL' % n for n in range(301, 308)) + ' 308D')
for of_unit, table in DANGLING:
    place = len(bundle_of(of_unit, table)) - len(bundle_of('', table)) - 1
    case('12: a dangling reference', of_unit, table, '12R %dD' % place)
case('12.2: ref_udata is the same', 'H 01 9000 02 02', '1 24 49/15; 2 24', '12R 15D 16L')
for form, width in (('2a', 2), ('2b', 3), ('2c', 4)):
    for byte, answer in (('01', 'L'), ('00', 'D')):
        case('12.1: low_pc in form %s, index 0x102' % form, 'H 01 02 %d:102 00' % width, P % form, '12R 13' + answer, addresses='00' * 258 + byte)
    case('12.1: low_pc in form %s, index 0x201' % form, 'H 01 02 %d:201 00' % width, P % form, 'refused 17', addresses='00' * 259)
for kind, size in (('H', 8), ('H4', 4)):
    for address in (1, 256, 256 ** size - 2, 256 ** size - 256, 256 ** (size - 1)):
        number = ' %d:%x ' % (size, address)
        case('12: low_pc, a direct address%s' % number, kind + ' 01 02%s00' % number, P % '01', '12R 13L')
        for entry in ('05%s 040001', '06%s' + number, '07%s 01'):
            case('12: range list kind %s,%s' % (entry[:2], number), kind + ' 01 02 00 00', R, '12R 13L', ranges=T + entry % number + '00')
case('12: a list by its offset', 'H 01 02 00 00', R, '12R 13D', ranges='z t:104 ' + 'ff' * 256 + '00')
case('12: by the second of two', 'H 01 02 01 00', R, '12R 13D', ranges='z t:9 t:8 00 ff')
case('12: by the first', 'H 01 02 00 00', R, 'refused 5', ranges='z t:9 t:8 00 ff')
case('12: a base of its own', 'H 01 4:104 02 00 00', '1 11 children 74/17; 2 2e 55/23', '12R 17D',
     ranges='ff' * 260 + ' t:4 00')
case('12: ranges in sec_offset', 'H 01 02 4:102 00', '1 11 children; 2 2e 55/17', '12R 13D', ranges='ff' * 258 + '00')
case('12: a list of locations by its offset', 'H 01 00 02', '1 24 02/22; 2 24', '12R 14L',
     locations='z t:104 ' + 'ff' * 256 + '05 03 98 2@e 00')
case('12: with a base of its own', 'H 01 4:104 00 02', '1 11 8c/17 02/22; 2 24', '12R 18L',
     locations='ff' * 260 + ' t:4 05 05 99 4@12 00')
case('12: a location in sec_offset', 'H 01 4:102 02', '1 24 02/17; 2 24', '12R 17L',
     locations='ff' * 258 + '05 05 fa 4@11 00')
case('12: every kind of location list entry with addresses', 'H 01 00 02 02', '1 24 02/22; 2 24', '12R 14L 15L',
     locations=T + '06 8:1 07 8:1 8:2 03 98 2@e 08 8:1 05 03 98 2@f 00')
case('12: and of four bytes', 'H4 01 00 02 02', '1 24 02/22; 2 24', '12R 14L 15L',
     locations=T + '06 4:1 07 4:1 4:2 03 98 2@e 08 4:1 05 03 98 2@f 00')
for form in ('10', '20'):
    answer = {'10': 'refused 7', '20': '12R %dD' % (13 + 8)}[form]
    case('12: form %s' % form, 'H 01 %s 02' % {'10': '4:c', '20': '8:c'}[form], '1 24 49/%s; 2 24' % form, answer)
for code in ('9a 4:11', 'a0 4:11 00', 'f2 4:11 00', 'fd 4:11'):
    case('12: a section-absolute operand', 'H 01 %02x %s 02' % (6 if code.endswith('00') else 5, code), X, 'refused 7')


# ---- document 02, point 6: all cases stand in both formats. Here are those of the 64-bit one alone: what is as wide as
# an offset, and what is not
case('6.1: the escape alone', 'ffffffff', A5, 'refused 1')
case('6.1: seven bytes of a length', 'ffffffff 00000000000000', A5, 'refused 1')
case('6.1: a length past the section, before the version', 'ffffffff 8:d 2:3 01 08 8:0', A5, 'refused 1')
case('6.1: a length whose sum with 12 is above 64 bits',
     'ffffffff 8:fffffffffffffff8 2:5 01 08 8:0 01 02001d 03 03 02011c 00', A5, 'refused 1')
case('6.1: a reserved length', '4:fffffffe 8:16 2:5 01 08 8:0 01 02001d 03 03 02011c 00', A5, 'refused 2')
case('6.2: a small unit of the 64-bit format', 'W', A5, '')
case('6.2: the five-entry unit', FIVE64, A5, '24R 25L 28D 29L 30D', addresses='0100')
case('6: unit type 5', 'W5 01 020025 03 03 020124 00', A5, '32R 33L 36D 37L 38D', addresses='0100')
case('6: an abbreviation offset of 2^32', 'ffffffff 8:d 2:5 01 08 8:100000000 03', A5, 'refused 3')
OLDER, OWN, LIST = '1 11 children; 2 2e 55/17', '1 11 children 74/17; 2 2e 55/23', '1 24 02/22; 2 24'
case('6.3: a list offset that wraps', 'W 01 02 00 00', R, '24R 25L', ranges='00' * 20 + ' 8:ffffffffffffffec 00')
case('6.3: of locations', 'W 01 00 02', LIST, 'refused 5', locations='00' * 20 + ' 8:ffffffffffffffec')
case('6.3: an index of 2^61', 'W 01 02 808080808080808020 00', R, '24R 25L', ranges=T64 + '00')
case('6.4: a location in data8', 'W 01 8:9', '1 34 02/07', '24R')
case('6.4: ranges in data8', 'W 01 02 8:0 00', '1 11 children; 2 2e 55/07', '24R 25L')
case('6.4: ranges in data4', 'W 01 02 4:0 00', '1 11 children; 2 2e 55/06', '24R 25L')
case('6.5: GNU_parameter_ref', 'W 01 05 fa 4:1f 02', X, '24R 31L')
for code, more in (('9a', ''), ('a0', '00'), ('f2', '7f'), ('fd', '')):
    case('6.5: an offset in operation %s' % code, 'W 01 %02x %s 8:0 %s 02' % (9 + len(more) // 2, code, more), X,
         'refused 7')
    case('6.5: of four bytes', 'W 01 %02x %s 4:0 %s 02' % (5 + len(more) // 2, code, more), X, 'refused 5')
case('6.5: ref_addr', 'W 01 8:0', '1 24 49/10', 'refused 7')
case('6.5: ref_addr of four bytes', 'W 01 4:0', '1 24 49/10', 'refused 4')
case('6.5: ref_sup4 keeps its width', 'W 01 4:0', '1 24 3a/1c', '24R')
case('6: an offset in a table with a high word', 'W 01 02 00 00', R, '24R 25L', ranges='00' * 20 + ' 8:100000008 00')
case('6.11: a base of its own', 'W 01 8:4 02 00 00', OWN, '24R 33D', ranges='ffffffff 8:8 00')
case('6.11: with a high word', 'W 01 8:100000004 02 00 00', OWN, '24R 33L', ranges='ffffffff 8:8 00')
case('6: ranges in sec_offset with a high word', 'W 01 02 8:100000000 00', OLDER, '24R 25L', ranges='00')
case('6: ref8 with a high word', 'W 01 8:100000021 02', '1 24 49/14; 2 24', '24R 33D')
case('6: ref8', 'W 01 8:21 02', '1 24 49/14; 2 24', '24R 33L')

# ---- document 02, point 4: version 4 units
for kind in ('G', 'G4'):
    five = FIVE_4.replace('G', kind)
    for addresses, expected in (('0100', '11R 12L 15D 16L 17D'), ('0000', '11R 12D 15D 16D 17D'),
                                ('0001', '11R 12D 15L 16D 17L'), ('0101', '11R 12L 15L 16L 17L'), ('0200', 'refused 6'),
                                ('01', 'refused 17'), ('', '11R 12L 15L 16L 17L')):
        case('4: P1 to P6 in version 4', five, A5, expected, addresses=addresses)
        case('4.10: in a bundle of version 2', five, A5, expected, addresses=addresses, older=older.SOMETHING)
        case('4: by GNU_addr_index', five, '1 11 children; 2 2e 11/1f01 49/11; 3 24', expected, addresses=addresses)
    case('4.2: no entries', kind, A5, '')
case('4.10: P1 in a bundle of version 2', FIVE, A5, '12R 13L 16D 17L 18D', addresses='0100', older=older.SOMETHING)
case('4.2: the abbreviation offset', 'GA 01 020010 03 03 02010f 00', 'ff' * 258 + A5, '11R 12L 15D 16L 17D',
     addresses='0100')
case('4: told wrongly', FIVE_4, A5, 'refused 1', addresses='0100', wrong=True)
for n in range(1, len(unit(FIVE_4))):
    case('4.2: %d bytes of a unit' % n, 'cut %d %s' % (n, FIVE_4), A5, 'refused 1')
for version in (0, 1, 2, 3, 6, 0x400, 0xffff):
    case('4.2: version %d' % version, '4:7 2:%x 4:0 08' % version, A5, 'refused 2')
for size in (0, 1, 2, 3, 5, 16, 255):
    case('4.2: address size %d' % size, '4:7 2:4 4:0 %02x' % size, A5, 'refused 2')
case('4.2: cut at the address size', '4:6 2:4 4:0 08', A5, 'refused 1')
for why, of_unit, table, answer, sections in older.cases():
    judged(why, of_unit, table, answer, **sections)


# ---- document 02, point 7: variables at a fixed address
for why, of_unit, table, off, on, sections in fixed.EACH:
    twice(why, of_unit, table, second(of_unit, off), second(of_unit, on), **sections)
TYPED = '1 11 children; 2 34 02/18 49/11; 3 24'
for address, on in (('8:1', '12R 13L 25D 26L'), ('8:0', '12R 13D 25D 26D'), ('8:ffffffffffffffff', '12R 13D 25D 26D')):
    twice('7: what it names, %s' % address, 'H 01 02 09 03 %s 1a 03 03 00' % address, TYPED, '12R 13D 25D 26D', on)
twice('7: what its expression names', 'H 01 02 0c 03 8:1 98 2:1c 03 03 00', '1 11 children; 2 34 02/18; 3 24',
      '12R 13D 27D 28D', '12R 13L 27D 28L')
twice('7: its parent is retained', 'H 01 02 03 09 03 8:1 04 00 04 00', '1 11 children; 2 39 children; 3 34 02/18; 4 24',
      '12R 13D 14D 25D 27D', '12R 13R 14L 25D 27D')
STATIC = '1 11 children; 2 2e children 11/1b; 3 34 02/18; 4 24'
twice('7: a static variable of a dead subprogram', 'H 01 0200 03 09 03 8:1 04 00 04 00', STATIC,
      '12R 13D 15D 26D 28D', '12R 13R 15L 26D 28D', addresses='00')
twice('7: of one whose index is past the end', 'H 01 0209 03 09 03 8:1 00 00', STATIC, 'refused 17', 'refused 17',
      addresses='00')
twice('7: what is below it', 'H 01 02 09 03 8:1 03 00 03 00', '1 11 children; 2 34 children 02/18; 3 24',
      '12R 13D 24D 26D', '12R 13L 24L 26D')
twice('7: a variable below a variable', 'H 01 02 09 03 8:0 02 09 03 8:1 00 00 00', '1 11 children; 2 34 children 02/18',
      '12R 13D 24D', '12R 13R 24L')
twice('7: unit type 5', 'H5 01 02 09 03 8:1 00', V, '20R 21D', '20R 21L')
twice('7: a padded length', 'H 01 02 8900 03 8:1 00', V, '12R 13D', '12R 13L')
twice('7: an entry value with a padded length', 'H 01 02 0d a38900 03 8:1 96 00', V, '12R 13D', '12R 13D')
twice('7: an address in the block of a const_type', 'H 01 02 0d a400 0a 03 8:1 96 00', V, '12R 13D', '12R 13D')
twice('7: one of several', 'H 01 02 09 03 8:0 02 02 a100 02 02 a101 02 09 03 8:1 00', V,
      '12R 13D 24D 28L 32D', '12R 13D 24D 28L 32L', addresses='0001')
twice('7: the five-entry unit', FIVE, A5, '12R 13L 16D 17L 18D', '12R 13L 16D 17L 18D', addresses='0100')
twice('7: told the wrong order', 'H 01 02 09 03 8:1 00', V, 'refused 1', 'refused 1', wrong=True)


# ---- document 02, point 10: keep lists
def marks_of(answer):
    """An answer of keep_list.py, as `case` has it."""
    return 'refused %d' % answer if isinstance(answer, int) else ' '.join(answer[:1])


for why, keep, of_unit, table, answer, sections in keep_list.HAND:
    if isinstance(keep, str) and 'counts' not in sections:
        for (_, big), data, (lines,) in ways(of_unit, table, [marks_of(answer)], both=False, **sections):
            by_list[big].setdefault(keep, []).append((why, data, lines))
for kind in 'HG':
    for why, rows in keep_list.TREES.items():
        tree = keep_list.Tree(rows, kind)
        answers = [marks_of(tree.answer(keep, fixed)) for fixed in ORDERS for keep in keep_list.LISTS]
        for way, data, lines in ways(tree.unit(), tree.table, answers, addresses='0001', both=kind == 'H'):
            by_lists[way].append((why, data, lines))
for why, number, _, of_unit, table, sections in keep_list.ENTRY_REFUSALS:
    found = [keep_list.treatments_of(keep) for keep in keep_list.LISTS]
    answers = ['refused %d' % (listed if isinstance(listed, int) else number) for listed in found]
    for way, data, lines in ways(of_unit, table, answers * 2, **sections):
        by_lists[way].append((why, data, lines))


def list_parts():
    """Parts and files of these. All lists in the first, some in the others."""
    names = {}  # of the files, by what they hold: several lists may have the same units
    for big in ORDERS:
        words, text, made = [], '', {}
        for keep, cases in by_list[big].items():
            # a unit that has its list alone is marked twice: as one bundle it may be another crate's file
            cases = [(data, lines) for _, data, lines in cases] * (1 + (len(cases) == 1))
            units = b''.join(data for data, _ in cases)
            name = names.setdefault(units, 'keep-%d%s.bundles' % (len(names) + 1, '-big' * big))
            words += [keep_list.word(keep), name]
            text += placed(name, cases)
            made[name] = units
        heading = '%sunits, each with its keep list' % ('big-endian ' * big)
        yield Part(heading, 'marks', words, text, big), made
    for (wide, big), cases in by_lists.items():
        name = 'keep%s%s.bundles' % ('-64' * wide, '-big' * big)
        for on in (False, True):
            words, text = [], ''
            for n, keep in list(enumerate(keep_list.LISTS))[::1 + 3 * (wide or big) + 4 * on]:
                words += [keep_list.word(keep), name]
                text += placed(name, [(data, lines[n + on * len(keep_list.LISTS)]) for _, data, lines in cases])
            heading = '%sunits by keep lists%s%s' % ('big-endian ' * big, ', where fixed addresses count' * on,
                                                     ', 64-bit format' * wide)
            yield Part(heading, 'marks', words, text, big, on), {name: b''.join(data for _, data, _ in cases)}


def main():
    # the program that marks one bundle: it has each option
    tree, keep = keep_list.Tree(keep_list.TREES['variables at fixed addresses']), '24=2 2e=1'
    made = {'marks/stdin': bundle_of(tree.unit(), tree.table, addresses='0001', big=True),
            'marks/stdout': letters(marks_of(tree.answer(keep, True))).encode(),
            'marks/args': ('--fixed-addresses\n%s\n--big-endian\n' % keep_list.word(keep)).encode()}
    held = []
    for (wide, big), cases in points.items():
        name = 'points%s%s.bundles' % ('-64' * wide, '-big' * big)
        heading = '%sunits made by hand%s' % ('big-endian ' * big, ', 64-bit format' * wide)
        held.append(Part(heading, 'marks', [name], placed(name, [(data, lines) for _, data, lines in cases]), big))
        made['test_marks/data/' + name] = b''.join(data for _, data, _ in cases)
    for (wide, big), cases in at_fixed.items():
        for on in (True, False):
            name = 'fixed%s%s.bundles' % ('-64' * wide, '-big' * big)
            heading = '%sunits with fixed addresses, which %s%s' % ('big-endian ' * big,
                                                                    'count' if on else 'do not count',
                                                                    ', 64-bit format' * wide)
            text = placed(name, [(data, lines[on]) for _, data, lines in cases])
            held.append(Part(heading, 'marks', [name], text, big, on))
            made['test_marks/data/' + name] = b''.join(data for _, data, _ in cases)
    for part, files in list_parts():
        held.append(part)
        made.update({'test_marks/data/' + name: data for name, data in files.items()})
    made.update(with_parts('test_marks', held))
    wrong = write(made, sys.argv[1:] == ['check'])
    print('marks: in each byte order %d points of the 32-bit format, %d of the 64-bit one; with fixed addresses %d '
          'and %d; with a keep list %d; %d and %d by %d lists' %
          (*(len(held[wide, False]) for held in (points, at_fixed) for wide in FORMATS),
           sum(map(len, by_list[False].values())),
           *(len(by_lists[wide, False]) for wide in FORMATS), len(keep_list.LISTS)))
    sys.exit(wrong > 0)


if __name__ == '__main__':
    main()
