#!/usr/bin/python3
"""collect.py [check]: writes the cases made by hand of crates/test_collect, the bundles that it gives to thin, and the
lines that it must print of them.

The cases are written here, each with the point that it is about (one with a dot is document 02's), its bytes (units.py
has the notation), what it lends, and the answer that the specification gives, never from a run. With `check` nothing is
written, and the files are compared with what would be. `collect.py names` prints the number of each case with what it
is about.

A case is nineteen numbers of eight bytes, big-endian (how much is lent of the index of the declarations, of the
columns offsets, parents, roots, ends, marks, targets, pairs, of map, three lists and output; the ranges base; type
units; the unit's byte order, 0 little-endian; whether fixed addresses count, 0 no; how many bytes the tags of a keep
list have, and its treatments), then the keep list's bytes and a bundle. What is not said is lent with something to
spare, so that zeros after the answer are seen. Each case stands in both byte orders, with the same number, and in both
formats (wide.py), in a file for each; those of version 4, with fixed addresses and with keep lists (keep_list.py) have
files of their own, since one has at most 262,144 bytes."""
import sys
from functools import partial

import failures
import fixed
import keep_list
import older
from units import (A5, BIG, CUT, CUT64, DANGLING, ESCAPE, FAR, FIVE, FIVE64, FIVE_4, FORMATS, HEADERS, LARGEST, ORDERS,
                   T, T64,
                   Part, asking, bundle_of, counted, entry_values, far, field,
                   header, octets, of_two, unit, with_parts, write)
from wide import OneFormat, Wide

SETTINGS = ('index', 'offsets', 'parents', 'roots', 'ends', 'marks', 'targets', 'pairs', 'map', 'ranges', 'locations', 'strings', 'output', 'base',
            'type_units', 'big_endian', 'fixed_addresses', 'tags', 'treatments')
ENTRY_COLUMNS = ('offsets', 'parents', 'roots', 'ends', 'marks')
LISTS = ('ranges', 'locations', 'strings')
PLACE = 24  # bytes of a place of the map
MOST = 262144  # bytes of a file
PARTS = ('', '-4', '-fixed', '-keep', '-search', '-trees', '-every')
cases = {(part, wide, big): [] for part in PARTS for wide in FORMATS for big in ORDERS}  # big: as it is told
part = ''  # which files the next cases are for


# ---- answers

def no(n):
    return {'refused': n}


def untouched(entries, ranges='', locations='', strings=''):
    return {'entries': entries, 'kept': entries, 'places': '', 'unit': None, 'ranges': ranges, 'locations': locations, 'strings': strings}


def rewritten(entries, kept, places, body, ranges='', locations='', strings=''):
    """places: `old>new@depth ..`; body: what follows the header. A list is its numbers, or `absent`."""
    return {'entries': entries, 'kept': kept, 'places': places, 'unit': body, 'ranges': ranges, 'locations': locations, 'strings': strings}


NOTHING = untouched(0, 'absent', 'absent', 'absent')


def numbers(text, width):
    return b''.join(int(w).to_bytes(width, 'big') for w in text.replace('>', ' ').replace('@', ' ').split())


def kind_of(of_unit):
    """What a unit has for a header."""
    kind, version = (of_unit.split() + ['', ''])[:2] if isinstance(of_unit, str) else ('H', '')
    return kind if kind in HEADERS else 'W' if kind == ESCAPE.hex() else 'G' if version == '2:4' else 'H'


def case(why, of_unit, table, answer, locations='', ranges='', addresses='', tail='', lend=None, wrong=False, told=1,
         both=True, older=None, counts=0, keep='', orders=ORDERS):
    """lend: settings that matter, by name; `entries` and `references` for a whole table. wrong: the unit is of the
    order that is not told. told: the number that says big-endian; counts: the one that says whether fixed addresses
    count; keep: a keep list. A unit `W ..` is of the 64-bit format alone; both says whether another stands in both;
    orders: the byte orders that it stands in."""
    tags, treatments = keep_list.lent(keep)
    kind, lend = kind_of(of_unit), dict(lend or {}, fixed_addresses=counts, tags=len(tags), treatments=len(treatments))
    alone = kind.startswith('W')
    for big in orders:
        data = bundle_of(of_unit, table, locations, ranges, addresses, tail, big != wrong, older)
        out, places = b'', numbers('' if 'refused' in answer else answer['places'], 8)
        if answer.get('unit') is not None:
            out = header(octets(answer['unit'], big), kind, big)
        left = lent_and_left(why, answer, lend, places, out, len(unit(of_unit)))
        add(why, alone, big, told, tags + treatments + data, left)
        if not both or alone:
            continue
        try:
            made = Wide(of_unit, table, locations, ranges, lend.get('base', 0), big != wrong, tail, older)
            lent, longer = dict(lend), 12
            if 'refused' not in answer:
                new, to = made.written(answer['unit'], kind) if out else (b'', None)
                rows = [place.replace('>', ' ').replace('@', ' ').split() for place in answer['places'].split()]
                rows = ['%d %d %s' % (made.places(int(row[0])), to(int(row[1])), row[2]) for row in rows]
                places = numbers(' '.join(rows), 8)
                out, longer = new, len(new) - len(out)
        except OneFormat:
            continue
        if lent.get('output'):
            lent['output'] += longer
        wide = made.bundle(addresses)
        if wide != data:
            left = lent_and_left(why, answer, lent, places, out, len(made.unit))
            add(why, True, big, told, tags + treatments + wide, left)


def add(why, wide, big, told, data, lent_and_lines):
    settings, lines = lent_and_lines
    settings['big_endian'] = told * big
    cases[part, wide, big].append((why, b''.join(settings[k].to_bytes(8, 'big') for k in SETTINGS) + data, lines))


def lent_and_left(why, answer, lend, places, out, length):
    """The settings of a case, and what it must print: its map and its new unit, if it has them; the unit's length."""
    refused = 'refused' in answer
    lists = {k: b'' if refused or answer[k] == 'absent' else numbers(answer[k], 8) for k in LISTS}
    given = {'index': 16, 'targets': 8, 'pairs': 16, 'base': 0, 'type_units': 0,
             'map': 4 * PLACE + 5 if refused else len(places) + 5, 'output': (length if refused else len(out)) + 3}
    given.update({c: 8 if refused else answer['entries'] + 1 for c in ENTRY_COLUMNS})
    given.update({k: len(lists[k]) + 11 for k in LISTS})
    if 'entries' in lend:
        given.update({c: lend['entries'] for c in ENTRY_COLUMNS})
    if 'references' in lend:
        given.update({'targets': lend['references'], 'pairs': 2 * lend['references']})
    given.update({k: v for k, v in lend.items() if k in SETTINGS})
    assert all(k in SETTINGS or k in ('entries', 'references') for k in lend), why
    if refused:
        lines = ['refused %d' % answer['refused']]
    else:
        counts = ['absent' if answer[k] == 'absent' else str(len(answer[k].split())) for k in LISTS]
        lines = ['%s entries %d kept %d places %d bytes %d ranges %s locations %s strings %s' %
                 ('untouched' if answer['unit'] is None else 'rewritten', answer['entries'], answer['kept'],
                 len(places) // PLACE, len(out), *counts)]
    for name, data in (('map', places), ('ranges', lists['ranges']), ('locations', lists['locations']), ('strings', lists['strings']), ('output', out)):
        assert len(data) <= given[name], why
        lines.append('%s %s' % (name, (data + bytes(given[name] - len(data))).hex() or '-'))
    return given, ''.join(line + '\n' for line in lines + ['clean'])


# ---- the five-entry unit
ONE = rewritten(5, 3, '12>12@0 13>13@1 17>16@1 21>17@1', '01 020010 03 00')
case('P1', FIVE, A5, ONE, addresses='0100')
case('P2', FIVE, A5, rewritten(5, 1, '12>12@0 21>13@1', '01 00'), addresses='0000')
case('P3', FIVE, A5, rewritten(5, 3, '12>12@0 16>13@1 18>14@1 21>17@1', '01 03 02010d 00'), addresses='0001')
case('P4', FIVE, A5, untouched(5), addresses='0101')
case('P5, 5.3', FIVE, A5, no(6), addresses='0200')
case('P6, 5.3', FIVE, A5, no(17), addresses='01')
case('P7', '', A5, NOTHING)

# ---- points
G = '1 24 49/11; 2 24'
R = '1 11 children; 2 2e 55/23'
L = '1 24 children 02/22; 2 24'
M = '1 24 02/22; 2 24'
X = '1 24 02/18; 2 24'
O = '1 11 children; 2 2e 55/17'
S = '1 11 children 49/11; 2 24 01/11; 3 24'
case('2: the last kept entry ends where the unit ends', 'H 01 0f 02 02', G, rewritten(3, 2, '12>12@0 15>14@0', '01 0e 02'))
case('11: a surplus terminator before the first entry is dropped', 'H 00 03 03', A5, rewritten(2, 1, '13>12@0', '03'))
case('11: a list of children that is open at the end', 'H 01 03', A5, rewritten(2, 1, '12>12@0', '01'))
case('11: a second tree', 'H 03 03', A5, rewritten(2, 1, '12>12@0', '03'))
case('11: surplus terminators alone make no rewrite', 'H 03 00', A5, untouched(1))
case('11: one between two trees', 'H 03 00 03', A5, rewritten(2, 1, '12>12@0', '03'))
case('11: one behind a closed tree', 'H 01 00 00 03', A5, rewritten(2, 1, '12>12@0 13>13@1', '01 00'))
case('11: terminators and no entry', 'H 00 00', A5, NOTHING)
case('16: an offset at the section\'s end is an empty list', 'H 01 02 00 00', R, rewritten(2, 1, '12>12@0 15>13@1', '01 00'), ranges=T)
case('16: past it is live', 'H 01 02 00 00', R, untouched(2, '0'), ranges='z t:5')
case('16: so is a table place that is cut', 'H 01 02 00 00', R, untouched(2, '0'), ranges=CUT)
case('16: locations at the end', 'H 01 00 02 00', L, rewritten(2, 1, '12>12@0 15>14@1', '01 00 00', locations='0'), locations=T)
case('16: locations past it', 'H 01 00 02 00', L, no(5), locations='z t:5')
case('16: a table place of locations that is cut', 'H 01 00 02 00', L, no(5), locations=CUT)
case('17: an index whose place is above 64 bits', 'H 01 02 %s 00' % BIG, R, untouched(2, str(2 ** 62)), ranges=T)
case('17: of locations', 'H 01 %s 02 00' % BIG, L, no(5), locations=T)
case('17, 51: ranges base plus offset above 64 bits', 'H 01 02 4:1 00', O, untouched(2, 'absent'), ranges='ffff00', lend={'base': 2 ** 64 - 1})
case('25: a dangling reference in a location list is no 8', 'H 01 00 02', M, rewritten(2, 1, '12>12@0', '01 00',
     locations='0'), locations=T + '050398 2@63 00')
case('25, 57: one that names an entry keeps it', 'H 01 00 02', M, untouched(2, locations='0'),
     locations=T + '050398 2@e 00')
case('25: and the list is not rewritten', 'H 01 00 02 02', M, rewritten(3, 2, '12>12@0 15>14@0', '01 00 02',
     locations='0'), locations=T + '050398 2@f 00')
case('26: call2 with 0 dangles', 'H 01 03 98 2:0 02', X, no(8))
case('26: call4 with 0', 'H 01 05 9900000000 02', X, no(8))
case('26: GNU_parameter_ref with 0', 'H 01 05 fa00000000 02', X, no(8))
case('26: convert with 0 is copied', 'H 01 02 a800 02', X, rewritten(2, 1, '12>12@0', '01 02 a800'))
case('26: so with a padded 0', 'H 01 03 a88000 02', X, rewritten(2, 1, '12>12@0', '01 03 a88000'))
case('26: all six with 0', 'H 01 11 a40001ffa50100a60400a70400a800a900 02', X, rewritten(2, 1, '12>12@0', '01 11 a40001ffa50100a60400a70400a800a900'))
case('26: all six with an entry', 'H 01 11 a42001ffa50120a60420a70420a820a920 02 02', X,
     rewritten(3, 2, '12>12@0 32>31@0', '01 11 a41f01ffa5011fa6041fa7041fa81fa91f 02'))
case('26: the GNU codes', 'H 01 0e f41d01fff5011df6041df71df91d 02 02', X, rewritten(3, 2, '12>12@0 29>28@0', '01 0e f41c01fff5011cf6041cf71cf91c 02'))
case('26: call2, call4, GNU_parameter_ref', 'H 01 0d 98 2:1c 99 4:1c fa 4:1c 02 02', X,
     rewritten(3, 2, '12>12@0 28>27@0', '01 0d 98 2:1b 99 4:1b fa 4:1b 02'))
case('27: a terminator of a kept parent', 'H 01 0f 02 00', '1 24 children 49/11; 2 24', rewritten(2, 1, '12>12@0 15>14@1', '01 0e 00'))
case('27: a surplus one', 'H 01 0f 02 00', G, no(8))
case('27: that of a dead parent', 'H 01 0f 02 00', '1 24 49/11; 2 24 children', no(8))
case('27: into the header', 'H 01 05 02', G, no(8))
case('27: offset 0', 'H 01 00 02', G, no(8))
case('27: inside an entry', 'H 01 0d 02', G, no(8))
case('27: the unit\'s end', 'H 01 0f 02', G, no(8))
case('27: beyond it', 'H 01 63 02', G, no(8))
case('27: a dangling reference where nothing is dead', 'H 01 63', G, untouched(1))
case('27: one of a dead entry', 'H 01 02 63 00', '1 11 children; 2 24 49/11', rewritten(2, 1, '12>12@0 15>13@1', '01 00'))
case('28: block1 under location is copied', 'H 01 03 980e00 02', '1 24 02/0a; 2 24', rewritten(2, 1, '12>12@0', '01 03 980e00'))
case('28: block, block1, block2, block4', 'H 01 03980e00 03980e00 2:3 980e00 4:3 980e00 02', '1 24 02/09 02/0a 02/03 02/04; 2 24',
     rewritten(2, 1, '12>12@0', '01 03980e00 03980e00 2:3 980e00 4:3 980e00'))
case('32: a sibling that is its owner\'s child', 'H 01 0e 02 10 03 00 03 00', '1 11 children 49/11; 2 24 children 01/11; 3 24',
     rewritten(4, 3, '12>12@0 14>14@1 16>16@2 17>17@2 19>18@1', '01 0e 02 10 03 00 00'))
case('32: one before its owner', 'H 01 0e 02 0c 03 00 03 00', '1 11 children 49/11; 2 24 children 01/11; 3 24',
     rewritten(4, 3, '12>12@0 14>14@1 16>16@2 17>17@2 19>18@1', '01 0e 02 0c 03 00 00'))
case('32: one in the map', 'H 01 10 13 03 02 13 03 03 00', '1 11 children 49/11 49/11; 2 24 01/11; 3 24',
     rewritten(5, 3, '12>12@0 16>15@1 19>17@1 20>18@1', '01 0f 11 02 11 03 00'))
case('32: a dead one: the terminator that closes the owner\'s siblings', 'H 01 0f 03 02 12 03 03 00', S, rewritten(5, 2, '12>12@0 15>14@1 19>16@1', '01 0e 02 10 00'))
case('32: a dead one: deeper places are passed over', 'H 01 0f 13 02 12 04 03 03 00 03 00', '1 11 children 49/11 49/11; 2 24 01/11; 3 24; 4 24 children',
     rewritten(6, 4, '12>12@0 15>15@1 17>17@1 19>18@2 20>19@2 22>20@1', '01 0f 12 02 14 04 03 00 00'))
case('32: nothing found', 'H 01 0e 02 63 03 00', S, no(8))
case('32: nothing found, where nothing is dead', 'H 01 0e 02 63 00', S, untouched(2))
case('32: nothing behind it', 'H 02 0e 03', S, no(8))
case('32: the terminator of its own children is too deep', 'H 01 0e 03 00', '1 24 children 01/11; 3 24', no(8))
case('32: 0 finds the first entry', 'H 01 00 03 00', '1 24 children 01/11; 3 24', rewritten(2, 1, '12>12@0 15>14@1', '01 0c 00'))
case('32: a number inside an entry', 'H 01 0e 02 0d 03 00', S, rewritten(3, 2, '12>12@0 14>14@1 17>16@1', '01 0e 02 0e 00'))
case('32: a sibling of a dead entry', 'H 01 10 02 63 03 00', S, rewritten(3, 2, '12>12@0 16>14@1 17>15@1', '01 0e 03 00'))
for form, old, new, width in (('11', '12', '10', 1), ('12', '2:13', '2:11', 2), ('13', '4:15', '4:13', 4), ('14', '8:19', '8:17', 8),
                              ('15', '12', '10', 1), ('15', '948000', '928000', 3), ('16', '1113', '1111', 2), ('16', '16 12 2:15', '16 12 2:13', 4)):
    case('32: a dead sibling in form %s, %s' % (form, old), 'H 01 0f 03 02 %s 03 03 00' % old, '1 11 children 49/11; 2 24 01/%s; 3 24' % form,
         rewritten(5, 2, '12>12@0 15>14@1 %d>%d@1' % (18 + width, 15 + width), '01 0e 02 %s 00' % new))
case('42: a sibling in ref_addr is copied', 'H 01 0f 03 02 4:15 03 03 00', '1 11 children 49/11; 2 24 01/10; 3 24',
     rewritten(5, 2, '12>12@0 15>14@1 22>19@1', '01 0e 02 4:15 00'))
case('42: ref_addr behind indirect is copied', 'H 01 10 00000000 02', '1 11 49/16; 2 24', rewritten(2, 1, '12>12@0', '01 10 00000000'))
case('33: strx under the name of siblings', 'H 01 05 02', '1 11 01/1a; 2 24', rewritten(2, 1, '12>12@0', '01 00', strings='5'))
case('33: strx behind indirect', 'H 01 1a 05 02', '1 11 03/16; 2 24', rewritten(2, 1, '12>12@0', '01 1a 00', strings='5'))
case('33: rnglistx and loclistx under another name', 'H 01 09 07 02', '1 11 40/23 40/22; 2 24', rewritten(2, 1, '12>12@0', '01 00 00', '9', '7'))
case('34: ranges in sec_offset, of a dead entry', 'H 01 07 02 00000000', '1 11 55/23; 2 24 55/17', rewritten(2, 1, '12>12@0', '01 07', 'absent'))
case('34: of a kept entry', 'H 01 00000000 07 02', '1 11 55/17 55/23; 2 24', rewritten(2, 1, '12>12@0', '01 00000000 07', 'absent'))
case('34: location in sec_offset', 'H 01 01 02 00000000', '1 11 02/22; 2 24 02/17', rewritten(2, 1, '12>12@0', '01 01', locations='absent'),
     locations='z t:8 t:8')
case('34: a declaration that no entry uses', 'H 01 07 02', '1 11 55/23; 2 24; 3 24 55/17', rewritten(2, 1, '12>12@0', '01 00', '7'))
case('34: the other lists stay', 'H 01 05 07 09 02 00000000', '1 11 03/1a 55/23 40/22; 2 24 55/17', rewritten(2, 1, '12>12@0', '01 00 07 00', 'absent', '9', '5'))
case('34: data4 makes no list absent', 'H 01 07 02 00000000 00', '1 11 children 55/23; 2 24 55/06', rewritten(2, 1, '12>12@0 19>14@1', '01 00 00', '7'))
case('34: sec_offset under another name', 'H 01 07 02 00000000', '1 11 55/23; 2 24 40/17', rewritten(2, 1, '12>12@0', '01 00', '7'))
case('34: where nothing is dead', 'H 01 00000000 07', '1 11 55/17 55/23', untouched(1, 'absent'))
case('35: 12 where nothing is dead', 'H 01 00', '1 11 03/1a', no(12), lend={'ranges': 0, 'locations': 0, 'strings': 0})
case('35: room for it', 'H 01 00', '1 11 03/1a', untouched(1, strings='0'), lend={'ranges': 0, 'locations': 0, 'strings': 8, 'map': 0, 'output': 0})
case('35: never for an absent list', 'H 01 07 02 00000000', '1 11 55/23; 2 24 55/17', rewritten(2, 1, '12>12@0', '01 07', 'absent'), lend={'ranges': 0})
case('35: never without entries', 'H', A5, NOTHING, lend={'ranges': 0, 'locations': 0, 'strings': 0, 'map': 0, 'output': 0, 'entries': 0, 'references': 0, 'index': 0})
case('36: 4 of the entry that is one too many', 'H 03 04', A5, no(4), lend={'entries': 1})
case('36: one too many', 'H 03 03', A5, no(10), lend={'entries': 1})
case('36: 10 before its root test', 'H 01 02 02a107', '1 24; 2 34 02/18', no(10), addresses='00', lend={'entries': 1})
case('36: 10 before its references', 'H 01 02 00000000', '1 24; 2 24 49/10', no(10), lend={'entries': 1})
case('36: 7 before 11', 'H 01 0c 00000000', '1 24 49/11 49/10', no(7), lend={'references': 0})
case('36: 5 before 11', 'H 01 0c 01ff', '1 24 49/11 02/18', no(5), lend={'references': 0})
case('36: 11 before 4 of the next', 'H 01 0c 63', '1 24 49/11', no(11), lend={'references': 0})
case('36: 11 before 10 of the next', 'H 01 0c 01 0c', '1 24 49/11', no(11), lend={'references': 0, 'entries': 1})
case('36: 10 before 11 of the same', 'H 01 0c 01 0c', '1 24 49/11', no(10), lend={'references': 1, 'entries': 1})
case('36: terminators need no room', 'H 01 00 00', A5, untouched(1), lend={'entries': 1})
case('37: 13 before 8', 'H 01 63 02', G, no(13), lend={'map': 0})
case('37: 13 before 14', 'H 01 63 02', G, no(13), lend={'map': PLACE - 1, 'output': 0})
case('37: 14 before 8', 'H 01 63 02', G, no(14), lend={'output': 13})
case('37: 8', 'H 01 63 02', G, no(8), lend={'map': PLACE, 'output': 14})
case('37: none of them where nothing is dead', 'H 01 63', G, untouched(1), lend={'map': 0, 'output': 0})
case('38: sec_offset behind indirect is read as one', 'H 01 02 17 00000000 00', '1 11 children; 2 2e 55/16', rewritten(2, 1, '12>12@0 19>13@1', '01 00'), ranges='00')
case('38: and makes no list absent', 'H 01 07 02 17 00000000 00', '1 11 children 55/23; 2 2e 55/16', rewritten(2, 1, '12>12@0 20>14@1', '01 00 00', '7'), ranges='00')
case('41: the first ranges attribute decides', 'H 01 02 00 00 00', '1 11 children; 2 2e 55/23 55/0b', rewritten(2, 1, '12>12@0 16>13@1', '01 00'), ranges=T)

# 43: a new place that does not fit. The sibling's number lies inside its owner, so the place behind the owner is found.
NINE = '1 11 children 49/11; 2 24 01/%s 03/0a; 3 24'
ZEROS = '00' * 250


def long_owner(sibling, n, after='03 00'):
    return partial(octets, '01 0e 02 %s %02x %s %s' % (sibling, n, '00' * n, after))


case('43: ref1, 255', long_owner('14', 238), NINE % '11', rewritten(3, 2, '12>12@0 14>14@1 256>255@1', long_owner('ff', 238, '00')))
case('43: ref1, 256', long_owner('14', 239), NINE % '11', no(9))
case('43: ref1, where nothing is dead', long_owner('14', 250, '00'), NINE % '11', untouched(2))
case('43: ref2, 256', long_owner('2:14', 238), NINE % '12', rewritten(3, 2, '12>12@0 14>14@1 257>256@1', long_owner('2:100', 238, '00')))
case('43: one byte of ref_udata, 127', long_owner('14', 110), NINE % '15', rewritten(3, 2, '12>12@0 14>14@1 128>127@1', long_owner('7f', 110, '00')))
case('43: one byte of ref_udata, 128', long_owner('14', 111), NINE % '15', no(9))
case('43: two bytes of ref_udata, 128', long_owner('9400', 110), NINE % '15', rewritten(3, 2, '12>12@0 14>14@1 129>128@1', long_owner('8001', 110, '00')))
case('43: behind indirect', long_owner('1114', 250), NINE % '16', no(9))
case('37: 14 before 9', long_owner('14', 239), NINE % '11', no(14), lend={'map': 3 * PLACE, 'output': 256})
case('37: 9', long_owner('14', 239), NINE % '11', no(9), lend={'map': 3 * PLACE, 'output': 257})
case('37: 9 before a later 8', 'H 01 10 2:10e 02 14 fa %s 03 04 63 00' % ZEROS,
     '1 11 children 49/11 49/12; 2 24 01/11 03/0a; 3 24; 4 24 49/11', no(9))
case('37: 8 before a later 9', 'H 01 63 0f 02 14 fa %s 03 00' % ZEROS, '1 11 children 49/11 49/11; 2 24 01/11 03/0a; 3 24', no(8))
case('37: 9 before 8 in one entry', 'H 01 0e 02 14 63 fa %s 03 00' % ZEROS, '1 11 children 49/11; 2 24 01/11 49/11 03/0a; 3 24', no(9))
case('37: 8 before 9 in one entry', 'H 01 0e 02 63 14 fa %s 03 00' % ZEROS, '1 11 children 49/11; 2 24 49/11 01/11 03/0a; 3 24', no(8))

case('51: ranges base', 'H 01 02 00000000 00', O, rewritten(2, 1, '12>12@0 18>13@1', '01 00', 'absent'), ranges='ffff00', lend={'base': 2})
case('51: without it', 'H 01 02 00000000 00', O, no(5), ranges='ffff00')
case('51: up to the section\'s end', 'H 01 02 4:1 00', O, rewritten(2, 1, '12>12@0 18>13@1', '01 00', 'absent'), ranges='ffff00', lend={'base': 2})
case('51: past it', 'H 01 02 4:2 00', O, untouched(2, 'absent'), ranges='ffff00', lend={'base': 2})
case('51: not for rnglistx', 'H 01 02 00 00', R, rewritten(2, 1, '12>12@0 15>13@1', '01 00'), ranges=T, lend={'base': 1})
case('51: not for locations', 'H 01 4:1 02', '1 24 02/17; 2 24', rewritten(2, 1, '12>12@0', '01 4:1', locations='absent'), locations='090009', lend={'base': 1})
TU = '1 11 03/1a 55/23 40/22; 2 24'
case('51: type units: lists absent, indices copied', 'H 01 05 07 09 02', TU, rewritten(2, 1, '12>12@0', '01 05 07 09', 'absent', 'absent', 'absent'),
     lend={'type_units': 1, 'ranges': 0, 'locations': 0, 'strings': 0})
case('51: without them', 'H 01 05 07 09 02', TU, rewritten(2, 1, '12>12@0', '01 00 00 00', '7', '9', '5'))
case('51: type units, where nothing is dead', 'H 01 05 07 09', TU, untouched(1, 'absent', 'absent', 'absent'), lend={'type_units': 1})
case('51: type units, references patched all the same', 'H 01 0f 02 02', G, rewritten(3, 2, '12>12@0 15>14@0', '01 0e 02', 'absent', 'absent', 'absent'), lend={'type_units': 1})


def nested(levels, operand, after, big):
    """An entry with a call2 in the innermost of so many entry values, and what follows."""
    return b'\1' + counted(entry_values(levels, b'\x98' + field(2, operand, big))) + after


def nested_unit(levels):
    dead = 12 + len(nested(levels, 0, b'', False))
    return partial(nested, levels, dead + 1, b'\2\2'), partial(nested, levels, dead, b'\2'), dead


DEEP, THINNED, DEAD = nested_unit(3000)
case('52: three thousand entry values in each other', DEEP, X, rewritten(3, 2, '12>12@0 %d>%d@0' % (DEAD + 1, DEAD), THINNED))
case('53: bytes after the first unit', 'H 01 0f 02 02', G, rewritten(3, 2, '12>12@0 15>14@0', '01 0e 02'), tail='ffffffff 00', lend={'output': 15})
case('53: they are none of its entries', 'H 01 0c', G, untouched(1), tail='02 02')
case('53: nor named', 'H 01 0f 02', G, no(8), tail='02')
case('55: 12 where the other lists were long enough', 'H 01 07 09 05 02', '1 11 55/23 40/22 03/1a; 2 24', no(12), lend={'ranges': 16, 'locations': 16, 'strings': 7})
case('55: an untouched answer has its lists, no map and no output', 'H 01 07 09 05', '1 11 55/23 40/22 03/1a',
     untouched(1, '7', '9', '5'), lend={'map': 2 * PLACE + 6, 'output': 20})
case('55: 8 leaves no list', 'H 01 07 63 02', '1 11 03/1a 49/11; 2 24', no(8), lend={'strings': 8, 'map': 2 * PLACE,
     'output': 24})
case('56: two siblings in one entry', 'H 01 0f 03 02 14 2:14 03 03 00', '1 11 children 49/11; 2 24 01/11 01/12; 3 24',
     rewritten(5, 2, '12>12@0 15>14@1 21>18@1', '01 0e 02 12 2:12 00'))
case('56: any of several ranges in sec_offset', 'H 01 07 02 07 00000000', '1 11 55/23; 2 24 55/23 55/17', rewritten(2, 1, '12>12@0', '01 07', 'absent'))
case('56: each low_pc in turn', 'H 01 02 00 01 03 00', '1 11 children; 2 2e 11/1b 11/1b; 3 24', rewritten(3, 2, '12>12@0 13>13@1 17>16@1', '01 02 00 01 00'), addresses='0001')

# ---- refusals, each leaves zeros
case('1: no length', '080000', A5, no(1))
case('1: a length past the section, before the version', '4:3 2:3', A5, no(1))
case('1: cut inside the header', '4:2 2:5', A5, no(1))
case('1: a section one byte short', '4:8 2:5 01 08 000000', A5, no(1))
case('2: a length of 0xfffffff0', '4:fffffff0', A5, no(2))
case('2: version 3', '4:8 2:3 01 08 00000000', A5, no(2))
case('2: version 3, and nothing after it', '4:2 2:3', A5, no(2))
case('2: unit type 4', '4:8 2:5 04 08 00000000', A5, no(2))
case('2: address size 2', '4:8 2:5 01 02 00000000', A5, no(2))
case('3: a list that is not closed', 'H 03', A5[:-3], no(3))
case('3: no abbreviations at all', 'H', '', no(3))
case('3: an offset past the section', '4:8 2:5 01 08 4:15', A5, no(3))
case('3: a code twice', 'H 01', '1 24; 1 24', no(3))
case('4: an unknown code', 'H 63', A5, no(4))
case('4: a code that is cut', 'H 03 80', A5, no(4))
case('4: a value that is cut', 'H 01 00', '1 24 03/05', no(4))
case('5: an unknown operation', 'H 01 01f0 02', X, no(5))
case('5: an unknown kind in a range list', 'H 01 02 00 00', R, no(5), ranges=T + 'ff')
case('6: a byte 2', 'H 01 02 00 00', '1 11 children; 2 2e 11/1b', no(6), addresses='02')
case('7: ref_addr', 'H 01 00000000 02', '1 24 49/10; 2 24', no(7))
case('7: call_ref', 'H 01 05 9a00000000 02', X, no(7))

# ---- document 02, point 2: a table of length 0 knows no address, and each index that is asked is live
P = '1 11 children; 2 2e 11/%s'
V = '1 11 children; 2 34 02/18'
ROOM = {'entries': 5, 'references': 2, 'map': 0, 'output': 0, 'ranges': 0, 'locations': 0, 'strings': 0}


def without(of_unit, *lists):
    """A unit of two entries, the second dead; the last byte is the terminator."""
    first, place, before = of_two(of_unit)
    places = '%d>%d@0 %d>%d@1' % (first, first, len(unit(of_unit)) - 1, place)
    return rewritten(2, 1, places, before + ' 00', *lists)


def second(why, of_unit, table, dead, **sections):
    """A unit of two entries, the first alive, and whether the second is dead."""
    lists = ['absent' if pair in table else '' for pair in ('55/17', '02/17')]
    if '55/23' in table and not dead:
        lists[0] = '0'
    case(why, of_unit, table, without(of_unit, *lists) if dead else untouched(2, *lists), **sections)


def judged(why, of_unit, table, answer, **sections):
    """The same by a word, live or dead; or the number of a refusal."""
    if answer in ('live', 'dead'):
        second(why, of_unit, table, answer == 'dead', **sections)
    else:
        case(why, of_unit, table, no(answer), **sections)


case('2.4, 5.1: the five-entry unit with no table', FIVE, A5, untouched(5))
case('2.4: and exactly enough room', FIVE, A5, untouched(5), lend=ROOM)
case('2.4: one entry less', FIVE, A5, no(10), lend=dict(ROOM, entries=4))
case('2.4: one reference less', FIVE, A5, no(11), lend=dict(ROOM, references=1))
case('2.4: type units', FIVE, A5, untouched(5, 'absent', 'absent', 'absent'), lend={'type_units': 1})
case('2.4: unit type 5', 'H5 01 020019 03 03 020118 00', A5, untouched(5))
case('2.4: what nothing asks for is dead all the same', 'H 01 020011 03 03 03 00', A5, rewritten(5, 3, '12>12@0 13>13@1 17>16@1 19>17@1', '01 020010 03 00'))
case('2.4: a first entry that is a root', 'H 01 07 02 00', '1 2e children 11/1b; 2 24', untouched(2))
case('2.4: a live range list among what is dead', 'H 01 02 00 03 00', '1 11 children; 2 2e 55/23; 3 24',
     rewritten(3, 2, '12>12@0 13>13@1 16>15@1', '01 02 00 00', '0'), ranges=T + '030701 00')
case('2.4: a live expression is written anew', 'H 01 02 05a10798 2:15 03 03 00', '1 11 children; 2 34 02/18; 3 24',
     rewritten(4, 3, '12>12@0 13>13@1 21>20@1 22>21@1', '01 02 05a10798 2:14 03 00'))
case('2.4: 8 of a root by an index', 'H 01 02 07 63 03 00', '1 11 children; 2 2e 11/1b 49/11; 3 24', no(8))
case('2.4: 12 of one', 'H 01 02 07 05 00', '1 11 children; 2 2e 11/1b 03/1a', no(12), lend={'strings': 7})
case('2.4: room for it', 'H 01 02 07 05 00', '1 11 children; 2 2e 11/1b 03/1a', untouched(2, strings='5'), lend={'strings': 8})
for index in ('00', '07', LARGEST):
    for asks, of_unit, table, ranges in asking(index):
        second('2.3: %s, index %s' % (asks, index), of_unit, table, False, ranges=ranges)
for form, index in (('29', '07'), ('2a', '2:7'), ('2b', '3:7'), ('2c', '4:7'), ('2c', 'ffffffff'), ('16', '1b07')):
    second('2.1: low_pc in form %s, %s' % (form, index), 'H 01 02 %s 00' % index, P % form, False)
for kind, size in (('H', 8), ('H4', 4)):
    for address in ('00' * size, 'ff' * size):
        second('2.1: low_pc, a direct address %s' % address, '%s 01 02 %s 00' % (kind, address), P % '01', True)
        for entry in ('05%s 040001', '06%s' + ' %d:1 ' % size, '07%s 01'):
            second('2.1: range list kind %s, %s' % (entry[:2], address), kind + ' 01 02 00 00', R, True, ranges=T + entry % address + '00')
second('2.1: DW_OP_addr', 'H 01 02 09 03 8:8877665544332211 00', V, True)
second('2.1: a dead base behind a live one', 'H 01 02 00 00', R, True, ranges=T + '0105 05' + '00' * 8 + '040000 00')
second('2.1: a live base behind a dead one', 'H 01 02 00 00', R, False, ranges=T + '05' + '00' * 8 + '0105 040000 00')
second('2.2: base_addressx with no pair', 'H 01 02 00 00', R, True, ranges=T + '0105 00')
for expression in ('a205', 'fc05', 'a302a105', 'f302a105'):
    second('2.2: no addrx: %s' % expression, 'H 01 02 %02x %s 00' % (len(expression) // 2, expression), V, True)
second('2.2: a location list', 'H 01 02 00 00', '1 11 children; 2 34 02/22', True, locations=T + '0107 02070802a107 03070102a107 0502a107 00')
for tag in ('05', '1d', '34'):
    second('2.2: low_pc of the tag %s' % tag, 'H 01 02 07 00', '1 11 children; 2 %s 11/1b' % tag, True)
for tag in ('05', '2e'):
    second('2.2: a location of the tag %s' % tag, 'H 01 02 02a107 00', '1 11 children; 2 %s 02/18' % tag, True)
case('2.3: a live index, then an unknown operation', 'H 01 02 03 a105ff 00', V, no(5))
case('2.3: a live index, then call_ref', 'H 01 02 07 a105 9a00000000 00', V, no(7))
case('2.3: low_pc above 64 bits', 'H 01 02 ffffffffffffffffff02 00', P % '1b', no(4))
case('2.3: startx_length that is cut', 'H 01 02 00 00', R, no(5), ranges=T + '0307')
for entries in ('020708ff', '030701ff', '0107040001ff'):
    second('2.3: what follows a live range is not read: %s' % entries, 'H 01 02 00 00', R, False, ranges=T + entries)
case('2.5: 15 with no table', 'H 01 02 00 00', R, no(5), ranges=T + '0200')
second('2.5: 19 with no table', 'H 01 02 00 00', R, True, ranges=T + '0100')
case('2.5: 36 with no table', FIVE, A5, no(10), lend={'entries': 1})
second('2.5: 39 with no table', 'H 01 02 07 00', '1 11 children; 2 0b 11/1b', True)
for addresses, index, answer in (('00', '00', 'dead'), ('00', '01', 17), ('01', '00', 'live'), ('01', '01', 17),
                                 ('02', '00', 6)):
    for asks, of_unit, table, ranges in asking(index):
        judged('2.4, 5.3: a table %s: %s, index %s' % (addresses, asks, index), of_unit, table, answer, ranges=ranges,
               addresses=addresses)

# ---- document 02, point 5: 6 for a byte above 1, 17 for an index past the end of a table that isn't empty
for why, of_unit, table, answer, sections in failures.cases():
    judged(why, of_unit, table, answer, **sections)
for n, byte in failures.EVERY:
    places, of_unit, table, ranges, addresses = failures.every(n, byte)
    entries, end = len(places) + 1, len(unit(of_unit)) - 1
    answer = untouched(entries, '0 1 2') if byte else rewritten(entries, 1, '12>12@0 %d>13@1' % end, '01 00')
    case('5.3: the last index of %d' % n, of_unit, table, answer, ranges=ranges, addresses=addresses)
TWICE = '1 11 children%s; 2 ' + failures.TWICE
case('5.2: 10 of the same entry', failures.EITHER, TWICE % '', no(10), addresses='0002', lend={'entries': 1})
case('5.2: 11 of an entry before', 'H 01 0c 02 02 01 00', TWICE % ' 49/11', no(11), addresses='0002',
     lend={'references': 0})
for index, number in failures.FAILING:
    for later, of_unit, table, lend in (
            ('10 of the next entry', 'H 01 02 %s 02 00 00', P % '1b', {'entries': 2}),
            ('11 of the same', 'H 01 02 0c %s 00', '1 11 children; 2 2e 49/11 11/1b', {'references': 0}),
            ('12', 'H 01 05 02 %s 00', '1 11 children 03/1a; 2 2e 11/1b', {'strings': 0}),
            ('14', 'H 01 02 00 02 %s 00', P % '1b', {'output': 0})):
        case('5.2: %d before %s' % (number, later), of_unit % index, table, no(number), addresses='0002', lend=lend)

# ---- lent lengths: the five-entry unit has 5 entries, 2 references, 4 places and 18 bytes
FULL = {'entries': 5, 'references': 2, 'map': 4 * PLACE, 'output': 18, 'ranges': 0, 'locations': 0, 'strings': 0}
case('every length exactly full', FIVE, A5, ONE, addresses='0100', lend=FULL)
case('entries one short', FIVE, A5, no(10), addresses='0100', lend=dict(FULL, entries=4))
case('no entries', FIVE, A5, no(10), addresses='0100', lend=dict(FULL, entries=0))
case('references one short', FIVE, A5, no(11), addresses='0100', lend=dict(FULL, references=1))
case('no references', FIVE, A5, no(11), addresses='0100', lend=dict(FULL, references=0))
case('47, 6.7: map one byte short', FIVE, A5, no(13), addresses='0100', lend=dict(FULL, map=4 * PLACE - 1))
case('47: map one place short', FIVE, A5, no(13), addresses='0100', lend=dict(FULL, map=3 * PLACE))
case('no map', FIVE, A5, no(13), addresses='0100', lend=dict(FULL, map=0))
case('47: map one byte more', FIVE, A5, ONE, addresses='0100', lend=dict(FULL, map=4 * PLACE + 1))
case('47, 6.7: map one byte short of a place more', FIVE, A5, ONE, addresses='0100', lend=dict(FULL, map=5 * PLACE - 1))
case('47: output one byte short', FIVE, A5, no(14), addresses='0100', lend=dict(FULL, output=17))
case('no output', FIVE, A5, no(14), addresses='0100', lend=dict(FULL, output=0))
case('47: output one byte more', FIVE, A5, ONE, addresses='0100', lend=dict(FULL, output=19))
case('13 before 14', FIVE, A5, no(13), addresses='0100', lend=dict(FULL, map=4 * PLACE - 1, output=17))
case('6 before 13', FIVE, A5, no(6), addresses='0002', lend=dict(FULL, map=0, output=0))
case('5.2: 17 before 13', FIVE, A5, no(17), addresses='01', lend=dict(FULL, map=0, output=0))
case('no index of the declarations', FIVE, A5, ONE, addresses='0100', lend=dict(FULL, index=0))
case('an index of one', FIVE, A5, ONE, addresses='0100', lend=dict(FULL, index=1))
case('untouched needs no map and no output', FIVE, A5, untouched(5), addresses='0101', lend=dict(FULL, map=0, output=0))
for column in ENTRY_COLUMNS:
    case('59: the column %s is one short' % column, FIVE, A5, no(10), addresses='0100', lend=dict(FULL, **{column: 4}))
    case('59: the column %s is longer' % column, FIVE, A5, ONE, addresses='0100', lend=dict(FULL, **{column: 9}))
case('59: the column targets is one short', FIVE, A5, no(11), addresses='0100', lend=dict(FULL, targets=1))
case('59: the column pairs is one number short', FIVE, A5, no(11), addresses='0100', lend=dict(FULL, pairs=3))
case('59: the column pairs has an odd number', FIVE, A5, ONE, addresses='0100', lend=dict(FULL, pairs=5))
case('repeats and dangling references count', 'H 01 63 63 0c', '1 24 49/11 49/11 49/11', untouched(1), lend={'references': 3})
case('one short for them', 'H 01 63 63 0c', '1 24 49/11 49/11 49/11', no(11), lend={'references': 2})
case('those of a location list count', 'H 01 00 02', M, no(11), locations=T + '050398 2@63 00', lend={'references': 0})
case('those of nested entry values count', 'H 01 05 a303 98 2:c', X, no(11), lend={'references': 0})
case('those of dead entries count', 'H 01 02 63 00', '1 11 children; 2 24 49/11', no(11), lend={'references': 0})
case('call2 with 0 counts', 'H 01 03 98 2:0', X, no(11), lend={'references': 0})
case('convert with 0 does not', 'H 01 02 a800', X, untouched(1), lend={'references': 0})
case('a sibling does not', 'H 01 63', '1 24 01/11', untouched(1), lend={'references': 0})

# two numbers in each list
TWO = '1 11 55/23 55/23 40/22 40/22 03/1a 03/1a; 3 24'
NUMBERS = 'H 01 07 03 04 02 09 01 03'
RANKED = rewritten(2, 1, '12>12@0', '01 01 00 01 00 01 00', '3 7', '2 4', '1 9')
EXACT = {'ranges': 16, 'locations': 16, 'strings': 16, 'map': PLACE, 'output': 19}
case('lists exactly full', NUMBERS, TWO, RANKED, lend=EXACT)
for which in LISTS:
    for size in (15, 8, 0):
        case('47: 12 for %s, %d bytes' % (which, size), NUMBERS, TWO, no(12), lend=dict(EXACT, **{which: size}))
    case('47: %s, 23 bytes' % which, NUMBERS, TWO, RANKED, lend=dict(EXACT, **{which: 23}))
    case('12: %s, where nothing is dead' % which, NUMBERS[:-3], TWO, no(12), lend=dict(EXACT, **{which: 15}))
case('no list', NUMBERS, TWO, no(12), lend=dict(EXACT, ranges=0, locations=0, strings=0))
case('12 before 13 and 14', NUMBERS, TWO, no(12), lend=dict(EXACT, strings=15, map=0, output=0))
case('13 then', NUMBERS, TWO, no(13), lend=dict(EXACT, map=PLACE - 1, output=0))
case('14 then', NUMBERS, TWO, no(14), lend=dict(EXACT, output=18))
case('12 before 8', 'H 01 05 63 02', '1 11 03/1a 49/11; 2 24', no(12), lend={'strings': 7})
case('lists exactly full, where nothing is dead', NUMBERS[:-3], TWO, untouched(1, '3 7', '2 4', '1 9'), lend=dict(EXACT, map=0, output=0))

# ---- shapes
case('an empty section', '', '', NOTHING)
case('a header alone', 'H', A5, NOTHING)
case('a header alone, type 5', 'H5', A5, NOTHING)
case('padded codes and terminators keep their width', 'H 818000 02 8000', '1 11 children; 2 24', rewritten(2, 1, '12>12@0 16>15@1', '818000 8000'))
case('a padded terminator of a dead parent', 'H 01 02 8000 00', '1 11 children; 2 24 children', rewritten(2, 1, '12>12@0 16>13@1', '01 00'))
case('a padded ref_udata keeps its width', 'H 01 9000 02 02 00', '1 24 children 49/15; 2 24', rewritten(3, 2, '12>12@0 16>15@1 17>16@1', '01 8f00 02 00'))
case('so does one of ten bytes', 'H 01 98808080808080808000 02 02 00', '1 24 children 49/15; 2 24',
     rewritten(3, 2, '12>12@0 24>23@1 25>24@1', '01 97808080808080808000 02 00'))
case('a padded length of an exprloc', 'H 01 8300 98 2:13 02 02', X, rewritten(3, 2, '12>12@0 19>18@0', '01 8300 98 2:12 02'))
case('a padded operand', 'H 01 04 a8938000 02 02', X, rewritten(3, 2, '12>12@0 19>18@0', '01 04 a8928000 02'))
case('a padded index', 'H 01 858000 09 02', '1 11 03/1a 03/1a; 2 24', rewritten(2, 1, '12>12@0', '01 808000 01', strings='5 9'))
case('padded indices of each form', 'H 01 8500 8900 8700 8600 02', '1 11 03/1f02 55/23 40/22 03/1a; 2 24',
     rewritten(2, 1, '12>12@0', '01 8000 8000 8000 8100', '9', '7', '5 6'))
case('every form of a reference', 'H 01 1e 2:1f 4:20 8:21 22 02 02 02 02 02 02', '1 11 49/11 49/12 49/13 49/14 49/15; 2 24',
     rewritten(7, 6, '12>12@0 30>29@0 31>30@0 32>31@0 33>32@0 34>33@0', '01 1d 2:1e 4:1f 8:20 21 02 02 02 02 02'))
case('a reference behind indirect', 'H 01 11 10 02 02', '1 11 49/16; 2 24', rewritten(3, 2, '12>12@0 16>15@0', '01 11 0f 02'))
case('behind two', 'H 01 16 15 11 02 02', '1 11 49/16; 2 24', rewritten(3, 2, '12>12@0 17>16@0', '01 16 15 10 02'))
case('a signature is copied', 'H 01 1122334455667788 02', '1 24 49/20; 2 24', rewritten(2, 1, '12>12@0', '01 1122334455667788'))
case('implicit_const under type is no reference', 'H 01 02', '01 24 00 49 21 0d 00 00 02 24 00 00 00 00', rewritten(2, 1, '12>12@0', '01'))
case('other values are copied', 'H 01 616200 33 3333 33333333 3333333333333333 33333333333333333333333333333333 ff7f b300 02',
     '1 24 03/08 03/19 03/0b 03/05 03/06 03/07 03/1e 03/0d 03/0f; 2 24',
     rewritten(2, 1, '12>12@0', '01 616200 33 3333 33333333 3333333333333333 33333333333333333333333333333333 ff7f b300'))
case('references at three levels of entry values', 'H 01 0d 98 2:1c a308 98 2:1d a303 98 2:1f 02 02 02 02 02', X,
     rewritten(6, 4, '12>12@0 28>27@0 29>28@0 31>29@0', '01 0d 98 2:1b a308 98 2:1c a303 98 2:1d 02 02 02'))
case('GNU_entry_value', 'H 01 05 f303 98 2:14 02 02', X, rewritten(3, 2, '12>12@0 20>19@0', '01 05 f303 98 2:13 02'))
case('a dangling reference in an entry value', 'H 01 05 a303 98 2:63 02', X, no(8))
case('an exprloc under any name', 'H 01 03 98 2:12 02 02', '1 24 40/18; 2 24', rewritten(3, 2, '12>12@0 18>17@0', '01 03 98 2:11 02'))
case('an exprloc behind indirect', 'H 01 18 03 98 2:13 02 02', '1 24 02/16; 2 24', rewritten(3, 2, '12>12@0 19>18@0', '01 18 03 98 2:12 02'))
case('operands that only look like references', 'H 01 0b 0e 8:1398 08a8 02', X, rewritten(2, 1, '12>12@0', '01 0b 0e 8:1398 08a8'))
case('several trees', 'H 01 10 02 00 02 03 00 03', '1 24 49/11; 2 24 children; 3 24', rewritten(5, 3, '12>12@0 16>14@0 17>15@1 18>16@1', '01 0e 02 03 00'))
case('two lists of children open at the end', 'H 01 0f 03 02 03', '1 11 children 49/11; 2 24 children; 3 24', rewritten(4, 3, '12>12@0 15>14@1 16>15@2', '01 0e 02 03'))
case('a parent that is retained for its child', 'H 01 10 02 03 03 00 03 00', '1 11 children 49/11; 2 24 children; 3 24',
     rewritten(5, 3, '12>12@0 14>14@1 16>15@2 17>16@2 19>17@1', '01 0f 02 03 00 00'))
case('a dead subtree of three levels', 'H 01 02 02 03 00 00 03 00', '1 11 children; 2 24 children; 3 24', rewritten(5, 1, '12>12@0 19>13@1', '01 00'))
case('unit type 5', 'H5 01 020019 03 03 020118 00', A5, rewritten(5, 3, '20>20@0 21>21@1 25>24@1 29>25@1', '01 020018 03 00'), addresses='0100')
case('unit type 5, into its header', 'H5 01 0c 02', G, no(8))
case('address size 4', 'H4 01 02 00000000 02 ffffffff 02 4:1 00', '1 11 children; 2 2e 11/01; 3 24', rewritten(4, 2, '12>12@0 23>13@1 28>18@1', '01 02 4:1 00'))
case('address size 4 in an expression', 'H4 01 08 0398989898 98 2:17 02 02', X, rewritten(3, 2, '12>12@0 23>22@0', '01 08 0398989898 98 2:16 02'))
case('strings in every form, repeats, out of order', 'H 01 05 2:3 3:9 4:5 07 03 02', '1 11 03/25 03/26 03/27 03/28 03/1a 03/1f02; 2 24',
     rewritten(2, 1, '12>12@0', '01 01 2:0 3:3 4:1 02 00', strings='3 5 7 9'))
case('strings of a dead entry', 'H 01 05 02 03 00', '1 11 children 03/1a; 2 24 03/1a', rewritten(2, 1, '12>12@0 16>14@1', '01 00 00', strings='5'))
case('strings of two entries', 'H 01 0f 09 02 04 03 00', '1 11 children 49/11 03/1a; 2 24 03/1a; 3 24',
     rewritten(3, 2, '12>12@0 15>15@1 18>17@1', '01 0f 01 02 00 00', strings='4 9'))
case('the largest index', 'H 01 ffffffffffffffffff01 02', '1 11 03/1a; 2 24', rewritten(2, 1, '12>12@0', '01 80808080808080808000', strings=str(2 ** 64 - 1)))
case('ranges out of order, repeated', 'H 01 09 04 09 00 02', '1 11 55/23 55/23 55/23 55/23; 2 24', rewritten(2, 1, '12>12@0', '01 02 01 02 00', '0 4 9'))
case('an address index is no list index', 'H 01 07 02', '1 11 11/1b; 2 24', rewritten(2, 1, '12>12@0', '01 07'))
case('constx and addrx in an expression are copied', 'H 01 04 a105a206 02', X, rewritten(2, 1, '12>12@0', '01 04 a105a206'))

# ---- document 02, point 12: all cases stand in both byte orders. Told wrongly, a unit is refused; fields whose bytes
# differ, so that the other order would read or write another number
TURNED = '%s 2:500 01 08 4:0 01 020011 03 03 020110 00'
for number in (1, 2, 2 ** 63, 2 ** 64 - 1):
    case('12: big-endian is told by %d' % number, FIVE, A5, ONE, addresses='0100', told=number)
case('12.2: the map is big-endian', FIVE, A5, ONE, addresses='0100', lend=FULL)
case('12.3: the five-entry unit, told wrongly', FIVE, A5, no(1), addresses='0100', wrong=True)
case('12.3: its version alone is of the other order', TURNED % '4:12', A5, no(2), addresses='0100')
case('12.3: its length alone', TURNED % '4:12', A5, no(1), addresses='0100', wrong=True)
case('12.3: a length of 0xfffffff0', '4:fffffff0 2:5 01 08 4:0', A5, no(2))
case('12.3: the same, told wrongly', '4:fffffff0 2:5 01 08 4:0', A5, no(1), wrong=True)
case('12.3: a length of 0xf0ffffff', '4:f0ffffff 2:5 01 08 4:0', A5, no(1))
case('12.3: the same, told wrongly', '4:f0ffffff 2:5 01 08 4:0', A5, no(2), wrong=True, both=False)
case('12.3, 6.1: a length of all ones, told wrongly', 'ffffffff', A5, no(1), wrong=True)
case('12.3: an empty section, told wrongly', '', A5, NOTHING, wrong=True)
case('12.3: a unit with no entries, told wrongly', 'H', A5, no(1), wrong=True)
case('12.1: strx3', 'H 01 3:9 3:3 02', '1 11 03/27 1b/27; 2 24', rewritten(2, 1, '12>12@0', '01 3:1 3:0', strings='3 9'))
case('12.1: addrx3', 'H 01 02 3:1 00', P % '2b', untouched(2), addresses='0001')
case('12.2: ref_udata is the same', 'H 01 9000 02 02', '1 24 49/15; 2 24', rewritten(3, 2, '12>12@0 16>15@0', '01 8f00 02'))
case('12: abbreviations from 0x102 on', 'HA 01 020011 03 03 020110 00', 'ff' * 258 + A5, ONE, addresses='0100')
for form, width in (('26', 2), ('27', 3), ('28', 4)):
    low, high = 0x10203040 >> 32 - 8 * width, 0x40302010 & 256 ** width - 1
    low, high = sorted((low, high))
    case('12.5: two numbers in form %s, by their size' % form, 'H 01 %d:%x %d:%x 02' % (width, high, width, low), '1 11 03/%s 03/%s; 2 24' % (form, form),
         rewritten(2, 1, '12>12@0', '01 %d:1 %d:0' % (width, width), strings='%d %d' % (low, high)))
ALL = bytes(range(256)).hex()
case('12.5: ranks from 256 on', 'H 01 %s 2:1234 3:123456 4:12345678 02' % ALL, '1 11 %s 03/26 03/27 03/28; 2 24' % ' '.join(['03/25'] * 256),
     rewritten(2, 1, '12>12@0', '01 %s 2:100 3:101 4:102' % ALL, strings=' '.join(map(str, [*range(256), 0x1234, 0x123456, 0x12345678]))))
case('12.5: references of each width', 'H ' + far(302) + ' 02' * 8, FAR,
     rewritten(9, 8, '12>12@0 ' + ' '.join('%d>%d@0' % (n, n - 1) for n in range(302, 309)), far(301) + ' 02' * 7))
LESS = '01 2:%x 4:%x 8:%x 0d 98 2:%x 99 4:%x fa 4:%x d5' + '00' * 213
case('12.5: from 256 to 255', 'H ' + LESS % ((256,) * 6) + '02 02', '1 24 49/12 49/13 49/14 02/18 03/0a; 2 24',
     rewritten(3, 2, '12>12@0 256>255@0', LESS % ((255,) * 6) + '02'))
for form, width in (('12', 2), ('13', 4), ('14', 8)):
    case('12.5: a sibling of %d bytes, 256' % width, long_owner('%d:14' % width, 240 - width), NINE % form,
         rewritten(3, 2, '12>12@0 14>14@1 257>256@1', long_owner('%d:100' % width, 240 - width, '00')))
    mapped = '01 10 2:%%x 02 %d:%%x %02x %s ' % (width, 239 - width, '00' * (239 - width))
    case('12.5: one that is kept, 258', 'H ' + mapped % (258, 258) + '03 03 00', '1 11 children 49/11 49/12; 2 24 01/%s 03/0a; 3 24' % form,
         rewritten(4, 3, '12>12@0 16>16@1 258>257@1 259>258@1', mapped % (257, 257) + '03 00'))
for of_unit, table in DANGLING:
    case('12: a dangling reference', of_unit, table, no(8))
EACH = 'H 01 %02x %s 98 2:%x 02 02'
for operands in ('0a 2:1234 0b 2:fedc', '0c 4:12345678 0d 4:fedcba98', '0e 8:123456789abcdef0 0f 8:fedcba9876543210', '28 2:3 2f 2:fffd',
                 '03 8:123456789abcdef0', '9e 02 1234', 'a3 03 0a 2:1234'):
    size = len(octets(operands)) + 3
    case('12.4: what is copied in an expression: ' + operands, EACH % (size, operands, 15 + size), X,
         rewritten(3, 2, '12>12@0 %d>%d@0' % (15 + size, 14 + size), '01 %02x %s 98 2:%x 02' % (size, operands, 14 + size)))
case('12.5: call4 in an entry value in another', 'H 01 09 a3 07 f3 05 99 4:18 02 02', X, rewritten(3, 2, '12>12@0 24>23@0', '01 09 a3 07 f3 05 99 4:17 02'))
COPIED = '01 2:1234 4:12345678 8:123456789abcdef0 000102030405060708090a0b0c0d0e0f 4:1020304 4:5060708 4:90a0b0c 4:d0e0f00 8:102030405060708'
case('12.4: what is copied', 'H ' + COPIED + ' 02', '1 24 03/05 03/06 03/07 03/1e 03/0e 03/1c 03/1d 03/17 03/20; 2 24', rewritten(2, 1, '12>12@0', COPIED))
BLOCKS = '01 2:102 %s 4:103 %s 2:0 4:0' % ('aa' * 258, 'bb' * 259)
case('12: lengths of blocks', 'H ' + BLOCKS + ' 02', '1 24 03/03 03/04 03/03 03/04; 2 24', rewritten(2, 1, '12>12@0', BLOCKS))
case('12: a block2 that is cut', 'H 01 2:2 aa', '1 24 03/03', no(4))
for form, width in (('2a', 2), ('2b', 3), ('2c', 4)):
    second('12.1: low_pc in form %s, index 0x102' % form, 'H 01 02 %d:102 00' % width, P % form, False, addresses='00' * 258 + '01')
    second('12.1: low_pc in form %s, index 0x102, dead' % form, 'H 01 02 %d:102 00' % width, P % form, True, addresses='00' * 259)
    case('12.1: low_pc in form %s, index 0x201' % form, 'H 01 02 %d:201 00' % width, P % form, no(17), addresses='00' * 259)
for kind, size in (('H', 8), ('H4', 4)):
    for address in (1, 256 ** size - 2):
        number = ' %d:%x ' % (size, address)
        second('12: low_pc, a direct address%s' % number, kind + ' 01 02%s00' % number, P % '01', False)
        for entry in ('05%s 040001', '06%s' + number, '07%s 01'):
            second('12: range list kind %s,%s' % (entry[:2], number), kind + ' 01 02 00 00', R, False, ranges=T + entry % number + '00')
second('12: a list by its offset', 'H 01 02 00 00', R, True, ranges='z t:104 ' + 'ff' * 256 + '00')
second('12: by the second of two', 'H 01 02 01 00', R, True, ranges='z t:9 t:8 00 ff')
case('12: a base of its own', 'H 01 4:104 02 00 00', '1 11 children 74/17; 2 2e 55/23', rewritten(2, 1, '12>12@0 19>17@1', '01 4:104 00'),
     ranges='ff' * 260 + ' t:4 00')
case('12: ranges in sec_offset', 'H 01 02 4:102 00', O, rewritten(2, 1, '12>12@0 18>13@1', '01 00', 'absent'), ranges='ff' * 258 + '00')
case('12: with a ranges base', 'H 01 02 4:102 00', O, rewritten(2, 1, '12>12@0 18>13@1', '01 00', 'absent'), ranges='ff' * 514 + '00', lend={'base': 256})
case('12: a list of locations by its offset', 'H 01 00 02', M, untouched(2, locations='0'),
     locations='z t:104 ' + 'ff' * 256 + '05 03 98 2@e 00')
case('12: with a base of its own', 'H 01 4:104 00 02', '1 11 8c/17 02/22; 2 24', untouched(2, locations='0'),
     locations='ff' * 260 + ' t:4 05 05 99 4@12 00')
case('12: a location in sec_offset', 'H 01 4:102 02', '1 24 02/17; 2 24', untouched(2, locations='absent'),
     locations='ff' * 258 + '05 05 fa 4@11 00')
case('12: ranks of lists are ULEB128', 'H 01 8904 8304 02', '1 11 40/23 40/22; 2 24', rewritten(2, 1, '12>12@0', '01 8000 8000', '521', '515'))
case('12: ref_addr', 'H 01 4:c 02', '1 24 49/10; 2 24', no(7))
case('12: call_ref', 'H 01 05 9a 4:13 02', X, no(7))

# ---- document 02, point 6: all cases stand in both formats. Here are those of the 64-bit one alone: what is as wide as
# an offset, and what is not
case('6.7: the map of a 32-bit unit', FIVE, A5, ONE, addresses='0100', lend=dict(FULL, map=5 * PLACE - 1, ranges=8,
     locations=8, strings=8), both=False)
case('6.7: one of 95 bytes', FIVE, A5, no(13), addresses='0100', lend=dict(FULL, map=95, ranges=8, locations=8,
     strings=8), both=False)
LITTLE = {'map': 1, 'output': 1, 'ranges': 1, 'locations': 1, 'strings': 1}
LENGTH = 'ffffffff %s 2:5 01 08 8:0 01 02001d 03 03 02011c 00'
case('6.1: the escape alone', 'ffffffff', A5, no(1))
case('6.1: seven bytes of a length', 'ffffffff 00000000000000', A5, no(1))
case('6.1: a length past the section, before the version', 'ffffffff 8:d 2:3 01 08 8:0', A5, no(1))
case('6.1: the version then', 'ffffffff 8:c 2:3 01 08 8:0', A5, no(2))
case('6.1: a length whose sum with 12 is above 64 bits', LENGTH % '8:fffffffffffffff8', A5, no(1))
for length in ('fffffffffffffff4', 'fffffffffffffff3', 'ffffffffffffffff', '8000000000000000', '7ffffffffffffff3',
    '100000016', '17'):
    case('6.1: a length of 0x%s' % length, LENGTH % ('8:' + length), A5, no(1), addresses='0100')
case('6.1: the length that is right', LENGTH % '8:16', A5, rewritten(5, 3, '24>24@0 25>25@1 29>28@1 33>29@1',
     '01 02001c 03 00'), addresses='0100', lend={'output': 30})
for length in range(0xfffffff0, 0xffffffff):
    case('6.1: a reserved length', '4:%x 8:16 2:5 01 08 8:0 01 02001d 03 03 02011c 00' % length, A5, no(2), lend=LITTLE)
    case('6.1: and nothing behind it', '4:%x' % length, A5, no(2), lend=LITTLE)
for whole in (FIVE, FIVE64, 'H5 03', 'W5 03'):
    for n in range(1, len(unit(whole))):
        case('6.1: %d bytes of %s' % (n, whole), 'cut %d %s' % (n, whole), A5, no(1), addresses='0100', lend=LITTLE)
BY_LENGTH = [no(1)] * 8 + [NOTHING, untouched(1), no(4), no(4), untouched(2), no(8)]
BY_LENGTH += [rewritten(4, 3, '12>12@0 13>13@1 17>16@1', '01 020010 03'), no(4), no(4)]
BY_LENGTH += [rewritten(5, 3, '12>12@0 13>13@1 17>16@1', '01 020010 03'), ONE, no(1)]
for n, answer in enumerate(BY_LENGTH):
    case('6.2: a unit by a length of %d' % n, '4:%x 2:5 01 08 4:0 01 020011 03 03 020110 00' % n, A5, answer,
         addresses='0100')
case('6.2: a small unit of the 64-bit format', 'W', A5, NOTHING)
case('6: an abbreviation offset of 2^32', 'ffffffff 8:16 2:5 01 08 8:100000000 01 02001d 03 03 02011c 00', A5, no(3))
case('6.3: a list offset that wraps', 'W 01 02 00 00', R, untouched(2, '0'),
     ranges='00' * 20 + ' 8:ffffffffffffffec 00')
case('6.3: of locations', 'W 01 00 02', M, no(5), locations='00' * 20 + ' 8:ffffffffffffffec')
case('6.3: an index of 2^61', 'W 01 02 808080808080808020 00', R, untouched(2, str(2 ** 61)), ranges=T64 + '00')
case('6.3: of locations', 'W 01 808080808080808020 02', M, no(5), locations=T64 + '00')
case('6.3: ranges base plus offset above 64 bits', 'W 01 02 8:ffffffffffffffff 00', O, untouched(2, 'absent'),
     ranges='00', lend={'base': 1})
case('6.4: a location in data8', 'W 01 8:9', '1 34 02/07', untouched(1))
case('6.4: in data4', 'W 01 4:9', '1 34 02/06', untouched(1))
case('6.4: ranges in data8', 'W 01 02 8:0 00', '1 11 children; 2 2e 55/07', untouched(2))
case('6.4: in data4', 'W 01 02 4:0 00', '1 11 children; 2 2e 55/06', untouched(2))
case('6.4: a base in data8', 'W 01 8:1 02 00 00', '1 11 children 74/07; 2 2e 55/23', rewritten(2, 1, '24>24@0 35>33@1',
     '01 8:1 00'), ranges=T64 + '00')
WIDE_FORMS = '01 8:102030405060708 8:1112131415161718 8:2122232425262728 8:3132333435363738 4:41424344 8:5152535455'
case('6.5: strp, line_strp, strp_sup, sec_offset; ref_sup4, ref_sup8', 'W %s 02' % WIDE_FORMS,
     '1 24 03/0e 03/1f 03/1d 10/17 3a/1c 3a/24; 2 24',
     rewritten(2, 1, '24>24@0', WIDE_FORMS))
case('6.5: ref_addr', 'W 01 8:18 02', '1 24 49/10; 2 24', no(7))
case('6.5: a sibling in ref_addr', 'W 01 8:18 02', '1 24 01/10; 2 24', rewritten(2, 1, '24>24@0', '01 8:18'))
for form in ('0e', '10', '17', '1d', '1f'):
    case('6.5: form %s of four bytes' % form, 'W 01 4:0', '1 24 03/' + form, no(4))
case('6.5: ref_sup4 of four bytes', 'W 01 4:0', '1 24 3a/1c', untouched(1))
case('6.5: GNU_parameter_ref', 'W 01 05 fa 4:18 02', '1 24 40/18; 2 24', rewritten(2, 1, '24>24@0', '01 05 fa 4:18'))
case('6.5: call4, GNU_parameter_ref and ref4', 'W 01 0a 99 4:29 fa 4:29 4:29 02 02 00',
     '1 24 children 40/18 49/13; 2 24',
     rewritten(3, 2, '24>24@0 41>40@1 42>41@1', '01 0a 99 4:28 fa 4:28 4:28 02 00'))
for code, more in (('9a', ''), ('a0', '00'), ('f2', '7f'), ('fd', '')):
    size = 9 + len(more) // 2
    case('6.5: an offset in operation %s' % code, 'W 01 %02x %s 8:0 %s 02' % (size, code, more), X, no(7))
    case('6.5: and of four bytes', 'W 01 %02x %s 4:0 %s 02' % (size - 4, code, more), X, no(5))
    case('6.5: in an entry value', 'W 01 %02x a3 %02x %s 8:0 %s 02' % (size + 2, size, code, more), X, no(7))
    case('6.5: in a location list', 'W 01 00 02', M, no(7), locations=T64 + '05 %02x %s 8:0 %s 00' % (size, code, more))
case('6.9: the table of lists as the unit has it', 'W 01 02 00 00', R, rewritten(2, 1, '24>24@0 27>25@1', '01 00'),
     ranges=T64 + '00')
case('6.9: and not as their header says', 'W 01 02 00 00', R, untouched(2, '0'),
     ranges='0d000000 0500 08 00 01000000 04000000 00')
case('6.9: nor those of a 32-bit unit', 'H 01 02 00 00', R, untouched(2, '0'),
     ranges='ffffffff' + '11' * 16 + ' 8:8 00', both=False)
case('6.9: a table place that is cut', 'W 01 02 00 00', R, untouched(2, '0'), ranges=CUT64)
case('6: an offset in a table with a high word', 'W 01 02 00 00', R, untouched(2, '0'),
     ranges='00' * 20 + ' 8:100000008 00')
OWN = '1 11 children 74/17; 2 2e 55/23'
case('6.11: a base of its own', 'W 01 8:4 02 00 00', OWN, rewritten(2, 1, '24>24@0 35>33@1', '01 8:4 00'),
     ranges='ffffffff 8:8 00')
case('6.11: with a high word', 'W 01 8:100000004 02 00 00', OWN, untouched(2, '0'), ranges='ffffffff 8:8 00')
case('6.11: of locations', 'W 01 8:4 00 02', '1 11 8c/17 02/22; 2 24', untouched(2, locations='0'),
     locations='ffffffff 8:8 05 03 98 2:22 00')
case('6.11: with a high word', 'W 01 8:100000004 00 02', '1 11 8c/17 02/22; 2 24', no(5),
     locations='ffffffff 8:8 05 03 98 2:22 00')
case('6.11: in four bytes it is none', 'W 01 4:4 02 00 00', OWN, no(4), ranges='ffffffff 8:8 00')
case('6: ranges in sec_offset', 'W 01 02 8:0 00', O, rewritten(2, 1, '24>24@0 34>25@1', '01 00', 'absent'), ranges='00')
case('6: with a high word', 'W 01 02 8:100000000 00', O, untouched(2, 'absent'), ranges='00')
case('6: a location in sec_offset with a high word', 'W 01 8:100000000 02', '1 24 02/17; 2 24', no(5), locations='00')
case('6: ref8 with a high word', 'W 01 8:100000022 02 02', '1 24 49/14; 2 24', no(8))
case('6: ref8', 'W 01 8:22 02 02', '1 24 49/14; 2 24', rewritten(3, 2, '24>24@0 34>33@0', '01 8:21 02'))
case('6: ref_udata with a high word', 'W 01 9e8080808001 02 02', '1 24 49/15; 2 24', no(8))
case('6: a sibling with a high word is searched for', 'W 01 1a 02 8:100000023 03 00',
     '1 24 children 49/11; 2 24 01/14; 3 24', no(8))
case('6: ref1 that has no room for its new place', 'W 01 1a 02 20 e3 %s 03 00' % ('00' * 227), NINE % '11', no(9))
case('6: and that has', 'W 01 1a 02 20 e2 %s 03 00' % ('00' * 226), NINE % '11', rewritten(3, 2,
     '24>24@0 26>26@1 256>255@1', '01 1a 02 ff e2 %s 00' % ('00' * 226)))
case('6: one byte of ref_udata, 127', 'W 01 1a 02 20 62 %s 03 00' % ('00' * 98), NINE % '15',
     rewritten(3, 2, '24>24@0 26>26@1 128>127@1', '01 1a 02 7f 62 %s 00' % ('00' * 98)))
case('6: 128', 'W 01 1a 02 20 63 %s 03 00' % ('00' * 99), NINE % '15', no(9))
case('6: what is behind the first unit', FIVE64, A5, rewritten(5, 3, '24>24@0 25>25@1 29>28@1 33>29@1',
     '01 02001c 03 00'), addresses='0100', tail='ffffffff 00')

# ---- document 02, point 4: version 4 units
part = '-4'
ONE_4 = rewritten(5, 3, '11>11@0 12>12@1 16>15@1 20>16@1', '01 02000f 03 00')
LIVE_4 = untouched(5)
G4 = '1 24 02/17; 2 24'
for kind in ('G', 'G4'):
    five = FIVE_4.replace('G', kind)
    for addresses, answer in (('0100', ONE_4), ('0000', rewritten(5, 1, '11>11@0 20>12@1', '01 00')),
                              ('0001', rewritten(5, 3, '11>11@0 15>12@1 17>13@1 20>16@1', '01 03 02010c 00')),
                              ('0101', LIVE_4), ('0200', no(6)), ('01', no(17)), ('', LIVE_4)):
        case('4: P1 to P6 in version 4', five, A5, answer, addresses=addresses)
        case('4.10: in a bundle of version 2', five, A5, answer, addresses=addresses, older=older.SOMETHING)
        case('4: by GNU_addr_index', five, '1 11 children; 2 2e 11/1f01 49/11; 3 24', answer, addresses=addresses)
    case('4.2: no entries', kind, A5, NOTHING)
case('4.10: P1 in a bundle of version 2', FIVE, A5, ONE, addresses='0100', older=older.SOMETHING)
case('4: told wrongly', FIVE_4, A5, no(1), addresses='0100', wrong=True)
case('4: what is behind the first unit', FIVE_4, A5, ONE_4, addresses='0100', tail='ffffffff 00')
case('4: every length exactly full', FIVE_4, A5, ONE_4, addresses='0100', lend=dict(FULL, output=17))
case('4: output one byte short', FIVE_4, A5, no(14), addresses='0100', lend=dict(FULL, output=16))
case('4.2: the abbreviation offset', 'GA 01 020010 03 03 02010f 00', 'ff' * 258 + A5, ONE_4, addresses='0100')
case('4.2: the type byte of version 5 is the offset', '4:7 2:4 01080000 08', A5, no(3))
case('4.2: an address size of 3 before an offset past', '4:7 2:4 4:63 03', A5, no(2))
case('4.2: an offset past', '4:7 2:4 4:63 08', A5, no(3))
case('4.2: cut at the address size', '4:6 2:4 4:0 08', A5, no(1))
for whole in (FIVE_4, 'WG 01 02001c 03 03 02011b 00'):
    for n in range(1, len(unit(whole))):
        case('4.2: %d bytes of %s' % (n, whole), 'cut %d %s' % (n, whole), A5, no(1), addresses='0100', lend=LITTLE)
BY_LENGTH_4 = [no(1)] * 7 + [NOTHING, untouched(1), no(4), no(4), untouched(2), no(8)]
BY_LENGTH_4 += [rewritten(4, 3, '11>11@0 12>12@1 16>15@1', '01 02000f 03'), no(4), no(4)]
BY_LENGTH_4 += [rewritten(5, 3, '11>11@0 12>12@1 16>15@1', '01 02000f 03'), ONE_4, no(1)]
for n, answer in enumerate(BY_LENGTH_4):
    case('4.2: a unit by a length of %d' % n, '4:%x 2:4 4:0 08 01 020010 03 03 02010f 00' % n, A5, answer,
         addresses='0100')
for version in (0, 1, 2, 3, 6, 0x104, 0x400, 0xffff):
    case('4.2: version %d' % version, '4:7 2:%x 4:0 08' % version, A5, no(2), lend=LITTLE)
    case('4.2: version %d, and nothing after it' % version, '4:2 2:%x' % version, A5, no(2), lend=LITTLE)
for size in (0, 1, 2, 3, 5, 7, 9, 16, 255):
    case('4.2: address size %d' % size, '4:7 2:4 4:0 %02x' % size, A5, no(2), lend=LITTLE)
for form in ('1a', '25', '1f02'):
    case('4.1: form %s' % form, 'G 01 05', '1 24 3a/' + form, untouched(1, strings='5'))
case('4.1: form 1b', 'G 01 05', '1 24 3a/1b', untouched(1))
case('4.1: data16', 'G 01 ' + '00' * 16, '1 24 3a/1e', untouched(1))
case('4.1: implicit_const', 'G 01', '1 24 3a/21/05', untouched(1))
for form in ('1f00', '1f03', '1f20', '1f21', '2d', '02'):
    case('4.1: form %s' % form, 'G 01 05', '1 24 3a/' + form, no(4))
case('4.1: loclistx that no entry uses', 'G 01', '1 24; 2 24 3a/22', untouched(1))
case('4.11: GNU_addr_index in version 5', 'H 01 05', '1 24 3a/1f01', no(4))
case('4.1: GNU_addr_index is no index of a list', 'G 01 07 02', '1 11 11/1f01; 2 24',
     rewritten(2, 1, '11>11@0', '01 07'))
COPIED_4 = '01 2:1234 4:12345678 8:123456789abcdef0 000102030405060708090a0b0c0d0e0f 4:1020304 4:5060708 4:90a0b0c 4:d0e0f00 8:102030405060708 8500'
case('4.1: what is copied', 'G ' + COPIED_4 + ' 02',
     '1 24 03/05 03/06 03/07 03/1e 03/0e 03/1c 03/1d 03/17 03/20 03/1f01; 2 24',
     rewritten(2, 1, '11>11@0', COPIED_4))
for name, entries, answer in (('start_length, as ULEB128', '03 00 01 2:3 98 2@10 00', no(5)),
                              ('offset_pair', '04 4:1 4:2 2:3 98 2@10 00', True),
                              ('start_length', '03 00 4:1 2:3 98 2@10 00', True),
                              ('start_end', '02 00 01 2:3 98 2@10 00', True),
                              ('default_location', '05 2:3 98 2@10 00', no(5)),
                              ('base_address', '06 0000000000000000 00', no(5))):
    kept = rewritten(3, 2, '11>11@0 16>16@0', '01 4:0 02', locations='absent')
    case('4.3: %s' % name, 'G 01 4:0 02 02', G4, kept if answer is True else answer, locations=entries)
    last = rewritten(3, 2, '11>11@0 17>16@0', '01 4:0 02', locations='absent')
    if answer is True:
        case('4.3: %s, and the list is not rewritten' % name, 'G 01 4:0 02 02', G4, last,
             locations=entries.replace('2@10', '2@11'))
        case('4.3: %s, its references count' % name, 'G 01 4:0 02 02', G4, no(11), locations=entries,
             lend={'references': 0})
case('4.3: the 64-bit format: a length stays four bytes', 'WG 01 8:0 02 02', G4,
     rewritten(3, 2, '23>23@0 32>32@0', '01 8:0 02', locations='absent'), locations='03 00 4:1 2:3 98 2:20 00')
for number, offset, answer in ((0, 0, 'live'), (16, 0, 'dead'), (0, 16, 'dead'), (8, 8, 'dead'), (8, 0, 'live'),
                               (16, 16, 'dead'),
                               (16, 17, 'live'), (33, 0, 'live'), (2 ** 64 - 1, 0, 'live'), (2 ** 64 - 1, 1, 'live'),
                               (2 ** 64 - 16, 16, 'live'), (2 ** 32, 0, 'live'), (24, 0, 5), (25, 0, 5), (0, 25, 5)):
    judged('4.9: ranges base %d and offset %d' % (number, offset), 'G 01 02 4:%x 00' % offset, O, answer,
           older='8:5 8:9 8:0 8:9', lend={'base': number})
judged('4.6: a base and an offset above 64 bits', 'G 01 02 4:1 00', O, 'live', older='8:5 8:9',
       lend={'base': 2 ** 64 - 1})
judged('4.9: the base is not added to locations', 'G 01 4:0 02 00', older.LOCATION % '17', 'live',
       locations=older.ENTRIES[3] + ' 00',
       lend={'base': 5})
judged('4.9: nor in version 5 by an index', 'H 01 02 00 00', R, 'dead', ranges=T + '00', older='8:5 8:9',
       lend={'base': 16})
case('4.6, 6: an offset with a high word', 'WG 01 02 8:100000000 00', O, untouched(2, 'absent'), older='8:0 8:0')
case('4.6, 6: and a base, above 64 bits', 'WG 01 02 8:ffffffffffffffff 00', O, untouched(2, 'absent'), older='8:0 8:0',
     lend={'base': 1})
case('4.7: ranges in data4 make no list absent', 'G 01 02 4:0 00', '1 11 children; 2 2e 55/06', untouched(2),
     older='8:0 8:0')
case('4.8: strings, by their ranks', 'G 01 03 c801 02', '1 11 03/1f02 1b/1f02; 2 24',
     rewritten(2, 1, '11>11@0', '01 00 8100', strings='3 200'))
case('4.8: type units', 'G 01 03 c801 02', '1 11 03/1f02 1b/1f02; 2 24',
     rewritten(2, 1, '11>11@0', '01 03 c801', 'absent', 'absent', 'absent'), lend={'type_units': 1})
case('4.8: strings in every form, repeats, out of order', 'G 01 05 2:3 3:9 4:5 07 03 02',
     '1 11 03/25 03/26 03/27 03/28 03/1a 03/1f02; 2 24',
     rewritten(2, 1, '11>11@0', '01 01 2:0 3:3 4:1 02 00', strings='3 5 7 9'))
case('4.8: behind indirect', 'G 01 823e 8900 823e 05 02', '1 11 03/16 03/16; 2 24',
     rewritten(2, 1, '11>11@0', '01 823e 8100 823e 00', strings='5 9'))
case('4.8: 12', 'G 01 05', '1 11 03/1f02', no(12), lend={'strings': 7})
case('4.8: both lists by offsets', 'G 01 4:0 4:0 05 02', '1 11 55/17 02/17 03/1f02; 2 24',
     rewritten(2, 1, '11>11@0', '01 4:0 4:0 00', 'absent', 'absent', '5'), locations='00', older='8:0 8:0')
case('4.8: where no entry uses them', 'G 01 02', '1 11; 2 24; 3 24 55/17 02/17', rewritten(2, 1, '11>11@0', '01'))
case('4.9: list bases mean nothing', 'G 01 4:63 4:63', '1 11 74/17 2132/17', untouched(1))
case('4.9: nor of locations', 'G 01 4:63 4:0 02', '1 11 8c/17 02/17; 2 24', untouched(2, locations='absent'),
     locations='03 00 4:0 2:3 98 2@14 00')
case('4.9: GNU_ranges_base and GNU_addr_base are not added', 'G 01 4:10 4:1 02 4:0 00',
     '1 11 children 2132/17 2133/17; 2 2e 55/17',
     rewritten(2, 1, '11>11@0 25>20@1', '01 4:10 4:1 00', 'absent'), older='8:0 8:0 8:5 8:9')
case('4.11: a variable by addrx', 'G 01 02 02 a100 00', V, untouched(2), addresses='01')
case('4.11: siblings', 'G 01 0e 03 02 11 03 03 00', S, rewritten(5, 2, '11>11@0 14>13@1 18>15@1', '01 0d 02 0f 00'))
case('4.11: a reference of each form', 'G 01 1d 2:1e 4:1f 8:20 21 02 02 02 02 02 02',
     '1 11 49/11 49/12 49/13 49/14 49/15; 2 24',
     rewritten(7, 6, '11>11@0 29>28@0 30>29@0 31>30@0 32>31@0 33>32@0', '01 1c 2:1d 4:1e 8:1f 20 02 02 02 02 02'))
case('4.11: references of an expression', 'G 01 0d 98 2:1b 99 4:1b fa 4:1b 02 02', X,
     rewritten(3, 2, '11>11@0 27>26@0', '01 0d 98 2:1a 99 4:1a fa 4:1a 02'))
case('4.11: types of an expression', 'G 01 0e f41c01fff5011cf6041cf71cf91c 02 02', X,
     rewritten(3, 2, '11>11@0 28>27@0', '01 0e f41b01fff5011bf6041bf71bf91b 02'))
case('4.11: an entry value', 'G 01 05 f303 98 2:13 02 02', X,
     rewritten(3, 2, '11>11@0 19>18@0', '01 05 f303 98 2:12 02'))
case('4.11: into the header', 'G 01 0a 02', G, no(8))
case('4.12: ref_addr', 'G 01 4:b 02', '1 24 49/10; 2 24', no(7))
case('4.12: a sibling in ref_addr', 'WG 01 8:17 02', '1 24 01/10; 2 24', rewritten(2, 1, '23>23@0', '01 8:17'))
for code, more in (('9a', ''), ('a0', '00'), ('f2', '7f'), ('fd', '')):
    case('4.12: an offset in operation %s' % code, 'G 01 %02x %s 4:0 %s 02' % (5 + len(more) // 2, code, more), X,
         no(7))
    case('4.12: of four bytes', 'WG 01 %02x %s 4:0 %s 02' % (5 + len(more) // 2, code, more), X, no(5))
for why, of_unit, table, answer, sections in older.cases():
    judged(why, of_unit, table, answer, **sections)

# ---- document 02, point 7: variables at a fixed address, where they do not count and where they do
part = '-fixed'
ONE_AT = 'H 01 02 09 03 8:1 00'


def twice(why, of_unit, table, off, on, **sections):
    case(why + ', off', of_unit, table, off, **sections)
    case(why + ', on', of_unit, table, on, counts=1, **sections)


for why, of_unit, table, off, on, sections in fixed.SOME:
    judged(why + ', off', of_unit, table, off, **sections)
    judged(why + ', on', of_unit, table, on, counts=1, **sections)
for number in (0, 1, 2, 256, 2 ** 32, 2 ** 63, 2 ** 64 - 1):
    judged('7: by the number %d' % number, ONE_AT, V, 'live' if number else 'dead', counts=number)
    judged('7: a tombstone by the number %d' % number, 'H 01 02 09 03 8:0 00', V, 'dead', counts=number)
judged('7, 12: both by the largest number', ONE_AT, V, 'live', counts=2 ** 64 - 1, told=2 ** 64 - 1)
judged('7, 12: big-endian by the largest number, off', ONE_AT, V, 'dead', told=2 ** 64 - 1)
TYPED, FIRST_ALONE = '1 11 children; 2 34 02/18 49/11; 3 24', rewritten(4, 1, '12>12@0 27>13@1', '01 00')
for address in ('8:0', '8:ffffffffffffffff'):
    twice('7: its type, %s' % address, 'H 01 02 09 03 %s 1a 03 03 00' % address, TYPED, FIRST_ALONE, FIRST_ALONE)
twice('7: its type', 'H 01 02 09 03 8:1 1a 03 03 00', TYPED, FIRST_ALONE,
      rewritten(4, 3, '12>12@0 13>13@1 26>25@1 27>26@1', '01 02 09 03 8:1 19 03 00'))
twice('7: what its expression names', 'H 01 02 0c 03 8:1 98 2:1c 03 03 00', '1 11 children; 2 34 02/18; 3 24',
      rewritten(4, 1, '12>12@0 29>13@1', '01 00'),
      rewritten(4, 3, '12>12@0 13>13@1 28>27@1 29>28@1', '01 02 0c 03 8:1 98 2:1b 03 00'))
twice('7: what its entry value names', 'H 01 02 0e 03 8:1 a303 98 2:1e 03 03 00', '1 11 children; 2 34 02/18; 3 24',
      rewritten(4, 1, '12>12@0 31>13@1', '01 00'),
      rewritten(4, 3, '12>12@0 13>13@1 30>29@1 31>30@1', '01 02 0e 03 8:1 a303 98 2:1d 03 00'))
twice('7: its parent', 'H 01 02 03 09 03 8:1 04 00 04 00', '1 11 children; 2 39 children; 3 34 02/18; 4 24',
      rewritten(5, 1, '12>12@0 28>13@1', '01 00'),
      rewritten(5, 3, '12>12@0 13>13@1 14>14@2 26>25@2 28>26@1', '01 02 03 09 03 8:1 00 00'))
twice('7: a static variable of a dead subprogram', 'H 01 0200 03 09 03 8:1 04 00 04 00',
      '1 11 children; 2 2e children 11/1b; 3 34 02/18; 4 24', rewritten(5, 1, '12>12@0 29>13@1', '01 00'),
      rewritten(5, 3, '12>12@0 13>13@1 15>15@2 27>26@2 29>27@1', '01 0200 03 09 03 8:1 00 00'), addresses='00')
twice('7: unit type 5', 'H5 01 02 09 03 8:1 00', V, rewritten(2, 1, '20>20@0 32>21@1', '01 00'), untouched(2))
twice('7: what is below it', 'H 01 02 09 03 8:1 03 00 03 00', '1 11 children; 2 34 children 02/18; 3 24', FIRST_ALONE,
      rewritten(4, 3, '12>12@0 13>13@1 24>24@2 25>25@2 27>26@1', '01 02 09 03 8:1 03 00 00'))
twice('7: one of several', 'H 01 02 09 03 8:0 02 02 a100 02 02 a101 02 09 03 8:1 00', V,
      rewritten(5, 2, '12>12@0 28>13@1 43>17@1', '01 02 02 a101 00'),
      rewritten(5, 3, '12>12@0 28>13@1 32>17@1 43>28@1', '01 02 02 a101 02 09 03 8:1 00'), addresses='0001')
NAMING = '1 11 children; 2 34 02/18 03/1a'
twice('7: its strings', 'H 01 02 09 03 8:1 05 00', NAMING, rewritten(2, 1, '12>12@0 25>13@1', '01 00'),
      untouched(2, strings='5'))
twice('7: no room for them', 'H 01 02 09 03 8:1 05 00', NAMING, rewritten(2, 1, '12>12@0 25>13@1', '01 00'), no(12),
      lend={'strings': 7})
twice('7: no room for its references', 'H 01 02 09 03 8:1 0c 00', '1 11 children; 2 34 02/18 49/11', no(11), no(11),
      lend={'references': 0})
twice('7: no room for it', ONE_AT, V, no(10), no(10), lend={'entries': 1})
twice('7: 10 before its root test', 'H 01 02 0b 03 8:1 a101 00', V, no(10), no(10), addresses='00', lend={'entries': 1})
twice('7: a dangling reference', 'H 01 02 09 03 8:1 63 03 00', TYPED, rewritten(3, 1, '12>12@0 26>13@1', '01 00'),
      no(8))
twice('7: type units', 'H 01 02 09 03 8:1 05 00', NAMING,
      rewritten(2, 1, '12>12@0 25>13@1', '01 00', 'absent', 'absent', 'absent'),
      untouched(2, 'absent', 'absent', 'absent'), lend={'type_units': 1})
twice('7: the five-entry unit', FIVE, A5, ONE, ONE, addresses='0100')
twice('7: it in version 4', FIVE_4, A5, ONE_4, ONE_4, addresses='0100')
twice('7: an empty section', '', A5, NOTHING, NOTHING)
twice('7: told the wrong order', ONE_AT, V, no(1), no(1), wrong=True)

# ---- document 02, point 10: keep lists
part = '-keep'
FEW = {'map': 1, 'output': 1, 'ranges': 1, 'locations': 1, 'strings': 1, 'entries': 1, 'references': 0, 'index': 1}


def listed(why, keep, of_unit, table, answer, sections, **more):
    """An answer as keep_list.py has it."""
    if answer == ():
        answer = NOTHING
    elif not isinstance(answer, dict):
        answer = no(answer) if isinstance(answer, int) else by_marks(*answer)
    case(why, of_unit, table, answer, keep=keep, **sections, **more)


def by_marks(marks, places=None, body=None):
    entries = marks.split()
    kept = [m for m in entries if not m.endswith('D')]
    if body is None:
        return untouched(len(entries))
    return rewritten(len(entries), len(kept), places, body)


for why, keep, of_unit, table, answer, sections in keep_list.HAND:
    listed(why, keep, of_unit, table, answer, sections)
for why, keep in keep_list.UNCHANGED:
    listed(why, keep, FIVE, A5, ONE, {'addresses': '0100'})
    listed(why + ', version 4', keep, FIVE_4, A5, ONE_4, {'addresses': '0100'})
# a list is judged before all else: what would be refused with 1, 2, 3, 4, 6, 17, 10, 11, 12, 13, 14, and what would not
for why, keep, number in keep_list.REFUSED:
    listed(why, keep, FIVE, A5, number, {'addresses': '0100'})
    for before, of_unit, table, addresses in (
            ('an empty section', '', '', ''), ('no entries', 'H', A5, ''), ('1', '120000', A5, ''),
            ('1, a length past the section', '4:13 2:5 01 08 4:0', A5, ''), ('2', '4:8 2:3 01 08 4:0', A5, ''),
            ('3', 'H 03', A5[:-3], ''), ('4', 'H 63', A5, ''), ('6', FIVE, A5, '02'), ('17', FIVE, A5, '00'),
            ('no entries of version 4', 'G', A5, ''), ('the wrong order', 'H 03', A5, '')):
        listed('%s, before %s' % (why, before), keep, of_unit, table, number, {'addresses': addresses}, lend=FEW,
               both=False, wrong=before == 'the wrong order')
    listed(why + ', before 12', keep, 'H 01 00', '1 11 03/1a', number, {}, both=False, lend={'strings': 0})
    listed(why + ', type units', keep, FIVE, A5, number, {}, both=False, lend=dict(FEW, type_units=1))
for what, number, tag, of_unit, table, sections in keep_list.ENTRY_REFUSALS:
    for keep in keep_list.around(tag):
        listed('10.3: %s, by %s' % (what, keep), keep, of_unit, table, number, sections, both=False)
for keep in keep_list.around('24'):
    listed('10.3: 10, by %s' % keep, keep, 'H 01 02 00', '1 11 children; 2 24', 10, {}, lend={'entries': 1})
    listed('10.3: 10 before 5, by %s' % keep, keep, 'H 01 02 01ff 00', '1 11 children; 2 24 02/18', 10, {},
           lend={'entries': 1}, both=False)
    listed('10.3: 11, by %s' % keep, keep, 'H 01 02 0c 00', '1 11 children; 2 24 49/11', 11, {}, lend={'references': 0})
for why, keep, of_unit, table, off, on in keep_list.at_addresses():
    judged(why + ', off', of_unit, table, off, keep=keep, both=of_unit.startswith(('H ', 'G ')))
    judged(why + ', on', of_unit, table, on, keep=keep, counts=1, both=of_unit.startswith(('H ', 'G ')))
judged('7.4: never, whatever its index', 'H 01 02 02a100 00', V, 'dead', addresses='01', keep='34=2')
judged('7.4: always, whatever its index', 'H 01 02 02a100 00', V, 'live', addresses='00', keep='34=1')
judged('7.4: 17 behind a fixed address that ends the test', 'H 01 02 09 03 8:1 02 a109 00', fixed.TWO, 'dead', counts=1,
       addresses='00', keep='34=2')
judged('7.4: and where it does not', 'H 01 02 09 03 8:1 02 a109 00', fixed.TWO, 17, addresses='00', keep='34=1')
# what is lent, under a list: 24=1 keeps 3 entries of the five-entry unit, 4 places and 16 bytes; 2e=2 one, 2 and 14
TYPES, KEPT_TYPES = '24=1', rewritten(5, 3, '12>12@0 16>13@1 17>14@1 21>15@1', '01 03 03 00')
LESS_ROOM = {'entries': 5, 'references': 2, 'map': 4 * PLACE, 'output': 16, 'ranges': 0, 'locations': 0, 'strings': 0}
for why, keep, addresses, room, answer in (
        ('every length exactly full', TYPES, '0000', {}, KEPT_TYPES),
        ('13', TYPES, '0000', {'map': 4 * PLACE - 1}, no(13)),
        ('14', TYPES, '0000', {'output': 15}, no(14)), ('13 before 14', TYPES, '0000', {'map': 0, 'output': 0}, no(13)),
        ('10', TYPES, '0000', {'entries': 4}, no(10)), ('11', TYPES, '0000', {'references': 1}, no(11)),
        ('less than without it', '2e=2', '0101', {'map': 2 * PLACE, 'output': 14},
         rewritten(5, 1, '12>12@0 21>13@1', '01 00')),
        ('13, less than without it', '2e=2', '0101', {'map': 2 * PLACE - 1, 'output': 14}, no(13)),
        ('14, less than without it', '2e=2', '0101', {'map': 2 * PLACE, 'output': 13}, no(14)),
        ('untouched needs no map and no output', '11=1', '0000', {'map': 0, 'output': 0}, untouched(5)),
        ('untouched by subprograms', '2e=1', '0000', {'map': 0, 'output': 0}, untouched(5))):
    listed('10: lent lengths: ' + why, keep, FIVE, A5, answer, {'addresses': addresses}, lend=dict(LESS_ROOM, **room))
STRINGS = '1 11 children; 2 24 03/1a; 3 28'
DROPPED = rewritten(3, 1, '12>12@0 16>13@1', '01 00')
for keep, room, answer in (('24=1', 11, rewritten(3, 2, '12>12@0 13>13@1 16>15@1', '01 02 00 00', strings='5')),
                           ('24=1', 7, no(12)), ('24=2', 0, DROPPED), ('28=1', 0,
                           rewritten(3, 2, '12>12@0 15>13@1 16>14@1', '01 03 00'))):
    listed('10: strings of what is listed, %d bytes' % room, keep, 'H 01 02 05 03 00', STRINGS, answer, {},
           lend={'strings': room})
listed('10: type units', TYPES, FIVE, A5, rewritten(5, 3, '12>12@0 16>13@1 17>14@1 21>15@1', '01 03 03 00', 'absent',
       'absent', 'absent'), {'addresses': '0000'}, lend={'type_units': 1})
NAMES = '1 11 children; 2 24 49/11; 3 28'
listed('10: 8 of an entry that is a root by its tag', '24=1', 'H 01 02 63 03 00', NAMES, 8, {})
listed('10: no 8 of one that is none', '24=2', 'H 01 02 63 03 00', NAMES, DROPPED, {})
LONG = 'H 01 02 14 %02x %s 03 00'
OWNER = '1 11 children; 2 24 01/11 03/0a; 3 28'
listed('10: 9 of a sibling of an entry that is a root by its tag', '24=1', LONG % (240, '00' * 240), OWNER, 9, {})
listed('10: one that fits', '24=1', LONG % (239, '00' * 239), OWNER,
       rewritten(3, 2, '12>12@0 13>13@1 256>255@1', '01 02 ff ef %s 00' % ('00' * 239)), {})
listed('10: big-endian by the largest number', '24=1', FIVE, A5, KEPT_TYPES, {'addresses': '0000'}, told=2 ** 64 - 1)
listed('10: what is behind the first unit', '24=1', FIVE, A5, KEPT_TYPES, {'addresses': '0000', 'tail': 'ffffffff 00'})

# where a tag stands in a list
part = '-search'
for why, keep, tag, live in keep_list.searched():
    judged('10: %s' % why, 'H 01 02 00', '1 3c children; 2 %x' % tag, 'live' if live else 'dead', keep=keep, both=False)

# trees, each under lists of its tags; version 4 in the 32-bit format
part = '-trees'
for why, keep, of_unit, table, answer, sections in keep_list.trees('H'):
    listed(why, keep, of_unit, table, answer, sections)
for why, keep, of_unit, table, answer, sections in keep_list.trees('G'):
    listed(why + ', version 4', keep, of_unit, table, answer, sections, both=False)

# every tag: enumerations and tag 65,535 are roots, none else is
part = '-every'
listed('10: all 65,536 tags', keep_list.EVERY, 'H 01 0200 03 0405 00 06 03 07 00',
       '1 11 children; 2 2e 11/1b; 3 24; 4 04 children; 5 28; 6 ffff; 7 fffe',
       ('12R 13D 15D 16L 17L 19L 20D 21D', '12>12@0 16>13@1 17>14@2 18>15@2 19>16@1 22>17@1', '01 0405 00 06 00'),
       {'addresses': '01'}, both=False, orders=ORDERS[:1])

# ---- 50, and document 02's 3.1: padded numbers, in the order of crates/test_collect/src/main.rt: value, width, length, bytes or none where refused (15)
PADDED = [(0, 1, 1, '00'), (16, 2, 3, '900000'), (127, 1, 3, '7f0000'), (128, 1, 3, None), (128, 2, 3, '800100'), (0, 0, 3, None), (0, 4, 3, None), (0, 3, 3, '808000'),
          (0, 1, 0, None), (0, 0, 0, None),
          (1, 10, 12, '818080808080808080000000'), (1, 11, 12, None), (2 ** 64 - 1, 10, 10, 'ffffffffffffffffff01'), (2 ** 64 - 1, 9, 10, None),
          (2 ** 63, 10, 12, '808080808080808080010000'), (2 ** 63 - 1, 9, 9, 'ffffffffffffffff7f'), (2 ** 63 - 1, 10, 9, None)]


def by_shifts(value, width, length):
    if not 0 < width <= min(10, length) or value >> 7 * width:
        return None
    return (bytes(value >> 7 * i & 127 | (i < width - 1) << 7 for i in range(width)) + bytes(length - width)).hex()


assert all(answer == by_shifts(*given) for *given, answer in PADDED)
TWELVE = [(1, width) for width in (*range(14), 2 ** 64 - 1)]  # each width
TWELVE += [pair for k in range(1, 10) for pair in ((128 ** k - 1, k), (128 ** k, k), (128 ** k, k + 1))]  # below and at each power of 128
TWELVE += [(2 ** 64 - 1, width) for width in (9, 10, 11)]
SLICES = [(300, 2, length) for length in (1, 2, 3)] + [(0, 10, length) for length in (9, 10, 11)]  # one byte short, full, one byte longer
PADDED += [(*given, by_shifts(*given)) for given in [(value, width, 12) for value, width in TWELVE] + SLICES]


def padded_lines():
    return ''.join('padded %d in %d of %d %s %s\n' % (v, w, n, 'refused 15' if b is None else 'written', '00' * n if b is None and n else b or '-') for v, w, n, b in PADDED)


# ---- 45, 46, and document 02's 2.4, 5.3 and 12: what thin prints, a file each; crates/test_readers has more (points.py)
FIRST = bundle_of(FIVE, A5, addresses='0100')
FIRST_THINNED = 'entries 5 kept 3\n12 R 12\n13 L 13\n16 D -\n17 L 16\n18 D -\n'


def ordered_cases(big, before, kind='H'):
    """What stands in both byte orders, both formats and both versions."""
    first = len(unit(kind))

    def five(**sections):
        return bundle_of('%s 01 0200%02x 03 03 0201%02x 00' % (kind, first + 5, first + 4), A5, big=big, **sections)

    def other(body, declared):
        return bundle_of('%s %s' % (kind, body), declared, big=big)

    rows = ['%d %s %d\n' % (first + n, 'R' if n == 0 else 'L', first + n) for n in (0, 1, 4, 5, 6)]
    live = 'entries 5 kept 5\n' + ''.join(rows)
    held = [('P4', five(addresses='0101'), live),
            ('P5', five(addresses='0200'), 'refused 6\n'),
            ('P6', five(addresses='01'), 'refused 17\n'),
            ('no-table', five(), live),
            ('only-terminators', other('0000', A5), 'entries 0 kept 0\n'),
            ('dangling', other('01 63 02', G), 'refused 8\n'),
            ('named-first', other('01 %02x 02' % first, G),
             'entries 2 kept 1\n%d L %d\n%d D -\n' % (first, first, first + 2))]
    return [(before + name, data, lines) for name, data, lines in held]


def thin_cases():
    room = 65536 - len(bundle_of(FIVE, A5))
    deep, _, dead = nested_unit(17000)
    both = ordered_cases(False, '') + ordered_cases(False, '64-', 'W')
    both += ordered_cases(False, 'v4-', 'G') + ordered_cases(False, '64-v4-', 'WG')
    return both + [
        ('left-over', (len(FIRST) - 3).to_bytes(4, 'big') + FIRST[4:] + b'\0', 'bundle\n'),
        ('65536', bundle_of(FIVE, A5, addresses=b'\1\0' + bytes(room - 2)), FIRST_THINNED),
        ('65537', bundle_of(FIVE, A5, addresses=b'\1\0' + bytes(room - 1)), 'bundle\n'),
        ('52-deep', bundle_of(deep, X), 'entries 3 kept 2\n12 R 12\n%d D -\n%d L %d\n' % (dead, dead + 1, dead))]


def big_thin_cases():
    both = ordered_cases(True, 'big-') + ordered_cases(True, '64-big-', 'W')
    both += ordered_cases(True, 'big-v4-', 'G') + ordered_cases(True, '64-big-v4-', 'WG')
    return both + [
        ('big-far', bundle_of('H ' + far(302) + ' 02' * 8, FAR, big=True),
         'entries 9 kept 8\n12 R 12\n301 D -\n' + ''.join('%d L %d\n' % (n, n - 1) for n in range(302, 309)))]


# Through thin, in both byte orders: a name, a unit, its abbreviations, the address table, and the lines where fixed
# addresses do not count and where they do.
BY_TYPE = ('entries 4 kept 1\n12 R 12\n13 D -\n25 D -\n26 D -\n',
           'entries 4 kept 3\n12 R 12\n13 L 13\n25 D -\n26 L 25\n')
FIXED_THIN = [('fixed-type', 'H 01 02 09 03 8:2 1a 03 03 00', TYPED, '', *BY_TYPE),
              ('fixed-tombstone', 'H 01 02 09 03 8:0 1a 03 03 00', TYPED, '', BY_TYPE[0], BY_TYPE[0]),
              ('fixed-ends-the-test', 'H 01 02 09 03 8:1 02a109 00', fixed.TWO, '00', 'refused 17\n',
               'entries 2 kept 2\n12 R 12\n13 L 13\n')]


def fixed_thin_cases(big, on):
    return [('big-' * big + name, bundle_of(of_unit, table, addresses=addresses, big=big), lines[on])
            for name, of_unit, table, addresses, *lines in FIXED_THIN]


FILES = {key: 'points%s%s%s.cases' % (key[0], '-64' * key[1], '-big' * key[2]) for key, held in cases.items() if held}


def files():
    def lines_of(held):
        return ''.join('-- %d\n%s' % (n, lines) for n, (_, _, lines) in enumerate(held, 1))

    held = [Part('cases made by hand', 'cases', list(FILES.values()),
                 ''.join('== %s\n' % name + lines_of(cases[key]) for key, name in FILES.items()))]
    made = {'test_collect/data/' + name: b''.join(data for _, data, _ in cases[key]) for key, name in FILES.items()}
    assert all(len(data) <= MOST for data in made.values())
    for heading, thin, big, on in (
            ('bundles through thin', thin_cases() + fixed_thin_cases(False, False), False, False),
            ('big-endian bundles through thin', big_thin_cases() + fixed_thin_cases(True, False), True, False),
            ('bundles through thin, where fixed addresses count', fixed_thin_cases(False, True), False, True),
            ('big-endian bundles through thin, where fixed addresses count', fixed_thin_cases(True, True), True, True)):
        lines = ''.join('== %s.bundle\n%s' % (name, lines) for name, _, lines in thin)
        held.append(Part(heading, 'thin', [name + '.bundle' for name, _, _ in thin], lines, big, on))
        made.update({'test_collect/data/%s.bundle' % name: data for name, data, _ in thin})
    made.update(with_parts('test_collect', held + [Part('padded numbers', None, [], padded_lines())]))
    made.update({'thin/stdin': FIRST, 'thin/stdout': FIRST_THINNED.encode()})
    return made


if __name__ == '__main__':
    if sys.argv[1:] == ['names']:
        for key, name in FILES.items():
            print('== ' + name)
            for n, (why, _, _) in enumerate(cases[key], 1):
                print('%d %s' % (n, why))
        sys.exit(0)
    wrong = write(files(), sys.argv[1:] == ['check'])
    print('collect: in each byte order %d cases of the 32-bit format and %d of the 64-bit one, for version 4 %d and '
          '%d, with fixed addresses %d and %d, with keep lists %d and %d, by the place of a tag %d and %d, of '
          'trees %d and %d; one with every tag; %d padded numbers; thin: %d files, %d of them big-endian' %
          (*(len(cases[of, wide, False]) for of in PARTS[:-1] for wide in FORMATS), len(PADDED),
           len(thin_cases() + big_thin_cases()) + 2 * len(FIXED_THIN), len(big_thin_cases()) + len(FIXED_THIN)))
    sys.exit(wrong > 0)
