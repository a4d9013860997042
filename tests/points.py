#!/usr/bin/python3
"""points.py [check]: writes the bundles made by hand of crates/test_readers and the lines that it must print of them;
of crates/dump too.

Each case below has a name, the point that it is about, its bytes, and the expected lines, written from the
specification and from DWARF 5, never from a run; some also the lines that thin must print. With `check` nothing is
written, and the files are compared with what would be.

units.py has the notation. Expected lines stand with `|` between them; `unit N` stands for the header line of a unit `H`
that ends at N, `wide N` for that of a unit `W`, `gnu N` for that of a unit `G`; `unit type ..` for a line of version 5.
A case whose bytes follow a byte order stands in both, with the same lines: in big-endian its name has `big-` before it.
Cases of headers, of what is as wide as an offset, of lists, and of version 4 stand in both formats (wide.py): in the
64-bit one their names have `64-` before them."""
import re
import sys
from functools import partial

import keep_list
from units import (A5, BIG, CUT, FAR, FIVE, FIVE64, FIVE_4, ORDERS, T, T64, Part, bundle, bundle_of, counted,
                   entry_values,
                   far, octets, ordered, parts, uleb, unit, with_parts, write)
from wide import OneFormat, Wide

IN_BOTH = re.compile(
    'five-entries|header-|p04|form-(01|0e|10|1[3-5]|1[78]|1[cdf]|24)(-cut|-32)?$|indirect-(0e|10|17|1[cdf])$|p01|'
    'p1[5-7]|p2[1345]|p30|p34|p38|p4[024]|location|range|sec-offset|absolute|operations$|operations-32|p12-|unit-end|'
    'string-end|references-2049-absolute|v4-')
FIRST = {'unit': 12, 'wide': 24, 'gnu': 11}  # where the first entry stands
cases = {big: [] for big in ORDERS}  # by the order that is told
thinned = {big: [] for big in ORDERS}


def printed(name, text):
    return '== %s.bundle\n' % name + ''.join(line + '\n' for line in text)


def lines(text):
    out = []
    for line in text.split('|'):
        kind, _, end = line.partition(' ')
        if kind in FIRST and ' ' not in end:
            line = 'unit type 1 address_size 8 abbreviations 0 first %d end %s' % (FIRST[kind], end)
        out.append('version %d ' % (4 if kind == 'gnu' else 5) + line if line.startswith('unit type ') else line)
    return out


def raw(name, point, data, expected, thin=None, big=False):
    """A file, what dump prints of it, and thin. big: what is told."""
    cases[big].append((name, point, data, printed(name, lines(expected))))
    if thin:
        thinned[big].append((name, printed(name, thin.split('|'))))


def case(name, point, of_unit, table, expected, locations='', ranges='', addresses='', thin=None, older=None):
    """A bundle by its parts."""
    raw(name, point, bundle_of(of_unit, table, locations, ranges, addresses, older=older), expected, thin)
    widened(name, point, of_unit, table, expected, locations, ranges, addresses, older=older)
    if any(ordered(part) for part in (of_unit, locations, ranges, older)):
        turned(name, point, of_unit, table, expected, locations, ranges, addresses, older=older)


def turned(name, point, of_unit, table, expected, locations='', ranges='', addresses='', thin=None, older=None):
    """The same in big-endian."""
    data = bundle_of(of_unit, table, locations, ranges, addresses, big=True, older=older)
    raw('big-' + name, point, data, expected, thin, True)
    widened(name, point, of_unit, table, expected, locations, ranges, addresses, True, older)


def widened(name, point, of_unit, table, expected, locations='', ranges='', addresses='', big=False, older=None):
    """The same in the 64-bit format, where that is another."""
    if not IN_BOTH.match(name):
        return
    try:
        made = Wide(of_unit, table, locations, ranges, big=big, older=older)
        if made.unit != unit(of_unit, big):
            raw('64-' + 'big-' * big + name, point, made.bundle(addresses),
                '|'.join(made.printed(lines(expected))), big=big)
    except OneFormat:
        pass


def again(name, point, expected, big, thin=None):
    """The file of another case, told the other byte order."""
    raw(name, point, None, expected, thin, big)


def single(name, point, pair, value, expected):
    """One entry with one attribute, and what follows `form N` in its line, with the lines after it; or a refusal."""
    at, form = (int(w, 16) for w in pair.split('/'))
    head = 'unit %d|' % (13 + len(octets(value)))
    if not expected.startswith('refused'):
        head += 'entry 12 depth 0 code 1 tag 36| attribute %d form %s' % (at, '' if form == 0x16 else '%d ' % form)
    case(name, point, partial(behind_code, value) if ordered(value) else behind_code(value), '1 24 ' + pair, head + expected)


def behind_code(value, big=False):
    """An entry with code 1."""
    return b'\x01' + octets(value, big)


def cut(text, big):
    """Without the last byte."""
    return octets(text, big)[:-1]


def expression(name, point, text, expected=''):
    """One exprloc under DW_AT_location: it starts at 14, after a length of one byte."""
    size = len(octets(text))
    assert size < 128
    single(name, point, '02/18', '%02x ' % size + text, 'bytes 14 to %d' % (14 + size) + ('|  ' + expected if expected else ''))


def range_list(name, point, section, expected):
    case(name, point, 'H 01 00', '1 24 55/23',
         'unit 14|entry 12 depth 0 code 1 tag 36| attribute 85 form 35 value 0|  ' + expected.replace('|', '|  '), ranges=section)


def location_list(name, point, section, expected):
    case(name, point, 'H 01 00', '1 24 02/22',
         'unit 14|entry 12 depth 0 code 1 tag 36| attribute 2 form 34 value 0|  ' + expected.replace('|', '|  '), locations=section)


def header(name, point, text, expected, table=A5, thin=None):
    case(name, point, text, table, expected, thin=thin)


def declared(name, point, text, expected, body='H 01'):
    """Abbreviations in bytes, and what comes of the entry 01."""
    case(name, point, body, text, expected)


FIVE_LINES = ('unit 22|entry 12 depth 0 code 1 tag 17 children|entry 13 depth 1 code 2 tag 46| attribute 17 form 27 value 0|'
              ' attribute 73 form 17 value 17|entry 16 depth 1 code 3 tag 36|entry 17 depth 1 code 3 tag 36|entry 18 depth 1 code 2 tag 46|'
              ' attribute 17 form 27 value 1| attribute 73 form 17 value 16|terminator 21 depth 1')
FIVE_THINNED = 'entries 5 kept 3|12 R 12|13 L 13|16 D -|17 L 16|18 D -'
ENTRY = 'entry 12 depth 0 code 1 tag 36'

# ---- bundles: the length of the rest, version 1 and five parts or 2 and six, nothing more (65,536 bytes at most)
whole = bundle_of(FIVE, A5, addresses='01 00')
ROOM = 65536 - len(bundle_of(FIVE, A5))
raw('five-entries', 'the five-entry unit', whole, FIVE_LINES, FIVE_THINNED)
raw('bundle-empty', 'no bytes at all', b'', 'bundle', 'bundle')
raw('bundle-three', 'a cut length', whole[:3], 'bundle', 'bundle')
raw('bundle-no-version', 'no version byte', octets('00000000'), 'bundle')
raw('bundle-version-0', 'another version', whole[:4] + b'\0' + whole[5:], 'bundle')
raw('bundle-version-2', 'version 2 with five parts', whole[:4] + b'\x02' + whole[5:], 'bundle', 'bundle')
raw('bundle-one-more', 'a byte behind the declared length', whole + b'\0', 'bundle', 'bundle')
raw('bundle-one-less', 'a byte short of the declared length', whole[:-1], 'bundle', 'bundle')
raw('bundle-left-over', 'a byte behind the last part, within the length', octets('00000043') + whole[4:] + b'\0' * 2, 'bundle')
raw('bundle-too-far', 'a part that reaches past the end', octets('00000041 01 000000ff') + whole[9:], 'bundle', 'bundle')
raw('bundle-last-too-far', 'the last part reaches one byte too far', whole[:-6] + octets('00000003 01 00'), 'bundle')
raw('bundle-four-parts', 'the last part is missing', octets('0000003b') + whole[4:-6], 'bundle')
raw('bundle-65536', 'the largest', bundle_of(FIVE, A5, addresses=b'\x01' * ROOM), FIVE_LINES)
raw('bundle-65537', 'one more than the largest', bundle_of(FIVE, A5, addresses=b'\x01' * (ROOM + 1)), 'bundle')

# ---- the header: 1 cut short, 2 a value outside the domain, in byte order (point 5)
header('header-empty', 'an empty section', '', 'empty', thin='entries 0 kept 0')
header('header-3-bytes', 'a cut length', '120000', 'refused 1')
header('header-fffffff0', '5: a length of 0xfffffff0, and nothing behind it', '4:fffffff0', 'refused 2')
header('header-ffffffef', '5: the largest length reaches past the section', '4:ffffffef 2:5', 'refused 1')
header('header-past-wrong-version', '5: past the section, before the version is looked at', '4:3 2:3', 'refused 1')
header('header-one-too-far', 'a length that is one too large', '4:9 2:5 01 08 4:0', 'refused 1')
header('header-0', 'no version', '00000000', 'refused 1')
header('header-1', 'half a version', '4:1 05', 'refused 1')
header('header-2-version-3', '5: another version, and nothing behind it', '4:2 2:3', 'refused 2')
header('header-version-0501', 'another version', '4:8 0501 01 08 00000000', 'refused 2')
header('header-2', '5: cut at the unit\'s end, though bytes follow', '4:2 2:5 01 08 4:0', 'refused 1')
header('header-3-type-2', 'another unit type, and nothing behind it', '4:3 2:5 02', 'refused 2')
header('header-type-0', 'another unit type', '4:8 2:5 00 08 4:0', 'refused 2')
header('header-type-4', 'a skeleton unit', '4:10 2:5 04 08 4:0 0000000000000000', 'refused 2')
header('header-type-6', 'a split type unit', '4:10 2:5 06 08 4:0 0000000000000000', 'refused 2')
header('header-3', 'no address size', '4:3 2:5 01', 'refused 1')
header('header-4-size-2', 'another address size, and nothing behind it', '4:4 2:5 01 02', 'refused 2')
header('header-size-0', 'another address size', '4:8 2:5 01 00 4:0', 'refused 2')
header('header-type-before-size', 'the type goes before the size', '4:3 2:5 03 03', 'refused 2')
header('header-4', 'no abbreviation offset', '4:4 2:5 01 08', 'refused 1')
header('header-7', 'half an abbreviation offset', '4:7 2:5 01 08 000000', 'refused 1')
header('header-split-12', 'a split unit with no dwo_id', '4:8 2:5 05 08 4:0', 'refused 1')
header('header-split-19', 'a split unit with a cut dwo_id', '4:f 2:5 05 08 4:0 00000000000000', 'refused 1')
header('header-split-20', 'a split unit with no entries', '4:10 2:5 05 04 4:0 8877665544332211',
       'unit type 5 address_size 4 abbreviations 0 first 20 end 20')
header('header-split-entry', 'a split unit with an entry', '4:11 2:5 05 08 4:0 8:1 03',
       'unit type 5 address_size 8 abbreviations 0 first 20 end 21|entry 20 depth 0 code 3 tag 36')
header('header-no-entries', 'a unit with no entries', 'H', 'unit 12', thin='entries 0 kept 0')
header('header-two-units', 'a second unit is not read', '4:9 2:5 01 08 4:0 03 ffffffff', 'unit 13|entry 12 depth 0 code 3 tag 36')

# ---- abbreviations: 3 (points 3, 4, 6, 7)
header('p03-no-code-0', '3: the list is not closed', 'H 03', 'refused 3', A5[:-3])
header('p03-none', '3: no abbreviations at all', 'H', 'refused 3', '')
header('p04-past', '4: the offset is past the section', '4:8 2:5 01 08 4:15', 'refused 3')
header('p04-at-end', '4: the offset is the section\'s end', '4:8 2:5 01 08 4:14', 'refused 3')
header('p04-largest', '4: the largest offset', '4:8 2:5 01 08 ffffffff', 'refused 3')
header('p04-closing', '4: the offset of the closing code: no abbreviations', '4:8 2:5 01 08 4:13',
       'unit type 1 address_size 8 abbreviations 19 first 12 end 12')
header('p04-inside', '4: the list starts at the offset: code 1 is none of it', '4:a 2:5 01 08 4:5 03 01',
       'unit type 1 address_size 8 abbreviations 5 first 12 end 14|entry 12 depth 0 code 3 tag 36|refused 4')
declared('p06-pair-padded', '6: a closing pair padded to two bytes each', '01 24 00 8000 8000 00', 'unit 13|' + ENTRY)
declared('p06-pair-three', '6: and to three', '01 24 00 808000 808000 00', 'unit 13|' + ENTRY)
declared('p06-pair-four', '6: but not to four', '01 24 00 80808000 00 00', 'refused 3')
declared('p06-pair-four-second', '6: nor the second', '01 24 00 00 80808000 00', 'refused 3')
declared('p06-name-0', '6: no name, with a form', '01 24 00 00 0b 00 00 00', 'refused 3')
declared('p06-form-0', '6: a name with no form', '01 24 00 03 00 00 00 00', 'refused 3')
declared('p06-unused', '6: an abbreviation that no entry uses must be readable', '01 24 00 0000 02 00 00 0000 00', 'refused 3')
declared('p06-closing-ten', '6: the closing code in ten bytes', '01 24 00 0000 80808080808080808000', 'unit 13|' + ENTRY)
declared('p06-closing-eleven', '6: and not in eleven', '01 24 00 0000 8080808080808080808000', 'refused 3')
declared('p06-around', '6: bytes before the offset and behind the closing code', 'ff ff 01 24 00 0000 00 ff ff',
         'unit type 1 address_size 8 abbreviations 2 first 12 end 13|' + ENTRY, '4:9 2:5 01 08 4:2 01')
declared('abbreviation-code-ten', 'a code in ten bytes', '81808080808080808000 24 00 0000 00', 'unit 13|' + ENTRY)
declared('abbreviation-code-largest', 'the largest code', 'ffffffffffffffffff01 24 00 0000 00',
         'unit 22|entry 12 depth 0 code 18446744073709551615 tag 36', 'H ffffffffffffffffff01')
declared('abbreviation-code-too-large', 'a code above 64 bits', 'ffffffffffffffffff02 24 00 0000 00', 'refused 3')
declared('abbreviation-code-eleven', 'a code in eleven bytes', '8180808080808080808000 24 00 0000 00', 'refused 3')
declared('abbreviation-code-1023', 'codes around 1,024', 'ff07 24 00 0000 8008 2e 00 0000 8108 34 00 0000 00',
         'unit 18|entry 12 depth 0 code 1023 tag 36|entry 14 depth 0 code 1024 tag 46|entry 16 depth 0 code 1025 tag 52', 'H ff07 8008 8108')
declared('abbreviation-code-1026', 'a large code that is none', 'ff07 24 00 0000 8008 2e 00 0000 00', 'unit 14|refused 4', 'H 8208')
declared('abbreviation-any-order', 'codes in no order', '03 24 00 0000 01 2e 00 0000 00',
         'unit 14|entry 12 depth 0 code 3 tag 36|entry 13 depth 0 code 1 tag 46', 'H 03 01')
declared('abbreviation-twice', 'a code twice', '01 24 00 0000 02 24 00 0000 01 24 00 0000 00', 'refused 3')
declared('abbreviation-twice-padded', 'a code twice, once padded', '01 24 00 0000 8100 24 00 0000 00', 'refused 3')
declared('abbreviation-twice-large', 'a large code twice', 'd00f 24 00 0000 01 24 00 0000 d00f 24 00 0000 00', 'refused 3')
declared('abbreviation-tag-0', 'tag 0', '01 00 00 0000 00', 'refused 3')
declared('abbreviation-tag-padded', 'a tag in three bytes', '01 a48000 00 0000 00', 'unit 13|' + ENTRY)
declared('abbreviation-tag-four', 'a tag in four bytes', '01 a4808000 00 0000 00', 'refused 3')
declared('abbreviation-tag-ffff', 'the largest tag', '01 ffff03 00 0000 00', 'unit 13|entry 12 depth 0 code 1 tag 65535')
declared('abbreviation-tag-10000', 'a tag above 16 bits', '01 808004 00 0000 00', 'refused 3')
declared('abbreviation-tag-cut', 'no tag', '01', 'refused 3')
declared('abbreviation-children-1', 'children', '01 24 01 0000 00', 'unit 13|' + ENTRY + ' children')
declared('abbreviation-children-2', 'a children byte of 2', '01 24 02 0000 00', 'refused 3')
declared('abbreviation-children-ff', 'a children byte of 255', '01 24 ff 0000 00', 'refused 3')
declared('abbreviation-children-cut', 'no children byte', '01 24', 'refused 3')
declared('abbreviation-name-ffff', 'the largest name, in form flag_present', '01 24 00 ffff03 19 0000 00',
         'unit 13|' + ENTRY + '| attribute 65535 form 25 value 1')
declared('abbreviation-name-10000', 'a name above 16 bits', '01 24 00 808004 19 0000 00', 'refused 3')
declared('abbreviation-name-four', 'a name in four bytes', '01 24 00 83808000 19 0000 00', 'refused 3')
declared('abbreviation-name-padded', 'a name and a form in three bytes', '01 24 00 838000 998000 0000 00',
         'unit 13|' + ENTRY + '| attribute 3 form 25 value 1')
declared('abbreviation-form-10000', 'a form above 16 bits', '01 24 00 03 808004 0000 00', 'refused 3')
declared('abbreviation-form-four', 'a form in four bytes', '01 24 00 03 99808000 0000 00', 'refused 3')
declared('abbreviation-form-cut', 'no form', '01 24 00 03', 'refused 3')
declared('abbreviation-pair-cut', 'half a closing pair', '01 24 00 00', 'refused 3')
declared('abbreviation-unknown-unused', 'an unknown form where no entry uses it', '01 24 00 0000 02 24 00 03 ffff03 0000 00', 'unit 13|' + ENTRY)
declared('abbreviation-same-name', '56: a name twice', '01 24 00 03 19 03 0b 0000 00',
         'unit 14|' + ENTRY + '| attribute 3 form 25 value 1| attribute 3 form 11 value 9', 'H 01 09')
declared('implicit-cut', 'implicit_const with no value', '01 24 00 03 21', 'refused 3')
declared('implicit-signed', 'implicit_const takes no bytes; its value is signed', '01 24 00 03 21 7f 3a 21 c000 49 21 0c 0000 00',
         'unit 13|' + ENTRY + '| attribute 3 form 33 value -1| attribute 58 form 33 value 64| attribute 73 form 33 value 12')
declared('implicit-least', '7: the least value', '01 24 00 03 21 8080808080808080807f 0000 00',
         'unit 13|' + ENTRY + '| attribute 3 form 33 value -9223372036854775808')
declared('p07-implicit', '7: a value above 64 bits', '01 24 00 03 21 80808080808080808001 0000 00', 'refused 3')
declared('implicit-indirect-value', 'a form behind implicit_const', '01 24 00 03 21 05 3a 0b 0000 00',
         'unit 14|' + ENTRY + '| attribute 3 form 33 value 5| attribute 58 form 11 value 7', 'H 01 07')

# ---- every form: its bytes, and what is read; one byte less is unreadable
FORMS = (
    ('01', '8:1122334455667788', 'value 1234605616436508552'), ('03', '2:3 aabbcc', 'bytes 15 to 18'), ('04', '4:2 aabb', 'bytes 17 to 19'),
    ('05', '2:1234', 'value 4660'), ('06', '4:12345678', 'value 305419896'), ('07', '8:ffffffffffffffff', 'value 18446744073709551615'),
    ('08', '616200', 'bytes 13 to 16'), ('09', '8300 010203', 'bytes 15 to 18'), ('0a', '02 aabb', 'bytes 14 to 16'), ('0b', 'ff', 'value 255'),
    ('0c', '02', 'value 2'), ('0d', '807f', 'value -128'), ('0e', '4:1020304', 'value 16909060'), ('0f', '8001', 'value 128'),
    ('10', '4:c', 'value 12'), ('11', '0c', 'value 12'), ('12', '2:c', 'value 12'), ('13', '4:c', 'value 12'),
    ('14', '8:c', 'value 12'), ('15', '8c00', 'value 12'), ('17', '4:80000001', 'value 2147483649'), ('18', '01 96', 'bytes 14 to 15'),
    ('1a', '808001', 'value 16384'), ('1b', 'ff01', 'value 255'), ('1c', '4:4030201', 'value 67305985'), ('1d', '4:1', 'value 1'),
    ('1e', '000102030405060708090a0b0c0d0e0f', 'bytes 13 to 29'), ('1f', '4:2', 'value 2'), ('20', '8:8000000000000000', 'value 9223372036854775808'),
    ('22', '8100', 'value 1|  list unresolved'), ('23', '02', 'value 2|  list unresolved'), ('24', '8:1', 'value 1'),
    ('25', 'fe', 'value 254'), ('26', '2:fffe', 'value 65534'), ('27', '3:123456', 'value 1193046'), ('28', '4:1000000', 'value 16777216'),
    ('29', '01', 'value 1'), ('2a', '2:1', 'value 1'), ('2b', '3:ffffff', 'value 16777215'), ('2c', '4:1', 'value 1'), ('1f02', '9001', 'value 144'))
for form, value, expected in FORMS:
    single('form-%s' % form, 'form 0x%s' % form, '03/' + form, value, expected)
    single('form-%s-cut' % form, 'form 0x%s, one byte less' % form, '03/' + form, partial(cut, value), 'refused 4')
    # under indirect the line has the form that is found, and places stand behind the form number
    number = uleb(int(form, 16))
    words = expected.split()
    if words[0] == 'bytes':
        words[1], words[3] = (str(int(w) + len(number)) for w in (words[1], words[3]))
        expected = ' '.join(words)
    single('indirect-%s' % form, 'form 0x%s under indirect' % form, '03/16', number.hex() + ' ' + value, '%d %s' % (int(form, 16), expected))
single('form-19', 'flag_present takes no bytes', '03/19', '', 'value 1')
single('indirect-19', 'flag_present under indirect', '03/16', '19', '25 value 1')
case('form-01-32', 'form addr in a unit of address size 4', '4:d 2:5 01 04 4:0 01 4:11223344', '1 24 11/01',
     'unit type 1 address_size 4 abbreviations 0 first 12 end 17|' + ENTRY + '| attribute 17 form 1 value 287454020')
for form in ('02', '2d', '2e', '1f00', '1f01', '1f03', '1f20', '1f21', 'ffff'):
    single('form-%s-unknown' % form, 'form 0x%s is unknown' % form, '03/' + form, '00000000', 'refused 4')
    single('indirect-%s-unknown' % form, 'and under indirect', '03/16', uleb(int(form, 16)).hex() + '00000000', 'refused 4')
single('form-0d-positive', 'sdata', '03/0d', 'ff00', 'value 127')
for text, number in (('3f', 63), ('40', -64), ('41', -63), ('c000', 64), ('bf7f', -65), ('ff3f', 8191), ('8040', -8192), ('c040', -8128)):
    single('form-0d-' + text, 'sdata: bit 6 of the last byte is the sign', '03/0d', text, 'value %d' % number)
single('form-0d-minus-1', 'sdata, padded', '03/0d', 'ff7f', 'value -1')
single('form-0d-largest', '7: the largest signed number', '03/0d', 'ffffffffffffffffff00', 'value 9223372036854775807')
single('form-0d-least', '7: the least', '03/0d', '8080808080808080807f', 'value -9223372036854775808')
single('p07-sdata', '7: one above the largest', '03/0d', '80808080808080808001', 'refused 4')
single('p07-sdata-7e', '7: a tenth byte of 7e', '03/0d', 'ffffffffffffffffff7e', 'refused 4')
single('form-0d-eleven', 'sdata in eleven bytes', '03/0d', '8080808080808080808000', 'refused 4')
single('form-0f-largest', 'the largest unsigned number', '03/0f', 'ffffffffffffffffff01', 'value 18446744073709551615')
single('form-0f-too-large', 'one above it', '03/0f', '80808080808080808002', 'refused 4')
single('form-0f-ten', 'zero in ten bytes', '03/0f', '80808080808080808000', 'value 0')
single('form-0f-eleven', 'zero in eleven bytes', '03/0f', '8080808080808080808000', 'refused 4')
single('form-09-huge', 'a block of 2^64-1 bytes', '03/09', 'ffffffffffffffffff01 00', 'refused 4')
single('form-04-huge', 'a block of 2^32-1 bytes', '03/04', 'ffffffff 00', 'refused 4')
single('form-08-empty', 'an empty string', '03/08', '00', 'bytes 13 to 14')
single('form-0a-empty', 'an empty block', '03/0a', '00', 'bytes 14 to 14')
single('form-18-empty', 'an empty expression', '03/18', '00', 'bytes 14 to 14')
single('form-18-padded', 'a padded length', '02/18', '848000 98 2:c 96', 'bytes 16 to 20|  reference at 1 to 12 width 2')
case('unit-end', 'attribute bytes end at the unit\'s end', '4:a 2:5 01 08 4:0 01 00 00 00 00', '1 24 03/05', 'unit 14|refused 4')
case('string-end', 'a string whose zero lies behind the unit', '4:a 2:5 01 08 4:0 01 61 00', '1 24 03/08', 'unit 14|refused 4')

# ---- indirect, siblings, codes (points 8 to 11)
single('p08-chain', '8: indirect under indirect', '03/16', '16 16 0b 00', '11 value 0')
single('p08-large', '8: form number 65,547', '03/16', '8b8004 00', 'refused 4')
single('p08-0', '8: form number 0', '03/16', '00 00', 'refused 4')
single('p08-three', '8: a form number in three bytes', '03/16', '8b8000 07', '11 value 7')
single('p08-four', '8: and in four', '03/16', '8b808000 07', 'refused 4')
single('p08-cut', '8: no form number', '03/16', '', 'refused 4')
single('p08-chain-cut', '8: a chain that ends with the unit', '03/16', '16 16', 'refused 4')
single('indirect-21', 'implicit_const under indirect', '03/16', '21 00', 'refused 4')
single('p09-declared', 'a sibling in exprloc', '01/18', '00', 'refused 4')
single('p09-indirect', '9: a sibling in exprloc under indirect', '01/16', '18 00', 'refused 4')
single('p09-chain', '9: and in a chain', '01/16', '16 18 00', 'refused 4')
single('p09-block', 'a sibling in a block is readable', '01/0a', '00', 'bytes 14 to 14')
case('p10-padded', '10: a terminator in two bytes, an entry\'s code in three', 'H 03 8000 838000', A5,
     'unit 18|entry 12 depth 0 code 3 tag 36|terminator 13 depth 0|entry 15 depth 0 code 3 tag 36')
case('p10-ten', '10: a terminator in ten bytes', 'H 01 80808080808080808000 03', A5,
     'unit 24|entry 12 depth 0 code 1 tag 17 children|terminator 13 depth 1|entry 23 depth 0 code 3 tag 36')
case('p10-eleven', '10: and in eleven', 'H 01 8080808080808080808000 03', A5, 'unit 25|entry 12 depth 0 code 1 tag 17 children|refused 4')
case('p10-unfinished', '10: a code that is unfinished at the unit\'s end', 'H 03 80', A5, 'unit 14|entry 12 depth 0 code 3 tag 36|refused 4')
case('p10-unfinished-more', '10: though bytes follow the unit', '4:a 2:5 01 08 4:0 03 80 00', A5,
     'unit 14|entry 12 depth 0 code 3 tag 36|refused 4')
case('code-unknown', 'a code that is none', 'H 03 04 03', A5, 'unit 15|entry 12 depth 0 code 3 tag 36|refused 4')
case('code-too-large', 'a code above 64 bits', 'H ffffffffffffffffff02', A5, 'unit 22|refused 4')
case('p11-surplus', '11: a terminator before the first entry', 'H 00 03 03', A5,
     'unit 15|terminator 12 depth 0|entry 13 depth 0 code 3 tag 36|entry 14 depth 0 code 3 tag 36')
case('p11-open', '11: children that are open at the unit\'s end', 'H 01 03', A5,
     'unit 14|entry 12 depth 0 code 1 tag 17 children|entry 13 depth 1 code 3 tag 36')
case('p11-two-trees', '11: two trees', 'H 01 01 00 00 00 01 00 03', A5,
     'unit 20|entry 12 depth 0 code 1 tag 17 children|entry 13 depth 1 code 1 tag 17 children|terminator 14 depth 2|terminator 15 depth 1|'
     'terminator 16 depth 0|entry 17 depth 0 code 1 tag 17 children|terminator 18 depth 1|entry 19 depth 0 code 3 tag 36')
case('p02-last', '2: the last entry ends where the unit ends', 'H 01 0f 02 02', '1 24 49/11; 2 24',
     'unit 16|' + ENTRY + '| attribute 73 form 17 value 15|entry 14 depth 0 code 2 tag 36|entry 15 depth 0 code 2 tag 36')

# ---- lists (points 1, 15 to 17, 21, 24, 30, 38)
single('p01-ranges', '1: ranges in data4 name no list', '55/06', '00000000', 'value 0')
single('p01-location', '1: nor does a location', '02/06', '4:1', 'value 1')
range_list('p15', '15: startx_endx whose end is cut', T + '02 00', 'list at 16|list refused 5')
range_list('p16-at-end', '16: an offset of the section\'s length is an empty list', T, 'list at 16|end')
range_list('p16-past', '16: one more is not resolved', 'z t:5', 'list unresolved')
range_list('p16-cut', '16: a table place of three bytes', CUT, 'list unresolved')
location_list('p16-locations-at-end', '16: the same for locations', T, 'list at 16|end')
location_list('p16-locations-past', '16', 'z t:5', 'list unresolved')
location_list('p16-locations-cut', '16', CUT, 'list unresolved')
range_list('p16-before', '16: an offset of 0 is the table itself', 'z t:0', 'list at 12|end')
range_list('p16-largest', '16: the largest offset', 'z t:ffffffff', 'list unresolved')
for form, what in (('23', 'ranges'), ('22', 'locations')):
    at, index, decimal = ('55' if form == '23' else '02'), BIG, 2 ** 62
    case('p17-' + what, '17: index 2^62, times four above 64 bits', 'H 01' + index, '1 24 %s/%s' % (at, form),
         'unit 22|' + ENTRY + '| attribute %d form %d value %d|  list unresolved' % (int(at, 16), int(form, 16), decimal), locations=T, ranges=T)
    case('p17-largest-' + what, '17: the largest index and base', 'H 01 ffffffff ffffffffffffffffff01',
         '1 11 %s/17 %s/%s' % ('74' if form == '23' else '8c', at, form),
         'unit 27|entry 12 depth 0 code 1 tag 17| attribute %d form 23 value 4294967295| attribute %d form %d value 18446744073709551615|'
         '  list unresolved' % (116 if form == '23' else 140, int(at, 16), int(form, 16)), locations=T, ranges=T)
location_list('p24', '24: entry by entry', T + '05 05|09 9a o:0 ff',
    'list at 16|kind 5 0 0 bytes 18 to 23|expression refused 7|list refused 5')
case('p38', '38: sec_offset under indirect', 'H 01 17 00000000', '1 2e 55/16',
     'unit 18|entry 12 depth 0 code 1 tag 46| attribute 85 form 23 value 0|  list at 0|  end', ranges='00')
case('location-sec-offset', 'a location\'s sec_offset is from the section\'s start', 'H 01 4:2', '1 34 02/17',
     'unit 17|entry 12 depth 0 code 1 tag 52| attribute 2 form 23 value 2|  list at 2|  kind 5 0 0 bytes 4 to 7|  reference at 1 to 12 width 2|  end',
     locations='ffff 05 03 98 2@c 00')
case('location-sec-offset-past', 'and past its end is not resolved', 'H 01 4:4', '1 34 02/17',
     'unit 17|entry 12 depth 0 code 1 tag 52| attribute 2 form 23 value 4|  list unresolved', locations='050196')
case('sec-offset-other', 'a sec_offset of another attribute names no list', 'H 01 00000000', '1 11 10/17',
     'unit 17|entry 12 depth 0 code 1 tag 17| attribute 16 form 23 value 0', locations='ff', ranges='ff')
case('p21-bases', '21: the last base in an entry counts, for the whole entry and those behind it',
     'H 02 00 01 00 00 00000000 4:4 02 00 00', '1 11 children 55/23 02/22 74/17 74/17; 2 24 55/23',
     'unit 28|entry 12 depth 0 code 2 tag 36| attribute 85 form 35 value 0|  list unresolved|'
     'entry 14 depth 0 code 1 tag 17 children| attribute 85 form 35 value 0|  list at 8|  kind 4 1 2|  end| attribute 2 form 34 value 0|  list at 16|  end|'
     ' attribute 116 form 23 value 0| attribute 116 form 23 value 4|entry 25 depth 1 code 2 tag 36| attribute 85 form 35 value 0|  list at 8|  kind 4 1 2|  end|'
     'terminator 27 depth 1', locations=T, ranges='ffffffff t:4 04 01 02 00')
case('p21-indirect', '21: a base in sec_offset under indirect counts; a base of another tag does not',
     'H 02 00000000 01 17 4:4 00 03', '1 11 8c/16 02/22; 2 24 8c/17; 3 24',
     'unit 25|entry 12 depth 0 code 2 tag 36| attribute 140 form 23 value 0|entry 17 depth 0 code 1 tag 17| attribute 140 form 23 value 4|'
     ' attribute 2 form 34 value 0|  list at 8|  end|entry 24 depth 0 code 3 tag 36', locations='ffffffff t:4 00')
case('p30', '30: a base in data4 does not count', 'H 01 00000000 00', '1 11 74/06 55/23',
     'unit 18|entry 12 depth 0 code 1 tag 17| attribute 116 form 6 value 0| attribute 85 form 35 value 0|  list at 16|  end', ranges=T)
range_list('range-kinds', 'every kind of range list entry',
           T + '01 05 02 8001 07 03 01 8000 04 10 20 05 8:8000000000000001 06 8:2 8:3 07 8:4 ff01 00 ff',
           'list at 16|kind 1 5 0|kind 2 128 7|kind 3 1 0|kind 4 16 32|kind 5 9223372036854775809 0|kind 6 2 3|kind 7 4 255|end')
case('range-kinds-32', 'the same with addresses of four bytes', '4:a 2:5 01 04 4:0 01 00', '1 24 55/23',
     'unit type 1 address_size 4 abbreviations 0 first 12 end 14|' + ENTRY + '| attribute 85 form 35 value 0|  list at 16|  kind 5 2147483649 0|'
     '  kind 6 2 3|  kind 7 4 255|  end', ranges=T + '05 4:80000001 06 4:2 4:3 07 4:4 ff01 00')
range_list('range-section-end', 'a list that ends with its section, between two entries', T + '04 00 00', 'list at 16|kind 4 0 0|end')
range_list('range-kind-8', 'an unknown kind', T + '04 00 00 08 00 00', 'list at 16|kind 4 0 0|list refused 5')
for text in ('01', '02 80', '03 00', '04 00 80', '05 00000000000000', '06 0000000000000000 00000000000000', '07 0000000000000000'):
    range_list('range-cut-' + text[:2], 'a list that breaks off inside an entry', T + text, 'list at 16|list refused 5')
location_list('location-kinds', 'every kind of location list entry',
              T + '01 05 02 8001 07 01 96 03 01 8000 03 98 2@c 04 10 20 00 05 02 a8 1@c 06 8:8000000000000001'
              ' 07 8:2 8:3 05 99 4@d 08 8:4 ff01 8100 96 00 ff',
              'list at 16|kind 1 5 0|kind 2 128 7 bytes 23 to 24|kind 3 1 0 bytes 29 to 32|reference at 1 to 12 width 2|kind 4 16 32 bytes 36 to 36|'
              'kind 5 0 0 bytes 38 to 40|reference at 1 to 12 width 1|kind 6 9223372036854775809 0|kind 7 2 3 bytes 67 to 72|'
              'reference at 1 to 13 width 4|kind 8 4 255 bytes 85 to 86|end')
case('location-kinds-32', 'the same with addresses of four bytes', '4:a 2:5 01 04 4:0 01 00', '1 24 02/22',
     'unit type 1 address_size 4 abbreviations 0 first 12 end 14|' + ENTRY + '| attribute 2 form 34 value 0|  list at 16|  kind 6 2147483649 0|'
     '  kind 7 2 3 bytes 31 to 32|  kind 8 4 255 bytes 40 to 45|  end',
     locations=T + '06 4:80000001 07 4:2 4:3 01 96 08 4:4 ff01 05 03 4:4 00')
location_list('location-kind-9', '29: GNU_view_pair', T + '09 00 00', 'list at 16|list refused 5')
location_list('location-section-end', 'a list that ends with its section', T + '05 00', 'list at 16|kind 5 0 0 bytes 18 to 18|end')
location_list('location-too-long', 'an expression that reaches past the section', T + '05 02 96', 'list at 16|list refused 5')
location_list('location-refused', 'an unreadable expression does not end the list', T + '05 01 ff 05 01 96 00',
              'list at 16|kind 5 0 0 bytes 18 to 19|expression refused 5|kind 5 0 0 bytes 21 to 22|end')
for text in ('01', '02 00 00', '03 00 00 01', '04 00 00 80', '05', '06 00000000000000', '07 0000000000000000 0000000000000000', '08 0000000000000000 00'):
    location_list('location-cut-' + text[:2], 'a list that breaks off inside an entry', T + text, 'list at 16|list refused 5')

# ---- expressions (points 12, 14, 26, 28, 29, 40, 44, 49, 52, 54)
expression('p12', '12: indexes of addresses are no references', 'a101 a102')
expression('p14', '14: an unreadable entry value', 'a301ff a102', 'expression refused 5')
for code, what in (('98', 'call2'), ('99', 'call4'), ('fa', 'GNU_parameter_ref')):
    width = 2 if code == '98' else 4
    expression('p26-' + what, '26: 0 counts', code + '00' * width, 'reference at 1 to 0 width %d' % width)
for code in ('a8', 'a9', 'f7', 'f9'):
    expression('p26-%s-zero' % code, '26: a type of 0 names nothing', code + '00')
    expression('p26-%s-padded' % code, '26: nor a padded one', code + '8000')
for code in ('a5', 'f5', 'a6', 'f6', 'a7'):
    expression('p26-%s-zero' % code, '26: the second operand', code + '0500')
for code in ('a4', 'f4'):
    expression('p26-%s-zero' % code, '26: a constant with type 0', code + '00 01 07')
case('p28', '28: a block under location is no expression', 'H 01 03 980e00 02', '1 24 02/0a; 2 24',
     'unit 18|' + ENTRY + '| attribute 2 form 10 bytes 14 to 17|entry 17 depth 0 code 2 tag 36')
expression('p29-breg31', '29: breg31', '8f00')
for code in ('90', '92', 'a5', 'f5'):
    tail = {'90': '', '92': '00', 'a5': '0c', 'f5': '0c'}[code]
    named = 'reference at 4 to 12 width 1' if code in ('a5', 'f5') else ''
    expression('p29-%s-ffff' % code, '29: register 65,535', code + 'ffff03' + tail, named)
    expression('p29-%s-10000' % code, '29: register 65,536', code + '808004' + tail, 'expression refused 5')
    expression('p29-%s-padded' % code, '29: a register in ten bytes', code + '85808080808080808000' + tail, named.replace('at 4', 'at 11'))
UNKNOWN = [0, 1, 2, 4, 5, 7] + list(range(0xaa, 0xe0)) + list(range(0xe1, 0xf2)) + [0xf8, 0xfe, 0xff]
for code in UNKNOWN:
    if code in (0x00, 0x07, 0xaa, 0xdf, 0xe1, 0xed, 0xf0, 0xf1, 0xf8, 0xff):
        expression('unknown-%02x' % code, '29: no operation', '%02x 00 00' % code, 'expression refused 5')
expression('p40', '40: GNU_variable_value', 'fd00000000', 'expression refused 7')
for code, tail in (('9a', ''), ('a0', '00'), ('f2', '7f')):
    expression('absolute-' + code, 'a section-absolute operand', code + ' 4:c ' + tail, 'expression refused 7')
    expression('absolute-%s-cut' % code, 'a cut one', code + '0c0000', 'expression refused 5')
expression('p44', '44: 5 in an entry value goes before 7', '9a00000000 a301ff', 'expression refused 5')
expression('p44-inside', '44: 7 in an entry value', '98 2:c a305 9a00000000 96', 'expression refused 7')
expression('p44-both-inside', '44: and 5 behind it', 'a306 9a00000000 ff', 'expression refused 5')
expression('p49-places', '49: places are in the outermost expression',
           '96 a30d 96 98 2:c f305 99 4:d 30 31 a8 8e00',
           'reference at 5 to 12 width 2|  reference at 10 to 13 width 4|  reference at 17 to 14 width 2')
expression('p54', '54: a piece of 2^61 bytes', '93 808080808080808020 98 2:c', 'reference at 11 to 12 width 2')
expression('p54-largest', '54: and of 2^64-1', '93 ffffffffffffffffff01', '')
expression('piece-too-large', 'one above 64 bits', '93 ffffffffffffffffff02', 'expression refused 5')
expression('p07-consts', '7: a signed number above 64 bits', '11 80808080808080808001', 'expression refused 5')
expression('consts-least', '7: the least signed number', '11 8080808080808080807f 98 2:c', 'reference at 12 to 12 width 2')
expression('part-end', 'expression bytes end at their part\'s end', 'a3 02 98 0c 00', 'expression refused 5')
expression('entry-value-too-long', 'an entry value that reaches past the expression', 'a3 02 96', 'expression refused 5')
expression('entry-value-empty', 'an empty entry value', 'a3 00 98 2:c', 'reference at 3 to 12 width 2')
expression('implicit-value-bytes', 'the bytes of an implicit value are not walked', '9e 03 980c00 96', '')
expression('const-type-bytes', 'nor those of a typed constant', 'a4 0c 03 980d00', 'reference at 1 to 12 width 1')
expression('const-type-too-long', 'bytes that reach past the expression', 'a4 0c 04 980d00', 'expression refused 5')
expression('repeats', 'repeats and dangling references count', '98 2:c 98 2:c 98 ffff', 'reference at 1 to 12 width 2|  reference at 4 to 12 width 2|'
           '  reference at 7 to 65535 width 2')
expression('type-large', 'a type\'s offset may have 64 bits', 'a8 ffffffffffffffffff01', 'reference at 1 to 18446744073709551615 width 10')
case('unit-end-expression', 'an expression whose operand lies behind the exprloc', 'H 01 01 98 0c 00', '1 24 02/18 03/05',
     'unit 17|' + ENTRY + '| attribute 2 form 24 bytes 14 to 15|  expression refused 5| attribute 3 form 5 value 12')
case('expression-any-name', 'an exprloc under any name is an expression', 'H 01 03 98 2:c', '1 24 03/18',
     'unit 17|' + ENTRY + '| attribute 3 form 24 bytes 14 to 17|  reference at 1 to 12 width 2')

# Every operation once, alone in its entry and with a call2 behind it, whose place shows how many bytes it takes: code,
# operands, and the reference that it holds itself (place, offset, width).
ADDRESS = 'address'
NONE = [0x06, 0x12, 0x13, 0x14, 0x16, 0x17, 0x18] + list(range(0x19, 0x23)) + list(range(0x24, 0x28)) + list(range(0x29, 0x2f)) + \
    list(range(0x30, 0x70)) + [0x96, 0x97, 0x9b, 0x9c, 0x9f, 0xe0]
OPERATIONS = [(c, '', None) for c in NONE] + [(c, '8180 00', None) for c in range(0x70, 0x90)] + [
    (0x03, ADDRESS, None), (0x08, '98', None), (0x09, '98', None), (0x15, '98', None), (0x94, '98', None), (0x95, '98', None),
    (0x0a, '2:9898', None), (0x0b, '2:9898', None), (0x28, '2:9898', None), (0x2f, '2:9898', None),
    (0x0c, '4:98989898', None), (0x0d, '4:98989898', None), (0x0e, '8:9898989898989898', None), (0x0f, '8:9898989898989898', None),
    (0x10, '988000', None), (0x23, '988000', None), (0x90, '988000', None), (0x93, '988000', None), (0xa1, '988000', None),
    (0xfb, '988000', None), (0xa2, '988000', None), (0xfc, '988000', None), (0x11, '98807f', None), (0x91, '98807f', None),
    (0x92, '9800 98807f', None), (0x9d, '9800 988000', None), (0x9e, '02 9898', None), (0xa3, '02 0898', None), (0xf3, '8200 0998', None),
    (0x98, '2:d', (1, 13, 2)), (0x99, '4:d', (1, 13, 4)), (0xfa, '4:d', (1, 13, 4)),
    (0xa8, '8d00', (1, 13, 2)), (0xf7, '8d00', (1, 13, 2)), (0xa9, '8d00', (1, 13, 2)), (0xf9, '8d00', (1, 13, 2)),
    (0xa5, '9800 0d', (3, 13, 1)), (0xf5, '9800 0d', (3, 13, 1)), (0xa6, '98 0d', (2, 13, 1)), (0xf6, '98 0d', (2, 13, 1)),
    (0xa7, '98 0d', (2, 13, 1)), (0xa4, '8d00 02 9898', (1, 13, 2)), (0xf4, '8d00 02 9898', (1, 13, 2))]


def operations(name, kind, size, version=5):
    """All of them in one unit, by its header and its address size. Without its last byte each is refused."""
    first = len(unit(kind))
    held, out, at = [], [], first
    for code, operands, own in sorted(OPERATIONS):
        if operands == ADDRESS:
            operands = {8: '8:807060504030201', 4: '4:4030201'}[size]
        text = '%02x %s' % (code, operands)
        length = len(octets(text))
        for expression, refused in ((partial(octets, text + ' 98 2:c'), False), (partial(cut, text), True)):
            if refused and not operands:
                continue
            held.append(expression)
            end = at + 2 + len(expression(False))
            out.append('entry %d depth 0 code 1 tag 36' % at)
            out.append(' attribute 2 form 24 bytes %d to %d' % (at + 2, end))
            if refused:
                out.append('  expression refused 5')
            else:
                if own:
                    out.append('  reference at %d to %d width %d' % own)
                out.append('  reference at %d to 12 width 2' % (length + 1))
            at = end
    head = 'version %d unit type 1 address_size %d abbreviations 0 first %d end %d' % (version, size, first, at)
    for big in ORDERS:
        body = kind + ' ' + b''.join(b'\1' + counted(expression(big)) for expression in held).hex()
        raw('big-' * big + name, 'every operation', bundle_of(body, '1 24 02/18', big=big), '|'.join([head] + out),
            big=big)
        widened(name, 'every operation', body, '1 24 02/18', '|'.join([head] + out), big=big)


def every_unknown():
    """Every code that is no operation."""
    body, out = b'', ['unit %d' % (12 + 4 * len(UNKNOWN))]
    for i, code in enumerate(UNKNOWN):
        body += b'\x01\x02' + bytes([code, 0x96])
        out += ['entry %d depth 0 code 1 tag 36' % (12 + 4 * i), ' attribute 2 form 24 bytes %d to %d' % (14 + 4 * i, 16 + 4 * i), '  expression refused 5']
    case('operations-unknown', 'every code that is no operation', body, '1 24 02/18', '|'.join(out))


operations('operations', 'H', 8)
operations('operations-32', 'H4', 4)
operations('v4-operations', 'G', 8, 4)
every_unknown()
assert len(OPERATIONS) + len(UNKNOWN) + 4 == 256  # the four section-absolute ones have cases of their own

# 2,049 references are one more than dump's table holds; a section-absolute operand goes before that.
many = octets('98 0c00') * 2049
for name, data, number in (('references-2049', many, 11), ('references-2049-absolute', many + octets('9a00000000'), 7)):
    case(name, '49: the order of 7 and 11', b'\x01' + counted(data), '1 24 02/18',
         'unit %d|' % (15 + len(data)) + ENTRY + '| attribute 2 form 24 bytes 15 to %d|  expression refused %d' % (15 + len(data), number))

# 52: entry values in each other, as many as go into a bundle, with a call2 in the innermost. The last two bytes are its
# operand.
deep = octets('98 0c00')
levels = 0
while len(deep) + 4 <= 65536 - 25 - 12 - 1 - 3 - 8:
    deep = entry_values(1, deep)
    levels += 1
assert levels > 17000
case('p52', '52: %d levels of entry values' % levels, b'\x01' + counted(deep), '1 24 02/18',
     'unit %d|' % (16 + len(deep)) + ENTRY + '| attribute 2 form 24 bytes 16 to %d|  reference at %d to 12 width 2' % (16 + len(deep), len(deep) - 2))

# ---- inputs of points about root tests, rewriting and marks: what is read of them
CHILD = 'unit %d|entry 12 depth 0 code 1 tag 17 children|entry 13 depth 1 code 2 tag %d|'
case('p13', '13: two locations', 'H 01 02 02a101 02a107 00', '1 11 children; 2 34 02/18 02/18',
     CHILD % (21, 52) + ' attribute 2 form 24 bytes 15 to 17| attribute 2 form 24 bytes 18 to 20|terminator 20 depth 1', addresses='00 01')
range_list('p18', '18: what stands behind a live range', T + '04 00 00 ff', 'list at 16|kind 4 0 0|list refused 5')
range_list('p19', '19: a base with no pair behind it', T + '01 00', 'list at 16|kind 1 0 0|end')
case('p20', '20: a base in a list of the older kind', 'H 01 02 00000000 00', '1 11 children; 2 2e 55/17',
     CHILD % (19, 46) + ' attribute 85 form 23 value 0|  list at 0|  kind 1 0 0|  end|terminator 18 depth 1', ranges='01 00')
case('p22', '22: low_pc in a reference form', 'H 01 02 0c 00', '1 11 children; 2 2e 11/11',
     CHILD % (16, 46) + ' attribute 17 form 17 value 12|terminator 15 depth 1')
case('p23', '23: ref_addr before a broken range list', 'H 01 02 00000000 00 00', '1 11 children; 2 2e 49/10 55/23',
     CHILD % (20, 46) + ' attribute 73 form 16 value 0| attribute 85 form 35 value 0|  list at 16|  list refused 5|terminator 19 depth 1', ranges=T + 'ff')
case('p25', '25: a dangling reference in a location list', 'H 01 00 02', '1 24 02/22; 2 24',
     'unit 15|' + ENTRY + '| attribute 2 form 34 value 0|  list at 16|  kind 5 0 0 bytes 18 to 21|  reference at 1 to 99 width 2|  end|'
     'entry 14 depth 0 code 2 tag 36', locations=T + '05 03 98 2@63 00')
case('p32', '32: siblings', 'H 01 0e 02 10 03 00 03 00', '1 24 children 01/11; 2 24 children 01/11; 3 24',
     'unit 20|entry 12 depth 0 code 1 tag 36 children| attribute 1 form 17 value 14|entry 14 depth 1 code 2 tag 36 children| attribute 1 form 17 value 16|'
     'entry 16 depth 2 code 3 tag 36|terminator 17 depth 2|entry 18 depth 1 code 3 tag 36|terminator 19 depth 1')
case('p33', '33: a sibling in strx', 'H 01 05 02', '1 11 01/1a; 2 24',
     'unit 15|entry 12 depth 0 code 1 tag 17| attribute 1 form 26 value 5|entry 14 depth 0 code 2 tag 36')
case('p34', '34: ranges by index and by offset', 'H 01 07 02 00000000', '1 11 55/23; 2 24 55/17',
     'unit 19|entry 12 depth 0 code 1 tag 17| attribute 85 form 35 value 7|  list unresolved|entry 14 depth 0 code 2 tag 36| attribute 85 form 23 value 0|'
     '  list at 0|  end')
case('p39', '39: low_pc of another tag', 'H 01 02 07 00', '1 11 children; 2 0b 11/1b',
     CHILD % (16, 11) + ' attribute 17 form 27 value 7|terminator 15 depth 1')
case('p41', '41: two ranges attributes', 'H 01 02 00 00 00', '1 11 children; 2 2e 55/23 55/0b',
     CHILD % (17, 46) + ' attribute 85 form 35 value 0|  list at 16|  end| attribute 85 form 11 value 0|terminator 16 depth 1', ranges=T)

# ---- references that are copied or read as numbers
single('p42-sibling', '42: a sibling in ref_addr', '01/10', '00000000', 'value 0')
single('p42-indirect', '42: ref_addr under indirect', '49/16', '10 00000000', '16 value 0')
single('ranges-sec-offset', 'a range list at an offset past its section', '55/17', '4:1', 'value 1|  list unresolved')


# ---- document 02, point 12: a unit told wrongly is refused; fields whose bytes differ
turned('five-entries', 'P1 in big-endian', FIVE, A5, FIVE_LINES, addresses='01 00', thin=FIVE_THINNED)
turned('header-no-entries', 'a unit with no entries', 'H', A5, 'unit 12')
again('big-five-entries', '0.4, 12.3: a big-endian unit, told wrongly', 'refused 1', False, 'refused 1')
again('five-entries', '12.3: a little-endian unit, told wrongly', 'refused 1', True, 'refused 1')
again('big-header-fffffff0', '12.3: a length of 0xfffffff0, told wrongly', 'refused 1', False)
again('header-fffffff0', '12.3', 'refused 1', True)
again('64-header-0', '12.3, 6.1: the 64-bit format, and a length of 0', 'refused 1', True)
again('header-empty', 'an empty section', 'empty', True)
case('p12-version', '12.3: the version alone is of the other order', '4:12 2:500 01 08 4:0 01 020011 03 03 020110 00', A5, 'refused 2')
case('p12-type-5', '12: unit type 5 keeps its id as it is', '4:11 2:5 05 04 4:0 1122334455667788 03', A5,
     'unit type 5 address_size 4 abbreviations 0 first 20 end 21|entry 20 depth 0 code 3 tag 36')
case('p12-abbreviations', '12: abbreviations from 0x102 on', 'HA 03', 'ff' * 258 + A5,
     'unit type 1 address_size 8 abbreviations 258 first 12 end 13|entry 12 depth 0 code 3 tag 36')
for form, value in (('07', '8:123456789abcdef0'), ('10', '4:1020304'), ('12', '2:102'), ('13', '4:1020304'), ('14', '8:102030405060708'), ('17', '4:1020304'),
                    ('1d', '4:1020304'), ('1f', '4:1020304'), ('20', '8:102030405060708'), ('24', '8:102030405060708'), ('26', '2:102'), ('27', '3:10203'),
                    ('28', '4:1020304'), ('2a', '2:102'), ('2b', '3:10203'), ('2c', '4:1020304')):
    single('p12-form-' + form, '12: form 0x%s' % form, '03/' + form, value, 'value %d' % int(value[2:], 16))
single('p12-block2', '12: a block of 0x102 bytes', '03/03', '2:102' + ' aa' * 258, 'bytes 15 to 273')
single('p12-block4', '12: and its length in four', '03/04', '4:102' + ' aa' * 258, 'bytes 17 to 275')
turned('p12-not-turned', '12.2: what has no order: one byte, data16, LEB128, strings and blocks',
       'H 01 ff 02 0c fe 01 000102030405060708090a0b0c0d0e0f 8102 807f 8c00 808001 ff01 616200 02 aabb 02 aabb',
       '1 24 03/0b 03/0c 03/11 03/25 03/29 03/1e 03/0f 03/0d 03/15 03/1a 03/1b 03/08 03/0a 03/09',
       'unit 54|' + ENTRY + '| attribute 3 form 11 value 255| attribute 3 form 12 value 2| attribute 3 form 17 value 12| attribute 3 form 37 value 254|'
       ' attribute 3 form 41 value 1| attribute 3 form 30 bytes 18 to 34| attribute 3 form 15 value 257| attribute 3 form 13 value -128|'
       ' attribute 3 form 21 value 12| attribute 3 form 26 value 16384| attribute 3 form 27 value 255| attribute 3 form 8 bytes 45 to 48|'
       ' attribute 3 form 10 bytes 49 to 51| attribute 3 form 9 bytes 52 to 54')
case('p12-far', '12: references of each width', 'H ' + far(301) + ' 02' * 8, FAR,
     'unit 309|' + ENTRY + '| attribute 73 form 18 value 301| attribute 73 form 19 value 302| attribute 73 form 20 value 303| attribute 73 form 21 value 304|'
     ' attribute 2 form 24 bytes 30 to 43|  reference at 1 to 305 width 2|  reference at 4 to 306 width 4|  reference at 9 to 307 width 4|'
     ' attribute 3 form 3 bytes 45 to 301|' + '|'.join('entry %d depth 0 code 2 tag 36' % n for n in range(301, 309)))
expression('p12-nested', '12: operands in entry values', 'a3 0d 99 4:1020304 f3 06 fa 4:5060708 96',
           'reference at 3 to 16909060 width 4|  reference at 10 to 84281096 width 4')
range_list('p12-range-offset', '12: a list by its offset', 'z t:104 ' + 'ff' * 256 + '00', 'list at 272|end')
location_list('p12-location-offset', '12: a list by its offset', 'z t:104 ' + 'ff' * 256 + '05 03 98 2@102 00',
              'list at 272|kind 5 0 0 bytes 274 to 277|reference at 1 to 258 width 2|end')
case('p12-second-offset', '12: the second of two lists', 'H 01 01', '1 24 55/23',
     'unit 14|' + ENTRY + '| attribute 85 form 35 value 1|  list at 276|  kind 6 16909060 84281096|  end',
     ranges='z t:0 t:108 ' + 'ff' * 256 + '06 8:1020304 8:5060708 00')


# ---- document 02, point 6: the 64-bit format
case('64-five-entries', '0.4: P1 in the 64-bit format', FIVE64, A5,
     'wide 34|entry 24 depth 0 code 1 tag 17 children|entry 25 depth 1 code 2 tag 46| attribute 17 form 27 value 0|'
     ' attribute 73 form 17 value 29|entry 28 depth 1 code 3 tag 36|entry 29 depth 1 code 3 tag 36|'
     'entry 30 depth 1 code 2 tag 46| attribute 17 form 27 value 1| attribute 73 form 17 value 28|'
     'terminator 33 depth 1', addresses='01 00',
     thin='entries 5 kept 3|24 R 24|25 L 25|28 D -|29 L 28|30 D -')
thinned[True].append(('64-big-five-entries', printed('64-big-five-entries', ['entries 5 kept 3', '24 R 24', '25 L 25',
    '28 D -', '29 L 28', '30 D -'])))
again('64-five-entries', '12.3: told wrongly', 'refused 1', True, 'refused 1')
again('64-big-five-entries', '12.3: told wrongly', 'refused 1', False, 'refused 1')
header('escape', '6.1: the escape alone', 'ffffffff', 'refused 1')
header('escape-cut', '6.1: seven bytes of a length', 'ffffffff 00000000000000', 'refused 1')
header('escape-past', '6.1: a length past the section, before the version', 'ffffffff 8:d 2:3 01 08 8:0', 'refused 1')
header('escape-version', '6.1: the version then', 'ffffffff 8:c 2:3 01 08 8:0', 'refused 2')
header('escape-sum', '6.1: a length whose sum with 12 is above 64 bits', 'ffffffff 8:fffffffffffffff8 2:5 01 08 8:0',
    'refused 1')
header('escape-high-word', '6.1: a length with a high word', 'ffffffff 8:10000000c 2:5 01 08 8:0', 'refused 1')
for length in (0xfffffff1, 0xfffffffe):
    header('header-%x' % length, '6.1: a reserved length', '4:%x 8:c 2:5 01 08 8:0' % length, 'refused 2')
header('wide-abbreviations', '6.5: an abbreviation offset with a high word', 'ffffffff 8:d 2:5 01 08 8:100000000 03',
    'refused 3')
WIDE_ENTRY = 'entry 24 depth 0 code 1 tag 36'
for form in ('0e', '10', '17', '1d', '1f'):
    case('wide-form-' + form, '6.5: form 0x%s' % form, 'W 01 8:8182838485868788', '1 24 03/' + form,
         'wide 33|%s| attribute 3 form %d value %d' % (WIDE_ENTRY, int(form, 16), 0x8182838485868788))
    case('wide-form-%s-four' % form, '6.5: and of four bytes', 'W 01 4:81828384', '1 24 03/' + form,
         'wide 29|refused 4')
case('wide-form-1c', '6.5: ref_sup4 keeps its width', 'W 01 4:81828384', '1 24 03/1c',
     'wide 29|%s| attribute 3 form 28 value %d' % (WIDE_ENTRY, 0x81828384))
for name, pair in (('ranges', '55/07'), ('location', '02/07')):
    case('wide-data8-' + name, '6.4: %s in data8' % name, 'W 01 8:0', '1 24 ' + pair,
         'wide 33|%s| attribute %d form 7 value 0' % (WIDE_ENTRY, int(pair[:2], 16)))
UNRESOLVED = 'wide %d|entry 24 depth 0 code 1 tag %d|%s|  list unresolved'
for name, at, base, form in (('ranges', '55', '74', '23'), ('locations', '02', '8c', '22')):
    value = ' attribute %d form %d value %%d' % (int(at, 16), int(form, 16))
    lists = {'wraps': '00' * 20 + ' 8:ffffffffffffffec 00', 'high-word': '00' * 20 + ' 8:100000008 00'}
    for why, section in lists.items():
        case('wide-%s-%s' % (name, why), '6.3: an offset of a list', 'W 01 00', '1 24 %s/%s' % (at, form),
             UNRESOLVED % (26, 36, value % 0), **{name: section})
    case('wide-%s-index' % name, '6.3: an index of 2^61', 'W 01 808080808080808020', '1 24 %s/%s' % (at, form),
         UNRESOLVED % (34, 36, value % 2 ** 61),
         **{name: T64})
    case('wide-%s-base' % name, '6.11: a base with a high word', 'W 01 8:100000004 00', '1 11 %s/17 %s/%s' % (base, at,
         form),
         UNRESOLVED % (34, 17, ' attribute %d form 23 value %d|' % (int(base, 16),
         2 ** 32 + 4) + value % 0), **{name: 'ffffffff 8:8 00'})
    case('wide-%s-sec-offset' % name, '6: an offset with a high word', 'W 01 8:100000000', '1 24 %s/17' % at,
         UNRESOLVED % (33, 36, ' attribute %d form 23 value %d' % (int(at, 16), 2 ** 32)), **{name: '00'})
for code, tail in (('9a', ''), ('a0', '00'), ('f2', '7f'), ('fd', '')):
    size = 9 + len(tail) // 2
    for why, number, width, refused in (('', '8:100000018', size, 7), ('-four', '4:18', size - 4, 5)):
        case('wide-absolute-%s%s' % (code, why), '6.5: an offset in an expression', 'W 01 %02x %s %s %s' % (width, code,
             number, tail), '1 24 02/18',
             'wide %d|%s| attribute 2 form 24 bytes 26 to %d|  expression refused %d' % (26 + width, WIDE_ENTRY,
             26 + width, refused))
case('wide-call4', '6.5: call4 and GNU_parameter_ref keep their width', 'W 01 0d 99 4:18 fa 4:18 98 2:18', '1 24 02/18',
     'wide 39|%s| attribute 2 form 24 bytes 26 to 39|  reference at 1 to 24 width 4|  reference at 6 to 24 width 4|'
     '  reference at 11 to 24 width 2' % WIDE_ENTRY)

# ---- document 02, point 4: version 4 units, and bundles with .debug_ranges
FIVE_4_LINES = (
    'gnu 21|entry 11 depth 0 code 1 tag 17 children|entry 12 depth 1 code 2 tag 46| attribute 17 form 27 value 0|'
    ' attribute 73 form 17 value 16|entry 15 depth 1 code 3 tag 36|entry 16 depth 1 code 3 tag 36|entry 17 depth 1 code 2 tag 46|'
    ' attribute 17 form 27 value 1| attribute 73 form 17 value 15|terminator 20 depth 1')
FIVE_4_THINNED = 'entries 5 kept 3|11 R 11|12 L 12|15 D -|16 L 15|17 D -'
case('v4-five-entries', '4.10: P1 in version 4, version byte 1', FIVE_4, A5, FIVE_4_LINES, addresses='01 00',
     thin=FIVE_4_THINNED)
turned('v4-five-entries', '4: in big-endian', FIVE_4, A5, FIVE_4_LINES, addresses='01 00', thin=FIVE_4_THINNED)
case('v4-five-entries-2', '0.4: version byte 2', FIVE_4, A5, FIVE_4_LINES, addresses='01 00', thin=FIVE_4_THINNED,
     older='')
again('v4-five-entries', '12.3: told wrongly', 'refused 1', True, 'refused 1')
again('big-v4-five-entries', '12.3: told wrongly', 'refused 1', False, 'refused 1')
for big in ORDERS:
    name = '64-%sv4-five-entries' % ('big-' * big)
    thinned[big].append((name,
                         printed(name, ['entries 5 kept 3', '23 R 23', '24 L 24', '27 D -', '28 L 27', '29 D -'])))
case('five-entries-2', '4.10: version 5 in a bundle with version byte 2', FIVE, A5, FIVE_LINES, addresses='01 00',
     thin=FIVE_THINNED, older='ff')
turned('five-entries-2', '4.10: in big-endian', FIVE, A5, FIVE_LINES, addresses='01 00', thin=FIVE_THINNED, older='ff')
second = bundle_of(FIVE_4, A5, addresses='01 00', older='')
raw('v4-bundle-five-parts', '4.10: version byte 2 with five parts', second[:3] + bytes([second[3] - 4]) + second[4:-4],
    'bundle', 'bundle')
raw('v4-bundle-six-parts', '4.10: version byte 1 with six parts', second[:4] + b'\1' + second[5:], 'bundle', 'bundle')
raw('v4-bundle-version-3', 'version byte 3', second[:4] + b'\3' + second[5:], 'bundle', 'bundle')
seven = bundle(parts(second) + [b''])
raw('v4-bundle-seven-parts', 'version byte 2 with seven parts', seven[:4] + b'\2' + seven[5:], 'bundle')
raw('v4-bundle-too-far', 'the last part reaches one byte too far', second[:-1] + b'\1', 'bundle', 'bundle')
raw('v4-bundle-cut', 'its length is cut', second[:3] + bytes([second[3] - 1]) + second[4:-1], 'bundle')
raw('v4-bundle-left-over', 'a byte behind the last part', second[:3] + bytes([second[3] + 1]) + second[4:] + b'\0',
    'bundle')
room = 65536 - len(second)
raw('v4-bundle-65536', 'the largest', bundle_of(FIVE_4, A5, addresses='01 00', older=b'\xff' * room), FIVE_4_LINES)
raw('v4-bundle-65537', 'one more', bundle_of(FIVE_4, A5, addresses='01 00', older=b'\xff' * (room + 1)), 'bundle')

header('v4-header-no-entries', '4.2: no entries', '4:7 2:4 4:0 08', 'gnu 11', thin='entries 0 kept 0')
header('v4-header-32', '4.2: address size 4', '4:8 2:4 4:0 04 03',
       'version 4 unit type 1 address_size 4 abbreviations 0 first 11 end 12|entry 11 depth 0 code 3 tag 36')
header('v4-header-abbreviations', '4.2: the abbreviation offset', '4:8 2:4 4:e 08 03',
       'version 4 unit type 1 address_size 8 abbreviations 14 first 11 end 12|entry 11 depth 0 code 3 tag 36')
header('v4-header-two-units', 'a second unit is not read', '4:8 2:4 4:0 08 03 ffffffff',
       'gnu 12|entry 11 depth 0 code 3 tag 36')
for n, rest in ((0, ''), (1, ''), (2, ''), (3, '00'), (5, '000000'), (6, '4:0')):
    header('v4-header-%d' % n, '4.2: cut', '4:%x 2:4 %s' % (n, rest), 'refused 1')
header('v4-header-offset', '4.2: the type byte of version 5 is the offset', '4:7 2:4 01080000 08', 'refused 3')
header('v4-header-size-3', '4.2: address size 3', '4:7 2:4 4:0 03', 'refused 2')
header('v4-header-size-before-offset', '4.2: before the offset is judged', '4:7 2:4 4:63 03', 'refused 2')
header('v4-header-past', '4.2: an offset past the section', '4:7 2:4 4:63 08', 'refused 3')
for version in (2, 3, 6):
    header('header-version-%d' % version, '4.2: version %d' % version, '4:7 2:%x 4:0 08' % version, 'refused 2')

ENTRY_4 = 'entry 11 depth 0 code 1 tag 36'


def forms_4(name, indirect):
    """Every form of version 4, an entry each; under indirect or not."""
    declared, body, out, at = '', '', [], 11
    held = [form for form in FORMS if form[0] not in ('22', '23')] + [('1f01', '9001', 'value 144')]
    for code, (form, value, expected) in enumerate(held, 1):
        number = uleb(int(form, 16)).hex() if indirect else ''
        words = expected.split()
        if words[0] == 'bytes':
            words[1], words[3] = (str(int(w) - 12 + at + len(octets(number))) for w in (words[1], words[3]))
        declared += '; %d 24 03/%s' % (code, '16' if indirect else form)
        body += ' %02x %s %s' % (code, number, value)
        out += ['entry %d depth 0 code %d tag 36' % (at, code),
                ' attribute 3 form %d %s' % (int(form, 16), ' '.join(words))]
        at += 1 + len(octets(number + ' ' + value))
    case(name, '4.1: every form', 'G' + body, declared[2:], '|'.join(['gnu %d' % at] + out))


forms_4('v4-forms', False)
forms_4('v4-indirect', True)
for form in ('22', '23'):
    case('v4-form-' + form, '4.1: form 0x%s' % form, 'G 01 00', '1 24 03/' + form, 'gnu 13|refused 4')
    case('v4-indirect-' + form, '4.1: behind indirect', 'G 01 %s 00' % form, '1 24 03/16', 'gnu 14|refused 4')
    case('v4-unused-' + form, '4.1: where no entry uses it', 'G 01', '1 24; 2 24 03/' + form, 'gnu 12|' + ENTRY_4)
for form in ('1f20', '1f21'):
    case('v4-form-' + form, '4.1: form 0x%s stays unknown' % form, 'G 01 05', '1 24 3a/' + form, 'gnu 13|refused 4')


def list_4(name, point, pair, expected, value='4:0', kind='G', head='gnu 16', **sections):
    """One entry with one list by its offset."""
    at, form = (int(w, 16) for w in pair.split('/'))
    case(name, point, '%s 01 %s' % (kind, value), '1 24 ' + pair, '%s|%s| attribute %d form %d value %d|  ' %
         (head, ENTRY_4, at, form, int(value.partition(':')[2], 16)) + expected.replace('|', '|  '), **sections)


list_4('v4-locations', '4.3: every kind', '02/17',
       'list at 0|kind 1 5 0|kind 2 128 7 bytes 8 to 9|kind 3 1 305419896 bytes 17 to 20|reference at 1 to 11 width 2|'
       'kind 4 16 2271560481 bytes 31 to 31|end',
       locations='01 05 02 8001 07 2:1 96 03 01 4:12345678 2:3 98 2@b 04 4:10 4:87654321 2:0 00 ff')
list_4('v4-locations-long', '4.3: a length of two bytes', '02/17',
       'list at 0|kind 3 1 2 bytes 8 to 267|reference at 257 to 11 width 2|end',
       locations='03 01 4:2 2:103 ' + '96' * 256 + '98 2@b')
list_4('v4-locations-refused', '4.3: an unreadable expression does not end the list', '02/17',
       'list at 0|kind 4 0 0 bytes 11 to 12|expression refused 5|kind 2 0 1 bytes 17 to 18|end',
       locations='04 4:0 4:0 2:1 ff 02 00 01 2:1 96 00')
for text in ('05 01 96', '06 8:0', '07 8:0 8:0 2:0', '08 8:0 00 2:0', '09 00 00'):
    list_4('v4-locations-kind-' + text[1:2], '4.3: an unknown kind', '02/17', 'list at 0|kind 1 7 0|list refused 5',
           locations='01 07 ' + text + ' 00')
for text in ('01', '02 00 01 00', '03 00 000000', '03 00 4:1 2:2 96', '04 4:1 000000', '04 4:1 4:2 00'):
    list_4('v4-locations-cut-%d' % len(octets(text)), '4.3: cut inside an entry', '02/17', 'list at 0|list refused 5',
           locations=text)
list_4('v4-locations-at-end', '4.6: the section\'s end', '02/17', 'list at 2|end', '4:2', locations='ffff')
list_4('v4-locations-past', '4.6: past it', '02/17', 'list unresolved', '4:3', locations='ffff')
list_4('v4-pairs', '4.6: pairs', '55/17',
       'list at 0|pair 0 9|pair 18446744073709551615 4096|pair 5 5|pair 4294967295 0|end',
       older='8:0 8:9 ffffffffffffffff 8:1000 8:5 8:5 8:ffffffff 8:0 8:0 8:0 ff')
list_4('v4-pairs-32', '4.5: of four bytes', '55/17', 'list at 8|pair 4294967295 4096|pair 5 9|end', '4:8', 'G4',
       'version 4 unit type 1 address_size 4 abbreviations 0 first 11 end 16',
       older='4:5 4:9 ffffffff 4:1000 4:5 4:9 4:0 4:0 4:1 4:1')
list_4('v4-pairs-start-scope', 'of another attribute', '2c/17', 'list at 0|pair 1 2|end', older='8:1 8:2')
for n in (1, 7, 8, 9, 15):
    list_4('v4-pairs-cut-%d' % n, '4.6: cut inside a pair', '55/17', 'list at 0|pair 5 9|list refused 5',
           older='8:5 8:9 ' + 'ff' * n)
list_4('v4-pairs-empty', '4.6: an empty section', '55/17', 'list at 0|end', older='')
list_4('v4-pairs-none', '4.10: version byte 1', '55/17', 'list at 0|end')
list_4('v4-pairs-past', '4.6: past the section', '55/17', 'list unresolved', '4:11', older='8:5 8:9')
list_4('v4-pairs-past-none', '4.10: version byte 1', '55/17', 'list unresolved', '4:1')
list_4('v4-pairs-alone', '4.11: .debug_rnglists is not read', '55/17', 'list at 0|pair 5 9|end', ranges='ff' * 20,
       older='8:5 8:9')
case('v4-ranges-data4', '4.7: ranges in data4 name no list', 'G 01 4:0', '1 24 55/06',
     'gnu 16|%s| attribute 85 form 6 value 0' % ENTRY_4, older='00')
case('v4-bases', '4.9: list bases name no list', 'G 01 4:63 4:63', '1 11 74/17 2132/17',
     'gnu 20|entry 11 depth 0 code 1 tag 17| attribute 116 form 23 value 99| attribute 8498 form 23 value 99')
for name, entries, expected in (('', '00', 'end'), ('-live', '040001', 'kind 4 0 1|  end')):
    case('p4-rnglists%s' % name, '4.11: .debug_ranges is not read for version 5', 'H 01 4:0', '1 24 55/17',
         'unit 17|%s| attribute 85 form 23 value 0|  list at 0|  %s' % (ENTRY, expected), ranges=entries,
         older='ff' * 20)

# ---- document 02, point 7: whether fixed addresses count changes nothing of what dump prints, but of what thin does
at_fixed = {big: [] for big in ORDERS}  # by the order that is told: names, what dump prints, and thin where they count


def at_address(name, kind, size, address, live):
    """A variable at an address, and an entry that names it, in both byte orders. live: whether that makes it a root."""
    first = len(unit(kind))
    last = first + 4 + size
    of_unit = '%s 01 02 %02x 03 %d:%x 03 %02x 00' % (kind, size + 1, size, address, first + 1)
    expected = ('version %d unit type 1 address_size %d abbreviations 0 first %d end %d|'
                'entry %d depth 0 code 1 tag 17 children|entry %d depth 1 code 2 tag 52|'
                ' attribute 2 form 24 bytes %d to %d|entry %d depth 1 code 3 tag 36|'
                ' attribute 73 form 17 value %d|terminator %d depth 1' %
                (4 if 'G' in kind else 5, size, first, last + 3, first, first + 1, first + 3, last, last, first + 1,
                 last + 2))
    off, on = ('entries 3 kept %d|%d R %d|%d %s|%d D -' %
               (1 + kept, first, first, first + 1, 'L %d' % (first + 1) if kept else 'D -', last)
               for kept in (False, live))
    for big in ORDERS:
        whole = '64-' * kind.startswith('W') + 'big-' * big + name
        data = bundle_of(of_unit, '1 11 children; 2 34 02/18; 3 24 49/11', big=big)
        raw(whole, '7.3', data, expected, off, big)
        at_fixed[big].append((whole, printed(whole, lines(expected)), printed(whole, on.split('|'))))


for name, kind, size in (('p7', 'H', 8), ('p7', 'W', 8), ('v4-p7-32', 'G4', 4), ('v4-p7-32', 'WG4', 4)):
    at_address(name + '-address', kind, size, 0xffffffff if size == 8 else 1, True)
    at_address(name + '-tombstone', kind, size, 256 ** size - 1, False)

# ---- document 02, point 10: the five-entry unit with a keep list, which changes nothing of what dump prints; what thin
# does: the letters of its entries, or a refusal
BY_LIST = [('24=1', 'RLLLD'), ('2e=2', 'RDDDD'), ('11=1', 'RLLLL'), ('2e=1', 'RLLLL'), ('24=2', 'RLDLD'), ('24=3', 19),
           ('24=1 2e=2', 'RDLLD'), ('2e=1 24=1', 20), ('', 'RLDLD')]
FIVES = [('%sfive-entries', 12), ('64-%sfive-entries', 24), ('%sv4-five-entries', 11), ('64-%sv4-five-entries', 23)]


def thinned_five(first, letters):
    """What thin prints of the five-entry unit, by where it starts."""
    if isinstance(letters, int):
        return ['refused %d' % letters]
    out, new = ['entries 5 kept %d' % (5 - letters.count('D'))], first
    for old, size, letter in zip((0, 1, 4, 5, 6), (1, 3, 1, 1, 3), letters):
        out.append('%d %s %s' % (first + old, letter, '-' if letter == 'D' else new))
        new += size * (letter != 'D')
    return out


def by_list(big):
    """Parts of dump, which has two of the lists, and of thin, by a byte order."""
    files = [(name % ('big-' * big), first) for name, first in FIVES]
    held = {name: text for name, _, _, text in cases[big]}
    for what, lists in (('dump', BY_LIST[5:7]), ('thin', BY_LIST)):
        words, text = [], ''
        for keep, letters in lists:
            words += [keep_list.word(keep)] + [name + '.bundle' for name, _ in files]
            text += ''.join(held[name] if what == 'dump' else printed(name, thinned_five(first, letters))
                            for name, first in files)
        yield Part('%s with keep lists%s' % (what, ', big-endian' * big), what, words, text, big)


# 6.8: references of an expression by the sizes that are told, in the order of crates/test_readers/src/main.rt
SIZES = (0, 1, 2, 3, 4, 5, 7, 8, 9, 16, 255)


def told_lines():
    out = []

    def told(size, width, what, answer, big=False):
        answer = answer if size in (4, 8) and width in (4, 8) else 'refused 2'
        out.append('%d and %d of %s%s: %s\n' % (size, width, what, ', big-endian' * big, answer))

    for n in SIZES:
        for size, width in ((8, n), (4, n), (n, 8)):
            told(size, width, 'nothing', 'references 0')
    told(3, 3, 'no operation', 'refused 5')
    for big in ORDERS:
        for size in (4, 8):
            for width in (4, 8):
                told(size, width, 'call_ref in nine bytes', {4: 'refused 5', 8: 'refused 7'}[width], big)
                told(size, width, 'call_ref in five bytes', {4: 'refused 7', 8: 'refused 5'}[width], big)
                told(size, width, 'an address of eight bytes', {4: 'refused 5', 8: 'references 1'}[size], big)
    return ''.join(out)


def main():
    held, made = [], {}
    for big, heading in ((False, 'bundles and units made by hand'), (True, 'big-endian bundles and units made by hand')):
        names = [name for name, _, _, _ in cases[big]]
        assert len(set(names)) == len(names), [n for n in names if names.count(n) > 1]
        held.append(Part(heading, 'dump', [n + '.bundle' for n in names], ''.join(text for _, _, _, text in cases[big]), big))
        made.update({'test_readers/data/%s.bundle' % name: data for name, _, data, _ in cases[big] if data is not None})
    for big, heading in ((False, 'some of them through thin'), (True, 'some of them through thin, big-endian')):
        held.append(Part(heading, 'thin', [n + '.bundle' for n, _ in thinned[big]], ''.join(text for _, text in thinned[big]), big))
    for big, word in ((False, ''), (True, ', big-endian')):
        names = [name + '.bundle' for name, _, _ in at_fixed[big]]
        for what, column in (('dump', 1), ('thin', 2)):
            text = ''.join(row[column] for row in at_fixed[big])
            held.append(Part('%s where fixed addresses count%s' % (what, word), what, names, text, big, True))
        held += by_list(big)
    held.append(Part('references of an expression, by the sizes told', None, [], told_lines()))
    made.update(with_parts('test_readers', held))
    # the program that reads one bundle: it has the five-entry unit, in big-endian, and a list that is refused elsewhere
    made.update({'dump/args': b'--big-endian\n--keep-list=46=2,0x24=3\n',
                 'dump/stdin': bundle_of(FIVE, A5, addresses='01 00', big=True),
                 'dump/stdout': ''.join(line + '\n' for line in lines(FIVE_LINES)).encode()})
    wrong = write(made, sys.argv[1:] == ['check'])
    through = len(thinned[False] + thinned[True])
    wide = sum(name.startswith('64-') for held in cases.values() for name, _, _, _ in held)
    print('points: %d cases in little-endian, %d in big-endian, %d of them of the 64-bit format, %d through thin; '
          '%d where fixed addresses count; %d by %d keep lists' %
          (len(cases[False]), len(cases[True]), wide, through, sum(len(held) for held in at_fixed.values()),
           len(ORDERS) * len(FIVES), len(BY_LIST)))
    sys.exit(wrong > 0)


if __name__ == '__main__':
    main()
