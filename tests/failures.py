"""The two ways in which the address table can fail (document 02, point 5): 6 a byte above 1, 17 an index past the end
of a table that isn't empty. Cases that marks.py and collect.py have in common; units.py has the notation.

A case is what it is about, a unit, its abbreviations, its answer, and its other sections by name. The answer is the
number of a refusal; or, of a unit of two entries, whether the second is live or dead. Where nothing else is said the
table is 00 02: index 0 is dead, 1 fails with 6 and 2 with 17."""
from functools import partial

from units import T, abbreviations, counted, octets, uleb

FAILING = (('01', 6), ('02', 17))  # indexes of the table 00 02
TWICE = '2e 11/1b 11/1b'  # a subprogram with two low_pc
EITHER = 'H 01 02 02 01 00'  # they fail with 17 and with 6


# ---- what asks: its name, its tag and attribute, its largest index, and what makes the attribute's value and its list

def in_form(width, index):
    return '%d:%x' % (width, index) if width else uleb(index).hex(), ''


def in_list(entries, index):
    return '00', entries % uleb(index).hex()


def in_location(code, index):
    return counted(octets(code) + uleb(index)).hex(), ''


ASKERS = [('low_pc in addrx%s' % (width or ''), '2e 11/' + form, 2 ** (8 * width or 64) - 1, partial(in_form, width))
          for form, width in (('1b', 0), ('29', 1), ('2a', 2), ('2b', 3), ('2c', 4))]
ASKERS += [('a range list with ' + name, '2e 55/23', 2 ** 64 - 1, partial(in_list, entries)) for name, entries in
           (('base_addressx', '01%s 040001 00'), ('startx_endx', '02%s 00 00'), ('startx_length', '03%s 01 00'))]
ASKERS += [('a location with ' + name, '34 02/18', 2 ** 64 - 1, partial(in_location, code))
           for name, code in (('addrx', 'a1'), ('GNU_addr_index', 'fb'))]


def lists(*texts):
    """A section of range lists."""
    out, at = 'z', 4 * len(texts)
    for text in texts:
        out += ' t:%x ' % at
        at += len(octets(text))
    return out + ''.join(texts)


def every(n, byte):
    """All that asks in one unit, an entry each, for the last index of a table of n bytes; the last byte as told, and no
    other. The places of the entries, the unit, its abbreviations, its range lists and the table."""
    body, declared, texts, places = '01', '1 11 children', [], []
    for code, (_, attribute, _, made) in enumerate(ASKERS, 2):
        value, text = made(n - 1)
        if text:
            value = '%02x' % len(texts)
            texts.append(text)
        places.append(12 + len(octets(body)))
        declared += '; %d %s' % (code, attribute)
        body += ' %02x %s' % (code, value)
    return places, 'H %s 00' % body, declared, lists(*texts), bytes([1 - byte]) * (n - 1) + bytes([byte])


EVERY = ((1, 1), (2, 0), (255, 1), (256, 0))


# ---- the cases

def cases():
    out = []

    def add(why, unit, declared, answer, **sections):
        """declared: all abbreviations, or those from the second entry's tag on."""
        if not isinstance(declared, bytes) and not declared.startswith('1 '):
            declared = '1 11 children; 2 ' + declared
        out.append((why, unit, declared, answer, {'addresses': '0002', **sections}))

    def of_list(why, entries, answer, **sections):
        add(why, 'H 01 02 00 00', '2e 55/23', answer, ranges=T + entries, **sections)

    def of_location(why, text, answer, **sections):
        add(why, 'H 01 02 %s 00' % counted(octets(text)).hex(), '34 02/18', answer, **sections)

    # inputs of the points
    add('5.2: 17 is met first', EITHER, TWICE, 17)
    add('5.2: 6 is met first', 'H 01 02 01 02 00', TWICE, 6)
    of_list('5.2: an entry of a list is read whole before it asks', '0202', 5)

    # all that asks: a byte above 1, one past the end, the largest index
    for name, attribute, largest, made in ASKERS:
        n = min(largest, 256)
        for table, index, answer in (('0002', 1, 6), ('0002', 2, 17), ('00' * (n - 1) + 'ff', n - 1, 6),
                                     ('00' * n, n, 17), ('00', largest, 17)):
            value, text = made(index)
            add('5.3: %s, index %d of %d' % (name, index, len(table) // 2), 'H 01 02 %s 00' % value, attribute, answer,
                ranges=T + text if text else '', addresses=table)

    # a byte above 1 that has others behind it
    middle = {'addresses': '000200'}
    of_list('5.2: 6 in the middle of the table, before 5 of what follows in the list', '030101 ff', 6, **middle)
    of_location('5.2: 6 in the middle of the table, before 5 of the next operation', 'a101 ff', 6, **middle)
    of_location('5.2: 17 behind such a byte, before 5 of the next operation', 'a103 ff', 17, **middle)
    of_list('5.3: such a byte that no range asks', '030201 030001 00', 'dead', **middle)
    of_location('5.3: such a byte that no operation asks', 'a102 a100', 'dead', **middle)

    # how an index is written changes nothing
    for index, answer in FAILING:
        add('5.3: %d of the first entry' % answer, 'H 01 %s' % index, '1 2e 11/1b', answer)
        add('5.3: %d of low_pc behind indirect' % answer, 'H 01 02 1b%s 00' % index, '2e 11/16', answer)
        add('5.3: %d of a padded low_pc' % answer, 'H 01 02 8%s8000 00' % index[1], '2e 11/1b', answer)
    wide = uleb(2 ** 32).hex()
    add('5.3: index 2^32 of low_pc', 'H 01 02 %s 00' % wide, '2e 11/1b', 17)
    of_list('5.3: index 2^32 of a range list', '03%s 01 00' % wide, 17)
    of_location('5.3: index 2^32 of a location', 'a1' + wide, 17)

    # both failures, in either order
    for (a, answer), (b, _) in (FAILING, FAILING[::-1]):
        first = '5.2: %d is met first, ' % answer
        add(first + 'in low_pc, though ranges stand before it', 'H 01 02 00 %s 00' % a, '2e 55/23 11/1b', answer,
            ranges=T + '03%s 01 00' % b)
        of_list(first + 'in one range list', '03%s 01 02%s 00 00' % (a, b), answer)
        of_list(first + 'in two bases', '01%s 01%s 00' % (a, b), answer)
        of_location(first + 'in one location', 'a1%s fb%s' % (a, b), answer)
        add(first + 'in two locations', 'H 01 02 02a1%s 02a1%s 00' % (a, b), '34 02/18 02/18', answer)
        add(first + 'in two entries', 'H 01 02 %s 02 %s 00' % (a, b), '2e 11/1b', answer)
        add(first + 'in an entry and its child', 'H 01 02 %s 03 02a1%s 00 00' % (a, b), '2e children 11/1b; 3 34 02/18',
            answer)

    # what is live ends the test, and a failure behind it is not met; what is dead doesn't; a location is read whole
    def behind(before, table, index, number, answer):
        def one(what, unit, declared, answer, text=''):
            add('5.2: %s %s that fails with %d' % (before, what, number), unit, declared, answer,
                ranges=T + text if text else '', addresses=table)

        one('low_pc, then one', 'H 01 02 00 %s 00' % index, TWICE, answer)
        one('low_pc, then a range', 'H 01 02 00 00 00', '2e 11/1b 55/23', answer, '03%s 01 00' % index)
        one('range, then one', 'H 01 02 00 00', '2e 55/23', answer, '0200 00 02%s 00 00' % index)
        one('base with a pair, then a range', 'H 01 02 00 00', '2e 55/23', answer, '0100 040001 03%s 01 00' % index)
        one('location, then one', 'H 01 02 02a100 02a1%s 00' % index, '34 02/18 02/18', answer)
        one('operation, then one', 'H 01 02 04 a100a1%s 00' % index, '34 02/18', number)

    for index, number in FAILING:
        behind('a live', '0102', index, number, 'live')
        behind('a dead', '0002', index, number, number)
        of_location('5.2: an entry value, then an operation that fails with %d' % number, 'a301ff a1' + index, number)
    of_list('5.2: a list\'s end, then ranges that fail', '00 030101 030201 00', 'dead')
    add('5.2: ranges that are dead, then others that fail', 'H 01 02 00 01 00', '2e 55/23 55/23', 'dead',
        ranges=lists('00', '030101 030201 00'))

    # what doesn't ask
    for text in ('a201a202', 'fc01fc02', 'a304a101a102', 'f304fb02fb01', '9e04a101a102'):
        of_location('5.3: no addrx: %s' % text, text, 'dead')
    of_list('5.3: the end of startx_endx', '020001 020002 00', 'dead')
    add('5.3: a location list', 'H 01 02 00 00', '34 02/22', 'dead',
        locations=T + '0101 0102 02010200 03020100 0504a101a102 00')
    add('5.3: low_pc of another tag', 'H 01 02 01 02 00', '0b 11/1b 11/1b', 'dead')
    add('5.3: a location of another tag', 'H 01 02 04a101a102 00', '05 02/18', 'dead')
    add('5.3: another attribute', 'H 01 02 01 02 00', '2e 12/1b 12/1b', 'dead')

    # other numbers that go first
    add('5.2: 1', '4:e 2:5 01 08 4:0 01 02 02 01 00', TWICE, 1)
    add('5.2: 2', '4:d 2:5 01 02 4:0 01 02 02 01 00', TWICE, 2)
    add('5.2: 3', EITHER, abbreviations('1 11 children; 2 ' + TWICE)[:-1], 3)
    add('5.2: 4 of the same entry', EITHER, TWICE + ' 03/05', 4)
    add('5.2: 5 of the ranges of an entry before', 'H 01 03 00 02 02 01 00', TWICE + '; 3 2e 55/23', 5, ranges=T + 'ff')
    add('5.2: 5 of the references of an entry before', 'H 01 01ff 02 02 01 00', '1 11 children 40/18; 2 ' + TWICE, 5)
    add('5.2: 7 of an entry before', 'H 01 00000000 02 02 01 00', '1 11 children 49/10; 2 ' + TWICE, 7)
    of_list('5.2: 5 of what stands before in the list', 'ff 030201 030101', 5)
    of_location('5.2: 5 of the operation before', 'ff a102 a101', 5)

    # others that go after
    for index, answer in FAILING:
        first = '5.2: %d before ' % answer
        add(first + '4 of the next entry', 'H 01 02 %s 63' % index, '2e 11/1b', answer)
        add(first + '5 of the ranges', 'H 01 02 00 %s 00' % index, '2e 55/23 11/1b', answer, ranges=T + 'ff')
        of_list(first + '5 of what follows in the list', '03%s 01 ff' % index, answer)
        of_location(first + '5 of the next operation', 'a1%s ff' % index, answer)
        add(first + '5 of the references', 'H 01 02 01ff %s 00' % index, '2e 40/18 11/1b', answer)
        add(first + '7', 'H 01 02 00000000 %s 00' % index, '2e 49/10 11/1b', answer)
        add(first + '8', 'H 01 63 02 %s 03 00' % index, '1 11 children 49/11; 2 2e 11/1b; 3 24', answer)
    return out
