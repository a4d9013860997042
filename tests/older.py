"""Version 4 units (document 02, point 4): cases that marks.py and collect.py have in common; units.py has the notation.

A case is what it is about, a unit, its abbreviations, its answer, and its other sections by name; `older` is
.debug_ranges. The answer is the number of a refusal; or, of a unit of two entries, whether the second is live or
dead."""
from units import BIG, LARGEST, T, octets, uleb

KINDS = (('G', 8), ('G4', 4))  # sizes of addresses
RANGES = '1 11 children; 2 2e 55/%s'
LOW_PC = '1 11 children; 2 2e 11/%s'
LOCATION = '1 24 children 02/%s; 2 24'
BY_OFFSET = 'G 01 02 4:%x 00'  # ranges
AT = 'G 01 4:%x 02 00'  # a location; the second entry is at 16
NAMED = '98 2@10'  # call2 of that entry
SOMETHING = 'ff' * 40  # what another version has


def cut(text, size, big):
    """The first bytes of a section."""
    return octets(text, big)[:size]


def cuts(text):
    """All its parts that are shorter, but for none at all."""
    return [lambda big, n=n: cut(text, n, big) for n in range(1, len(octets(text)))]


def pairs(size, *numbers):
    """Addresses of so many bytes; one below 0 counts from all ones, which is -1, down."""
    return ' '.join('%d:%x' % (size, n % 256 ** size) for n in numbers)


# Pairs of .debug_ranges, and whether one is live.
PAIRS = (
    ('4.4: a begin of 0', (0, 9, 0, 0), 'dead'),
    ('4.4: a begin of 0 under a live base', (-1, 0x1000, 0, 9, 0, 0), 'dead'),
    ('4.4: a begin of 0, then a live pair', (0, 9, 5, 9, 0, 0), 'live'),
    ('4.4: a begin of 0 and an end of all ones', (0, -1, 0, 0), 'dead'),
    ('4.4: two equal numbers', (5, 5, 0, 0), 'live'),
    ('4.17: a dropped function as some linkers leave it', (1, 1, 0, 0), 'live'),
    ('4.4: a begin above its end', (9, 5, 0, 0), 'live'),
    ('4.4: an end of 0', (5, 0, 0, 0), 'live'),
    ('4.4: an end of all ones', (5, -1, 0, 0), 'live'),
    ('4: a pair before any base', (1, 2, 0, 0), 'live'),
    ('4: a pair under a live base', (-1, 0x1000, 5, 9, 0, 0), 'live'),
    ('4.5: a base alone', (-1, 1, 0, 0), 'dead'),
    ('4.5: a base of 0', (-1, 0, 5, 9, 0, 0), 'dead'),
    ('4.5: a base of all ones', (-1, -1, 5, 9, 0, 0), 'dead'),
    ('4.5: a base of all ones but one', (-1, -2, 5, 9, 0, 0), 'live'),
    ('4.5: a begin of all ones but one', (-2, 0, 0, 0), 'live'),
    ('4.5: a dead base, and a begin of 0', (-1, 0, 0, 9, 0, 0), 'dead'),
    ('4.5: a dead base, then a live one', (-1, 0, 5, 9, -1, 1, 5, 9, 0, 0), 'live'),
    ('4.5: a dead base, then a live one, and a begin of 0', (-1, 0, 5, 9, -1, 1, 0, 9, 0, 0), 'dead'),
    ('4.5: a live base, then a dead one', (-1, 1, -1, 0, 5, 9, 0, 0), 'dead'),
    ('4.5: a live pair, then a dead base', (5, 9, -1, 0, 0, 0), 'live'),
    ('4.6: the end pair, and a live one behind it', (0, 0, 5, 9, 0, 0), 'dead'),
    ('4.6: the end pair under a live base', (-1, 1, 0, 0, 5, 9, 0, 0), 'dead'),
    ('4.6: the end pair under a dead base', (-1, 0, 0, 0, -1, 1, 5, 9, 0, 0), 'dead'),
    ('4.6: an empty section', (), 'dead'),
    ('4.6: the section\'s end behind a pair', (0, 9), 'dead'),
    ('4.6: the section\'s end behind a live one', (5, 9), 'live'),
    ('4.6: the section\'s end behind a base', (-1, 1), 'dead'))

# Entries of a location list of version 4 that name the second entry, by their kinds.
ENTRIES = {2: '02 01 02 2:3 ' + NAMED, 3: '03 01 4:2 2:3 ' + NAMED, 4: '04 4:1 4:2 2:3 ' + NAMED}


def cases():
    out = []

    def add(why, unit, declared, answer, **sections):
        out.append((why, unit, declared, answer, sections))

    def ranges(why, older, answer, unit=BY_OFFSET % 0, **sections):
        add(why, unit, RANGES % '17', answer, older=older, **sections)

    def low_pc(why, value, answer, form='1f01', kind='G', **sections):
        add(why, '%s 01 02 %s 00' % (kind, value), LOW_PC % form, answer, **sections)

    def locations(why, section, answer, unit=AT % 0, **sections):
        add(why, unit, LOCATION % '17', answer, locations=section, **sections)

    # pairs, with addresses of both sizes; what is cut
    for kind, size in KINDS:
        unit = kind + ' 01 02 4:0 00'
        for why, numbers, answer in PAIRS:
            ranges('%s, address size %d' % (why, size), pairs(size, *numbers), answer, unit)
        for why, before in (('', ()), (' behind a dead one', (0, 9)), (' behind a base', (-1, 1))):
            for n in (1, size - 1, size, size + 1, 2 * size - 1):
                text = pairs(size, *before, 5, 9)
                held = len(octets(text)) - 2 * size + n
                ranges('4.6: %d bytes of a pair%s, address size %d' % (n, why, size),
                       lambda big, text=text, held=held: cut(text, held, big), 5, unit)
        ranges('4.6: a base that is cut, address size %d' % size, 'ff' * (2 * size - 1), 5, unit)
        ranges('4.6: what is cut behind a live pair', pairs(size, 5, 9) + ' 000000', 'live', unit)
        ranges('4.6: and behind the end pair', pairs(size, 0, 0) + ' ff', 'dead', unit)
    ranges('4.5: a begin of all ones of four bytes in eight', '8:ffffffff 8:0 8:0 8:0', 'live')
    ranges('4.5: a base of all ones of four bytes in eight', '8:%x 8:ffffffff 8:5 8:9' % (2 ** 64 - 1), 'live')
    ranges('4.5: a begin of all ones in the high word', '8:ffffffff00000000 8:9', 'live')
    ranges('4.5: size 4, and all ones of eight bytes', 'ffffffff 4:1 4:0 4:9 4:0 4:0', 'dead', 'G4 01 02 4:0 00')

    # where a list stands
    LIVE = '8:0 8:0 8:5 8:9 8:0 8:0'
    for offset, answer in ((0, 'dead'), (0x10, 'live'), (0x20, 'dead'), (0x30, 'dead'), (0x31, 'live'),
                           (0x11, 'live'), (0x29, 5), (0xffffffff, 'live')):
        ranges('4.6: at offset %d of 48' % offset, LIVE, answer, BY_OFFSET % offset)
    ranges('12: an offset of 0x102', 'ff' * 258 + ' 8:0 8:0', 'dead', BY_OFFSET % 0x102)
    ranges('4.6: an offset past the section', '8:5 8:9', 'live', BY_OFFSET % 0x11)
    ranges('4.10: no section, offset 0', None, 'dead')
    ranges('4.10: no section, another offset', None, 'live', BY_OFFSET % 1)
    for form, value in (('06', '4:0'), ('07', '8:0'), ('0f', '00')):
        add('4.7: ranges in form %s' % form, 'G 01 02 %s 00' % value, RANGES % form, 'live', older='8:0 8:0')
    for before in ('17', '16 17'):
        for older, answer in (('8:0 8:0', 'dead'), ('8:5 8:9', 'live'), ('00', 5)):
            add('4.7: sec_offset behind indirect', 'G 01 02 %s 4:0 00' % before, RANGES % '16', answer, older=older)
    add('4.7: the first ranges decide', 'G 01 02 4:10 4:0 00', RANGES % '17 55/17', 'dead', older='8:5 8:9 8:0 8:0')
    add('4.7: a live low_pc, then ranges that are cut', 'G 01 02 8:1 4:0 00', LOW_PC % '01 55/17', 'live', older='00')
    add('4.7: a dead one', 'G 01 02 8:0 4:0 00', LOW_PC % '01 55/17', 5, older='00')
    add('4.11: ranges of another tag', BY_OFFSET % 0, '1 11 children; 2 0b 55/17', 'dead', older='00')

    # one ranges section for each version
    for older, answer in (('8:0 8:0', 'dead'), ('8:5 8:9', 'live'), ('00', 5)):
        for other in (SOMETHING, '00', '040001', T + '00'):
            ranges('4.11: .debug_rnglists of a version 4 unit is not read', older, answer, ranges=other)
    for other in (SOMETHING, '8:0 8:0', '8:5 8:9', ''):
        for entries, answer in (('00', 'dead'), ('040001', 'live'), ('ff', 5)):
            add('4.11: .debug_ranges of a version 5 unit is not read', 'H 01 02 4:0 00', RANGES % '17', answer,
                ranges=entries, older=other)
            add('4.11: nor by an index', 'H 01 02 00 00', RANGES % '23', answer, ranges=T + entries, older=other)

    # GNU_addr_index
    for index in ('00', '01', '8180808000', LARGEST):
        low_pc('4, 2.3: GNU_addr_index, no table, index %s' % index, index, 'live')
    for table, index, answer in (('0001', '00', 'dead'), ('0001', '01', 'live'), ('0001', '8100', 'live'),
                                 ('0002', '01', 6),
                                 ('0002', '02', 17), ('00', LARGEST, 17), ('00', BIG, 17),
                                 ('00', uleb(2 ** 32).hex(), 17)):
        for form, before in (('1f01', ''), ('16', '813e '), ('16', '16 81be00 ')):
            low_pc('4: GNU_addr_index %s%s of %s' % (before, index, table), before + index, answer, form,
                   addresses=table)
    low_pc('4.1: a form number in four bytes', '81be8000 01', 4, '16', addresses='0001')
    low_pc('4: GNU_addr_index, address size 4', '01', 'live', kind='G4', addresses='0001')
    low_pc('4: two of them', '00 01', 'live', '1f01 11/1f01', addresses='0001')
    low_pc('4: a live one, then one that fails', '01 02', 'live', '1f01 11/1f01', addresses='0001')
    low_pc('4: a dead one, then ranges', '00 4:0', 'live', '1f01 55/17', addresses='0001', older='8:5 8:9')
    add('4: one that is cut', 'G 01 02 87', LOW_PC % '1f01', 4)
    low_pc('4: one above 64 bits', 'ffffffffffffffffff02', 4, addresses='0001')
    for form, value in (('1b', '01'), ('29', '01'), ('2a', '2:1'), ('2b', '3:1'), ('2c', '4:1')):
        for table, answer in (('0001', 'live'), ('0100', 'dead'), ('0002', 6), ('00', 17)):
            low_pc('4.1: low_pc in form %s' % form, value, answer, form, addresses=table)
    for number, answer in ((0, 'dead'), (-1, 'dead'), (1, 'live'), (0xffffffff, 'live')):
        low_pc('4.1: a direct address', pairs(8, number), answer, '01')
    low_pc('4.1: a direct address of four bytes', 'ffffffff', 'dead', '01', 'G4')
    for tag, name in (('0b', '11'), ('34', '11'), ('2e', '12')):
        add('4.11: GNU_addr_index that nobody asks', 'G 01 02 02 00', '1 11 children; 2 %s %s/1f01' % (tag, name),
            'dead',
            addresses='00')
    for code in ('a1', 'fb'):
        for table, answer in (('01', 'live'), ('00', 'dead'), ('02', 6), ('', 'live')):
            add('4.11: a variable by operation %s' % code, 'G 01 02 02 %s00 00' % code, '1 11 children; 2 34 02/18',
                answer, addresses=table)
    add('4.11: GNU_addr_index in version 5', 'H 01 02 05 00', LOW_PC % '1f01', 4)
    add('4.11: and behind indirect', 'H 01 02 813e05 00', LOW_PC % '16', 4)
    add('4.11: where no entry uses it', 'H 01 02 00', '1 11 children; 2 24; 3 2e 11/1f01', 'dead')

    # rnglistx and loclistx
    for form in ('22', '23'):
        for name in ('02', '55', '40', '03'):
            add('4.1: form %s under %s' % (form, name), 'G 01 02 00 00', '1 11 children; 2 2e %s/%s' % (name, form), 4,
                locations=T + '00', ranges=T + '00')
        for before in ('', '16 '):
            add('4.1: form %s behind indirect' % form, 'G 01 02 %s%s 00 00' % (before, form), RANGES % '16', 4)
        add('4.1: form %s where no entry uses it' % form, 'G 01 02 00', '1 11 children; 2 24; 3 2e 55/' + form, 'dead')
    add('4.1: 4 of the form before 17 of the same entry', 'G 01 02 02 00 00', LOW_PC % '1f01 55/23', 4, addresses='00')

    # location lists
    for kind, entry in ENTRIES.items():
        locations('4.3: kind %d' % kind, entry + ' 00', 'live')
        locations('4.3: kind %d, at the section\'s end' % kind, entry, 'live')
        locations('4.3: kind %d, address size 4' % kind, entry + ' 00', 'live', 'G4 01 4:0 02 00')
        locations('4.3: kind %d, no operation' % kind, entry.replace('2:3 ' + NAMED, '2:0 00'), 'dead')
        locations('4.3: kind %d, behind a base' % kind, '01 8500 ' + entry + ' 00', 'live')
        locations('4.3: kind %d, behind the end' % kind, '00 ' + entry, 'dead')
        locations('4.3: kind %d, a dangling reference' % kind, entry.replace('2@10', '2@63') + ' 00', 'dead')
        locations('4.3: kind %d, an unknown operation' % kind, entry.replace('98', 'ff') + ' 00', 5)
        locations('4.3: kind %d, a length past the section' % kind, entry.replace('2:3', '2:4'), 5)
        for part in cuts(entry):
            locations('4.3: kind %d, %d bytes of it' % (kind, len(part(False))), part, 5)
    for before in ('03 01 4:5 ', '04 4:1 4:2 ', '02 8100 828000 '):
        locations('4.3: a length of 259', before + '2:103 ' + '96' * 256 + NAMED + ' 00', 'live')
        locations('4.3: as ULEB128 it would be 3', before + '03 ' + NAMED + ' 00', 5)
    locations('4.3: the length of kind 3 as ULEB128', '03 00 01 2:3 ' + NAMED + ' 00', 5)
    locations('4.3: all kinds', '01 00 02 00 01 2:0 03 00 4:1 2:1 96 04 4:0 4:0 2:3 ' + NAMED + ' 00', 'live')
    locations('4.3: a base alone', '01 07 00', 'dead', addresses='02')
    locations('4.3: a base that is cut', '01 87', 5)
    locations('4.3: nobody asks an index', '02 00 07 2:2 a100 03 00 4:0 2:2 fb07 00', 'dead', addresses='02')
    for text in ('05 03 ' + NAMED, '05 2:3 ' + NAMED, '06 8:0', '07 8:1 8:2 2:3 ' + NAMED, '08 8:1 00 2:3 ' + NAMED,
                 '09 00 00', 'ff', '08 4:1 4:2 2:3 ' + NAMED):
        locations('4.3: kind %s' % text[:2], text + ' 00', 5)
    locations('4.3: behind a readable entry', ENTRIES[3] + ' 05 00', 5)
    locations('4.3: an entry value', '03 00 4:0 2:5 a303 ' + NAMED + ' 00', 'live')
    locations('4.3: call4', '03 00 4:0 2:5 99 4@10 00', 'live')
    locations('4.3: GNU_convert', '03 00 4:0 2:2 f7 1@10 00', 'live')
    locations('4.3: a direct address', '03 00 4:0 2:c 03 8:98 ' + NAMED + ' 00', 'live')
    locations('4.3: one of four bytes', '03 00 4:0 2:8 03 4:98 ' + NAMED + ' 00', 'live', 'G4 01 4:0 02 00')
    for kind, text, answer in (('G', '2:5 9a 4:0', 7), ('G', '2:9 9a 8:0', 5), ('WG', '2:9 9a 8:0', 7),
                               ('WG', '2:5 9a 4:0', 5)):
        value = {'G': '4:0', 'WG': '8:0'}[kind]
        locations('4.12: DW_OP_call_ref in %s' % text, '03 00 4:0 %s ff' % text, answer,
                  '%s 01 %s 02 00' % (kind, value),
                  both=False)
    for offset, answer in ((2, 'live'), (0, 5), (0x10, 'dead'), (0x11, 'dead'), (0x12, 5), (0xffffffff, 5)):
        locations('4.6: locations at offset %d of 17' % offset, 'ffff ' + ENTRIES[4] + ' 00', answer, AT % offset)
    locations('12: locations at offset 0x102', 'ff' * 258 + ENTRIES[3] + ' 00', 'live', AT % 0x102)
    for name, form in (('40', '17'), ('02', '06'), ('2a', '17')):
        add('4.11: %s in form %s is not read' % (name, form), AT % 0, '1 24 children %s/%s; 2 24' % (name, form),
            'dead',
            locations='ff')
    add('4.7: a location behind indirect', 'G 01 17 4:0 02 00', LOCATION % '16', 'live',
        locations=ENTRIES[3].replace('2@10', '2@11') + ' 00')
    add('4.12: ref_addr', 'G 01 4:0 02 00', '1 24 children 49/10; 2 24', 7)
    return out
