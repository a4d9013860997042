"""Variables at a fixed address (document 02, point 7): cases that marks.py and collect.py have in common; units.py has
the notation.

A case is what it is about, a unit of two entries, its abbreviations, its answers where fixed addresses do not count and
where they do, and its other sections by name. An answer is the number of a refusal; or whether the second entry, the
variable, is live or dead. In a unit and its sections `A:` is a field as wide as an address: a text stands for both
address sizes and both versions. EACH are the cases of all of these, SOME those of address size 8 and version 5, and of
the others the addresses and the inputs that have a name, `7/..`."""
from units import T, octets

KINDS = (('H', 8), ('H4', 4), ('G', 8), ('G4', 4))  # sizes of addresses
V = '1 11 children; 2 34 02/%s'
TWO = V % '18 02/18'

# Addresses of either size, -1 for all ones (7/size-4-ones), and what they are where they count; then those of one size,
# which are live: of eight bytes first all ones of four (7/ones-of-four-in-eight).
ADDRESSES = [(1, 'live'), (2, 'live'), (0x100, 'live'), (-1, 'dead'), (-2, 'live'), (-256, 'live'), (0, 'dead')]
OF_EIGHT = [0xffffffff, 0xffffffff00000000, 0x100000000, 1 << 63, (1 << 63) - 1, 0x8877665544332211]
OF_FOUR = [0x80000000, 0x7fffffff, 0xffff, 0xffff0000, 0x44332211]

# Expressions of a location, their answers off and on, and the address table.
EXPRESSIONS = [
    ('7.2, 7/then-plus: whatever follows: plus_uconst', '03 A:1 23 05', 'dead', 'live', ''),
    ('7.2: form_tls_address', '03 A:1 9b', 'dead', 'live', ''),
    ('7.2: GNU_push_tls_address', '03 A:1 e0', 'dead', 'live', ''),
    ('7.2: deref, piece, stack_value', '03 A:1 06 93 04 9f', 'dead', 'live', ''),
    ('7.2: whatever is before it', '30 96 23 05 03 A:1 22', 'dead', 'live', ''),
    ('7.3: a tombstone, whatever follows', '03 A:0 23 05', 'dead', 'dead', ''),
    ('7.3: a tombstone, then an address', '03 A:0 03 A:1', 'dead', 'live', ''),
    ('7.3: an address, then a tombstone', '03 A:1 03 A:0', 'dead', 'live', ''),
    ('7.3: both tombstones', '03 A:0 03 A:-1', 'dead', 'dead', ''),
    ('7.2: const8u and form_tls_address', '0e 8:1 9b', 'dead', 'dead', ''),
    ('7.2: const8u and GNU_push_tls_address', '0e 8:1 e0', 'dead', 'dead', ''),
    ('7.2: const4u and form_tls_address', '0c 4:1 9b', 'dead', 'dead', ''),
    ('7.2: constx', 'a2 01', 'dead', 'dead', '00'),
    ('7.2: a block that looks like one', '9e 05 03 01000000', 'dead', 'dead', ''),
    ('7.2: no operation', '', 'dead', 'dead', ''),
    ('7.4: a table that says dead is not asked', '03 A:1', 'dead', 'live', '00'),
    ('7.4: nor one that says live', '03 A:0', 'dead', 'dead', '0101'),
    ('7.4: nor one that is wrong', '03 A:1', 'dead', 'live', '02ff'),
    ('7.1, 7/then-index-past-17', '03 A:1 a1 01', 17, 17, '00'),
    ('7.1: then a byte above 1', '03 A:1 a1 00', 6, 6, '02'),
    ('7.1: then a dead index', '03 A:1 a1 00', 'dead', 'live', '00'),
    ('7.1: then a live one', '03 A:1 a1 00', 'live', 'live', '01'),
    ('7.1: then any index, with no table', '03 A:1 a1 07', 'live', 'live', ''),
    ('7.1: then GNU_addr_index past the end', '03 A:1 fb 01', 17, 17, '00'),
    ('7.1: behind a dead index', 'a1 00 03 A:1', 'dead', 'live', '00'),
    ('7.1: behind a live one', 'a1 00 03 A:1', 'live', 'live', '01'),
    ('7.1: behind one past the end', 'a1 01 03 A:1', 17, 17, '00'),
    ('7.1: behind a byte above 1', 'a1 00 03 A:1', 6, 6, '02'),
    ('7.1: a tombstone, then a live index', '03 A:0 a1 00', 'live', 'live', '01'),
    ('7.1: a tombstone behind a live index', 'a1 00 03 A:-1', 'live', 'live', '01'),
    ('7.1: a tombstone, then an index past the end', '03 A:0 a1 01', 17, 17, '00'),
    ('7.1: then an unknown operation', '03 A:1 ff', 5, 5, ''),
    ('7.1: behind an unknown operation', 'ff 03 A:1', 5, 5, ''),
    ('7.1: then a second one that is cut', '03 A:1 03 01', 5, 5, ''),
    ('7.1: one that is cut', '03 010000', 5, 5, ''),
    ('7.1: its operand lacks', '03', 5, 5, ''),
    ('7.1: then call_ref', '03 A:1 9a 4:0', 7, 7, ''),
    ('7.2, 7/nested: an entry value is not searched', 'a3 A+1 03 A:1', 'dead', 'dead', ''),
    ('7.2: nor GNU_entry_value', 'f3 A+1 03 A:1', 'dead', 'dead', ''),
    ('7.2: nor one in the other', 'a3 A+3 f3 A+1 03 A:1', 'dead', 'dead', ''),
    ('7.2: an address behind an entry value', 'a3 A+1 03 A:0 03 A:1', 'dead', 'live', ''),
    ('7.2: a tombstone behind one that holds an address', 'f3 A+1 03 A:1 03 A:0', 'dead', 'dead', ''),
    ('7.2: an address before one', '03 A:1 a3 A+1 03 A:0', 'dead', 'live', ''),
    ('7.2: behind one that holds nothing', 'a3 00 03 A:1', 'dead', 'live', ''),
    ('7.2: behind one that asks past the end', 'a3 02 a1 07 03 A:1', 'dead', 'live', '00'),
    ('7.2: behind one that is unreadable', 'a3 01 ff 03 A:1', 5, 5, ''),
]

# What stands behind the code of an entry by these abbreviations; answers off and on; the address table.
ATTRIBUTES = [
    ('7.1, 7/ends-the-test', TWO, 'A+1 03 A:1 02 a109', 17, 'live', '00'),
    ('7.1, 7/dead-doesn\'t-end-it', TWO, 'A+1 03 A:0 02 a109', 17, 17, '00'),
    ('7.1: all ones end it neither', TWO, 'A+1 03 A:-1 02 a109', 17, 17, '00'),
    ('7.1, 7/behind-it-still-scanned', TWO, 'A+1 03 A:1 01 ff', 5, 5, ''),
    ('7.1: call_ref in a later location', TWO, 'A+1 03 A:1 05 9a 4:0', 7, 7, ''),
    ('7.1: a byte above 1 in a later location', TWO, 'A+1 03 A:1 02 a100', 6, 'live', '02'),
    ('7.1: a later location that is dead', TWO, 'A+1 03 A:1 02 a100', 'dead', 'live', '00'),
    ('7.1: the second location', TWO, '02 a100 A+1 03 A:1', 'dead', 'live', '00'),
    ('7.1: behind a live one', TWO, '02 a100 A+1 03 A:1', 'live', 'live', '01'),
    ('7.1: behind one that asks past the end', TWO, '02 a109 A+1 03 A:1', 17, 17, '00'),
    ('7.1: behind a byte above 1', TWO, '02 a100 A+1 03 A:1', 6, 6, '02'),
    ('7.1: behind an empty one', TWO, '00 A+1 03 A:1', 'dead', 'live', ''),
    ('7.1: behind a tombstone', TWO, 'A+1 03 A:0 A+1 03 A:1', 'dead', 'live', ''),
    ('7.2: behind indirect', V % '16', '18 A+1 03 A:1', 'dead', 'live', ''),
    ('7.2: behind two', V % '16', '16 18 A+1 03 A:1', 'dead', 'live', ''),
    ('7.2: a tombstone behind indirect', V % '16', '18 A+1 03 A:0', 'dead', 'dead', ''),
    ('7.2: a block behind indirect', V % '16', '0a A+1 03 A:1', 'dead', 'dead', ''),
    ('7.2, 7/not-exprloc: block1', V % '0a', 'A+1 03 A:1', 'dead', 'dead', ''),
    ('7.2: block', V % '09', 'A+1 03 A:1', 'dead', 'dead', ''),
    ('7.2: block2', V % '03', '2:A+1 03 A:1', 'dead', 'dead', ''),
    ('7.2: block4', V % '04', '4:A+1 03 A:1', 'dead', 'dead', ''),
    ('7.2: a block, then an exprloc', V % '0a 02/18', 'A+1 03 A:0 A+1 03 A:1', 'dead', 'live', ''),
    ('7.2: low_pc of a variable', V % '18 11/01', 'A+1 03 A:0 A:1', 'dead', 'dead', ''),
    ('7.5, 7/open-7.5-empty-table', '1 11 children; 2 34 3a/0b 02/18', '00 A+1 03 A:1', 'dead', 'live', ''),
]
ATTRIBUTES += [('7.2: attribute %s' % name, '1 11 children; 2 34 %s/18' % name, 'A+1 03 A:1', 'dead', 'dead', '')
               for name in ('1c', '40', '4d')]
ATTRIBUTES += [('7.2, %s' % name, '1 11 children; 2 %s 02/18' % tag, 'A+1 03 A:1', 'dead', 'dead', '')
               for tag, name in (('05', '7/parameter-tag'), ('0b', 'a block'), ('0d', 'a member'), ('11', 'a unit'),
                                 ('24', 'a type'), ('2e', 'a subprogram'), ('39', 'a namespace'))]


def sized(text, size):
    """A text for an address size: `A:N`, a negative one counting from all ones down; `A+N` a number of one byte."""
    words = []
    for word in text.split():
        if word.startswith('A:'):
            word = '%d:%x' % (size, int(word[2:], 16) % 256 ** size)
        elif 'A+' in word:
            before, _, more = word.partition('A+')
            word = '%s%02x' % (before, size + int(more))
        words.append(word)
    return ' '.join(words)


def address(number):
    return 'A+1 03 A:%x' % number


def of_size(size):
    """What stands behind the code of the variable, with its abbreviations, answers and table."""
    out = [('7.3: address %d' % n, V % '18', address(n), 'dead', answer, '') for n, answer in ADDRESSES]
    out += [('7.3: address 0x%x' % n, V % '18', address(n), 'dead', 'live', '')
            for n in (OF_EIGHT if size == 8 else OF_FOUR)]
    for why, text, off, on, addresses in EXPRESSIONS:
        text = sized(text, size)
        out.append((why, V % '18', '%02x %s' % (len(octets(text)), text), off, on, addresses))
    return out + ATTRIBUTES


def lists(kind, size):
    """Lists of locations: they are not searched."""
    entry = sized('A+1 03 A:1', size)
    if kind.startswith('H'):
        yield '7.2, 7/location-list', '00', '22', T + '05 %s 00' % entry
        yield '7.2: by its offset', '4:0', '17', '05 %s 00' % entry
    else:
        yield '7.2: a list of version 4', '4:0', '17', '03 00 4:1 2:%s 00' % entry


def cases(kind, size):
    for why, table, text, off, on, addresses in of_size(size):
        yield why, '%s 01 02 %s 00' % (kind, sized(text, size)), table, off, on, {'addresses': addresses}
    for why, value, form, section in lists(kind, size):
        yield why, '%s 01 02 %s 00' % (kind, value), V % form, 'dead', 'dead', {'locations': section}
    yield ('7: the first entry is the variable', '%s 01 %s 02 00' % (kind, sized('A+1 03 A:1', size)),
           '1 34 children 02/18; 2 24', 'dead', 'live', {})


EACH = [case for kind in KINDS for case in cases(*kind)]
SOME = [case for case in EACH if case[1].startswith('H ') or '7/' in case[0] or case[0].startswith('7.3: address')]
