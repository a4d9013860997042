"""Units of the 64-bit format (document 02, point 6), made of those of the 32-bit one: the header and each field as wide
as an offset get their new width, and each number that names a place follows its place. What they are read by is a
unit's own abbreviations (DWARF 5, 7.5 and 7.7; in version 4 the lists have nothing as wide as an offset).

A section is held as pieces: how many bytes one has in the 32-bit format, and its bytes in the 64-bit one, or a function
of what tells the new places. What can't be read is copied, from where it can't be read on."""
import sys
from bisect import bisect_right
from functools import partial

from units import BOTH, bundle, field, octets, table, tokens, unit

RESERVED = 0xfffffff0
sys.setrecursionlimit(50000)  # entry values in each other


class OneFormat(Exception):
    """What stands in the 32-bit format alone: a number that has no room for its new value."""


class Cut(Exception):
    """What can't be read."""


class Places:
    """Where each place of a section stands in the 64-bit format."""
    def __init__(self, pieces):
        self.starts, narrow, wide = [], 0, 0
        for size, data in pieces:
            self.starts.append((narrow, wide))
            narrow += size
            wide += width_of(size, data)
        self.starts.append((narrow, wide))

    def __call__(self, place):
        start, to = self.starts[bisect_right(self.starts, place, key=lambda pair: pair[0]) - 1]
        return to + place - start


def width_of(size, data):
    return len(data) if isinstance(data, bytes) else data.width


class Named:
    """A number that is known once the places are."""
    def __init__(self, width, made):
        self.width, self.made = width, made


def joined(pieces, *places):
    return b''.join(data if isinstance(data, bytes) else data.made(*places) for _, data in pieces)


def fixed(width, big, number):
    if number >> 8 * width:
        raise OneFormat
    return field(width, number, big)


def padded(width, number):
    if number >> min(64, 7 * width):
        raise OneFormat
    return bytes(number >> 7 * i & 127 | (i < width - 1) << 7 for i in range(width))


# ---- sections of lists, by their notation

def listed(text, big, places=None):
    """A section of lists: its pieces. places: those of the unit, which references follow."""
    if not isinstance(text, str):
        return [(len(octets(text, big)), octets(text, big))]
    pieces, run = [], []
    for word in tokens(text):
        narrow = octets(word, big)
        kind, sign, number = word.partition('@') if '@' in word else word.partition(':')
        if kind in ('t', 't-'):
            if not run:
                run = [sum(size for size, _ in pieces)]
            run.append(len(pieces))
            made = partial(offset_of_list, run[0], int(number, 16), big, 8 - (kind == 't-'))
            pieces.append((len(narrow), Named(8 - (kind == 't-'), made)))
            continue
        run = []
        if word == 'z':
            pieces.append((12, bytes(20)))
        elif kind == 'o':
            pieces.append((4, field(8, int(number, 16), big)))
        elif sign == '@':
            pieces.append((len(narrow), fixed(int(kind), big, (places or (lambda place: place))(int(number, 16)))))
        elif BOTH in word:
            pieces.append((len(narrow), bytes.fromhex(word.partition(BOTH)[2])))
        else:
            pieces.append((len(narrow), narrow))
    return pieces


def offset_of_list(base, number, big, width, places):
    return field(8, places(base + number) - places(base), big)[:width]


# ---- abbreviations

def uleb_at(data, at):
    """A number and where it ends."""
    number, shift = 0, 0
    while True:
        if at >= len(data) or shift > 63:
            raise Cut
        number |= (data[at] & 127) << shift
        at += 1
        if data[at - 1] < 128:
            return number, at
        shift += 7


def declarations(data):
    """Code -> names and forms."""
    out, at = {}, 0
    while True:
        code, at = uleb_at(data, at)
        if code == 0:
            return out
        _, at = uleb_at(data, at)
        at += 1
        out[code] = []
        while True:
            name, at = uleb_at(data, at)
            form, at = uleb_at(data, at)
            if form == 0x21:
                _, at = uleb_at(data, at)
            if name == form == 0:
                break
            out[code].append((name, form))


# ---- units

OFFSETS = (0x0e, 0x10, 0x17, 0x1d, 0x1f)  # strp, ref_addr, sec_offset, strp_sup, line_strp
SIZES = {0x05: 2, 0x06: 4, 0x07: 8, 0x0b: 1, 0x0c: 1, 0x19: 0, 0x1c: 4, 0x1e: 16, 0x20: 8, 0x21: 0, 0x24: 8,
         0x25: 1, 0x26: 2, 0x27: 3, 0x28: 4, 0x29: 1, 0x2a: 2, 0x2b: 3, 0x2c: 4}
REFERENCES = {0x11: 1, 0x12: 2, 0x13: 4, 0x14: 8}
LEBS = (0x0d, 0x0f, 0x1a, 0x1b, 0x22, 0x23, 0x1f01, 0x1f02)
NOT_IN = {4: (0x22, 0x23), 5: (0x1f01,)}  # loclistx, rnglistx; GNU_addr_index
BLOCKS = {0x03: 2, 0x04: 4, 0x0a: 1}
# Operands: a number of bytes, `u` LEB128, `a` an address, `o` an offset, `r` a reference of so many bytes, `n` one in
# LEB128, `b` a block, `e` an expression, `c` a block after one byte.
OPERANDS = {
    0x03: 'a', 0x92: 'uu', 0x9d: 'uu', 0x9e: 'b', 0xa3: 'e', 0xf3: 'e', 0x98: 'r2', 0x99: 'r4', 0xfa: 'r4', 0x9a: 'o',
    0xfd: 'o', 0xa0: 'ou', 0xf2: 'ou', 0xa8: 'n', 0xf7: 'n', 0xa9: 'n', 0xf9: 'n', 0xa5: 'un', 0xf5: 'un', 0xa6: '1n',
    0xf6: '1n', 0xa7: '1n', 0xa4: 'nc', 0xf4: 'nc'}
for operand, codes in (
        ('1', (0x08, 0x09, 0x15, 0x94, 0x95)), ('2', (0x0a, 0x0b, 0x28, 0x2f)), ('4', (0x0c, 0x0d)), ('8', (0x0e, 0x0f)),
        ('u', (0x10, 0x11, 0x23, *range(0x70, 0x90), 0x90, 0x91, 0x93, 0xa1, 0xa2, 0xfb, 0xfc)),
        ('', (0x06, 0x12, 0x13, 0x14, *range(0x16, 0x23), *range(0x24, 0x28), *range(0x29, 0x2f), *range(0x30, 0x70),
              0x96, 0x97, 0x9b, 0x9c, 0x9f, 0xe0))):
    OPERANDS.update(dict.fromkeys(codes, operand))


class Reader:
    """Pieces of a unit, up to an end."""
    def __init__(self, data, big, version, address_size, lists):
        self.data, self.big, self.version, self.address_size, self.lists = data, big, version, address_size, lists
        self.at, self.pieces = 0, []

    def taken(self, size):
        if size > len(self.data) - self.at:
            raise Cut
        self.at += size
        return self.data[self.at - size:self.at]

    def number(self, size):
        return int.from_bytes(self.taken(size), 'big' if self.big else 'little')

    def leb(self):
        number, end = uleb_at(self.data, self.at)
        width, self.at = end - self.at, end
        return number, width

    def copy(self, size):
        self.pieces.append((size, self.taken(size)))

    def copy_leb(self):
        _, end = uleb_at(self.data, self.at)
        self.copy(end - self.at)

    def offset(self, to=lambda number: number):
        number = self.number(4)
        self.pieces.append((4, field(8, to(number), self.big)))

    def reference(self, width):
        number = self.number(width)
        self.pieces.append((width, Named(width, lambda places: fixed(width, self.big, places(number)))))

    def leb_reference(self):
        number, width = self.leb()
        self.pieces.append((width, Named(width, lambda places: padded(width, number and places(number)))))

    def rest(self):
        self.copy(len(self.data) - self.at)

    def part(self, size):
        """A reader of the next so many bytes."""
        return Reader(self.taken(size), self.big, self.version, self.address_size, self.lists)

    def expression(self):
        """One behind its length."""
        size, width = self.leb()
        inner = self.part(size)
        try:
            while inner.at < len(inner.data):
                inner.operation()
        except Cut:
            inner.at = sum(size for size, _ in inner.pieces)
            inner.rest()
        length = sum(width_of(*piece) for piece in inner.pieces)
        self.pieces += [(width, padded(width, length))] + inner.pieces

    def operation(self):
        before, start = len(self.pieces), self.at
        try:
            code = self.data[self.at]
            if code not in OPERANDS:
                raise Cut
            self.copy(1)
            operands = OPERANDS[code]
            while operands:
                kind, operands = operands[0], operands[1:]
                if kind == 'r':
                    self.reference(int(operands[0]))
                    operands = operands[1:]
                else:
                    {'u': self.copy_leb, 'o': self.offset, 'n': self.leb_reference, 'b': self.block,
                    'e': self.expression, 'c': self.counted,
                     'a': partial(self.copy, self.address_size)}.get(kind, lambda: self.copy(int(kind)))()
        except Cut:
            del self.pieces[before:]
            self.at = start
            raise

    def block(self):
        size, width = self.leb()
        self.at -= width
        self.copy(width + size)

    def counted(self):
        size = self.number(1)
        self.at -= 1
        self.copy(1 + size)

    def value(self, name, form):
        if form == 0x16:
            form, width = self.leb()
            if form in (0, 0x21) or width > 3:
                raise Cut
            self.at -= width
            self.copy(width)
            self.value(name, form)
        elif form in NOT_IN[self.version]:
            raise Cut
        elif form in OFFSETS:
            self.offset(self.lists.get(name, lambda number: number) if form == 0x17 else lambda number: number)
        elif form in SIZES:
            self.copy(SIZES[form])
        elif form in REFERENCES:
            self.reference(REFERENCES[form])
        elif form == 0x15:
            self.leb_reference()
        elif form in LEBS:
            self.copy_leb()
        elif form in BLOCKS:
            size = self.number(BLOCKS[form])
            self.at -= BLOCKS[form]
            self.copy(BLOCKS[form] + size)
        elif form == 0x01:
            self.copy(self.address_size)
        elif form == 0x08:
            end = self.data.find(b'\0', self.at)
            if end < 0:
                raise Cut
            self.copy(end + 1 - self.at)
        elif form == 0x09:
            self.block()
        elif form == 0x18 and name != 1:
            self.expression()
        else:
            raise Cut

    def entries(self, declared):
        while self.at < len(self.data):
            before, start = len(self.pieces), self.at
            try:
                code, width = self.leb()
                self.at -= width
                self.copy(width)
                if code and code not in declared:
                    raise Cut
                for name, form in declared[code] if code else ():
                    self.value(name, form)
            except Cut:
                del self.pieces[before:]
                self.at = start
                self.rest()


def version_of(data, big):
    """4, or 5 for any other."""
    return 4 if data[4:6] == field(2, 4, big) else 5


def of_unit(data, of_table, big, lists):
    """Pieces of a section of one unit and what follows it. lists: where offsets in lists stand, by the attribute."""
    if len(data) < 4:
        return [(len(data), data)]
    length = int.from_bytes(data[:4], 'big' if big else 'little')
    if length >= RESERVED:
        raise OneFormat
    end = min(4 + length, len(data))
    version = version_of(data, big)
    size_at = 10 if version == 4 else 7
    reader = Reader(data[:end], big, version, data[size_at] if end > size_at else 0, lists)
    reader.taken(4)
    reader.pieces.append((4, Named(12, lambda places: b'\xff' * 4 + field(8, places(4 + length) - 12, big))))
    try:
        reader.copy(min(2 if version == 4 else 4, end - 4))
        start = reader.number(4)
        reader.at -= 4
        reader.offset()
        if version == 4:
            reader.copy(1)
        elif data[6] == 5:
            reader.copy(8)
        if (version == 4 or data[6] in (1, 5)) and data[size_at] in (4, 8):
            reader.entries(declarations(of_table[start:]))
    except Cut:
        reader.at = sum(size for size, _ in reader.pieces)
    reader.rest()
    return reader.pieces + [(len(data) - end, data[end:])]


class Wide:
    """The sections of a case in the 64-bit format, and where their places stand."""
    def __init__(self, of_text, of_table, locations='', ranges='', base=0, big=False, tail='', older=None):
        self.big, self.table, self.older = big, table(of_table), [] if older is None else [octets(older, big)]
        by_list = [Places(listed(text, big)) for text in (locations, ranges)]
        self.in_locations, self.in_ranges = by_list
        data = unit(of_text, big) + octets(tail)
        self.lists = {0x02: self.in_locations}
        if version_of(data, big) == 5:
            self.lists.update({0x8c: self.in_locations, 0x55: lambda number: self.in_ranges(base + number) - base,
                               0x74: self.in_ranges})
        else:
            self.in_ranges = lambda number: number  # .debug_ranges
        pieces = of_unit(data, self.table, big, self.lists)
        self.places = Places(pieces)
        self.unit = joined(pieces, self.places)
        self.locations, self.ranges = (joined(listed(text, big, self.places), of) for text, of in zip((locations,
        ranges), by_list))

    def bundle(self, addresses):
        return bundle([self.unit, self.table, self.locations, self.ranges, octets(addresses)] + self.older)

    def written(self, body, kind):
        """A new unit by what follows its header: its bytes, and its places."""
        pieces = of_unit(unit('%s %s' % (kind, octets(body, self.big).hex()), self.big), self.table, self.big,
        self.lists)
        places = Places(pieces)
        return joined(pieces, places), places

    def marks(self, text):
        """Marks by `12R ..`."""
        return ' '.join('%d%s' % (self.places(int(m[:-1])), m[-1]) for m in text.split())

    def printed(self, lines):
        """What dump prints, by its lines of the 32-bit format."""
        out, of_list, start, within = [], self.in_ranges, 0, self.places
        for line in lines:
            words = line.split()
            depth = len(line) - len(line.lstrip())
            numbers = {}  # by the word before, what it becomes
            if words[0] == 'version':
                numbers = {'first': self.places, 'end': self.places}
            elif words[0] in ('entry', 'terminator'):
                numbers = {words[0]: self.places}
            elif words[0] == 'attribute':
                name, form = int(words[1]), int(words[3])
                of_list = self.in_locations if form == 0x22 or name == 0x02 else self.in_ranges
                within = self.places
                if words[4] == 'bytes':
                    start = int(words[5])
                numbers = {'bytes': self.places, 'to': self.places}
                if 0x11 <= form <= 0x15:
                    numbers['value'] = self.places
                elif form == 0x17 and name in self.lists:
                    numbers['value'] = self.lists[name]
            elif words[:2] == ['list', 'at']:
                numbers = {'at': of_list}
            elif words[0] == 'kind' and 'bytes' in words:
                start, within = int(words[5]), self.in_locations
                numbers = {'bytes': of_list, 'to': of_list}
            elif words[0] == 'reference':
                numbers = {'at': lambda place: within(start + place) - within(start), 'to': self.places}
            for i in range(1, len(words)):
                if words[i - 1] in numbers and words[i].isdigit():
                    words[i] = str(numbers[words[i - 1]](int(words[i])))
            out.append(' ' * depth + ' '.join(words))
        return out
