"""Units, bundles, and the files of the test crates: what the scripts of tests/ and oracle/ are built from.

Bytes are hexadecimal text, or bytes as they stand. In text `W:N` is a field that follows the unit's byte order: the
number N, hexadecimal, in W bytes. What depends on the order in another way is a function of it (True is big-endian).
`H ..` is a unit by the bytes behind its header, which gets the right length: `H` has type 1 and address size 8, `H4`
address size 4, `H5` type 5, `HA` abbreviations from 0x102 on; `W`, `W4`, `W5`, `WA` are the same in the 64-bit format.
`G`, `G4` and `GA` are version 4 units (GNU split DWARF), `WG`, `WG4` and `WGA` in the 64-bit format.
Abbreviations are `code tag children name/form ..`, with `;` between them; `name/form/bytes` has implicit_const's value.
A5 are those of the five-entry unit.

A section of lists is for both formats, and wide.py makes it for the 64-bit one: `z` is its header, zeros; `t:N` an
offset in its table,
    by where the list stands in the 32-bit format (`t-:N` one that lacks its last byte); `o:N` any field
as wide as an offset; `W@N` a number of W bytes that names the place N of the unit; `A|B` the bytes A in the 32-bit
format, B in the 64-bit one. T is such a header and a table of one offset; its list follows. CUT is T without its last
byte; T64 and CUT64 are these of the 64-bit format."""
import importlib.util
import os
import subprocess
import sys

TESTS = os.path.dirname(os.path.abspath(__file__))
CRATES = os.path.join(TESTS, '..', 'crates')
A5 = '01 11 01 00 00 02 2e 00 11 1b 49 11 00 00 03 24 00 00 00 00'
FIVE = 'H 01 020011 03 03 020110 00'
FIVE64 = 'W 01 02001d 03 03 02011c 00'
FIVE_4 = 'G 01 020010 03 03 02010f 00'  # of version 4
T = 'z t:4 '
CUT = 'z t-:4'
T64 = '00' * 20 + ' 8:8 '
CUT64 = '00' * 20 + '08000000000000'
BIG = '808080808080808040'  # 2^62
LARGEST = 'ffffffffffffffffff01'  # 2^64 - 1
HEADERS = {'H': '2:5 01 08 4:0', 'H4': '2:5 01 04 4:0', 'H5': '2:5 05 08 4:0 1122334455667788', 'HA': '2:5 01 08 4:102'}
HEADERS.update({'G': '2:4 4:0 08', 'G4': '2:4 4:0 04', 'GA': '2:4 4:102 08'})
HEADERS.update({'W' + kind.removeprefix('H'): text.replace('4:', '8:') for kind, text in HEADERS.items()})
ESCAPE = b'\xff' * 4  # before a length of the 64-bit format
ORDERS = (False, True)  # little-endian, big-endian
FORMATS = (False, True)  # 32-bit, 64-bit
BOTH = '|'  # between the bytes of both formats


def need(*packages):
    """Installs the Debian packages that are missing, or ends."""
    if subprocess.run([os.path.join(TESTS, 'packages'), *packages]).returncode:
        sys.exit(2)


def need_module(name, package):
    """The same for a package that holds a Python module."""
    if importlib.util.find_spec(name) is None:
        need(package)
        importlib.invalidate_caches()


# ---- bytes

def field(width, number, big):
    return number.to_bytes(width, 'big' if big else 'little')


def octets(text, big=False):
    """Bytes by their notation, in a byte order."""
    if isinstance(text, bytes):
        return text
    if callable(text):
        return text(big)
    return b''.join(octets_of(word, big) for word in tokens(text))


def tokens(text):
    return text.replace('@ ', '@').split()


def octets_of(word, big):
    width, colon, number = word.replace('@', ':').partition(':')
    if word == 'z':
        return bytes(12)
    if width in ('t', 'o'):
        return field(4, int(number, 16), big)
    if width == 't-':
        return field(4, int(number, 16), big)[:-1]
    return field(int(width), int(number, 16), big) if colon else bytes.fromhex(word.partition(BOTH)[0])


def ordered(text):
    """Whether there are fields in it, beside those of a header."""
    return callable(text) or isinstance(text, str) and bool(set(text) & set(':@'))


def uleb(n):
    out = b''
    while n > 127:
        out += bytes([n & 127 | 128])
        n >>= 7
    return out + bytes([n])


def counted(data):
    """Bytes after their number."""
    return uleb(len(data)) + data


def entry_values(levels, inside=b''):
    """So many operations DW_OP_entry_value, each inside the one before."""
    for _ in range(levels):
        inside = b'\xa3' + counted(inside)
    return inside


def abbreviations(text):
    out = b''
    for words in (line.split() for line in text.split(';') if line.strip()):
        out += uleb(int(words[0])) + uleb(int(words[1], 16)) + bytes(['children' in words])
        for pair in (w.split('/') for w in words[2:] if w != 'children'):
            out += b''.join(uleb(int(w, 16)) for w in pair[:2]) + b''.join(octets(w) for w in pair[2:])
        out += bytes(2)
    return out + bytes(1)


def table(text):
    """Abbreviations in bytes, or by a description, which has a `/` or a `;`."""
    return octets(text) if isinstance(text, bytes) or not set(text) & set('/;') else abbreviations(text)


def header(body, kind='H', big=False):
    rest = octets(HEADERS[kind], big) + body
    return (ESCAPE + field(8, len(rest), big) if kind.startswith('W') else field(4, len(rest), big)) + rest


def unit(text, big=False):
    """A unit by `H ..`; its bytes behind H as bytes, or as a function; `cut N ..` the first N bytes of one; any other
    text as it stands."""
    if not isinstance(text, str):
        return header(octets(text, big), 'H', big)
    kind, _, body = text.partition(' ')
    if kind == 'cut':
        size, _, whole = body.partition(' ')
        return unit(whole, big)[:int(size)]
    return header(octets(body, big), kind, big) if kind in HEADERS else octets(text, big)


def of_two(of_unit):
    """Of a unit `H 01 .. 02 .. 00` of two entries: where they stand, and what is before the second."""
    kind, _, body = of_unit.partition(' ')
    before = body.partition(' 02')[0]
    first = len(unit(kind))
    return first, first + len(octets(before)), before


def asking(index):
    """Units whose second entry is a root where this index is live: what asks, unit, abbreviations, range lists."""
    size = len(octets(index)) + 1
    out = [('low_pc', 'H 01 02 %s 00' % index, '1 11 children; 2 2e 11/1b', '')]
    for code in ('a1', 'fb'):
        out.append(('operation ' + code, 'H 01 02 %02x %s%s 00' % (size, code, index), '1 11 children; 2 34 02/18', ''))
    for entry in ('01%s 040001', '02%s 63', '03%s 01'):
        out.append(('range list kind ' + entry[:2], 'H 01 02 00 00', '1 11 children; 2 2e 55/23', T + entry % index + '00'))
    return out


FAR = '1 24 49/12 49/13 49/14 49/15 02/18 03/03; 2 24'


def far(target):
    """An entry whose references name the entries at this place and the six behind it: in each form wider than a byte,
    and in each operation with an operand of fixed width. It reaches from 12 to 301."""
    text = '01 2:%x 4:%x 8:%x %s 0d 98 2:%x 99 4:%x fa 4:%x 2:100 ' + '00' * 256
    return text % (target, target + 1, target + 2, uleb(target + 3).hex(), target + 4, target + 5, target + 6)


# What only one byte order accepts: the numbers, read in the other, are those of the second entry. The unit, and its
# abbreviations.
DANGLING = [('H 01 %s 02' % value, '1 24 49/%s; 2 24' % form) for form, value in (('12', '2:f00'), ('13', '4:11000000'), ('14', '8:1500000000000000'))]
DANGLING += [('H 01 %02x %s %s 02' % (size + 1, code, value), '1 24 02/18; 2 24')
             for code, size, value in (('98', 2, '2:1100'), ('99', 4, '4:13000000'), ('fa', 4, '4:13000000'), ('a3 03 98', 4, '2:1300'))]


# ---- bundles: the length of the rest, the version, the parts, each after its length. Version 1 has five parts, version 2
# has .debug_ranges behind them.

def bundle(parts):
    rest = bytes([len(parts) - 4]) + b''.join(len(p).to_bytes(4, 'big') + p for p in parts)
    return len(rest).to_bytes(4, 'big') + rest


def bundle_of(of_unit, of_table, locations='', ranges='', addresses='', tail='', big=False, older=None):
    """older: .debug_ranges, in a bundle of version 2."""
    lists = [octets(p, big) for p in (locations, ranges)]
    last = [] if older is None else [octets(older, big)]
    return bundle([unit(of_unit, big) + octets(tail), table(of_table)] + lists + [octets(addresses)] + last)


def parts(data):
    """The five or six parts of a bundle; nothing where it is none."""
    if int.from_bytes(data[:4], 'big') != len(data) - 4 or data[4:5] not in (b'\1', b'\2'):
        return None
    at, out = 5, []
    for _ in range(4 + data[4]):
        size = int.from_bytes(data[at:at + 4], 'big')
        out.append(data[at + 4:at + 4 + size])
        at += 4 + size
    return out


def bundles(stream):
    """Bundles that stand one after another."""
    out = []
    while stream:
        size = 4 + int.from_bytes(stream[:4], 'big')
        out.append(stream[:size])
        stream = stream[size:]
    return out


def placed(name, cases):
    """The lines of a file of bundles: its name, and before each answer the place of its bundle."""
    out, at = '== %s\n' % name, 0
    for data, lines in cases:
        out += '-- %d\n%s' % (at, lines)
        at += len(data)
    return out


# ---- the files of a crate

class Part:
    """A part of a test crate's arguments and of what it prints: a heading, what is asked for, files, lines; whether the
    files' units are big-endian, and whether fixed addresses count."""
    def __init__(self, heading, word, files, lines, big=False, fixed=False):
        self.heading = '# %s\n' % heading
        options = ['--big-endian'] * big + ['--fixed-addresses'] * fixed
        self.args = ''.join(w + '\n' for w in [word] + options + list(files)) if word else None
        self.lines = lines


def by_heading(text):
    """A file by its headings, in its order."""
    out, at = {}, None
    for line in text.splitlines(keepends=True):
        if line.startswith('# '):
            at = line
            assert at not in out, at
            out[at] = []
        else:
            out[at].append(line)
    return {heading: ''.join(lines) for heading, lines in out.items()}


def read(path):
    if not os.path.exists(path):
        return b''
    with open(path, 'rb') as f:
        return f.read()


def with_parts(crate, made):
    """args and stdout of a crate with these parts in place of theirs. What the arguments ask for is printed first."""
    args, stdout = (by_heading(read(os.path.join(CRATES, crate, name)).decode()) for name in ('args', 'stdout'))
    for part in made:
        stdout[part.heading] = part.lines
        if part.args is not None:
            args[part.heading] = part.args
    stdout = {h: stdout[h] for h in [*args, *(h for h in stdout if h not in args)]}
    return {crate + '/' + name: ''.join(h + text for h, text in held.items()).encode()
            for name, held in (('args', args), ('stdout', stdout))}


def write(made, checking):
    """Writes files under crates/, or compares them: how many differ, or stand in data/ and are in no part."""
    wrong = 0
    for name, data in made.items():
        path = os.path.join(CRATES, name)
        if checking:
            if not os.path.exists(path) or read(path) != data:
                wrong += 1
                print('%s differs' % name)
        else:
            os.makedirs(os.path.dirname(path), exist_ok=True)
            with open(path, 'wb') as f:
                f.write(data)
    for crate in {name.split('/')[0] for name in made if name.endswith('/args')}:
        data = os.path.join(CRATES, crate, 'data')
        named = read(os.path.join(CRATES, crate, 'args')).decode().splitlines()
        for name in sorted(set(os.listdir(data) if os.path.isdir(data) else ()) - set(named)):
            wrong += 1
            print('%s/data/%s is in no part' % (crate, name))
    return wrong
