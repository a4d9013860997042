#!/usr/bin/python3
"""expected.py [--big-endian] BUNDLE...: what `dump` should print of each bundle, after a line `== BUNDLE`, as Debian's
pyelftools reads it. With --big-endian their units are big-endian, else little-endian.

pyelftools has the parsers of abbreviations, entries, forms, expressions and list entries. It knows no DW_FORM_strx, no
data16, no GNU_addr_index and no GNU_str_index, reads strx4 in eight bytes and GNU_parameter_ref in as many as an offset,
skips no dwo_id, and has no parser for some operations and for version 4's location lists of split units: these are added
below. A unit that it can't read is left out and named on standard error, where the counts of what was read follow."""
import sys
from collections import Counter
from io import BytesIO

import units

units.need_module('elftools', 'python3-pyelftools')
from elftools.common.exceptions import DWARFError, ELFParseError
from elftools.common.utils import struct_parse
from elftools.construct import ConstructError, Field
from elftools.dwarf.compileunit import CompileUnit
from elftools.dwarf.die import DIE
from elftools.dwarf.dwarf_expr import DWARFExprParser, DW_OP_name2opcode, DW_OP_opcode2name
from elftools.dwarf.dwarfinfo import DWARFInfo, DebugSectionDescriptor, DwarfConfig
from elftools.dwarf.enums import ENUM_DW_AT, ENUM_DW_FORM, ENUM_DW_TAG

SECTION_NAMES = ('info', 'aranges', 'abbrev', 'frame', 'str', 'loc', 'ranges', 'line', 'pubtypes', 'pubnames', 'addr', 'str_offsets',
                 'line_str', 'loclists', 'rnglists', 'sup')
LOCATIONS = ('location', 'string_length', 'return_addr', 'data_member_location', 'frame_base', 'segment', 'static_link', 'use_location',
             'vtable_elem_location')
RANGES = ('ranges', 'start_scope')
BYTES = ('block', 'block1', 'block2', 'block4', 'exprloc', 'string', 'data16')
LIST_FIELDS = ('index', 'start_index', 'start_offset', 'start_address', 'address', 'end_index', 'end_offset', 'end_address', 'length')

for number, name in ((0xf9, 'GNU_reinterpret'), (0xfb, 'GNU_addr_index'), (0xfc, 'GNU_const_index'), (0xfd, 'GNU_variable_value')):
    DW_OP_name2opcode['DW_OP_' + name] = number
    DW_OP_opcode2name[number] = 'DW_OP_' + name

counts = Counter()


class LeftOut(Exception):
    pass


class Refused(Exception):
    pass


class Entry(DIE):
    """An entry whose values stay as they are in the unit."""
    def _translate_attr_value(self, form, raw_value):
        if form == 'DW_FORM_indirect':
            raise LeftOut('DW_FORM_indirect')
        return raw_value


def number_of(name, table):
    return table[name] if isinstance(name, str) else name


def short(name, prefix):
    return name[len(prefix):] if isinstance(name, str) else ''


def leb_end(data, at):
    while data[at] & 0x80:
        at += 1
    return at + 1


def dwarf_info(parts, address_size, big):
    held = dict(zip(('info', 'abbrev', 'loclists', 'rnglists'), parts))
    words = {}
    for name in SECTION_NAMES:
        data = held.get(name)
        words['debug_%s_sec' % name] = None if data is None else DebugSectionDescriptor(
            stream=BytesIO(data), name='.debug_' + name, global_offset=0, size=len(data), address=0)
    return DWARFInfo(config=DwarfConfig(little_endian=not big, machine_arch='x64', default_address_size=address_size),
                     eh_frame_sec=None, gnu_debugaltlink_sec=None, **words)


def unit_type(unit):
    """Version 4 has compile units alone."""
    return 1 if unit['version'] == 4 else unit['unit_type']


def unit_of(info):
    """The first unit, past the dwo_id of a split unit too."""
    unit = info._parse_CU_at_offset(0)
    first = unit.cu_die_offset + (8 if unit_type(unit) == 5 else 0)
    structs = unit.structs
    structs.Dwarf_dw_form.update(DW_FORM_strx=structs.Dwarf_uleb128(''), DW_FORM_strx4=structs.Dwarf_uint32(''),
                                 DW_FORM_data16=Field('', 16),
                                 DW_FORM_GNU_addr_index=structs.Dwarf_uleb128(''),
                                 DW_FORM_GNU_str_index=structs.Dwarf_uleb128(''))
    return CompileUnit(unit.header, info, structs, 0, first)


def expression_parser(structs):
    parser = DWARFExprParser(structs)
    table = parser._dispatch_table

    def add(name, *fields):
        table[DW_OP_name2opcode['DW_OP_' + name]] = lambda stream: [struct_parse(f, stream) for f in fields]
    uleb = structs.Dwarf_uleb128('')
    add('constx', uleb)
    add('GNU_addr_index', uleb)
    add('GNU_const_index', uleb)
    add('reinterpret', uleb)
    add('GNU_reinterpret', uleb)
    add('xderef_type', structs.Dwarf_uint8(''), uleb)
    add('GNU_variable_value', structs.Dwarf_offset(''))
    add('GNU_parameter_ref', structs.Dwarf_uint32(''))
    return parser


class Reader:
    def __init__(self, parts, big):
        self.data = parts
        self.order = 'big' if big else 'little'
        wide = parts[0][:4] == units.ESCAPE
        self.offset_size = 8 if wide else 4
        start = 12 if wide else 4
        self.version = int.from_bytes(parts[0][start:start + 2], self.order)
        size_at = start + (2 + self.offset_size if self.version == 4 else 3)
        self.info = dwarf_info(parts[:4], parts[0][size_at], big)
        self.unit = unit_of(self.info)
        self.structs = self.unit.structs
        self.parser = expression_parser(self.structs)
        self.bases = dict.fromkeys(('loclists', 'rnglists'), 20 if wide else 12)
        self.lines = []

    def say(self, text, *values):
        self.lines.append(text % values)

    # ---- expressions

    def references(self, data, base, found):
        """Adds the references of an expression to `found`; answers whether it names something by an offset in the section."""
        try:
            ops = self.parser.parse_expr(list(data))
        except (KeyError, ELFParseError):
            raise Refused(5)
        absolute = False
        for i, op in enumerate(ops):
            at = op.offset + 1
            end = ops[i + 1].offset if i + 1 < len(ops) else len(data)
            name, args = short(op.op_name, 'DW_OP_'), op.args
            counts['operations'] += 1
            counts['code ' + name] += 1
            if name.startswith('GNU_'):
                name = name[4:]
            if name in ('regx', 'bregx', 'regval_type') and args[0] > 65535:
                raise Refused(5)
            if name in ('call2', 'call4', 'parameter_ref'):
                found.append((base + at, args[0], end - at))
            elif name in ('convert', 'reinterpret') and args[0]:
                found.append((base + at, args[0], end - at))
            elif name in ('deref_type', 'xderef_type') and args[1]:
                found.append((base + at + 1, args[1], end - at - 1))
            elif name == 'regval_type' and args[1]:
                at = leb_end(data, at)
                found.append((base + at, args[1], end - at))
            elif name == 'const_type' and args[0]:
                found.append((base + at, args[0], leb_end(data, at) - at))
            elif name == 'entry_value':
                at = leb_end(data, at)
                absolute |= self.references(data[at:end], base + at, found)
            elif name in ('call_ref', 'implicit_pointer', 'variable_value'):
                absolute = True
        return absolute

    def expression(self, data):
        counts['expressions'] += 1
        found = []
        try:
            if self.references(bytes(data), 0, found):
                raise Refused(7)
        except Refused as r:
            counts['expressions refused %d' % r.args[0]] += 1
            self.say('  expression refused %d', r.args[0])
            return
        counts['references of expressions'] += len(found)
        for reference in found:
            self.say('  reference at %d to %d width %d', *reference)

    # ---- lists

    def list_at(self, kind, offset):
        counts['lists'] += 1
        data = self.section(kind)
        if offset is None or offset > len(data):
            self.say('  list unresolved')
            return
        self.say('  list at %d', offset)
        read = self.list_entry if self.version == 5 else self.entry_4 if kind == 'loclists' else self.pair_4
        stream = BytesIO(data)
        while offset < len(data):
            stream.seek(offset)
            try:
                found = read(kind, stream)
            except (ConstructError, ELFParseError, KeyError):
                counts['lists refused 5'] += 1
                self.say('  list refused 5')
                return
            if found is None:
                break
            counts['list entries'] += 1
            line, expression = found
            offset = stream.tell()
            if expression is None:
                self.say('  %s', line)
            else:
                self.say('  %s bytes %d to %d', line, offset - len(expression), offset)
                self.expression(expression)
        self.say('  end')

    def section(self, kind):
        """Where lists stand: range lists of version 4 in .debug_ranges, which not every bundle has."""
        if kind == 'loclists':
            return self.data[2]
        return self.data[3] if self.version == 5 else (self.data + [b''])[5]

    # Each reads an entry: its line up to the expression, and that where it has one; nothing at the list's end.

    def list_entry(self, kind, stream):
        at = stream.tell()
        parser = (self.structs.Dwarf_loclists_entries if kind == 'loclists' else self.structs.Dwarf_rnglists_entries).subcon
        entry = parser.parse_stream(stream)
        if entry.entry_type.endswith('end_of_list'):
            return None
        values = ([entry[f] for f in LIST_FIELDS if f in entry] + [0, 0])[:2]
        stream.seek(entry.entry_end_offset)
        return 'kind %d %d %d' % (self.section(kind)[at], *values), entry.get('loc_expr')

    def entry_4(self, kind, stream):
        """Location lists of version 4 in split units, as DebugFission has them."""
        uleb, four = self.structs.Dwarf_uleb128(''), self.structs.Dwarf_uint32('')
        code = struct_parse(self.structs.Dwarf_uint8(''), stream)
        if code == 0:
            return None
        fields = {1: [uleb], 2: [uleb, uleb], 3: [uleb, four], 4: [four, four]}[code]
        values = ([struct_parse(f, stream) for f in fields] + [0])[:2]
        if code == 1:
            return 'kind 1 %d 0' % values[0], None
        length = struct_parse(self.structs.Dwarf_uint16(''), stream)
        return 'kind %d %d %d' % (code, *values), struct_parse(Field('', length), stream)

    def pair_4(self, kind, stream):
        begin, end = (struct_parse(self.structs.Dwarf_target_addr(''), stream) for _ in range(2))
        return ('pair %d %d' % (begin, end), None) if begin or end else None

    def list_of(self, kind, index):
        data, base = self.section(kind), self.bases[kind]
        place = base + self.offset_size * index
        if place + self.offset_size > len(data):
            return None
        return base + int.from_bytes(data[place:place + self.offset_size], self.order)

    # ---- entries

    def attribute(self, a, end):
        counts['attributes'] += 1
        form, name = short(a.form, 'DW_FORM_'), short(a.name, 'DW_AT_')
        head = ' attribute %d form %d' % (number_of(a.name, ENUM_DW_AT), number_of(a.form, ENUM_DW_FORM))
        counts['form ' + form] += 1
        if form in BYTES:
            start = a.offset if form in ('string', 'data16') else end - len(a.raw_value)
            self.say('%s bytes %d to %d', head, start, end)
        else:
            self.say('%s value %d', head, 1 if form == 'flag_present' else a.raw_value)
        if form == 'exprloc':
            self.expression(a.raw_value)
        elif form == 'loclistx':
            self.list_at('loclists', self.list_of('loclists', a.raw_value))
        elif form == 'rnglistx':
            self.list_at('rnglists', self.list_of('rnglists', a.raw_value))
        elif form == 'sec_offset' and name in LOCATIONS:
            self.list_at('loclists', a.raw_value)
        elif form == 'sec_offset' and name in RANGES:
            self.list_at('rnglists', a.raw_value)

    def entry(self, die, depth):
        counts['entries'] += 1
        self.say('entry %d depth %d code %d tag %d%s', die.offset, depth, die.abbrev_code, number_of(die.tag, ENUM_DW_TAG),
                 ' children' if die.has_children else '')
        values = list(die.attributes.values())
        declared = self.unit.get_abbrev_table().get_abbrev(die.abbrev_code)['attr_spec']
        if len(values) != len(declared):
            raise LeftOut('an attribute twice in one entry')
        if die.tag == 'DW_TAG_compile_unit' and self.version == 5:
            for kind in self.bases:
                a = die.attributes.get('DW_AT_%s_base' % kind)
                if a and a.form == 'DW_FORM_sec_offset':
                    self.bases[kind] = a.raw_value
        ends = [v.offset for v in values[1:]] + [die.offset + die.size]
        for a, end in zip(values, ends):
            self.attribute(a, end)

    def read(self):
        unit, end = self.unit, self.unit.size
        self.say('version %d unit type %d address_size %d abbreviations %d first %d end %d', self.version,
                 unit_type(unit),
                 unit['address_size'], unit['debug_abbrev_offset'], unit.cu_die_offset, end)
        at, depth = unit.cu_die_offset, 0
        while at < end:
            die = Entry(unit, self.info.debug_info_sec.stream, at)
            if die.is_null():
                counts['terminators'] += 1
                self.say('terminator %d depth %d', at, depth)
                depth = max(0, depth - 1)
            else:
                self.entry(die, depth)
                depth += bool(die.has_children)
            at += die.size
        return self.lines


def main():
    left_out = 0
    big = sys.argv[1:2] == ['--big-endian']
    for path in sys.argv[1 + big:]:
        with open(path, 'rb') as f:
            data = f.read()
        before = counts.copy()
        try:
            parts = units.parts(data)
            if parts is None:
                raise LeftOut('no bundle')
            lines = Reader(parts, big).read()
        except (LeftOut, KeyError, DWARFError, ELFParseError) as why:
            counts.clear()
            counts.update(before)
            left_out += 1
            print('left out %s: %s %s' % (path, type(why).__name__, why), file=sys.stderr)
            continue
        counts['units'] += 1
        counts['units of the 64-bit format'] += parts[0][:4] == units.ESCAPE
        counts['units of version 4'] += lines[0].startswith('version 4 ')
        print('== ' + path)
        print('\n'.join(lines))
    for name in sorted(k for k in counts if not k.startswith(('form ', 'code '))):
        print('%s: %d' % (name, counts[name]), file=sys.stderr)
    print('forms: ' + ' '.join(sorted(k[5:] for k in counts if k.startswith('form '))), file=sys.stderr)
    print('operation codes: ' + ' '.join(sorted(k[5:] for k in counts if k.startswith('code '))), file=sys.stderr)
    print('units left out: %d' % left_out, file=sys.stderr)


if __name__ == '__main__':
    main()
