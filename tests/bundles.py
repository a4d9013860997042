#!/usr/bin/python3
"""bundles.py OBJECT OUT [LINKED]: makes a bundle of the first unit of an object.

With split DWARF the unit is that of OBJECT's .dwo file, or of its own .dwo sections; else that of .debug_info,
relocated. A unit of version 4 has .debug_loc.dwo, and .debug_ranges: that of LINKED, which OBJECT was linked to, or
OBJECT's own, relocated as a linker does that drops about half of the functions, which are then at 0. It is taken from
the skeleton's DW_AT_GNU_ranges_base on, which is where an object's section starts. The address table has one byte, 1,
for each address of .debug_addr. A bundle of more than 65,536 bytes (or what MOST says) is not made. A bundle has no
place for the byte order: of a big-endian object `big-endian` is said on standard error."""
import os
import sys

from units import ESCAPE, bundle, need_module

need_module('elftools', 'python3-pyelftools')
from elftools.elf.elffile import ELFFile
from elftools.elf.relocation import RelocationHandler

MOST = int(os.environ.get('MOST', 65536))

# pyelftools knows no relocations of thread-local offsets, and not those of clang's call frames for PowerPC and MIPS; any
# value serves here: that of the symbol and what is there.
R64, R32 = RelocationHandler._RELOCATION_RECIPES_X64, RelocationHandler._RELOCATION_RECIPES_X86
R64.update({17: R64[1], 21: R64[10]})
R32.update({32: R32[1]})
POWER, MIPS = RelocationHandler._RELOCATION_RECIPES_PPC64, RelocationHandler._RELOCATION_RECIPES_MIPS
POWER.update({44: POWER[38], 78: POWER[38]})
MIPS.update({39: MIPS[2], 248: MIPS[2]})


def sections(elf, suffix):
    """Unit, abbreviations, location lists and range lists; location lists of version 4 where there are no others."""
    info, abbreviations, locations, ranges, older = (
        elf.get_section_by_name('.debug_' + n + suffix) for n in ('info', 'abbrev', 'loclists', 'rnglists', 'loc'))
    return [s.data() if s else b'' for s in (info, abbreviations, locations or older, ranges)]


def is_wide(section):
    """Whether its first length is of the 64-bit format."""
    return section[:4] == ESCAPE


def first_unit(info, order):
    if is_wide(info):
        return info[:12 + int.from_bytes(info[4:12], order)]
    return info[:4 + int.from_bytes(info[:4], order)]


def version(info, order):
    return int.from_bytes(info[12:14] if is_wide(info) else info[4:6], order)


def ranges_base(elf):
    """DW_AT_GNU_ranges_base of a linked file's skeleton."""
    top = next(elf.get_dwarf_info(relocate_dwarf_sections=False).iter_CUs()).get_top_DIE()
    return next((a.value for a in top.attributes.values() if a.name in ('DW_AT_GNU_ranges_base', 0x2132)), 0)


def linked_ranges(path):
    with open(path, 'rb') as f:
        elf = ELFFile(f)
        section = elf.get_section_by_name('.debug_ranges')
        return section.data()[ranges_base(elf):] if section else b''


def debug_ranges(elf, order):
    """.debug_ranges of an object, every address in it with its section's, which is 0 where it is dropped."""
    section = elf.get_section_by_name('.debug_ranges')
    if section is None:
        return b''
    data, width = bytearray(section.data()), elf.elfclass // 8
    relocations = [s for s in elf.iter_sections() if s.name in ('.rel.debug_ranges', '.rela.debug_ranges')]
    # Sections of code, without those of the functions that are dropped: the same for a function's cold part.
    code = [i for i, s in enumerate(elf.iter_sections())
            if s['sh_flags'] & 4 and sum(s.name.rpartition('.')[2].encode()) % 2]
    for held in relocations:
        symbols = elf.get_section(held['sh_link'])
        for r in held.iter_relocations():
            symbol = symbols.get_symbol(r['r_info_sym'])
            at, index = r['r_offset'], symbol['st_shndx']
            start = 0x1000 * (1 + index) if index in code else 0
            there = r['r_addend'] if held['sh_type'] == 'SHT_RELA' else int.from_bytes(data[at:at + width], order)
            data[at:at + width] = (start + symbol['st_value'] + there).to_bytes(width, order)
    return bytes(data)


def parts(path, linked):
    dwo = os.path.splitext(path)[0] + '.dwo'
    with open(path, 'rb') as f:
        elf = ELFFile(f)
        order = 'little' if elf.little_endian else 'big'
        width = elf.elfclass // 8
        table = elf.get_section_by_name('.debug_addr')
        if os.path.exists(dwo):
            with open(dwo, 'rb') as g:
                data = sections(ELFFile(g), '.dwo')
        elif elf.get_section_by_name('.debug_info.dwo'):
            data = sections(elf, '.dwo')
        else:
            d = elf.get_dwarf_info(relocate_dwarf_sections=True)
            found = (d.debug_info_sec, d.debug_abbrev_sec, d.debug_loclists_sec, d.debug_rnglists_sec)
            data = [s.stream.getvalue() if s else b'' for s in found]
        older = version(data[0], order) == 4
        # The table of version 5 has a header.
        front = 0 if older or not table else 16 if is_wide(table.data()) else 8
        count = max(0, table.data_size - front) // width if table else 0
        last = [linked_ranges(linked) if linked else debug_ranges(elf, order)] if older else []
    return [first_unit(data[0], order)] + data[1:] + [b'\x01' * count] + last


def is_big(path):
    with open(path, 'rb') as f:
        return not ELFFile(f).little_endian


def main():
    if len(sys.argv) not in (3, 4):
        sys.exit(__doc__)
    held = parts(sys.argv[1], sys.argv[3] if sys.argv[3:] else None)
    if len(held) == 5 and held[0][14 if is_wide(held[0]) else 6:][:1] not in (b'\x01', b'\x05'):
        sys.exit('%s: no unit of type 1 or 5 comes first' % sys.argv[1])
    made = bundle(held)
    if len(made) > MOST:
        sys.exit('%s: a bundle of %d bytes, and %d are the most' % (sys.argv[1], len(made), MOST))
    with open(sys.argv[2], 'wb') as f:
        f.write(made)
    if is_big(sys.argv[1]):
        print('big-endian', file=sys.stderr)


if __name__ == '__main__':
    main()
