/* The unit collector, for hosts in C. Link libcollector.a, which `tests/archive` writes (x86-64 Linux).
 *
 * A call thins the first unit of a section: it drops the debugging entries that nothing live needs and writes the unit
 * anew. Every slice is a pointer and the number of its elements. A pointer is never null, also where the number is 0.
 * What is written may overlap nothing else that is lent.
 *
 * Read, and the same after the call
 *   section        the unit's section; its first unit is taken, of version 4 or 5 and of the 32-bit or the 64-bit
 *                  format, as its header says; not one of .debug_types, whose header version 4 does not tell
 *   abbreviations, locations, ranges    the sections of abbreviations, location lists and range lists, relocated.
 *                  ranges is .debug_rnglists; locations is .debug_loclists, or .debug_loc.dwo of a version 4 unit
 *   addresses      a byte an index: 0 dead, 1 live; none lent (length 0): every index is live
 *   debug_ranges   .debug_ranges, relocated: the pairs of addresses that a version 4 unit's ranges attributes name in
 *                  sec_offset. Read for such a unit alone, which reads nothing in ranges; empty (length 0, but a
 *                  pointer that is not null) where there is none, and for a version 5 unit
 *   tags, treatments    a keep list: tags in ascending order, two big-endian bytes each, and for each a byte, its
 *                  treatment: 1, every entry with that tag is a root; 2, none is. Entries with other tags are judged as
 *                  without the list (length 0 both). Each entry goes through its root test all the same, so what is
 *                  malformed is refused; and an entry that is no root is still kept where it is the unit's first, where
 *                  a kept one names it, as the parent of a kept one, or below a root or a named one. A byte short of a
 *                  whole tag counts for nothing
 *   ranges_base    added to a ranges attribute in sec_offset: the skeleton's DW_AT_GNU_ranges_base for version 4
 *   type_units     0 no, any other number yes: the index lists are then absent
 *   big_endian     0: the unit's fixed-width fields, those of its lists and expressions too, are little-endian; any
 *                  other number: big-endian. Never guessed: a unit told wrongly is refused with 1 or 2
 *   fixed_addresses    0: no, as in gc.rs; any other number: a variable is also a root if its exprloc location has a
 *                  DW_OP_addr whose address isn't a tombstone (0, or all ones, of the unit's address size); nested
 *                  entry values are not searched. Such a DW_OP_addr ends the root test as a live DW_OP_addrx does.
 *                  Treatment 2 of variables goes before it
 *
 * Written, whatever it held before; zeros wherever the answer is not, all zeros after a refusal
 *   map            24 bytes a place: old offset, new offset, depth, eight big-endian bytes each, ascending
 *   range_list, location_list, string_list    8 big-endian bytes a number, ascending without repeats
 *   out            the new unit, in the old one's format and byte order
 *   counts         COLLECTOR_COUNTS bytes: see below
 * Numbers of map, lists and counts are big-endian, and as wide as said here, for every unit of either format. Bytes
 * short of a whole place or number count for nothing and end as zeros. Enough for every unit: as many bytes of out as
 * the section has; 24 bytes of map for each byte of the section (at most two places an entry); 8 bytes of a list for
 * each index of its kind. A call writes every byte of what it is lent here, and of the host's tables: time goes by the
 * lengths that are lent too.
 *
 * The answer is a refusal's number, 1 to 14, 17, 19 or 20, or one of the numbers below. Of an accepted answer `counts`
 * holds seven numbers of eight big-endian bytes: entries, kept entries, map places, bytes of the new unit (these two 0
 * where untouched), numbers of the ranges, locations and strings list; then for each list a byte, 1 present, 0 absent
 * (an absent list counts 0); then zeros. Where `counts` is shorter than COLLECTOR_COUNTS the answer tells so, and
 * `counts` is zeros; all else is as it would be.
 *
 * Stack: collector_collect takes up to 300 KiB, most of it tables; collector_collect_lent some KiB; and both 208 bytes
 * more for each level of DW_OP_entry_value operations that stand one in the other. A level takes at least two bytes of
 * the unit or of a location list, so 104 bytes of stack for each byte of the longer of these two sections, and 320
 * KiB, are enough for every input. Nothing else is recursive, and no memory is taken from anywhere else. The archive
 * has no data that is written, so threads may call at the same time, each with slices of its own to be written.
 *
 * Refusals: 1 header cut short, or a length past the section, 2 a header value outside the domain (a length of
 * 0xfffffff0 to 0xfffffffe is one), 3 abbreviations, 4 unreadable entry, 5 unreadable list or expression, 6 the address
 * table has a byte above 1 at an index that is asked, 7 a section-absolute reference, 8 a reference whose target is not
 * kept, 9 a value that does not fit its width, 10 more entries than the tables hold, 11 more references, 12 an index
 * list too short, 13 the map too short, 14 the output too short, 17 the address table, which is not empty, ends before
 * an index that is asked (at 6's place: the first of the two that is met), 19 a treatment is neither 1 nor 2, or there
 * is not one for each tag, 20 a tag is not above the one before it. 19 and 20 come before all others, also where the
 * section is empty, and 19 before 20, whatever stands first in the list.
 */
#ifndef COLLECTOR_H
#define COLLECTOR_H

#include <stddef.h>
#include <stdint.h>

#ifdef __cplusplus
extern "C" {
#endif

#define COLLECTOR_COUNTS 59

#define COLLECTOR_UNTOUCHED 256           /* nothing is dead: the unit stays as it is; map and out are zeros */
#define COLLECTOR_REWRITTEN 257           /* out holds the new unit */
#define COLLECTOR_UNTOUCHED_UNCOUNTED 258 /* the same, where counts has no room */
#define COLLECTOR_REWRITTEN_UNCOUNTED 259

/* With tables of its own, for units of up to 2,048 entries and 8,192 references, and an index of 2,048 declarations.
 * Clearing tables takes time, so shorter ones are tried first where the lengths of section and abbreviations say that
 * they may do: of 64, 384 or 1,024 entries and twice as many references, for at most 448, 2,688 or 7,168 bytes of
 * section and 640, 2,560 or 5,120 of abbreviations. So lend the unit's own bytes, not all that stands behind them.
 * Where such a table is full the unit is read again with the next: only entries of less than seven bytes, or more than
 * two references an entry, lead to that. A table of more than 2,048 declarations is searched from its start for each
 * entry, so time goes by entries times declarations: for such units lend an index by the other call. */
uint64_t collector_collect(
    const uint8_t *section, size_t section_length,
    const uint8_t *abbreviations, size_t abbreviations_length,
    const uint8_t *locations, size_t locations_length,
    const uint8_t *ranges, size_t ranges_length,
    const uint8_t *addresses, size_t addresses_length,
    const uint8_t *debug_ranges, size_t debug_ranges_length,
    const uint8_t *tags, size_t tags_length,
    const uint8_t *treatments, size_t treatments_length,
    uint64_t ranges_base, uint64_t type_units, uint64_t big_endian, uint64_t fixed_addresses,
    uint8_t *map, size_t map_length,
    uint8_t *range_list, size_t range_list_length,
    uint8_t *location_list, size_t location_list_length,
    uint8_t *string_list, size_t string_list_length,
    uint8_t *out, size_t out_length,
    uint8_t *counts, size_t counts_length);

/* With tables of the host's. They are scratch, and zeros after the call. The shortest of offsets, parents, roots, ends
 * and marks is the number of entries that there is room for; the shorter of targets and half of pairs that of
 * references. index (one number a declaration: an abbreviations section of n bytes has fewer than n / 5 + 1 of them)
 * and work (twice the entries) bound nothing: their lengths change no answer, only time. Lengths count elements. */
uint64_t collector_collect_lent(
    const uint8_t *section, size_t section_length,
    const uint8_t *abbreviations, size_t abbreviations_length,
    const uint8_t *locations, size_t locations_length,
    const uint8_t *ranges, size_t ranges_length,
    const uint8_t *addresses, size_t addresses_length,
    const uint8_t *debug_ranges, size_t debug_ranges_length,
    const uint8_t *tags, size_t tags_length,
    const uint8_t *treatments, size_t treatments_length,
    uint64_t ranges_base, uint64_t type_units, uint64_t big_endian, uint64_t fixed_addresses,
    uint64_t *index, size_t index_length,
    uint64_t *offsets, size_t offsets_length,
    uint64_t *parents, size_t parents_length,
    uint8_t *roots, size_t roots_length,
    uint64_t *ends, size_t ends_length,
    uint8_t *marks, size_t marks_length,
    uint64_t *targets, size_t targets_length,
    uint64_t *pairs, size_t pairs_length,
    uint32_t *work, size_t work_length,
    uint8_t *map, size_t map_length,
    uint8_t *range_list, size_t range_list_length,
    uint8_t *location_list, size_t location_list_length,
    uint8_t *string_list, size_t string_list_length,
    uint8_t *out, size_t out_length,
    uint8_t *counts, size_t counts_length);

#ifdef __cplusplus
}
#endif

#endif
