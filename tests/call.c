/* call [collect] [--big-endian] [--fixed-addresses] [--keep-list=TAG=TREATMENT,..] FILE.. : runs each bundle of each
 * file through the C call and prints its answer as crates/test_collect does; an option holds for the files after it, up
 * to the next `collect`, a keep list up to the next one.
 * call --cases FILE.. : runs cases that say what they lend through the call with lent tables, and prints what they leave
 * as crates/test_collect does.
 * call --nested N [big-endian] : a unit whose one expression has N entry values, one in the other, with a reference to
 * the terminator in the innermost, and a dead entry: what stack it takes is seen with `ulimit -s`.
 * call --rules : checks of the calls themselves: counts without room, flags, lengths that are no whole places, an
 * address table of length 0, the two ways in which one can fail, the byte order, both formats, version 4, fixed
 * addresses, keep lists, units around the lengths of the call's own tables.
 * call --above : units whose old offsets are above 4 GiB, then other sections that are read above 4 GiB; they take no
 * memory, but time under valgrind.
 * call --above FILE [big-endian] : one whose new offsets are too; its output, of so many bytes, is the file.
 * Every slice, but for the sections of the checks of a length of 0, is a block of memory of its own, exactly as long as
 * it is lent and full of 0xa5 before the call, so that valgrind sees a byte read or written outside; sections are
 * compared with a copy after the call, and every byte past the answer must be 0. */
#define _GNU_SOURCE
#include <fcntl.h>
#include <stdio.h>
#include <stdlib.h>
#include <string.h>
#include <sys/mman.h>
#include <time.h>
#include <unistd.h>

#include "collector.h"

/* tags and treatments of a keep list stand behind the sections */
enum { READ = 6, TAGS = READ, TREATMENTS, SECTIONS, LENT = 6, PLACE = 24 };
enum { MAP, RANGES, LOCATIONS, STRINGS, OUT, COUNTS };

struct bytes {
    uint8_t *at;
    size_t length;
};

static void fail(const char *what)
{
    fprintf(stderr, "call: %s\n", what);
    exit(1);
}

static struct bytes block(size_t length)
{
    struct bytes b = {malloc(length + (length == 0)), length};
    if (b.at == NULL)
        fail("no memory");
    memset(b.at, 0xa5, length);
    return b;
}

static struct bytes copy(struct bytes from)
{
    struct bytes b = block(from.length);
    memcpy(b.at, from.at, from.length);
    return b;
}

static uint64_t big(const uint8_t *at, int width)
{
    uint64_t n = 0;
    for (int i = 0; i < width; i++)
        n = n << 8 | at[i];
    return n;
}

static uint64_t count(const struct bytes *lent, int which)
{
    return big(lent[COUNTS].at + 8 * which, 8);
}

/* The bytes from a place on are 0. */
static void zeros(struct bytes b, uint64_t from, const char *what)
{
    if (from > b.length)
        fail(what);
    for (size_t i = from; i < b.length; i++)
        if (b.at[i] != 0)
            fail(what);
}

/* What is read, in blocks of its own; and that a call left it as it was. */
static void own(const struct bytes *sections, struct bytes *s)
{
    for (int i = 0; i < SECTIONS; i++)
        s[i] = copy(sections[i]);
}

static void unchanged(const struct bytes *sections, struct bytes *s)
{
    for (int i = 0; i < SECTIONS; i++) {
        if (memcmp(s[i].at, sections[i].at, s[i].length) != 0)
            fail("a section changed");
        free(s[i].at);
    }
}

/* The call on sections as they stand. */
static uint64_t call_on(
    const struct bytes *s, uint64_t ranges_base, uint64_t type_units, uint64_t big_endian, uint64_t fixed_addresses,
    struct bytes *lent)
{
    return collector_collect(
        s[0].at, s[0].length, s[1].at, s[1].length, s[2].at, s[2].length, s[3].at, s[3].length, s[4].at, s[4].length,
        s[5].at, s[5].length, s[TAGS].at, s[TAGS].length, s[TREATMENTS].at, s[TREATMENTS].length,
        ranges_base, type_units, big_endian, fixed_addresses,
        lent[MAP].at, lent[MAP].length, lent[RANGES].at, lent[RANGES].length, lent[LOCATIONS].at, lent[LOCATIONS].length,
        lent[STRINGS].at, lent[STRINGS].length, lent[OUT].at, lent[OUT].length, lent[COUNTS].at, lent[COUNTS].length);
}

static uint64_t call(
    const struct bytes *sections, uint64_t ranges_base, uint64_t type_units, uint64_t big_endian,
    uint64_t fixed_addresses, struct bytes *lent)
{
    struct bytes s[SECTIONS];
    own(sections, s);
    uint64_t answer = call_on(s, ranges_base, type_units, big_endian, fixed_addresses, lent);
    unchanged(sections, s);
    return answer;
}

/* What is past the answer is zeros; a refusal leaves zeros alone. */
static void check_zeros(uint64_t answer, const struct bytes *lent)
{
    if (answer < COLLECTOR_UNTOUCHED) {
        if ((answer < 1 || answer > 14) && answer != 17 && answer != 19 && answer != 20)
            fail("a number that is none");
        for (int i = 0; i < LENT; i++)
            zeros(lent[i], 0, "bytes after a refusal");
        return;
    }
    if (lent[COUNTS].length < COLLECTOR_COUNTS) {
        if (answer != COLLECTOR_UNTOUCHED_UNCOUNTED && answer != COLLECTOR_REWRITTEN_UNCOUNTED)
            fail("counts without room are not told");
        zeros(lent[COUNTS], 0, "counts without room");
        return;
    }
    if (answer != COLLECTOR_UNTOUCHED && answer != COLLECTOR_REWRITTEN)
        fail("an answer that is none");
    zeros(lent[MAP], PLACE * count(lent, 2), "bytes past the map");
    zeros(lent[OUT], count(lent, 3), "bytes past the output");
    for (int i = 0; i < 3; i++) {
        zeros(lent[RANGES + i], 8 * count(lent, 4 + i), "bytes past a list");
        uint8_t present = lent[COUNTS].at[56 + i];
        if (present > 1 || (present == 0 && count(lent, 4 + i) != 0))
            fail("an absent list that counts");
    }
    zeros(lent[COUNTS], COLLECTOR_COUNTS, "bytes past the counts");
}

static void print_list(const char *name, const struct bytes *lent, int which)
{
    printf(" %s ", name);
    if (lent[COUNTS].at[56 + which] == 0) {
        printf("absent");
        return;
    }
    printf("[");
    for (uint64_t i = 0; i < count(lent, 4 + which); i++)
        printf("%s%llu", i == 0 ? "" : ",", (unsigned long long)big(lent[RANGES + which].at + 8 * i, 8));
    printf("]");
}

static void print_answer(uint64_t answer, const struct bytes *lent)
{
    if (answer < COLLECTOR_UNTOUCHED) {
        printf("refused %llu\n", (unsigned long long)answer);
        return;
    }
    printf("%s entries %llu kept %llu map ", answer == COLLECTOR_REWRITTEN ? "rewritten" : "untouched",
           (unsigned long long)count(lent, 0), (unsigned long long)count(lent, 1));
    if (count(lent, 2) == 0)
        printf("-");
    for (uint64_t i = 0; i < count(lent, 2); i++) {
        const uint8_t *at = lent[MAP].at + PLACE * i;
        printf("%s%llu>%llu@%llu", i == 0 ? "" : ",", (unsigned long long)big(at, 8),
               (unsigned long long)big(at + 8, 8), (unsigned long long)big(at + 16, 8));
    }
    print_list("ranges", lent, 0);
    print_list("locations", lent, 1);
    print_list("strings", lent, 2);
    printf(" bytes ");
    if (count(lent, 3) == 0)
        printf("-");
    for (uint64_t i = 0; i < count(lent, 3); i++)
        printf("%02x", lent[OUT].at[i]);
    printf("\n");
}

static void lend(struct bytes *lent, size_t map, size_t list, size_t out, size_t counts)
{
    lent[MAP] = block(map);
    for (int i = 0; i < 3; i++)
        lent[RANGES + i] = block(list);
    lent[OUT] = block(out);
    lent[COUNTS] = block(counts);
}

static void give_back(struct bytes *lent)
{
    for (int i = 0; i < LENT; i++)
        free(lent[i].at);
}

/* The sections of a bundle: each after a four-byte length, behind the whole's length and the version byte. Version 1 has
 * one less: .debug_ranges is empty. */
static void sections_of(struct bytes bundle, struct bytes *sections)
{
    size_t at = 5;
    sections[READ - 1] = sections[TAGS] = sections[TREATMENTS] = (struct bytes){bundle.at, 0};
    for (int i = 0; i < (bundle.at[4] == 1 ? READ - 1 : READ); i++) {
        if (bundle.length - at < 4)
            fail("a bundle that is cut");
        size_t n = big(bundle.at + at, 4);
        at += 4;
        if (bundle.length - at < n)
            fail("a bundle that is cut");
        sections[i] = (struct bytes){bundle.at + at, n};
        at += n;
    }
}

/* What is told of the units of files: keep holds tags, then treatments. */
struct told {
    uint64_t big_endian, fixed_addresses;
    struct bytes keep[2];
};

static void run_bundle(struct bytes bundle, const struct told *told)
{
    struct bytes sections[SECTIONS], lent[LENT];
    sections_of(bundle, sections);
    memcpy(sections + TAGS, told->keep, sizeof told->keep);
    lend(lent, PLACE * 4096, 8 * 8192, 65536, COLLECTOR_COUNTS + 5);
    uint64_t answer = call(sections, 0, 0, told->big_endian, told->fixed_addresses, lent);
    check_zeros(answer, lent);
    print_answer(answer, lent);
    give_back(lent);
}

static struct bytes read_file(const char *path)
{
    FILE *f = fopen(path, "rb");
    if (f == NULL)
        fail("no such file");
    if (fseek(f, 0, SEEK_END) != 0)
        fail("a file that can't be read");
    long length = ftell(f);
    rewind(f);
    if (length < 0)
        fail("a file that can't be read");
    struct bytes b = block((size_t)length);
    if (fread(b.at, 1, b.length, f) != b.length)
        fail("a file that can't be read");
    fclose(f);
    return b;
}

static void run_file(const char *path, const struct told *told)
{
    const char *name = strrchr(path, '/');
    printf("== %s\n", name == NULL ? path : name + 1);
    struct bytes b = read_file(path);
    size_t at = 0;
    while (b.length - at >= 4) {
        size_t n = 4 + big(b.at + at, 4);
        if (n > b.length - at)
            fail("a bundle that is cut");
        printf("-- %zu\n", at);
        run_bundle((struct bytes){b.at + at, n}, told);
        at += n;
    }
    free(b.at);
}

/* The keep list of a word, TAG=TREATMENT with commas between them. */
static void keep_list(const char *word, struct bytes *keep)
{
    char *end;
    free(keep[0].at);
    free(keep[1].at);
    keep[0] = block(strlen(word) + 1);
    keep[1] = block(strlen(word) + 1);
    keep[0].length = keep[1].length = 0;
    for (; *word != 0; word = *end == ',' ? end + 1 : end) {
        unsigned long tag = strtoul(word, &end, 0);
        if (*end != '=')
            fail("a keep list");
        keep[0].at[keep[0].length++] = (uint8_t)(tag >> 8);
        keep[0].at[keep[0].length++] = (uint8_t)tag;
        keep[1].at[keep[1].length++] = (uint8_t)strtoul(end + 1, &end, 0);
    }
}

/* ---- cases that say what they lend: nineteen numbers of eight big-endian bytes, then tags and treatments of a keep
 * list, as many bytes as the last two say, then a bundle */

enum { INDEX, OFFSETS, PARENTS, ROOTS, ENDS, MARKS, TARGETS, PAIRS, TABLES, SETTINGS = 19, WORK = 4096 };

static size_t setting(const uint8_t *settings, int which, size_t most)
{
    uint64_t n = big(settings + 8 * which, 8);
    return n < most ? (size_t)n : most;
}

static void print_count(const char *name, const struct bytes *lent, int which)
{
    if (lent[COUNTS].at[56 + which] == 0)
        printf(" %s absent", name);
    else
        printf(" %s %llu", name, (unsigned long long)count(lent, 4 + which));
}

static void print_hex(const char *name, struct bytes b)
{
    printf("%s ", name);
    if (b.length == 0)
        printf("-");
    for (size_t i = 0; i < b.length; i++)
        printf("%02x", b.at[i]);
    printf("\n");
}

static void print_left(uint64_t answer, const struct bytes *lent)
{
    if (answer < COLLECTOR_UNTOUCHED) {
        printf("refused %llu\n", (unsigned long long)answer);
    } else {
        printf("%s entries %llu kept %llu places %llu bytes %llu", answer == COLLECTOR_REWRITTEN ? "rewritten" : "untouched", (unsigned long long)count(lent, 0),
               (unsigned long long)count(lent, 1), (unsigned long long)count(lent, 2), (unsigned long long)count(lent, 3));
        print_count("ranges", lent, 0);
        print_count("locations", lent, 1);
        print_count("strings", lent, 2);
        printf("\n");
    }
    static const char *const names[] = {"map", "ranges", "locations", "strings", "output"};
    for (int i = 0; i < COUNTS; i++)
        print_hex(names[i], lent[i]);
    printf("clean\n");
}

/* The call with lent tables, of so many elements each; they are zeros after it. */
static uint64_t call_lent(
    const struct bytes *s, uint64_t ranges_base, uint64_t type_units, uint64_t big_endian, uint64_t fixed_addresses,
    const size_t *elements, struct bytes *lent)
{
    static const size_t width[TABLES] = {8, 8, 8, 1, 8, 1, 8, 8};
    struct bytes table[TABLES + 1];
    for (int i = 0; i < TABLES; i++)
        table[i] = block(width[i] * elements[i]);
    table[TABLES] = block(4 * WORK);
    uint64_t answer = collector_collect_lent(
        s[0].at, s[0].length, s[1].at, s[1].length, s[2].at, s[2].length, s[3].at, s[3].length, s[4].at, s[4].length,
        s[5].at, s[5].length, s[TAGS].at, s[TAGS].length, s[TREATMENTS].at, s[TREATMENTS].length,
        ranges_base, type_units, big_endian, fixed_addresses,
        (uint64_t *)table[INDEX].at, table[INDEX].length / 8, (uint64_t *)table[OFFSETS].at, table[OFFSETS].length / 8,
        (uint64_t *)table[PARENTS].at, table[PARENTS].length / 8, table[ROOTS].at, table[ROOTS].length,
        (uint64_t *)table[ENDS].at, table[ENDS].length / 8, table[MARKS].at, table[MARKS].length,
        (uint64_t *)table[TARGETS].at, table[TARGETS].length / 8, (uint64_t *)table[PAIRS].at, table[PAIRS].length / 8,
        (uint32_t *)table[TABLES].at, WORK,
        lent[MAP].at, lent[MAP].length, lent[RANGES].at, lent[RANGES].length, lent[LOCATIONS].at, lent[LOCATIONS].length,
        lent[STRINGS].at, lent[STRINGS].length, lent[OUT].at, lent[OUT].length, lent[COUNTS].at, lent[COUNTS].length);
    check_zeros(answer, lent);
    for (int i = 0; i <= TABLES; i++) {
        zeros(table[i], 0, "a table that is not zeros");
        free(table[i].at);
    }
    return answer;
}

static void run_case(const uint8_t *settings, const struct bytes *keep, struct bytes bundle)
{
    static const size_t most[TABLES] = {1024, 2048, 2048, 2048, 2048, 2048, 8192, 16384};
    static const size_t most_bytes[] = {98304, 65536, 65536, 65536, 65536};
    struct bytes sections[SECTIONS], s[SECTIONS], lent[LENT];
    size_t elements[TABLES];
    sections_of(bundle, sections);
    memcpy(sections + TAGS, keep, 2 * sizeof *keep);
    own(sections, s);
    for (int i = 0; i < TABLES; i++)
        elements[i] = setting(settings, i, most[i]);
    for (int i = 0; i < COUNTS; i++)
        lent[i] = block(setting(settings, TABLES + i, most_bytes[i]));
    lent[COUNTS] = block(COLLECTOR_COUNTS);
    uint64_t answer = call_lent(
        s, big(settings + 8 * 13, 8), big(settings + 8 * 14, 8), big(settings + 8 * 15, 8), big(settings + 8 * 16, 8),
        elements, lent);
    unchanged(sections, s);
    print_left(answer, lent);
    give_back(lent);
}

static void run_cases(const char *path)
{
    const char *name = strrchr(path, '/');
    printf("== %s\n", name == NULL ? path : name + 1);
    struct bytes b = read_file(path);
    int number = 0;
    for (size_t at = 0; b.length - at >= 8 * SETTINGS + 4;) {
        const uint8_t *settings = b.at + at;
        struct bytes keep[2];
        at += 8 * SETTINGS;
        for (int i = 0; i < 2; i++) {
            keep[i] = (struct bytes){b.at + at, setting(settings, SETTINGS - 2 + i, b.length - at)};
            at += keep[i].length;
        }
        size_t n = b.length - at < 4 ? b.length : 4 + big(b.at + at, 4);
        if (n > b.length - at)
            fail("a bundle that is cut");
        printf("-- %d\n", ++number);
        run_case(settings, keep, (struct bytes){b.at + at, n});
        at += n;
    }
    free(b.at);
}

/* ---- the call itself, on the five-entry unit of document 01 */

static uint8_t abbreviations[] = {0x01, 0x11, 0x01, 0x00, 0x00, 0x02, 0x2e, 0x00, 0x11, 0x1b, 0x49, 0x11, 0x00, 0x00, 0x03, 0x24, 0x00, 0x00, 0x00, 0x00};
static uint8_t unit[] = {0x12, 0, 0, 0, 5, 0, 1, 8, 0, 0, 0, 0, 0x01, 0x02, 0x00, 0x11, 0x03, 0x03, 0x02, 0x01, 0x10, 0x00};
static uint8_t one_dead[] = {1, 0}, none_dead[] = {1, 1}, all_dead[] = {0, 0}, wrong[] = {2, 0};
static uint8_t nothing[1];

#define NO_LIST {nothing, 0}, {nothing, 0}

/* its sections, with an address table */
#define FIVE(table, length) \
    {{unit, sizeof unit}, {abbreviations, sizeof abbreviations}, {nothing, 0}, {nothing, 0}, {table, length}, \
     {nothing, 0}, NO_LIST}

static uint64_t five_by(uint8_t *table, size_t length, uint64_t type_units, struct bytes *lent)
{
    struct bytes sections[SECTIONS] = FIVE(table, length);
    uint64_t answer = call(sections, 0, type_units, 0, 0, lent);
    check_zeros(answer, lent);
    return answer;
}

static uint64_t five(uint8_t *table, uint64_t type_units, struct bytes *lent)
{
    return five_by(table, 2, type_units, lent);
}

/* Enough for its tables. */
static const size_t room[TABLES] = {3, 5, 5, 5, 5, 5, 2, 4};

static void expect(uint64_t is, uint64_t should, const char *what)
{
    if (is != should) {
        fprintf(stderr, "call: %s: %llu, not %llu\n", what, (unsigned long long)is, (unsigned long long)should);
        exit(1);
    }
}

/* An address table fails in two ways, through both calls: 6 a byte above 1, 17 an index past its end; one of length 0
 * never does. Indexes 0 and 1 are asked, in this order. */
static void check_failures(void)
{
    static struct {
        uint8_t bytes[2];
        size_t length;
        uint64_t answer;
    } tables[] = {
        {{0, 0}, 1, 17}, {{1, 0}, 1, 17}, {{2, 0}, 1, 6}, {{255, 0}, 1, 6}, {{2, 0}, 2, 6}, {{255, 255}, 2, 6},
        {{0, 2}, 2, 6}, {{1, 255}, 2, 6}, {{2, 2}, 0, COLLECTOR_UNTOUCHED}, {{0, 1}, 2, COLLECTOR_REWRITTEN},
    };
    struct bytes lent[LENT];
    for (size_t i = 0; i < sizeof tables / sizeof *tables; i++) {
        lend(lent, 5 * PLACE, 80, 20, COLLECTOR_COUNTS);
        expect(five_by(tables[i].bytes, tables[i].length, 0, lent), tables[i].answer, "an address table");
        give_back(lent);
        struct bytes own = copy((struct bytes){tables[i].bytes, tables[i].length});
        struct bytes sections[SECTIONS] = FIVE(own.at, own.length);
        lend(lent, 5 * PLACE, 80, 20, COLLECTOR_COUNTS);
        expect(call_lent(sections, 0, 0, 0, 0, room, lent), tables[i].answer, "an address table, with lent tables");
        give_back(lent);
        free(own.at);
    }
}

/* What it becomes with the addresses 1 0: the map, which is big-endian for either order, and the unit. */
static const uint8_t map[4 * PLACE] = {
    [7] = 12, [15] = 12, [23] = 0,
    [31] = 13, [39] = 13, [47] = 1,
    [55] = 17, [63] = 16, [71] = 1,
    [79] = 21, [87] = 17, [95] = 1,
};
static const uint8_t thin[] = {0x0e, 0, 0, 0, 5, 0, 1, 8, 0, 0, 0, 0, 0x01, 0x02, 0x00, 0x10, 0x03, 0x00};
static const uint8_t thin_big[] = {0, 0, 0, 0x0e, 0, 5, 1, 8, 0, 0, 0, 0, 0x01, 0x02, 0x00, 0x10, 0x03, 0x00};

/* A number in so many bytes, in a byte order. */
static void put(uint8_t *at, uint64_t n, int width, int is_big)
{
    for (int i = 0; i < width; i++)
        at[is_big ? width - 1 - i : i] = (uint8_t)(n >> (8 * i));
}

/* A header of the 64-bit format with this length, 24 bytes. */
static void wide_header(uint8_t *at, uint64_t length, int is_big)
{
    memset(at, 0, 24);
    put(at, 0xffffffff, 4, is_big);
    put(at + 4, length, 8, is_big);
    put(at + 12, 5, 2, is_big);
    at[14] = 1;
    at[15] = 8;
}

/* Either call. */
static uint64_t either_by(
    int lent_tables, struct bytes *sections, uint64_t ranges_base, uint64_t big_endian, uint64_t fixed_addresses,
    struct bytes *lent)
{
    struct bytes s[SECTIONS];
    own(sections, s);
    uint64_t answer = lent_tables ? call_lent(s, ranges_base, 0, big_endian, fixed_addresses, room, lent)
                                  : call_on(s, ranges_base, 0, big_endian, fixed_addresses, lent);
    unchanged(sections, s);
    check_zeros(answer, lent);
    return answer;
}

static uint64_t either(int lent_tables, struct bytes *sections, uint64_t big_endian, struct bytes *lent)
{
    return either_by(lent_tables, sections, 0, big_endian, 0, lent);
}

/* The byte order, through both calls: any number but 0 is big-endian; told wrongly, a unit is refused, with 1 where its
 * length then reaches past the section, with 2 by its version else. */
static void check_order(void)
{
    static uint8_t unit_big[] = {0, 0, 0, 0x12, 0, 5, 1, 8, 0, 0, 0, 0, 0x01, 0x02, 0x00, 0x11, 0x03, 0x03, 0x02, 0x01, 0x10, 0x00};
    static const uint64_t orders[] = {0, 1, 2, 256, (uint64_t)1 << 32, (uint64_t)1 << 63, UINT64_MAX};
    static const uint64_t counts[] = {5, 3, 4, 18, 0, 0, 0};
    struct bytes lent[LENT];
    for (size_t i = 0; i < sizeof orders / sizeof *orders; i++)
        for (int lent_tables = 0; lent_tables < 2; lent_tables++) {
            struct bytes sections[SECTIONS] = FIVE(one_dead, 2);
            if (orders[i] != 0)
                sections[0] = (struct bytes){unit_big, sizeof unit_big};
            lend(lent, 4 * PLACE, 0, 18, COLLECTOR_COUNTS);
            expect(either(lent_tables, sections, orders[i], lent), COLLECTOR_REWRITTEN, "a byte order");
            expect((uint64_t)memcmp(lent[MAP].at, map, sizeof map), 0, "map of a byte order");
            expect((uint64_t)memcmp(lent[OUT].at, orders[i] == 0 ? thin : thin_big, 18), 0, "output of a byte order");
            for (int j = 0; j < 7; j++)
                expect(count(lent, j), counts[j], "count of a byte order");
            give_back(lent);
            sections[0] = orders[i] == 0 ? (struct bytes){unit_big, sizeof unit_big} : (struct bytes){unit, sizeof unit};
            lend(lent, 5 * PLACE, 16, 22, COLLECTOR_COUNTS);
            expect(either(lent_tables, sections, orders[i], lent), 1, "a unit told wrongly");
            give_back(lent);
        }

    /* the same in the 64-bit format */
    for (int is_big = 0; is_big < 2; is_big++)
        for (int lent_tables = 0; lent_tables < 2; lent_tables++) {
            uint8_t wide[34], thinned[30];
            wide_header(wide, 22, is_big);
            memcpy(wide + 24, (const uint8_t[]){0x01, 0x02, 0x00, 29, 0x03, 0x03, 0x02, 0x01, 28, 0x00}, 10);
            wide_header(thinned, 18, is_big);
            memcpy(thinned + 24, (const uint8_t[]){0x01, 0x02, 0x00, 28, 0x03, 0x00}, 6);
            struct bytes sections[SECTIONS] = FIVE(one_dead, 2);
            sections[0] = (struct bytes){wide, sizeof wide};
            lend(lent, 4 * PLACE, 0, sizeof thinned, COLLECTOR_COUNTS);
            expect(either(lent_tables, sections, (uint64_t)is_big, lent), COLLECTOR_REWRITTEN, "the 64-bit format");
            expect((uint64_t)memcmp(lent[OUT].at, thinned, sizeof thinned), 0, "output of the 64-bit format");
            for (int i = 0; i < 4; i++) {
                static const uint64_t places[4][3] = {{24, 24, 0}, {25, 25, 1}, {29, 28, 1}, {33, 29, 1}};
                for (int j = 0; j < 3; j++)
                    expect(big(lent[MAP].at + PLACE * i + 8 * j, 8), places[i][j], "map of the 64-bit format");
            }
            give_back(lent);
            lend(lent, 4 * PLACE, 0, sizeof thinned, COLLECTOR_COUNTS);
            expect(either(lent_tables, sections, (uint64_t)!is_big, lent), 1, "the 64-bit format told wrongly");
            give_back(lent);
        }

    /* a length that both orders read within the section: 256 in the unit's, 65,536 in the other */
    struct bytes section = block(65540), sections[SECTIONS] = FIVE(one_dead, 2);
    sections[0] = section;
    for (int is_big = 0; is_big < 2; is_big++) {
        static const uint8_t heads[2][12] = {{0, 1, 0, 0, 5, 0, 1, 8, 0, 0, 0, 0}, {0, 0, 1, 0, 0, 5, 1, 8, 0, 0, 0, 0}};
        memset(section.at, 0, section.length);
        memcpy(section.at, heads[is_big], 12);
        section.at[12] = 0x03;
        for (int told = 0; told < 2; told++)
            for (int lent_tables = 0; lent_tables < 2; lent_tables++) {
                lend(lent, 5 * PLACE, 16, 22, COLLECTOR_COUNTS);
                uint64_t answer = either(lent_tables, sections, (uint64_t)told, lent);
                expect(answer, told == is_big ? COLLECTOR_UNTOUCHED : 2, "a unit whose length both orders read");
                give_back(lent);
            }
    }
    free(section.at);
}

/* A sibling of two bytes: 65,535 fits, 65,536 is 9, in either order. Its number lies inside its owner, so the place
 * behind the owner, the terminator, is found; a dead entry before it goes. */
static void check_wide(void)
{
    static uint8_t declarations[] = {1, 0x11, 1, 0x49, 0x11, 0, 0, 2, 0x24, 0, 0x01, 0x12, 0x03, 0x04, 0, 0, 3, 0x24, 0, 0, 0, 0};
    struct bytes lent[LENT];
    for (int is_big = 0; is_big < 2; is_big++)
        for (uint64_t place = 65535; place <= 65536; place++) {
            /* 12 the first entry, which names the owner at 14; its sibling at 15, a block of four bytes' length at 17 */
            struct bytes section = block(place + 2);
            memset(section.at, 0, section.length);
            put(section.at, place - 2, 4, is_big);
            put(section.at + 4, 5, 2, is_big);
            section.at[6] = 1;
            section.at[7] = 8;
            section.at[12] = 1;
            section.at[13] = 14;
            section.at[14] = 2;
            put(section.at + 15, 20, 2, is_big);
            put(section.at + 17, place - 21, 4, is_big);
            section.at[place] = 3;
            struct bytes sections[SECTIONS] = {section, {declarations, sizeof declarations}, {nothing, 0}, {nothing, 0},
                                               {nothing, 0}, {nothing, 0}, NO_LIST};
            lend(lent, 5 * PLACE, 0, place + 1, COLLECTOR_COUNTS);
            uint64_t answer = either(0, sections, (uint64_t)is_big, lent);
            expect(answer, place == 65535 ? COLLECTOR_REWRITTEN : 9, "a sibling of two bytes");
            if (answer == COLLECTOR_REWRITTEN) {
                uint8_t length[4], sibling[2];
                put(length, place - 3, 4, is_big);
                put(sibling, place, 2, is_big);
                expect((uint64_t)memcmp(lent[OUT].at, length, 4), 0, "the new length");
                expect((uint64_t)memcmp(lent[OUT].at + 15, sibling, 2), 0, "the new sibling");
                expect((uint64_t)memcmp(lent[OUT].at + 17, section.at + 17, place - 17), 0, "what is copied");
            }
            give_back(lent);
            free(section.at);
        }
}

/* ---- version 4 */

/* The header of a version 4 unit with so many bytes behind it; answers where these start, at 11 or 23. */
static size_t header_4(uint8_t *at, size_t behind, int is_wide, int is_big)
{
    size_t start = is_wide ? 12 : 4, first = is_wide ? 23 : 11;
    memset(at, 0, first);
    if (is_wide)
        put(at, 0xffffffff, 4, is_big);
    put(at + start - (is_wide ? 8 : 4), first + behind - start, is_wide ? 8 : 4, is_big);
    put(at + start, 4, 2, is_big);
    at[first - 1] = 8;
    return first;
}

/* The five-entry unit. */
static void five_of_4(int lent_tables, int is_wide, int is_big)
{
    uint8_t old[33], thinned[29];
    struct bytes lent[LENT], sections[SECTIONS] = FIVE(one_dead, 2);
    uint8_t first = (uint8_t)header_4(old, 10, is_wide, is_big);
    memcpy(old + first, (const uint8_t[]){1, 2, 0, first + 5, 3, 3, 2, 1, first + 4, 0}, 10);
    header_4(thinned, 6, is_wide, is_big);
    memcpy(thinned + first, (const uint8_t[]){1, 2, 0, first + 4, 3, 0}, 6);
    const uint64_t places[4][3] = {
        {first, first, 0}, {first + 1, first + 1, 1}, {first + 5, first + 4, 1}, {first + 9, first + 5, 1}};
    sections[0] = (struct bytes){old, first + 10u};
    lend(lent, 4 * PLACE, 0, first + 6u, COLLECTOR_COUNTS);
    expect(either(lent_tables, sections, (uint64_t)is_big, lent), COLLECTOR_REWRITTEN, "version 4");
    expect((uint64_t)memcmp(lent[OUT].at, thinned, first + 6u), 0, "output of version 4");
    for (int i = 0; i < 12; i++)
        expect(big(lent[MAP].at + 8 * i, 8), places[i / 3][i % 3], "map of version 4");
    expect(either(lent_tables, sections, (uint64_t)!is_big, lent), 1, "version 4 told wrongly");
    give_back(lent);
}

/* Ranges of a version 4 unit's second entry, by .debug_ranges: numbers of eight bytes, of which some may lack; 0xff in
 * .debug_rnglists is not read. */
static const struct {
    uint64_t numbers[4];
    size_t length;
    uint64_t offset, base, answer;
} by_pairs[] = {
    {{5, 9, 0, 0}, 32, 0, 0, COLLECTOR_UNTOUCHED},
    {{0, 9, 0, 0}, 32, 0, 0, COLLECTOR_REWRITTEN},
    {{UINT64_MAX, 1, 5, 9}, 32, 0, 0, COLLECTOR_UNTOUCHED},
    {{UINT64_MAX, 0, 5, 9}, 32, 0, 0, COLLECTOR_REWRITTEN},
    {{0, 9, 5, 9}, 31, 0, 0, 5},
    {{0, 9, 5, 9}, 16, 0, 0, COLLECTOR_REWRITTEN},
    {{5, 9, 0, 9}, 32, 16, 0, COLLECTOR_REWRITTEN},
    {{5, 9, 0, 9}, 32, 0, 16, COLLECTOR_REWRITTEN},
    {{0, 0, 5, 9}, 32, 0, 16, COLLECTOR_UNTOUCHED},
    {{0, 0, 5, 9}, 32, 8, 8, COLLECTOR_UNTOUCHED},
    {{0, 0, 5, 9}, 32, 16, 16, COLLECTOR_REWRITTEN},
    {{0, 0, 0, 0}, 32, 16, 17, COLLECTOR_UNTOUCHED},
    {{0, 0, 0, 0}, 32, 1, UINT64_MAX, COLLECTOR_UNTOUCHED},
    {{0, 0, 0, 0}, 0, 0, 0, COLLECTOR_REWRITTEN},
    {{0, 0, 0, 0}, 0, 1, 0, COLLECTOR_UNTOUCHED},
    {{0, 0, 0, 0}, 0, 0, 1, COLLECTOR_UNTOUCHED},
};

static void ranges_of_4(int lent_tables, int is_wide, int is_big)
{
    static uint8_t declarations[] = {1, 0x11, 1, 0, 0, 2, 0x2e, 0, 0x55, 0x17, 0, 0, 0};
    static uint8_t others[] = {0xff, 0xff, 0xff};
    size_t width = is_wide ? 8 : 4;
    for (size_t i = 0; i < sizeof by_pairs / sizeof *by_pairs; i++) {
        uint8_t old[34], thinned[25], pairs[32];
        size_t first = header_4(old, 3 + width, is_wide, is_big);
        memcpy(old + first, (const uint8_t[]){1, 2}, 2);
        put(old + first + 2, by_pairs[i].offset, (int)width, is_big);
        old[first + 2 + width] = 0;
        header_4(thinned, 2, is_wide, is_big);
        memcpy(thinned + first, (const uint8_t[]){1, 0}, 2);
        for (int j = 0; j < 4; j++)
            put(pairs + 8 * j, by_pairs[i].numbers[j], 8, is_big);
        struct bytes lent[LENT], older = copy((struct bytes){pairs, by_pairs[i].length});
        struct bytes sections[SECTIONS] = {{old, first + 3 + width}, {declarations, sizeof declarations}, {nothing, 0},
                                           {others, sizeof others}, {all_dead, 2}, older, NO_LIST};
        lend(lent, 2 * PLACE, 0, first + 2, COLLECTOR_COUNTS);
        uint64_t answer = either_by(lent_tables, sections, by_pairs[i].base, (uint64_t)is_big, 0, lent);
        expect(answer, by_pairs[i].answer, "ranges of version 4");
        if (answer == COLLECTOR_REWRITTEN)
            expect((uint64_t)memcmp(lent[OUT].at, thinned, first + 2), 0, "output by ranges of version 4");
        if (answer >= COLLECTOR_UNTOUCHED)
            expect(lent[COUNTS].at[56], 0, "ranges by an offset");
        give_back(lent);
        free(older.at);
    }
}

/* A location list: start_length, with four bytes of length and two of the expression's. It names the second entry. */
static void locations_of_4(int lent_tables, int is_wide, int is_big)
{
    static uint8_t declarations[] = {1, 0x24, 0, 0x02, 0x17, 0, 0, 2, 0x24, 0, 0, 0, 0};
    uint8_t old[34] = {0}, list[12] = {3};
    size_t width = is_wide ? 8 : 4, first = header_4(old, 3 + width, is_wide, is_big), second = first + 1 + width;
    old[first] = 1;
    old[second] = old[second + 1] = 2;
    put(list + 2, 1, 4, is_big);
    put(list + 6, 3, 2, is_big);
    list[8] = 0x98;
    put(list + 9, second, 2, is_big);
    struct bytes lent[LENT], sections[SECTIONS] = {{old, second + 2}, {declarations, sizeof declarations},
                                                   {list, sizeof list}, {nothing, 0}, {nothing, 0}, {nothing, 0},
                                                   NO_LIST};
    lend(lent, 2 * PLACE, 0, second + 1, COLLECTOR_COUNTS);
    expect(either(lent_tables, sections, (uint64_t)is_big, lent), COLLECTOR_REWRITTEN, "locations of version 4");
    expect(count(lent, 1), 2, "kept by locations of version 4");
    expect(big(lent[MAP].at + PLACE, 8), second, "map by locations of version 4");
    expect(lent[COUNTS].at[57], 0, "locations by an offset");
    give_back(lent);
}

static void check_version_4(void)
{
    for (int i = 0; i < 8; i++) {
        five_of_4(i % 2, i / 2 % 2, i / 4);
        ranges_of_4(i % 2, i / 2 % 2, i / 4);
        locations_of_4(i % 2, i / 2 % 2, i / 4);
    }

    /* a version 5 unit reads no .debug_ranges, whatever stands in it */
    static uint8_t others[] = {0xff, 0, 1};
    struct bytes lent[LENT], sections[SECTIONS] = FIVE(one_dead, 2);
    for (int i = 0; i < 2; i++) {
        sections[5] = (struct bytes){others, sizeof others};
        lend(lent, 4 * PLACE, 0, 18, COLLECTOR_COUNTS);
        expect(either(i, sections, 0, lent), COLLECTOR_REWRITTEN, "version 5 and .debug_ranges");
        expect((uint64_t)memcmp(lent[OUT].at, thin, 18), 0, "output of version 5 and .debug_ranges");
        give_back(lent);
    }

    /* of length 0 it is empty, whatever its pointer (never null) */
    uint8_t *const shown[] = {others, (uint8_t *)1, (uint8_t *)UINTPTR_MAX};
    static uint8_t declarations[] = {1, 0x11, 1, 0, 0, 2, 0x2e, 0, 0x55, 0x17, 0, 0, 0};
    uint8_t old[18] = {0};
    size_t first = header_4(old, 7, 0, 0);
    memcpy(old + first, (const uint8_t[]){1, 2, 0, 0, 0, 0, 0}, 7);
    for (size_t i = 0; i < sizeof shown / sizeof *shown; i++)
        for (int past = 0; past < 2; past++) {
            old[first + 2] = (uint8_t)past;
            struct bytes s[SECTIONS] = {{old, sizeof old}, {declarations, sizeof declarations}, {nothing, 0},
                                        {nothing, 0}, {nothing, 0}, {shown[i], 0}, NO_LIST};
            lend(lent, 2 * PLACE, 0, 13, COLLECTOR_COUNTS);
            uint64_t answer = call_on(s, 0, 0, 0, 0, lent);
            check_zeros(answer, lent);
            expect(answer, past ? COLLECTOR_UNTOUCHED : COLLECTOR_REWRITTEN, "no .debug_ranges");
            give_back(lent);
        }
}

/* ---- fixed addresses */

/* The header of a unit of version 4 or 5, as header_4 has it. */
static size_t header_of(uint8_t *at, size_t behind, int version, uint8_t size, int is_wide, int is_big)
{
    size_t start = is_wide ? 12 : 4, first = is_wide ? 24 : 12;
    if (version == 4) {
        first = header_4(at, behind, is_wide, is_big);
        at[first - 1] = size;
        return first;
    }
    wide_header(at, first + behind - start, is_big);
    if (!is_wide) {
        memset(at, 0, first);
        put(at, first + behind - start, 4, is_big);
        put(at + start, 5, 2, is_big);
    }
    at[start + 2] = 1;
    at[start + 3] = size;
    return first;
}

/* A variable with two locations, a DW_OP_addr and an index of the table, and a type: where the address counts the
 * second is not asked, and the variable and its type are kept; a third entry never is. */
static void fixed_address(
    uint64_t address, uint8_t size, uint8_t index, int counts, uint64_t told, int version, int lent_tables, int is_wide,
    int is_big)
{
    static uint8_t declarations[] = {
        1, 0x11, 1, 0, 0, 2, 0x34, 0, 0x02, 0x18, 0x02, 0x18, 0x49, 0x11, 0, 0, 3, 0x24, 0, 0, 0, 0};
    uint8_t old[48], thinned[48];
    size_t first = header_of(old, 11u + size, version, size, is_wide, is_big), end = first + 11 + size;
    uint8_t *at = old + first;
    memcpy(at, (const uint8_t[]){1, 2, size + 1, 3}, 4);
    put(at + 4, address, size, is_big);
    memcpy(at + 4 + size, (const uint8_t[]){2, 0xa1, index, (uint8_t)(end - 2), 3, 3, 0}, 7);
    uint64_t places[4][3] = {
        {first, first, 0}, {first + 1, first + 1, 1}, {end - 2, end - 3, 1}, {end - 1, end - 2, 1}};
    size_t length = end - 1, n = 4;
    header_of(thinned, 10u + size, version, size, is_wide, is_big);
    memcpy(thinned + first, at, 7u + size);
    memcpy(thinned + first + 7 + size, (const uint8_t[]){(uint8_t)(end - 3), 3, 0}, 3);
    if (!counts) {
        memcpy(places[1], (const uint64_t[]){end - 1, first + 1, 1}, sizeof places[1]);
        length = header_of(thinned, 2, version, size, is_wide, is_big) + 2;
        memcpy(thinned + first, (const uint8_t[]){1, 0}, 2);
        n = 2;
    }
    struct bytes lent[LENT], sections[SECTIONS] = FIVE(one_dead, 2);
    sections[0] = (struct bytes){old, end};
    sections[1] = (struct bytes){declarations, sizeof declarations};
    lend(lent, n * PLACE, 0, length, COLLECTOR_COUNTS);
    uint64_t answer = either_by(lent_tables, sections, 0, (uint64_t)is_big, told, lent);
    expect(answer, !counts && index > 1 ? 17 : COLLECTOR_REWRITTEN, "a fixed address");
    if (answer == COLLECTOR_REWRITTEN) {
        expect(count(lent, 1), n - 1, "kept by a fixed address");
        expect((uint64_t)memcmp(lent[OUT].at, thinned, length), 0, "output by a fixed address");
        for (size_t i = 0; i < 3 * n; i++)
            expect(big(lent[MAP].at + 8 * i, 8), places[i / 3][i % 3], "map by a fixed address");
    }
    give_back(lent);
}

/* By any number but 0 an address counts that is no tombstone of its size; through both calls, in both versions, formats
 * and byte orders, with a second location that is dead and with one that fails. */
static void check_fixed(void)
{
    static const struct {
        uint64_t address;
        uint8_t size;
        int live;
    } addresses[] = {
        {1, 8, 1}, {UINT64_MAX - 1, 8, 1}, {0xffffffff, 8, 1}, {0, 8, 0}, {UINT64_MAX, 8, 0},
        {1, 4, 1}, {0xfffffffe, 4, 1}, {0, 4, 0}, {0xffffffff, 4, 0},
    };
    static const uint64_t numbers[] = {0, 1, 2, (uint64_t)1 << 32, UINT64_MAX};
    for (size_t i = 0; i < sizeof addresses / sizeof *addresses; i++)
        for (size_t j = 0; j < sizeof numbers / sizeof *numbers; j++)
            for (int k = 0; k < 16; k++)
                for (uint8_t index = 1; index < 10; index += 8)
                    fixed_address(
                        addresses[i].address, addresses[i].size, index, numbers[j] != 0 && addresses[i].live,
                        numbers[j], 4 + k / 8, k % 2, k / 2 % 2, k / 4 % 2);
}

/* ---- keep lists */

#define BYTES(...) (uint8_t[]){__VA_ARGS__}, sizeof((uint8_t[]){__VA_ARGS__})

/* The five-entry unit by a list and an address table: the answer, and of a rewritten unit the entries behind the header
 * and how many are kept. */
static const struct {
    uint8_t *tags;
    size_t tags_length;
    uint8_t *treatments;
    size_t treatments_length;
    uint8_t addresses[2];
    uint64_t answer;
    uint8_t kept, length, body[8];
} by_list[] = {
    {nothing, 0, nothing, 0, {1, 0}, COLLECTOR_REWRITTEN, 3, 6, {1, 2, 0, 16, 3, 0}},
    {BYTES(0, 0x24), BYTES(1), {0, 0}, COLLECTOR_REWRITTEN, 3, 4, {1, 3, 3, 0}},
    {BYTES(0, 0x24, 0), BYTES(1), {0, 0}, COLLECTOR_REWRITTEN, 3, 4, {1, 3, 3, 0}},
    {BYTES(0, 0x24, 0, 0x2e), BYTES(1, 2), {1, 1}, COLLECTOR_REWRITTEN, 3, 4, {1, 3, 3, 0}},
    {BYTES(0, 0x24), BYTES(2), {1, 0}, COLLECTOR_REWRITTEN, 3, 6, {1, 2, 0, 16, 3, 0}},
    {BYTES(0, 0x2e), BYTES(2), {1, 1}, COLLECTOR_REWRITTEN, 1, 2, {1, 0}},
    {BYTES(0, 0x11), BYTES(2), {0, 0}, COLLECTOR_REWRITTEN, 1, 2, {1, 0}},
    {BYTES(0, 0x11), BYTES(1), {0, 0}, COLLECTOR_UNTOUCHED, 5, 0, {0}},
    {BYTES(0, 0x2e), BYTES(1), {0, 0}, COLLECTOR_UNTOUCHED, 5, 0, {0}},
    {BYTES(0x24, 0), BYTES(1), {0, 0}, COLLECTOR_REWRITTEN, 1, 2, {1, 0}},
    {BYTES(0, 0, 0, 7, 0xff, 0xff), BYTES(1, 2, 1), {1, 0}, COLLECTOR_REWRITTEN, 3, 6, {1, 2, 0, 16, 3, 0}},
    {BYTES(4), nothing, 0, {1, 0}, COLLECTOR_REWRITTEN, 3, 6, {1, 2, 0, 16, 3, 0}},
    {BYTES(0, 0x2e), BYTES(1), {2, 0}, 6, 0, 0, {0}},
    {BYTES(0, 0x2e), BYTES(2), {0, 255}, 6, 0, 0, {0}},
    {BYTES(4), BYTES(1), {1, 0}, 19, 0, 0, {0}},
    {nothing, 0, BYTES(1), {1, 0}, 19, 0, 0, {0}},
    {BYTES(0, 0x24), nothing, 0, {1, 0}, 19, 0, 0, {0}},
    {BYTES(0, 0x24), BYTES(1, 1), {1, 0}, 19, 0, 0, {0}},
    {BYTES(0, 0x24, 0, 0x2e), BYTES(1), {1, 0}, 19, 0, 0, {0}},
    {BYTES(0, 0x24, 0), BYTES(1, 1), {1, 0}, 19, 0, 0, {0}},
    {BYTES(0, 0x24), BYTES(0), {1, 0}, 19, 0, 0, {0}},
    {BYTES(0, 0x24), BYTES(3), {1, 0}, 19, 0, 0, {0}},
    {BYTES(0, 0x24), BYTES(255), {2, 0}, 19, 0, 0, {0}},
    {BYTES(0, 0x25, 0, 0x24), BYTES(1, 3), {1, 0}, 19, 0, 0, {0}},
    {BYTES(0, 0x24, 0, 0x24, 0, 0x25), BYTES(1, 1, 0), {1, 0}, 19, 0, 0, {0}},
    {BYTES(0, 0x24, 0, 0x24), BYTES(1, 1), {1, 0}, 20, 0, 0, {0}},
    {BYTES(0, 0x25, 0, 0x24), BYTES(1, 2), {2, 0}, 20, 0, 0, {0}},
    {BYTES(1, 0, 0, 0xff), BYTES(2, 2), {1, 0}, 20, 0, 0, {0}},
    {BYTES(0xff, 0xff, 0xff, 0xff), BYTES(1, 1), {1, 0}, 20, 0, 0, {0}},
};

/* Each through both calls; lists that are refused also with an empty section, with a header that is cut, and with
 * little or nothing lent. */
static void five_by_list(size_t i, int lent_tables)
{
    uint64_t answer = by_list[i].answer, kept = by_list[i].kept, length = by_list[i].length;
    int is_refused = answer < COLLECTOR_UNTOUCHED;
    struct bytes addresses = {(uint8_t *)by_list[i].addresses, 2}, lent[LENT], sections[SECTIONS] = FIVE(nothing, 0);
    sections[4] = addresses;
    sections[TAGS] = (struct bytes){by_list[i].tags, by_list[i].tags_length};
    sections[TREATMENTS] = (struct bytes){by_list[i].treatments, by_list[i].treatments_length};
    lend(lent, is_refused ? 5 * PLACE : (kept + 1) * PLACE, 8, is_refused ? 22 : 12 + length, COLLECTOR_COUNTS);
    expect(either(lent_tables, sections, 0, lent), answer, "a keep list");
    if (!is_refused)
        expect(count(lent, 1), kept, "kept by a keep list");
    if (answer == COLLECTOR_REWRITTEN) {
        expect(big(lent[OUT].at, 1), 8 + length, "the length by a keep list");
        expect((uint64_t)memcmp(lent[OUT].at + 4, unit + 4, 8), 0, "the header by a keep list");
        expect((uint64_t)memcmp(lent[OUT].at + 12, by_list[i].body, length), 0, "output by a keep list");
    }
    give_back(lent);
    if (answer != 19 && answer != 20)
        return;
    for (size_t n = 0; n < 12; n += 3) {
        sections[0].length = n;
        lend(lent, n, n, n, n * 7);
        expect(either(lent_tables, sections, 0, lent), answer, "a keep list before the section");
        give_back(lent);
    }
}

/* A list and a variable at an address: by its treatment, or by the address where none is for it. */
static void variable_by_list(uint8_t k, uint64_t address, uint64_t counts, int version, int lent_tables, int ways)
{
    static uint8_t declarations[] = {1, 0x11, 1, 0, 0, 2, 0x34, 0, 0x02, 0x18, 0, 0, 0};
    int is_wide = ways % 2, is_big = ways / 2 % 2, live = k == 1 || (k == 0 && counts != 0 && address != 0);
    uint8_t old[37], tags[] = {0, 0x34}, treatments[] = {k};
    size_t first = header_of(old, 13, version, 8, is_wide, is_big);
    memcpy(old + first, (const uint8_t[]){1, 2, 9, 3}, 4);
    put(old + first + 4, address, 8, is_big);
    old[first + 12] = 0;
    struct bytes lent[LENT], sections[SECTIONS] = FIVE(all_dead, 2);
    sections[0] = (struct bytes){old, first + 13};
    sections[1] = (struct bytes){declarations, sizeof declarations};
    if (k != 0) {
        sections[TAGS] = (struct bytes){tags, sizeof tags};
        sections[TREATMENTS] = (struct bytes){treatments, sizeof treatments};
    }
    lend(lent, 2 * PLACE, 0, first + 2, COLLECTOR_COUNTS);
    uint64_t answer = either_by(lent_tables, sections, 0, (uint64_t)is_big, counts, lent);
    expect(answer, live ? COLLECTOR_UNTOUCHED : COLLECTOR_REWRITTEN, "a variable by a keep list");
    expect(count(lent, 1), live ? 2 : 1, "kept variables by a keep list");
    give_back(lent);
}

/* The treatment of a tag in a list of all of them. That of units is 2. */
static uint8_t treatment_of(uint64_t tag)
{
    return tag != 0x11 && (tag * 2654435761u >> 13) % 2 == 0 ? 1 : 2;
}

static size_t put_uleb(uint8_t *at, uint64_t n)
{
    size_t i = 0;
    do {
        at[i] = (uint8_t)(n & 0x7f) | (n > 0x7f ? 0x80 : 0);
        n >>= 7;
        i++;
    } while (n > 0);
    return i;
}

/* A list of all 65,536 tags, in memory that can't be written; and a unit whose entries have every tag above 0 that is a
 * multiple of `step`: each by a declaration of its own, with the tag for its code. Those with treatment 1 are kept. */
static void every_tag(uint64_t step, int lent_tables, int is_big)
{
    uint8_t *list = mmap(NULL, 196608, PROT_READ | PROT_WRITE, MAP_PRIVATE | MAP_ANONYMOUS, -1, 0);
    if (list == MAP_FAILED)
        fail("no memory");
    for (uint64_t tag = 0; tag < 65536; tag++) {
        put(list + 2 * tag, tag, 2, 1);
        list[131072 + tag] = treatment_of(tag);
    }
    if (mprotect(list, 196608, PROT_READ) != 0)
        fail("a list that can't be protected");

    struct bytes old = block(12 + 3 * 65536 + 4), thinned = block(old.length), declarations = block(9 * 65536);
    size_t at = 12, n = 12, d = 0, entries = 1, kept = 1;
    memcpy(declarations.at, (const uint8_t[]){0x80, 0x80, 0x04, 0x11, 1, 0, 0}, 7); /* 65,536: the unit */
    d = 7;
    memcpy(old.at + at, declarations.at, 3);
    memcpy(thinned.at + at, declarations.at, 3);
    at += 3;
    n += 3;
    for (uint64_t tag = step; tag < 65536; tag += step) {
        d += put_uleb(declarations.at + d, tag);
        d += put_uleb(declarations.at + d, tag);
        memset(declarations.at + d, 0, 3);
        d += 3;
        at += put_uleb(old.at + at, tag);
        entries++;
        if (treatment_of(tag) == 1) {
            n += put_uleb(thinned.at + n, tag);
            kept++;
        }
    }
    declarations.at[d++] = 0;
    old.at[at++] = 0;
    thinned.at[n++] = 0;
    uint8_t header[24];
    memcpy(old.at, header, header_of(header, at - 12, 5, 8, 0, is_big));
    memcpy(thinned.at, header, header_of(header, n - 12, 5, 8, 0, is_big));
    struct bytes lent[LENT], s[SECTIONS] = {{old.at, at}, {declarations.at, d}, {nothing, 0}, {nothing, 0},
                                            {nothing, 0}, {nothing, 0}, {list, 131072}, {list + 131072, 65536}};
    size_t many[TABLES] = {entries, entries, entries, entries, entries, entries, 0, 0};
    lend(lent, (kept + 1) * PLACE, 0, n, COLLECTOR_COUNTS);
    uint64_t answer =
        lent_tables ? call_lent(s, 0, 0, (uint64_t)is_big, 0, many, lent) : call_on(s, 0, 0, (uint64_t)is_big, 0, lent);
    check_zeros(answer, lent);
    expect(answer, COLLECTOR_REWRITTEN, "every tag");
    expect(count(lent, 0), entries, "entries of every tag");
    expect(count(lent, 1), kept, "kept of every tag");
    expect((uint64_t)memcmp(lent[OUT].at, thinned.at, n), 0, "output of every tag");
    give_back(lent);
    free(old.at);
    free(thinned.at);
    free(declarations.at);
    munmap(list, 196608);
}

static void check_lists(void)
{
    for (size_t i = 0; i < sizeof by_list / sizeof *by_list; i++)
        for (int lent_tables = 0; lent_tables < 2; lent_tables++)
            five_by_list(i, lent_tables);
    for (int i = 0; i < 16; i++)
        for (int j = 0; j < 12; j++)
            variable_by_list(
                (uint8_t)(j % 3), (uint64_t)(j / 3 % 2), j < 6 ? 0 : UINT64_MAX, 4 + i % 2, i / 2 % 2, i / 4);

    /* of length 0 there is no list, whatever the pointers (never null) */
    uint8_t *const shown[] = {none_dead, wrong, (uint8_t *)1, (uint8_t *)UINTPTR_MAX};
    struct bytes lent[LENT], five_of[SECTIONS] = FIVE(one_dead, 2);
    for (size_t i = 0; i < sizeof shown / sizeof *shown; i++) {
        five_of[TAGS] = five_of[TREATMENTS] = (struct bytes){shown[i], 0};
        lend(lent, 4 * PLACE, 0, 18, COLLECTOR_COUNTS);
        expect(call_on(five_of, 0, 0, 0, 0, lent), COLLECTOR_REWRITTEN, "no keep list");
        expect((uint64_t)memcmp(lent[OUT].at, thin, 18), 0, "output with no keep list");
        give_back(lent);
    }

    for (int is_big = 0; is_big < 2; is_big++) {
        every_tag(33, 0, is_big); /* 1,985 entries */
        every_tag(1, 1, is_big);
    }
}

/* ---- the call's own tables: the shorter ones that it tries first change no answer */

/* Its longest tables, lent. */
static const size_t own_room[TABLES] = {2048, 2048, 2048, 2048, 2048, 2048, 8192, 16384};

struct sized {
    size_t entries, references, declarations;
    int padded;
};

/* 1 the unit names an entry by ref1, 2 nothing, 3 names one, 4 names 32, 5 has eight bytes, the others nothing. */
static size_t sized_declarations(uint8_t *at, size_t declarations)
{
    static const uint8_t names[] = {0x49, 0x11}, eight[] = {0x0b, 0x07};
    size_t n = 0;
    for (size_t code = 1; code <= declarations; code++) {
        n += put_uleb(at + n, code);
        at[n++] = code == 1 ? 0x11 : 0x24;
        at[n++] = code == 1;
        for (int i = 0; i < (code == 1 || code == 3 ? 1 : code == 4 ? 32 : 0); i++, n += 2)
            memcpy(at + n, names, 2);
        if (code == 5) {
            memcpy(at + n, eight, 2);
            n += 2;
        }
        at[n++] = 0;
        at[n++] = 0;
    }
    at[n++] = 0;
    return n;
}

/* The unit, its first child, those that name this child, and others: all but the first two are dead. */
static size_t sized_unit(uint8_t *at, const struct sized *u)
{
    static const uint8_t start[] = {0, 0, 0, 0, 5, 0, 1, 8, 0, 0, 0, 0, 0x01, 14, 0x02};
    size_t n = sizeof start, names = u->references - 1;
    memcpy(at, start, n);
    for (size_t i = 2; i < u->entries; i++) {
        size_t many = names >= 32 ? 32 : names > 0;
        if (many > 0) {
            at[n++] = many == 32 ? 4 : 3;
            memset(at + n, 14, many);
            n += many;
            names -= many;
        } else if (u->padded) {
            at[n++] = 5;
            memset(at + n, 0, 8);
            n += 8;
        } else {
            n += put_uleb(at + n, u->declarations > 5 ? 6 + i % (u->declarations - 5) : 2);
        }
    }
    at[n++] = 0;
    put(at, n - 4, 4, 0);
    return n;
}

static void check_sized(struct sized u)
{
    struct bytes section = block(64 + 9 * u.entries + 2 * u.references), declarations = block(128 + 6 * u.declarations);
    section.length = sized_unit(section.at, &u);
    declarations.length = sized_declarations(declarations.at, u.declarations);
    struct bytes sections[SECTIONS] = {section, declarations, {nothing, 0}, {nothing, 0}, {nothing, 0}, {nothing, 0},
                                       NO_LIST};
    struct bytes s[SECTIONS], lent[2][LENT];
    for (int i = 0; i < 2; i++)
        lend(lent[i], 4 * PLACE, 16, section.length, COLLECTOR_COUNTS);
    uint64_t answer = call(sections, 0, 0, 0, 0, lent[0]);
    check_zeros(answer, lent[0]);
    own(sections, s);
    expect(call_lent(s, 0, 0, 0, 0, own_room, lent[1]), answer, "lent tables as long as its own");
    unchanged(sections, s);
    for (int i = 0; i < LENT; i++)
        expect((uint64_t)memcmp(lent[0][i].at, lent[1][i].at, lent[0][i].length), 0, "what both calls leave");
    expect(answer, u.references > 8192 ? 11 : u.entries > 2048 ? 10 : COLLECTOR_REWRITTEN, "own tables");
    if (answer == COLLECTOR_REWRITTEN) {
        expect(count(lent[0], 0), u.entries, "entries in own tables");
        expect(count(lent[0], 1), 2, "kept in own tables");
    }
    for (int i = 0; i < 2; i++)
        give_back(lent[i]);
    free(section.at);
    free(declarations.at);
}

/* Around the lengths of each of its tables and indexes: the longest, the shorter ones, and lengths between them. */
static void check_tiers(void)
{
    static const size_t entries[] = {32, 64, 100, 256, 384, 1024, 1500, 2048};
    static const struct sized names[] = {{60, 128, 5, 0}, {60, 768, 5, 0}, {100, 2048, 5, 0}, {300, 8192, 5, 0}};
    static const size_t declarations[] = {128, 512, 1024, 1500, 2048};
    for (int i = -1; i < 2; i++) {
        size_t more = (size_t)i;
        for (size_t j = 0; j < sizeof entries / sizeof *entries; j++)
            for (int padded = 0; padded < 2; padded++)
                check_sized((struct sized){entries[j] + more, 1, 5, padded});
        for (size_t j = 0; j < sizeof names / sizeof *names; j++)
            for (int padded = 0; padded < 2; padded++)
                check_sized((struct sized){names[j].entries, names[j].references + more, 5, padded});
        for (size_t j = 0; j < sizeof declarations / sizeof *declarations; j++) {
            check_sized((struct sized){60, 1, declarations[j] + more, 0});
            check_sized((struct sized){2048, 1, declarations[j] + more, 0});
        }
    }
    check_sized((struct sized){2049, 8193, 5, 0});
}

/* ---- offsets above 4 GiB */

/* 1 names an entry by ref8, 2 has a block, 3 names one by ref8 and has a sibling in ref8, 4 names one by ref_udata,
 * 5 has nothing, 6 names two by ref8. */
static uint8_t above_declarations[] = {
    1, 0x11, 1, 0x49, 0x14, 0, 0, 2, 0x24, 0, 0x03, 0x09, 0, 0, 3, 0x24, 0, 0x49, 0x14, 0x01, 0x14, 0, 0,
    4, 0x24, 0, 0x49, 0x15, 0, 0, 5, 0x24, 0, 0, 0, 6, 0x11, 1, 0x49, 0x14, 0x49, 0x14, 0, 0, 0,
};
enum { BEHIND = 25 }; /* bytes of what stands behind the block */
#define ABOVE(unit, length) \
    {{unit, length}, {above_declarations, sizeof above_declarations}, {nothing, 0}, {nothing, 0}, {nothing, 0}, \
     {nothing, 0}, NO_LIST}

/* So many bytes of zeros, which take no memory until they are touched. */
static uint8_t *sparse(size_t length)
{
    void *at = mmap(NULL, length, PROT_READ | PROT_WRITE, MAP_PRIVATE | MAP_ANONYMOUS | MAP_NORESERVE, -1, 0);
    if (at == MAP_FAILED)
        fail("no address space");
    return at;
}

/* Behind the block, at a place of the unit: entry 3, which names 4 and has a sibling; and 4, which names 3. What
 * follows is left as it is: entry 5, which is dead and 3's sibling, in the old unit, and the terminator. */
static void put_behind(uint8_t *at, uint64_t place, uint64_t sibling, int is_big)
{
    at[0] = 3;
    put(at + 1, place + 17, 8, is_big);
    put(at + 9, sibling, 8, is_big);
    at[17] = 4;
    if (put_uleb(at + 18, place) != 5)
        fail("a place of five bytes");
}

/* A unit whose dead entry is a block of about 2^32 bytes, and live ones behind it, through both calls: old offsets
 * above 2^32, new ones that are small. */
static void check_above(void)
{
    static const uint64_t behind[] = {((uint64_t)1 << 32) - BEHIND, ((uint64_t)1 << 32) - 17, ((uint64_t)1 << 32) - 1,
                                      (uint64_t)1 << 32, ((uint64_t)1 << 32) + 139, ((uint64_t)1 << 33) + 12};
    struct bytes lent[LENT];
    for (size_t i = 0; i < 2 * sizeof behind / sizeof *behind; i++) {
        int is_big = i % 2;
        uint64_t place = behind[i / 2], length = place + BEHIND;
        uint8_t *section = sparse(length);
        wide_header(section, length - 12, is_big);
        section[24] = 1;
        put(section + 25, place, 8, is_big);
        section[33] = 2;
        if (put_uleb(section + 34, place - 39) != 5)
            fail("a length of five bytes");
        put_behind(section + place, place, place + 23, is_big);
        section[place + 23] = 5;
        if (mprotect(section, length, PROT_READ) != 0)
            fail("a section that can't be protected");

        /* 24 the first, 33 entry 3, 50 entry 4, 56 the terminator */
        uint8_t thinned[57];
        wide_header(thinned, sizeof thinned - 12, is_big);
        thinned[24] = 1;
        put(thinned + 25, 33, 8, is_big);
        thinned[33] = 3;
        put(thinned + 34, 50, 8, is_big);
        put(thinned + 42, 56, 8, is_big);
        memcpy(thinned + 50, (const uint8_t[]){4, 0xa1, 0x80, 0x80, 0x80, 0x00, 0}, 7);
        const uint64_t places[4][3] = {{24, 24, 0}, {place, 33, 1}, {place + 17, 50, 1}, {place + 24, 56, 1}};

        struct bytes s[SECTIONS] = ABOVE(section, length);
        for (int lent_tables = 0; lent_tables < 2; lent_tables++) {
            static const size_t few[TABLES] = {6, 5, 5, 5, 5, 5, 3, 6};
            lend(lent, 4 * PLACE, 0, sizeof thinned, COLLECTOR_COUNTS);
            uint64_t order = (uint64_t)is_big;
            uint64_t answer = lent_tables ? call_lent(s, 0, 0, order, 0, few, lent) : call_on(s, 0, 0, order, 0, lent);
            check_zeros(answer, lent);
            expect(answer, COLLECTOR_REWRITTEN, "a unit above 4 GiB");
            expect((uint64_t)memcmp(lent[OUT].at, thinned, sizeof thinned), 0, "output of a unit above 4 GiB");
            for (int j = 0; j < 12; j++)
                expect(big(lent[MAP].at + 8 * j, 8), places[j / 3][j % 3], "map of a unit above 4 GiB");
            give_back(lent);
        }
        munmap(section, length);
    }
    printf("offsets above 4 GiB, as they should be\n");
}

/* The same with the block kept and a dead entry of one byte before it, so that all else moves down by one. */
static void above(const char *path, int is_big)
{
    uint64_t place = ((uint64_t)1 << 32) + 146, length = place + BEHIND;
    uint8_t *section = sparse(length);
    wide_header(section, length - 12, is_big);
    section[24] = 6;
    put(section + 25, 42, 8, is_big);
    put(section + 33, place, 8, is_big);
    section[41] = 5;
    section[42] = 2;
    if (put_uleb(section + 43, place - 48) != 5)
        fail("a length of five bytes");
    section[48] = 0x5a;
    section[place - 1] = 0xa5;
    put_behind(section + place, place, place + 23, is_big);
    section[place + 23] = 5;

    uint64_t size = length - 2;
    int file = open(path, O_RDWR | O_CREAT | O_TRUNC, 0600);
    if (file < 0 || ftruncate(file, (off_t)size) != 0)
        fail("no file for the output");
    uint8_t *out = mmap(NULL, size, PROT_READ | PROT_WRITE, MAP_SHARED, file, 0);
    if (out == MAP_FAILED)
        fail("no address space");
    struct bytes lent[LENT];
    lend(lent, 5 * PLACE, 0, 0, COLLECTOR_COUNTS);
    free(lent[OUT].at);
    lent[OUT] = (struct bytes){out, size};
    struct bytes s[SECTIONS] = ABOVE(section, length);
    struct timespec began, ended;
    clock_gettime(CLOCK_MONOTONIC, &began);
    uint64_t answer = call_on(s, 0, 0, (uint64_t)is_big, 0, lent);
    clock_gettime(CLOCK_MONOTONIC, &ended);
    expect(answer, COLLECTOR_REWRITTEN, "new offsets above 4 GiB");
    expect(count(lent, 3), size, "the size of the output");
    const uint64_t places[5][3] = {
        {24, 24, 0}, {42, 41, 1}, {place, place - 1, 1}, {place + 17, place + 16, 1}, {place + 24, place + 22, 1}};
    for (int i = 0; i < 15; i++)
        expect(big(lent[MAP].at + 8 * i, 8), places[i / 3][i % 3], "map of new offsets above 4 GiB");
    uint8_t first[41], last[24] = {0};
    wide_header(first, size - 12, is_big);
    first[24] = 6;
    put(first + 25, 41, 8, is_big);
    put(first + 33, place - 1, 8, is_big);
    expect((uint64_t)memcmp(out, first, sizeof first), 0, "the header and the first entry");
    expect((uint64_t)memcmp(out + 41, section + 42, 7), 0, "the block's start");
    expect(out[place - 2], 0xa5, "the block's end");
    put_behind(last, place - 1, place + 22, is_big);
    expect((uint64_t)memcmp(out + place - 1, last, sizeof last), 0, "what stands behind the block");
    for (uint64_t i = 48; i < place - 2; i += 4093)
        expect(out[i], 0, "the block");
    double seconds = (double)(ended.tv_sec - began.tv_sec) + (double)(ended.tv_nsec - began.tv_nsec) / 1e9;
    printf("%llu bytes from %llu, %.1f s; the first new offset above 2^32: %llu, from %llu\n", (unsigned long long)size,
           (unsigned long long)length, seconds, (unsigned long long)(place - 1), (unsigned long long)place);
    munmap(out, size);
    close(file);
    lent[OUT] = block(0);
    give_back(lent);
    munmap(section, length);
}

/* ---- other sections above 4 GiB: what stands at a place with a high word, and another answer at its low word */

enum { AT_LOCATION = 0x02, AT_RANGES = 0x55, SEC_OFFSET = 0x17, LOCLISTX = 0x22, RNGLISTX = 0x23 };
#define HIGH ((uint64_t)1 << 32)

/* A list, and how a unit leads to it: its attribute, whose value is an offset or an index; the unit's own list base,
 * where it is not 0; the offset in the table, where it is by an index; the ranges base that is lent. */
struct far {
    const char *what;
    uint8_t name, form;
    uint64_t value, base, offset, lent_base;
};

static const struct far far_lists[] = {
    {"offset in a table of ranges", AT_RANGES, RNGLISTX, 0, 0, HIGH + 50, 0},
    {"offset in a table of locations", AT_LOCATION, LOCLISTX, 0, 0, HIGH + 50, 0},
    {"offset in a table of ranges, by its sum", AT_RANGES, RNGLISTX, 0, 0, HIGH - 10, 0},
    {"offset in a table of locations, by its sum", AT_LOCATION, LOCLISTX, 0, 0, HIGH - 10, 0},
    {"base of range lists", AT_RANGES, RNGLISTX, 0, HIGH + 100, 50, 0},
    {"base of location lists", AT_LOCATION, LOCLISTX, 0, HIGH + 100, 50, 0},
    {"index of 30 bits of a range list", AT_RANGES, RNGLISTX, HIGH / 8 + 3, 0, 50, 0},
    {"index of 30 bits of a location list", AT_LOCATION, LOCLISTX, HIGH / 8 + 3, 0, 50, 0},
    {"index of 33 bits of a range list", AT_RANGES, RNGLISTX, HIGH + 3, 0, 50, 0},
    {"index of 33 bits of a location list", AT_LOCATION, LOCLISTX, HIGH + 3, 0, 50, 0},
    {"offset of ranges", AT_RANGES, SEC_OFFSET, HIGH + 50, 0, 0, 20},
    {"lent base of ranges", AT_RANGES, SEC_OFFSET, 50, 0, 0, HIGH + 20},
    {"offset of ranges, by its sum", AT_RANGES, SEC_OFFSET, HIGH - 10, 0, 0, 80},
    {"offset of locations", AT_LOCATION, SEC_OFFSET, HIGH + 50, 0, 0, 0},
};

/* Through both calls: of the unit's children the one at this offset is kept, none where it is 0; and of the lists of
 * ranges (0) and locations (1) this one holds the index, none where it is -1. */
static void far_calls(
    const struct bytes *s, uint64_t lent_base, int is_big, uint64_t kept, int list, uint64_t index, const char *what)
{
    uint64_t places[] = {24, s[0].length - 1, 0};
    if (kept != 0)
        memcpy(places + 1, (const uint64_t[]){kept, s[0].length - 1}, 16);
    for (int lent_tables = 0; lent_tables < 2; lent_tables++) {
        struct bytes lent[LENT];
        lend(lent, 3 * PLACE, 8, s[0].length, COLLECTOR_COUNTS);
        uint64_t order = (uint64_t)is_big;
        uint64_t answer =
            lent_tables ? call_lent(s, lent_base, 0, order, 0, room, lent) : call_on(s, lent_base, 0, order, 0, lent);
        check_zeros(answer, lent);
        expect(answer, COLLECTOR_REWRITTEN, what);
        expect(count(lent, 1), kept != 0 ? 2 : 1, what);
        for (int i = 0; i < 3; i++)
            expect(big(lent[MAP].at + PLACE * i, 8), places[i], what);
        for (int i = 0; i < 2; i++) {
            expect(count(lent, 4 + i), i == list, what);
            expect(big(lent[RANGES + i].at, 8), i == list ? index : 0, what);
        }
        give_back(lent);
    }
}

/* Abbreviations at 2^32 + 100 and at 100: by the one the first entry names its first child, by the other none. `which`
 * stands at 2^32 + 100. */
static void far_abbreviations(int which, int is_big)
{
    static const uint8_t forms[] = {0x11, 0x0b}; /* ref1, data1 */
    static const uint8_t declarations[] = {1, 0x11, 1, 0x49, 0, 0, 0, 2, 0x24, 0, 0, 0, 0};
    uint8_t wide[29];
    wide_header(wide, sizeof wide - 12, is_big);
    put(wide + 16, HIGH + 100, 8, is_big);
    memcpy(wide + 24, (const uint8_t[]){1, 26, 2, 2, 0}, 5);
    struct bytes section = {sparse(HIGH + 200), HIGH + 200};
    for (int i = 0; i < 2; i++) {
        uint8_t *at = section.at + (i == which ? HIGH + 100 : 100);
        memcpy(at, declarations, sizeof declarations);
        at[4] = forms[i];
    }
    if (mprotect(section.at, section.length, PROT_READ) != 0)
        fail("a section that can't be protected");
    struct bytes s[SECTIONS] = {{wide, sizeof wide}, section, {nothing, 0}, {nothing, 0}, {nothing, 0}, {nothing, 0},
                                NO_LIST};
    far_calls(s, 0, is_big, which == 0 ? 26 : 0, -1, 0, "offset of abbreviations, above 4 GiB");
    munmap(section.at, section.length);
}

/* 1 the unit, 2 a function, 3 another entry. A location is the unit's, ranges are the function's. */
static size_t far_declarations(uint8_t *at, const struct far *f)
{
    size_t n = 0;
    memcpy(at, (const uint8_t[]){1, 0x11, 1}, 3);
    n += 3;
    if (f->base != 0) {
        n += put_uleb(at + n, f->name == AT_LOCATION ? 0x8c : 0x74);
        at[n++] = SEC_OFFSET;
    }
    for (int i = 0; i < 2; i++) {
        if (f->name == (i == 0 ? AT_LOCATION : AT_RANGES)) {
            at[n++] = f->name;
            at[n++] = f->form;
        }
        memcpy(at + n, i == 0 ? (const uint8_t[]){0, 0, 2, 0x2e, 0} : (const uint8_t[]){0, 0, 3, 0x24, 0}, 5);
        n += 5;
    }
    memcpy(at + n, (const uint8_t[]){0, 0, 0}, 3);
    return n + 3;
}

/* The unit; where its function stands. The other entry and the terminator are its last two bytes. */
static size_t far_unit(uint8_t *at, const struct far *f, int is_big, uint64_t *function)
{
    uint8_t value[10];
    size_t width = 8, n = 24;
    if (f->form == SEC_OFFSET)
        put(value, f->value, 8, is_big);
    else
        width = put_uleb(value, f->value);
    at[n++] = 1;
    if (f->base != 0) {
        put(at + n, f->base, 8, is_big);
        n += 8;
    }
    for (int i = 0; i < 2; i++) {
        if (f->name == (i == 0 ? AT_LOCATION : AT_RANGES)) {
            memcpy(at + n, value, width);
            n += width;
        }
        if (i == 0)
            *function = n;
        at[n++] = (uint8_t)(2 + i);
    }
    at[n++] = 0;
    wide_header(at, n - 12, is_big);
    return n;
}

/* A list: ranges that are live, or, as the other, none; a location that names an entry by call4. */
static void put_list(uint8_t *at, const struct far *f, int other, uint64_t entry, int is_big)
{
    memset(at, 0, 8);
    if (f->name == AT_LOCATION) {
        memcpy(at, (const uint8_t[]){5, 5, 0x99}, 3);
        put(at + 3, entry, 4, is_big);
    } else if (!other) {
        memcpy(at, (const uint8_t[]){4, 0, 1}, 3);
    }
}

/* `which` of the two lists stands where the attribute leads, the other wherever it leads without a high word: of the
 * list's place; or of the table's, as its low word has an offset of 16 more. */
static void far_list(const struct far *f, int which, int is_big)
{
    uint8_t declarations[32], wide[64];
    uint64_t entries[2];
    struct bytes s[SECTIONS] = {{wide, 0}, {declarations, 0}, {nothing, 0}, {nothing, 0}, {nothing, 0}, {nothing, 0},
                                NO_LIST};
    s[0].length = far_unit(wide, f, is_big, entries);
    s[1].length = far_declarations(declarations, f);
    entries[1] = s[0].length - 2;

    int by_index = f->form != SEC_OFFSET;
    uint64_t base = f->base != 0 ? f->base : 20, place = base + 8 * f->value;
    uint64_t list = by_index ? base + f->offset : f->lent_base + f->value, astray = list + 16;
    uint64_t length = (by_index && place > list ? place : list) + 64;
    uint8_t *section = sparse(length);
    const uint64_t decoys[] = {(uint32_t)list, astray, (uint32_t)astray};
    for (int i = 0; i < 3; i++)
        put_list(section + decoys[i], f, !which, entries[!which], is_big);
    put_list(section + list, f, which, entries[which], is_big);
    if (by_index) {
        put(section + (uint32_t)place, f->offset + 16, 8, is_big);
        put(section + place, f->offset, 8, is_big);
    }
    if (mprotect(section, length, PROT_READ) != 0)
        fail("a section that can't be protected");

    int location = f->name == AT_LOCATION;
    uint64_t kept = location || which == 0 ? entries[which] : 0;
    s[location ? 2 : 3] = (struct bytes){section, length};
    far_calls(s, f->lent_base, is_big, kept, by_index && kept != 0 ? location : -1, f->value, f->what);
    munmap(section, length);
}

/* Each in both orders, and with the two answers changing places: what loses a high word gives the other one. */
static void check_far(void)
{
    for (int i = 0; i < 4; i++) {
        far_abbreviations(i / 2, i % 2);
        for (size_t j = 0; j < sizeof far_lists / sizeof *far_lists; j++)
            far_list(far_lists + j, i / 2, i % 2);
    }
    printf("sections above 4 GiB, as they should be\n");
}

static void check_rules(void)
{
    struct bytes lent[LENT];
    /* exactly full, and what is in the counts */
    lend(lent, 4 * PLACE, 0, 18, COLLECTOR_COUNTS);
    expect(five(one_dead, 0, lent), COLLECTOR_REWRITTEN, "exactly full");
    expect((uint64_t)memcmp(lent[MAP].at, map, sizeof map), 0, "map");
    expect((uint64_t)memcmp(lent[OUT].at, thin, 18), 0, "output");
    static const uint64_t counts[] = {5, 3, 4, 18, 0, 0, 0};
    for (int i = 0; i < 7; i++)
        expect(count(lent, i), counts[i], "count");
    for (int i = 0; i < 3; i++)
        expect(lent[COUNTS].at[56 + i], 1, "a present list");
    give_back(lent);

    /* counts: every length below the whole tells so, and loses nothing else */
    for (size_t n = 0; n < COLLECTOR_COUNTS; n++) {
        lend(lent, 4 * PLACE, 0, 18, n);
        expect(five(one_dead, 0, lent), COLLECTOR_REWRITTEN_UNCOUNTED, "counts without room");
        expect((uint64_t)memcmp(lent[MAP].at, map, sizeof map), 0, "map without counts");
        expect((uint64_t)memcmp(lent[OUT].at, thin, 18), 0, "output without counts");
        expect(five(none_dead, 0, lent), COLLECTOR_UNTOUCHED_UNCOUNTED, "counts without room, untouched");
        zeros(lent[MAP], 0, "map of an untouched unit");
        zeros(lent[OUT], 0, "output of an untouched unit");
        expect(five(wrong, 0, lent), 6, "a refusal without counts");
        expect(five_by(all_dead, 1, 0, lent), 17, "another without counts");
        give_back(lent);
    }

    /* bytes short of a whole place count for nothing; one more than whole ends as zero (check_zeros) */
    lend(lent, 4 * PLACE - 1, 7, 18, COLLECTOR_COUNTS);
    expect(five(one_dead, 0, lent), 13, "a map one byte short");
    give_back(lent);
    lend(lent, 5 * PLACE - 1, 7, 18, COLLECTOR_COUNTS + 1);
    expect(five(one_dead, 0, lent), COLLECTOR_REWRITTEN, "a map one byte short of a place more");
    give_back(lent);
    lend(lent, 4 * PLACE, 0, 17, COLLECTOR_COUNTS);
    expect(five(one_dead, 0, lent), 14, "an output one byte short");
    give_back(lent);

    /* any number but 0 is a yes */
    static const uint64_t flags[] = {1, 2, 256, (uint64_t)1 << 32, UINT64_MAX};
    for (size_t i = 0; i < sizeof flags / sizeof *flags; i++) {
        lend(lent, 4 * PLACE, 0, 18, COLLECTOR_COUNTS);
        expect(five(one_dead, flags[i], lent), COLLECTOR_REWRITTEN, "type units");
        for (int j = 0; j < 3; j++)
            expect(lent[COUNTS].at[56 + j], 0, "an absent list");
        give_back(lent);
    }

    /* an address table of length 0 is none, whatever its pointer (never null) shows: bytes that say dead, one that is
     * wrong, ones that say live, no memory at all */
    struct bytes five_of[SECTIONS] = FIVE(nothing, 0);
    uint8_t *const shown[] = {all_dead, wrong, none_dead, (uint8_t *)1, (uint8_t *)UINTPTR_MAX};
    for (size_t i = 0; i < sizeof shown / sizeof *shown; i++) {
        five_of[4] = (struct bytes){shown[i], 0};
        lend(lent, 4 * PLACE, 8, 18, COLLECTOR_COUNTS);
        uint64_t answer = call_on(five_of, 0, 0, 0, 0, lent);
        check_zeros(answer, lent);
        expect(answer, COLLECTOR_UNTOUCHED, "no address table");
        static const uint64_t all[] = {5, 5, 0, 0, 0, 0, 0};
        for (int j = 0; j < 7; j++)
            expect(count(lent, j), all[j], "count with no address table");
        for (int j = 0; j < 3; j++)
            expect(lent[COUNTS].at[56 + j], 1, "a present list with no address table");
        give_back(lent);
    }
    lend(lent, 4 * PLACE, 8, 18, COLLECTOR_COUNTS);
    expect(five(all_dead, 0, lent), COLLECTOR_REWRITTEN, "an address table of length 2");
    expect(count(lent, 1), 1, "kept of all dead");
    give_back(lent);
    check_failures();
    check_order();
    check_wide();
    check_version_4();
    check_fixed();
    check_lists();
    check_tiers();
    printf("the call's own rules hold\n");
}

/* ---- entry values, one in the other */

static uint64_t nested(size_t levels, int is_big)
{
    static uint8_t declarations[] = {0x01, 0x24, 0x01, 0x02, 0x18, 0x00, 0x00, 0x02, 0x24, 0x00, 0x00, 0x00, 0x00};
    static const uint8_t innermost[] = {0x99, 0, 0, 0, 0}; /* call4 of the terminator */
    size_t room = 12 * levels + 64;
    struct bytes expression = block(room), section = block(room);
    size_t n = sizeof innermost, start = room - n;
    memcpy(expression.at + start, innermost, n);
    for (size_t i = 0; i < levels; i++) {
        uint8_t length[10];
        size_t w = put_uleb(length, n);
        start -= w + 1;
        expression.at[start] = 0xa3;
        memcpy(expression.at + start + 1, length, w);
        n += w + 1;
    }
    static const uint8_t header[] = {0, 0, 0, 0, 0, 0, 1, 8, 0, 0, 0, 0, 0x01};
    memcpy(section.at, header, sizeof header);
    put(section.at + 4, 5, 2, is_big);
    size_t at = sizeof header;
    at += put_uleb(section.at + at, n);
    memcpy(section.at + at, expression.at + start, n);
    at += n;
    section.at[at++] = 0x02;
    section.at[at++] = 0x00;
    put(section.at, at - 4, 4, is_big);
    put(section.at + at - 6, at - 1, 4, is_big);
    struct bytes sections[SECTIONS] = {{section.at, at}, {declarations, sizeof declarations}, {nothing, 0},
                                       {nothing, 0}, {nothing, 0}, {nothing, 0}, NO_LIST};
    struct bytes lent[LENT];
    lend(lent, 4 * PLACE, 0, at - 1, COLLECTOR_COUNTS);
    uint64_t answer = call(sections, 0, 0, (uint64_t)is_big, 0, lent);
    check_zeros(answer, lent);
    uint8_t reference[4];
    put(reference, at - 2, 4, is_big);
    expect((uint64_t)memcmp(lent[OUT].at + at - 6, reference, 4), 0, "the innermost reference");
    give_back(lent);
    free(expression.at);
    free(section.at);
    return answer;
}

int main(int argc, char **argv)
{
    if (argc >= 3 && strcmp(argv[1], "--cases") == 0) {
        for (int i = 2; i < argc; i++)
            run_cases(argv[i]);
        return 0;
    }
    if (argc >= 3 && strcmp(argv[1], "--nested") == 0) {
        expect(nested(strtoull(argv[2], NULL, 10), argc > 3), COLLECTOR_REWRITTEN, "nested entry values");
        return 0;
    }
    if (argc >= 2 && strcmp(argv[1], "--above") == 0) {
        if (argc == 2) {
            check_above();
            check_far();
        } else {
            above(argv[2], argc > 3);
        }
        return 0;
    }
    if (argc == 2 && strcmp(argv[1], "--rules") == 0) {
        check_rules();
        return 0;
    }
    struct told told = {0, 0, {block(0), block(0)}};
    for (int i = 1; i < argc; i++) {
        if (strcmp(argv[i], "collect") == 0) {
            told.big_endian = told.fixed_addresses = 0;
            keep_list("", told.keep);
        } else if (strcmp(argv[i], "--big-endian") == 0) {
            told.big_endian = 1;
        } else if (strcmp(argv[i], "--fixed-addresses") == 0) {
            told.fixed_addresses = 1;
        } else if (strncmp(argv[i], "--keep-list=", 12) == 0) {
            keep_list(argv[i] + 12, told.keep);
        } else {
            run_file(argv[i], &told);
        }
    }
    return 0;
}
