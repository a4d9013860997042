/* The port's C call with one fault put in, for oracle/faults: each fault is something that oracle/differ has to see. FAULT says which, 0 for none. */
#include <stddef.h>
#include <stdint.h>
#include <stdlib.h>
#include <string.h>

#define SECTIONS const uint8_t *s, size_t sn, const uint8_t *a, size_t an, const uint8_t *l, size_t ln, const uint8_t *r, size_t rn, \
    const uint8_t *t, size_t tn, const uint8_t *g, size_t gn, const uint8_t *kt, size_t ktn, const uint8_t *kk, size_t kkn, \
    uint64_t base, uint64_t units, uint64_t big, uint64_t fixed
#define TABLES uint64_t *index, size_t in, uint64_t *offsets, size_t on, uint64_t *parents, size_t pn, uint8_t *roots, size_t ron, uint64_t *ends, size_t en, uint8_t *marks, size_t mn, \
    uint64_t *targets, size_t tgn, uint64_t *pairs, size_t prn, uint32_t *work, size_t wn
#define RESULTS uint8_t *map, size_t mapn, uint8_t *rl, size_t rln, uint8_t *ll, size_t lln, uint8_t *sl, size_t sln, uint8_t *out, size_t outn, uint8_t *counts, size_t cn

uint64_t port_collect(SECTIONS, RESULTS);
uint64_t port_collect_lent(SECTIONS, TABLES, RESULTS);

static int fault(void)
{
    const char *f = getenv("FAULT");
    return f == NULL ? 0 : atoi(f);
}

/* A number of so many big-endian bytes. */
static size_t number(const uint8_t *at, int width)
{
    size_t n = 0;
    for (int i = 0; i < width; i++)
        n = n << 8 | at[i];
    return n;
}

static size_t count(const uint8_t *counts, int which)
{
    return number(counts + 8 * which, 8);
}

/* Whether the unit is of the 64-bit format, and how many bytes an offset has in it and stand before the version. */
static int wide(const uint8_t *s, size_t sn)
{
    return sn >= 4 && number(s, 4) == 0xffffffff;
}

static size_t word(const uint8_t *s, size_t sn)
{
    return wide(s, sn) ? 8 : 4;
}

static size_t version(const uint8_t *s, size_t sn)
{
    return wide(s, sn) ? 12 : 4;
}

/* Whether the unit is of version 4. */
static int older(const uint8_t *s, size_t sn, uint64_t big)
{
    size_t at = version(s, sn);
    return sn >= at + 2 && s[at + !big] == 0 && s[at + !!big] == 4;
}

/* A field in the other order. */
static void turn(uint8_t *at, size_t width)
{
    for (size_t i = 0; i < width / 2; i++) {
        uint8_t held = at[i];
        at[i] = at[width - 1 - i];
        at[width - 1 - i] = held;
    }
}

/* The high word of a field of eight bytes. */
static uint8_t *high(uint8_t *at, uint64_t big)
{
    return big ? at : at + 4;
}

/* A LEB128 number, and the place behind it. */
static size_t leb(const uint8_t *a, size_t n, size_t *at)
{
    size_t held = 0;
    for (int shift = 0; *at < n; shift += 7) {
        uint8_t byte = a[(*at)++];
        if (shift < 64)
            held |= (size_t)(byte & 127) << shift;
        if (byte < 128)
            break;
    }
    return held;
}

/* Where the unit's abbreviations start. */
static size_t declarations(const uint8_t *s, size_t sn, uint64_t big)
{
    size_t at = version(s, sn) + (older(s, sn, big) ? 2 : 4), width = word(s, sn), held = 0;
    for (size_t i = 0; at + width <= sn && i < width; i++)
        held |= (size_t)s[at + i] << 8 * (big ? width - 1 - i : i);
    return held;
}

/* The tag of the next declaration and where it stands, or 0 behind the last. */
static size_t declared(const uint8_t *a, size_t n, size_t *at, size_t *code, size_t *place)
{
    *code = leb(a, n, at);
    if (*code == 0)
        return 0;
    *place = *at;
    size_t tag = leb(a, n, at), name, form;
    leb(a, n, at);
    do {
        name = leb(a, n, at);
        form = leb(a, n, at);
        if (form == 0x21)
            leb(a, n, at);
    } while ((name != 0 || form != 0) && *at < n);
    return tag;
}

/* The tag that a code declares, or 0. */
static size_t tag_of(size_t code, const uint8_t *a, size_t an, size_t at)
{
    size_t found, place, tag;
    while ((tag = declared(a, an, &at, &found, &place)) != 0)
        if (found == code)
            return tag;
    return 0;
}

/* The treatment of a tag, or 0. */
static int treatment(size_t tag, const uint8_t *kt, size_t ktn, const uint8_t *kk, size_t kkn)
{
    for (size_t i = 0; i < kkn && i < ktn / 2; i++)
        if (number(kt + 2 * i, 2) == tag)
            return kk[i];
    return 0;
}

/* Whether a tag of a keep list is not above the one before it. */
static int descends(const uint8_t *kt, size_t ktn)
{
    for (size_t i = 1; i < ktn / 2; i++)
        if (number(kt + 2 * i, 2) <= number(kt + 2 * i - 2, 2))
            return 1;
    return 0;
}

/* Whether there is, behind the first, a kept entry that its tag makes no root: with kept entries below it, or with none,
 * at depth 1 (where it is named) or deeper (where it may be below a root). */
static int kept(int parent, int deep, const uint8_t *s, size_t sn, const uint8_t *a, size_t an, const uint8_t *kt, size_t ktn, const uint8_t *kk, size_t kkn,
                uint64_t big, const uint8_t *map, size_t places)
{
    for (size_t i = 1; i < places; i++) {
        size_t at = number(map + 24 * i, 8), depth = number(map + 24 * i + 16, 8), code = leb(s, sn, &at);
        size_t below = i + 1 < places ? number(map + 24 * i + 24, 8) : sn;
        int has = below < sn && number(map + 24 * i + 40, 8) > depth && leb(s, sn, &below) != 0;
        if (code != 0 && has == parent && (parent || deep == (depth > 1)) && treatment(tag_of(code, a, an, declarations(s, sn, big)), kt, ktn, kk, kkn) == 2)
            return 1;
    }
    return 0;
}

static uint64_t spoilt(uint64_t answer, SECTIONS, RESULTS)
{
    int f = fault();
    int counted = answer == 256 || answer == 257;
    (void)a, (void)an, (void)l, (void)ln, (void)r, (void)rn, (void)t, (void)tn, (void)g, (void)gn, (void)base, (void)units, (void)big, (void)fixed;
    switch (f) {
    case 1: /* a byte of the output */
        if (answer == 257)
            out[count(counts, 3) - 1] ^= 1;
        break;
    case 2: /* a depth */
        if (answer == 257)
            map[24 * count(counts, 2) - 1] ^= 1;
        break;
    case 3: /* a new offset */
        if (answer == 257)
            map[24 * count(counts, 2) - 9] ^= 1;
        break;
    case 4: /* the count of the kept */
        if (counted)
            counts[15]++;
        break;
    case 5: /* which list is present */
        if (counted)
            counts[57] ^= 1;
        break;
    case 6: /* a number of a list */
        if (counted && count(counts, 6) > 0)
            sl[7] ^= 1;
        break;
    case 7: /* a byte left behind a list */
        if (counted && rln > 8 * count(counts, 4))
            rl[rln - 1] = 1;
        break;
    case 8: /* a byte left after a refusal */
        if (answer < 256 && outn > 0)
            out[0] = 1;
        break;
    case 9: /* a byte beside the output */
        if (answer == 257)
            out[outn] = 0;
        break;
    case 10: /* a byte of a section */
        if (sn > 0)
            ((uint8_t *)s)[sn - 1] ^= 1;
        break;
    case 11: /* 1 and 2 */
        return answer == 1 ? 2 : answer;
    case 12:
        return answer == 2 ? 1 : answer;
    case 13: /* 13 and 14 */
        return answer == 13 ? 14 : answer;
    case 14: /* 8 and 9 */
        return answer == 9 ? 8 : answer;
    case 15: /* the answer of counts without room */
        return answer == 258 ? 256 : answer;
    case 16: /* 10 and 11 */
        return answer == 11 ? 10 : answer;
    case 17: /* a byte left where untouched */
        if (answer == 256 && mapn > 0)
            map[mapn - 1] = 1;
        break;
    case 32: /* the new length in the other byte order */
        if (answer == 257 && big)
            turn(out + version(s, sn) - word(s, sn), word(s, sn));
        break;
    case 33: /* a field of two bytes in the other byte order, where one is written anew */
        for (size_t i = 0; answer == 257 && big && i + 1 < count(counts, 2); i++) {
            const uint8_t *place = map + 24 * i;
            size_t old = number(place, 8), new = number(place + 8, 8), width = number(place + 32, 8) - new;
            for (size_t k = 1; k < width; k++)
                if (s[old + k] != out[new + k] && s[old + k - 1] == 0 && out[new + k - 1] == 0) {
                    out[new + k - 1] = out[new + k];
                    out[new + k] = 0;
                    return answer;
                }
        }
        break;
    case 38: /* the 64-bit format is not read */
        return wide(s, sn) ? 2 : answer;
    case 39: /* the escape alone is 2 */
        return wide(s, sn) && sn < 12 ? 2 : answer;
    case 40: /* the new length is the size less 4 in either format */
        if (answer == 257 && wide(s, sn))
            out[big ? 11 : 4] += 8;
        break;
    case 41: /* a map's numbers are cut to four bytes and the rest is what was lent; here the high byte of an old offset */
        if (answer == 257)
            map[0] = 1;
        break;
    case 81: /* 20 before 19 */
        return answer == 19 && descends(kt, ktn) ? 20 : answer;
    case 102: /* the first of the two that is met, pair by pair */
        for (size_t i = 1; answer == 19 && kkn == ktn / 2 && i < kkn && (kk[i - 1] == 1 || kk[i - 1] == 2); i++)
            if (number(kt + 2 * i, 2) <= number(kt + 2 * i - 2, 2))
                return 20;
        break;
    case 98: /* an entry that is never a root is dropped though it is named, here from the count alone */
    case 99: /* though it is below a root */
    case 100: /* though it is a parent */
        if (answer == 257 && kept(f == 100, f == 99, s, sn, a, an, kt, ktn, kk, kkn, big, map, count(counts, 2)))
            counts[15]--;
        break;
    case 101: /* a byte of the keep list */
        if (ktn > 0)
            ((uint8_t *)kt)[ktn - 1] ^= 1;
        break;
    case 49: /* version 4 is not read */
        return older(s, sn, big) ? 2 : answer;
    case 25: /* 6 and 17 */
        return answer == 17 ? 6 : answer;
    case 26:
        return answer == 6 ? 17 : answer;
    }
    (void)ll, (void)lln, (void)sln, (void)cn;
    return answer;
}

/* The address table that the port is lent in place of this one. */
static const uint8_t *table(const uint8_t *t, size_t *tn)
{
    static const uint8_t dead[1];
    if (fault() == 23 && *tn == 0) { /* an empty table is dead */
        *tn = 1;
        return dead;
    }
    if (fault() == 24 && *tn == 1) /* a table of one byte is live */
        *tn = 0;
    if (fault() == 27 && *tn > 1) /* the last index is past the end */
        --*tn;
    return t;
}

/* The number that tells the byte order, in place of this one. */
static uint64_t told(uint64_t big)
{
    switch (fault()) {
    case 28: /* it is not looked at */
        return 0;
    case 29: /* every unit is big-endian */
        return 1;
    case 30: /* its low byte counts */
        return big & 255;
    case 31: /* only 1 is yes */
        return big == 1;
    }
    return big;
}

/* The number that tells whether fixed addresses count, in place of this one. */
static uint64_t chosen(uint64_t fixed)
{
    switch (fault()) {
    case 58: /* it is not looked at */
        return 0;
    case 59: /* they always count */
        return 1;
    case 60: /* its low byte counts */
        return fixed & 255;
    case 61: /* only 1 is yes */
        return fixed == 1;
    }
    return fixed;
}

/* The byte order is guessed: where the header is refused, the other one is tried. */
static int guessed(uint64_t answer)
{
    return fault() == 34 && (answer == 1 || answer == 2);
}

/* Room for sections that the port is lent in place of those that it should be. */
static uint8_t *copy(int which, const uint8_t *s, size_t n)
{
    static _Thread_local uint8_t held[6][1 << 17];
    if (n + 8 > sizeof held[which])
        return NULL;
    memcpy(held[which], s, n);
    return held[which];
}

/* How many offsets a list section has, one at least. */
static size_t offsets_of(const uint8_t *s, size_t n, size_t table, uint64_t big)
{
    uint8_t held[4];
    if (n < table)
        return 0;
    memcpy(held, s + table - 4, 4);
    if (!big)
        turn(held, 4);
    size_t found = number(held, 4);
    return found > 0 && found < n ? found : 1;
}

/* A list section. Its offsets are in the other byte order than the unit; or without their high word; or its table is
 * sought where that of the 32-bit format stands, which is as if eight bytes more came before it. */
static const uint8_t *lists(int which, int order, int cut, int base, const uint8_t *s, size_t *n, size_t wide_unit, uint64_t big)
{
    size_t width = wide_unit ? 8 : 4, table = wide_unit ? 20 : 12, fields = offsets_of(s, *n, table, big);
    int f = fault();
    uint8_t *held = (f == order && big) || ((f == cut || f == base) && wide_unit) ? copy(which, s, *n) : NULL;
    if (held == NULL)
        return s;
    if (f == base) {
        memmove(held + 8, held, *n);
        *n += 8;
        return held;
    }
    for (size_t at = table; fields > 0 && at + width <= *n; fields--, at += width)
        if (f == order)
            turn(held + at, width);
        else
            memset(high(held + at, big), 0, 4);
    return held;
}

/* The unit's section: the abbreviations' offset in the other byte order; it, or the length, without its high word. */
static const uint8_t *unit(const uint8_t *s, size_t n, uint64_t big)
{
    size_t at = version(s, n) + 4;
    int f = fault();
    int turned = f == 37 && big, cut = (f == 42 || f == 43) && wide(s, n);
    uint8_t *held = (turned || cut) && at + word(s, n) <= n ? copy(2, s, n) : NULL;
    if (held == NULL)
        return s;
    if (turned)
        turn(held + at, word(s, n));
    else
        memset(high(held + (f == 42 ? at : 4), big), 0, 4);
    return held;
}

/* .debug_ranges of a version 4 unit, whose pairs stand one after another: a begin of 0 is live; or a base is never dead;
 * or all ones of four bytes are a base at address size 8. */
static const uint8_t *of_pairs(const uint8_t *g, size_t n, const uint8_t *s, size_t sn, uint64_t big)
{
    int f = fault();
    size_t at_size = version(s, sn) + 2 + word(s, sn), size = at_size < sn ? s[at_size] : 0;
    uint8_t *held = (f == 51 || f == 52 || f == 53) && older(s, sn, big) && (size == 4 || size == 8) ? copy(3, g, n) : NULL;
    if (held == NULL)
        return g;
    for (size_t at = 0; at + 2 * size <= n; at += 2 * size) {
        uint64_t pair[2] = {0, 0}, ones = size == 4 ? 0xffffffff : UINT64_MAX;
        for (size_t i = 0; i < 2 * size; i++)
            pair[i / size] |= (uint64_t)held[at + i] << 8 * (big ? size - 1 - i % size : i % size);
        if (f == 51 && pair[0] == 0 && pair[1] != 0)
            held[at] = 1;
        if (f == 52 && pair[0] == ones && (pair[1] == 0 || pair[1] == ones))
            held[at + size] = 1;
        if (f == 53 && size == 8 && pair[0] == 0xffffffff)
            memset(held + at, 255, 8);
    }
    return held;
}

/* Location lists of version 4: an expression's length is read as a ULEB128, so that its operations start a byte early,
 * here with one that there is not. Only entries of kind 2 and 3, from the section's start on. */
static const uint8_t *early(const uint8_t *l, size_t n, uint64_t big)
{
    uint8_t *held = fault() == 54 ? copy(4, l, n) : NULL;
    size_t at = 0;
    while (held != NULL && at < n && (held[at] == 2 || held[at] == 3)) {
        size_t numbers = held[at] == 2 ? 2 : 1, four = held[at] == 3 ? 4 : 0;
        for (at++; numbers > 0 && at < n; at++)
            numbers -= held[at] < 128;
        at += four;
        if (at + 2 >= n)
            break;
        size_t length = big ? held[at] << 8 | held[at + 1] : held[at + 1] << 8 | held[at];
        if (length > 0)
            held[at + 2] = 0;
        at += 2 + length;
    }
    return held == NULL ? l : held;
}

/* The abbreviations of a version 4 unit: GNU_addr_index is not asked, so low_pc is of another form, which is live; or
 * an index of lists is read, as a number. */
static const uint8_t *forms(const uint8_t *a, size_t n)
{
    int f = fault();
    uint8_t *held = f == 55 || f == 56 ? copy(5, a, n) : NULL;
    for (size_t i = 0; held != NULL && i + 1 < n; i++) {
        if (f == 55 && held[i] == 0x81 && held[i + 1] == 0x3e)
            held[i] = 0x8f, held[i + 1] = 0;
        if (f == 56 && (held[i + 1] == 0x22 || held[i + 1] == 0x23))
            held[i + 1] = 0x0f;
    }
    return held == NULL ? a : held;
}

/* Whether an operation that asks the address table stands here, its index in one byte. */
static int asks(const uint8_t *at, size_t left)
{
    return left >= 2 && (at[0] == 0xa1 || at[0] == 0xfb) && at[1] < 128;
}

/* The unit's section where fixed addresses count. DW_OP_addr is taken to be where its code stands, and what is left out
 * of an expression becomes DW_OP_nop; `restored` takes the changes out of what was written. */
static const uint8_t *addresses(const uint8_t *s, size_t n, const uint8_t *t, size_t tn, uint64_t big, uint64_t fixed)
{
    int f = fault();
    size_t at_size = version(s, n) + (older(s, n, big) ? 2 + word(s, n) : 3), size = at_size < n ? s[at_size] : 0;
    uint8_t *held = fixed && f >= 62 && f <= 69 && (size == 4 || size == 8) ? copy(2, s, n) : NULL;
    if (held == NULL)
        return s;
    uint64_t ones = size == 4 ? 0xffffffff : UINT64_MAX;
    for (size_t at = version(s, n) + 4; at + 1 + size <= n; at++) {
        uint8_t *operand = held + at + 1, *behind = operand + size;
        size_t left = n - at - 1 - size;
        uint64_t address = 0;
        if (held[at] != 3)
            continue;
        for (size_t i = 0; i < size; i++)
            address |= (uint64_t)operand[i] << 8 * (big ? size - 1 - i : i);
        int dead = address == 0 || address == ones;
        if (f == 62 && address == 0) /* 0 is live */
            operand[0] = 1;
        if (f == 63 && size == 8 && address == ones) /* all ones of eight bytes are live */
            operand[0] = 1;
        if (f == 64 && size == 4 && address == ones) /* all ones of four bytes are live at address size 4 */
            operand[0] = 1;
        if (f == 65 && size == 8 && address == 0xffffffff) /* they are dead at address size 8 */
            memset(operand, 0, 8);
        if (f == 66 && (held[at - 2] == 0xa3 || held[at - 2] == 0xf3) && held[at - 1] == 1 + size) /* entry values are searched */
            memset(held + at - 2, 0x96, 2);
        if (f == 67 && !dead && asks(behind, left)) /* behind a live address the expression is not read */
            memset(behind, 0x96, 2);
        if (f == 68 && dead && asks(behind, left)) /* nor behind a dead one */
            memset(behind, 0x96, 2);
        /* the next location is asked after a live address: here where its index fails */
        if (f == 69 && !dead && left > 0 && asks(behind + 1, left - 1) && tn > 0 && (behind[2] >= tn || t[behind[2]] > 1))
            memset(held + at, 0x96, 1 + size);
    }
    return held;
}

/* The new unit with the bytes that `addresses` changed as they were. */
static void restored(uint64_t answer, const uint8_t *given, const uint8_t *changed, size_t n, const uint8_t *map, size_t mapn, uint8_t *out, size_t outn)
{
    size_t places = 0;
    while (24 * (places + 1) <= mapn && number(map + 24 * places, 8) != 0)
        places++;
    for (size_t i = 0; (answer == 257 || answer == 259) && fault() >= 62 && i < places; i++) {
        size_t old = number(map + 24 * i, 8), new = number(map + 24 * i + 8, 8);
        size_t end = i + 1 < places ? number(map + 24 * i + 32, 8) : outn;
        for (size_t k = 0; new + k < end && old + k < n; k++)
            if (changed[old + k] != given[old + k])
                out[new + k] = given[old + k];
    }
}

/* The abbreviations where fixed addresses count: a parameter is searched too; or DW_AT_frame_base is; or a location in
 * block1. Each by its bytes. */
static const uint8_t *searched(const uint8_t *a, size_t n, uint64_t fixed)
{
    int f = fault();
    uint8_t *held = fixed && f >= 70 && f <= 72 ? copy(5, a, n) : NULL;
    for (size_t i = 0; held != NULL && i + 3 < n; i++) {
        if (f == 70 && held[i] == 0x05 && held[i + 1] < 2 && held[i + 2] == 0x02 && held[i + 3] == 0x18)
            held[i] = 0x34;
        if (f == 71 && held[i] == 0x40 && held[i + 1] == 0x18)
            held[i] = 0x02;
        if (f == 72 && held[i] == 0x02 && held[i + 1] == 0x0a)
            held[i + 1] = 0x18;
    }
    return held == NULL ? a : held;
}

/* The abbreviations where the root test is not made of what a keep list treats, by 2 or by 1: subprograms and variables
 * get a tag that is not tested, which the list has with the same treatment. */
static const uint8_t *untested(const uint8_t *a, size_t n, const uint8_t *s, size_t sn, uint64_t big, const uint8_t *kt, size_t ktn, const uint8_t *kk, size_t kkn,
                               size_t *spare)
{
    int f = fault(), of = f == 77 ? 2 : 1;
    size_t start = declarations(s, sn, big), at = start, code, place, tag;
    uint8_t *held = f == 77 || f == 78 ? copy(5, a, n) : NULL;
    *spare = 0;
    if (held == NULL)
        return a;
    uint8_t taken[128] = {1};
    while ((tag = declared(a, n, &at, &code, &place)) != 0)
        if (tag < 128)
            taken[tag] = 1;
    for (*spare = 1; *spare < 127 && (taken[*spare] || treatment(*spare, kt, ktn, kk, kkn) != 0);)
        ++*spare;
    at = start;
    while ((tag = declared(a, n, &at, &code, &place)) != 0)
        if ((tag == 0x2e || tag == 0x34) && held[place] == tag && treatment(tag, kt, ktn, kk, kkn) == of)
            held[place] = *spare;
    return held;
}

struct pair {
    uint16_t tag;
    uint8_t treatment;
};

static int by_tag(const void *x, const void *y)
{
    return ((const struct pair *)x)->tag - ((const struct pair *)y)->tag;
}

/* The keep list that the port is lent in place of this one. `spare` is a tag that `untested` put in, or 0. */
static void listed(const uint8_t **kt, size_t *ktn, const uint8_t **kk, size_t *kkn, const uint8_t *a, size_t an, const uint8_t *s, size_t sn, uint64_t big, uint64_t fixed,
                   size_t spare)
{
    static _Thread_local struct pair pairs[1 << 17];
    static _Thread_local uint8_t tags[1 << 18], treatments[1 << 17];
    int f = fault(), fine = 1, unread = f == 73; /* it is not looked at */
    size_t n = *ktn / 2;
    if (f < 73 || f == 81 || f == 82 || f > 97)
        return;
    unread |= f == 83 && sn == 0;       /* nor is it of an empty section */
    unread |= f == 95 && n == 1 << 16;  /* the number of tags is cut to 16 bits */
    unread |= f == 96 && fixed;         /* it is not looked at where fixed addresses count */
    if (unread) {
        *ktn = *kkn = 0;
        return;
    }
    if (f == 86 && *kkn > n) /* too many treatments are taken */
        *kkn = n;
    if (f == 87 && *kkn < n) /* too few */
        *ktn = 2 * *kkn, n = *kkn;
    if (f == 89 && *ktn % 2 == 1) { /* half a tag counts */
        memcpy(tags, *kt, *ktn);
        tags[(*ktn)++] = 0;
        *kt = tags;
        return;
    }
    if (*kkn != n)
        return;
    for (size_t i = 0; i < n; i++) {
        pairs[i].tag = number(*kt + 2 * i, 2);
        pairs[i].treatment = (*kk)[i];
        fine &= pairs[i].treatment == 1 || pairs[i].treatment == 2;
    }
    int sorted = !descends(*kt, *ktn);
    size_t to = 0, given = n;
    for (size_t i = 0; i < n; i++) {
        struct pair p = pairs[i];
        int out = 0;
        switch (f) {
        case 74: /* 2 is not looked at */
            out = p.treatment == 2;
            break;
        case 75: /* 1 is not */
            out = p.treatment == 1;
            break;
        case 97: /* a variable's 2 is not */
            out = p.treatment == 2 && p.tag == 0x34;
            break;
        case 76: /* 1 and 2 are swapped */
            if (fine)
                p.treatment = 3 - p.treatment;
            break;
        case 84: /* a treatment above 2 is 1 */
            p.treatment = p.treatment > 2 ? 1 : p.treatment;
            break;
        case 85: /* 0 is no treatment */
            out = p.treatment == 0;
            break;
        case 88: /* tags are little-endian */
            p.tag = p.tag >> 8 | p.tag << 8;
            break;
        case 90: /* the first is not found */
            out = fine && sorted && i == 0;
            break;
        case 91: /* the last is not */
            out = fine && sorted && i + 1 == given;
            break;
        case 80: /* a tag twice is taken */
            out = i > 0 && p.tag == pairs[to - 1].tag;
            break;
        case 94: /* its low byte counts */
            if (fine && sorted)
                p.tag &= 255;
            break;
        }
        if (!out)
            pairs[to++] = p;
    }
    n = to;
    if ((f == 92 || f == 93) && fine && sorted) { /* what is not listed has the treatment of the tag below it; of the one above */
        size_t at = declarations(s, sn, big), code, place, tag, more = n;
        while ((tag = declared(a, an, &at, &code, &place)) != 0 && more < n + 256) {
            int found = 0, by = 0;
            for (size_t i = 0; i < n; i++) {
                found |= pairs[i].tag == tag;
                if (f == 92 ? pairs[i].tag < tag : pairs[i].tag > tag && by == 0)
                    by = pairs[i].treatment;
            }
            if (!found && by != 0 && tag < 65536)
                pairs[more++] = (struct pair){tag, by};
        }
        n = more;
    }
    if (spare != 0 && fine && sorted)
        pairs[n++] = (struct pair){spare, f == 77 ? 2 : 1};
    if (fine && (f == 79 || (sorted && f != 88))) { /* 79: the order is not looked at */
        qsort(pairs, n, sizeof *pairs, by_tag);
        to = 0;
        for (size_t i = 0; i < n; i++)
            if (i == 0 || pairs[i].tag != pairs[to - 1].tag)
                pairs[to++] = pairs[i];
        n = to;
    }
    for (size_t i = 0; i < n; i++) {
        tags[2 * i] = pairs[i].tag >> 8;
        tags[2 * i + 1] = pairs[i].tag;
        treatments[i] = pairs[i].treatment;
    }
    *kt = tags;
    *ktn = 2 * n;
    *kk = treatments;
    *kkn = n;
}

#define SWAP(type, x, y) do { type held_ = x; x = y; y = held_; } while (0)

#define TOLD \
    t = table(t, &tn); \
    if (fault() == 50) { /* the range lists of the other version */ \
        SWAP(const uint8_t *, r, g); \
        SWAP(size_t, rn, gn); \
    } \
    if (older(s, sn, big)) { \
        g = of_pairs(g, gn, s, sn, big); \
        l = early(l, ln, big); \
        a = forms(a, an); \
        if (fault() == 57) /* the ranges base is not added in version 4 */ \
            base = 0; \
    } \
    r = lists(0, 35, 44, 46, r, &rn, wide(s, sn), big); /* range lists */ \
    l = lists(1, 36, 45, 47, l, &ln, wide(s, sn), big); /* location lists */ \
    const uint8_t *given = s; \
    s = addresses(s, sn, t, tn, big, fixed); \
    a = searched(a, an, fixed); \
    const uint8_t *tags = kt, *treatments = kk, *tested = a; \
    size_t tagn = ktn, treatmentn = kkn, spare; \
    a = untested(a, an, s, sn, big, kt, ktn, kk, kkn, &spare); \
    listed(&kt, &ktn, &kk, &kkn, tested, an, s, sn, big, fixed, spare); \
    s = unit(s, sn, big); \
    fixed = chosen(fixed); \
    big = told(big)

/* A map in place of the one that is lent, twice as long: a place is taken to have 12 bytes where its room is asked for. */
static uint8_t *longer(uint8_t *map, size_t *n)
{
    static _Thread_local uint8_t held[1 << 20];
    if (fault() != 48 || *n > sizeof held / 2)
        return map;
    *n *= 2;
    return held;
}

uint64_t collector_collect(SECTIONS, RESULTS)
{
    TOLD;
    if (fault() == 18) /* type units are not looked at */
        units = 0;
    if (fault() == 19) /* the ranges base is not looked at */
        base = 0;
    uint8_t *lent = map;
    size_t lentn = mapn;
    map = longer(map, &mapn);
    if (fault() == 82 && port_collect(s, sn, a, an, l, ln, r, rn, t, tn, g, gn, kt, 0, kk, 0, base, units, big, fixed, map, mapn, rl, rln, ll, lln, sl, sln, out, outn, counts, cn) == 1)
        return 1; /* the list is looked at after the header's 1 */
    uint64_t answer = port_collect(s, sn, a, an, l, ln, r, rn, t, tn, g, gn, kt, ktn, kk, kkn, base, units, big, fixed, map, mapn, rl, rln, ll, lln, sl, sln, out, outn, counts, cn);
    if (guessed(answer))
        answer = port_collect(s, sn, a, an, l, ln, r, rn, t, tn, g, gn, kt, ktn, kk, kkn, base, units, !big, fixed, map, mapn, rl, rln, ll, lln, sl, sln, out, outn, counts, cn);
    restored(answer, given, s, sn, map, mapn, out, outn);
    if (map != lent)
        memcpy(lent, map, lentn);
    map = lent;
    mapn = lentn;
    return spoilt(answer, s, sn, a, an, l, ln, r, rn, t, tn, g, gn, tags, tagn, treatments, treatmentn, base, units, big, fixed, map, mapn, rl, rln, ll, lln, sl, sln, out, outn, counts, cn);
}

uint64_t collector_collect_lent(SECTIONS, TABLES, RESULTS)
{
    TOLD;
    int one_reference = fault() == 20 && tgn > 0; /* a place of the reference table is not used */
    int one_entry = fault() == 21 && en > 0;      /* a place of the entry table */
    tgn -= one_reference;
    en -= one_entry;
    if (fault() == 82 && port_collect_lent(s, sn, a, an, l, ln, r, rn, t, tn, g, gn, kt, 0, kk, 0, base, units, big, fixed, index, in, offsets, on, parents, pn, roots, ron, ends, en, marks, mn, targets, tgn,
                                           pairs, prn, work, wn, map, mapn, rl, rln, ll, lln, sl, sln, out, outn, counts, cn) == 1)
        return 1;
    uint64_t answer = port_collect_lent(s, sn, a, an, l, ln, r, rn, t, tn, g, gn, kt, ktn, kk, kkn, base, units, big, fixed, index, in, offsets, on, parents, pn, roots, ron, ends, en, marks, mn, targets, tgn, pairs, prn, work, wn,
                                        map, mapn, rl, rln, ll, lln, sl, sln, out, outn, counts, cn);
    if (guessed(answer))
        answer = port_collect_lent(s, sn, a, an, l, ln, r, rn, t, tn, g, gn, kt, ktn, kk, kkn, base, units, !big, fixed, index, in, offsets, on, parents, pn, roots, ron, ends, en, marks, mn, targets, tgn, pairs, prn, work, wn,
                                   map, mapn, rl, rln, ll, lln, sl, sln, out, outn, counts, cn);
    restored(answer, given, s, sn, map, mapn, out, outn);
    if (one_reference)
        targets[tgn] = 0;
    if (one_entry)
        ends[en] = 0;
    if (fault() == 22 && mn > 0) /* a table is not zeros */
        marks[mn - 1] = 2;
    return spoilt(answer, s, sn, a, an, l, ln, r, rn, t, tn, g, gn, tags, tagn, treatments, treatmentn, base, units, big, fixed, map, mapn, rl, rln, ll, lln, sl, sln, out, outn, counts, cn);
}
