#include "plain.h"

#include <string.h>

enum { EMPTY = 1, MEMBER = 2, UNDECIDED = 3 };

static struct permit_answer said(unsigned number) {
    return (struct permit_answer){ .number = (uint8_t)number, .index = PERMIT_NO_DIFFERENCE };
}

static struct permit_answer fault(unsigned number, size_t offset) {
    return (struct permit_answer){ .number = (uint8_t)number, .operand = 1, .offset = offset, .index = PERMIT_NO_DIFFERENCE };
}

static size_t u16(const uint8_t *s) {
    return s[0] + 256u * s[1];
}

/* A byte of four codes: a mark in the low bit of each place that holds 3, and of each that holds 0. */
static unsigned frees(unsigned b) {
    return b & b >> 1 & 0x55;
}

static unsigned zeros(unsigned b) {
    return ~(b | b >> 1) & 0x55;
}

/* 13, 14 or 0. */
static unsigned cube_fault(const uint8_t *c, unsigned w) {
    size_t n = (w + 3) / 4;
    unsigned unused = (unsigned)(4 * n - w), fill = (1u << 2 * unused) - 1, bad = 0;
    for (size_t i = 0; i + 1 < n; i++)
        bad |= zeros(c[i]);
    if (bad | zeros(c[n - 1] | fill))
        return 13;
    return (c[n - 1] & fill) == fill ? 0 : 14;
}

/* The length, kind and room of the record at an offset. */
static unsigned record_fault(const uint8_t *s, size_t len, size_t at, size_t kind) {
    if (len - at < 2 || len - at - 2 < u16(s + at))
        return 15;
    if (u16(s + at) < 2)
        return 17;
    return u16(s + at + 2) == kind ? 0 : 16;
}

static unsigned difference_fault(const uint8_t *s, size_t len, size_t at, unsigned w, unsigned before) {
    unsigned f = record_fault(s, len, at, 2);
    size_t n = (w + 3) / 4;
    if (f)
        return f;
    if (before == 256)
        return 19;
    if (u16(s + at) < 3)
        return 17;
    if (s[at + 4] > 64)
        return 18;
    if (u16(s + at) != 3 + (s[at + 4] + 1u) * n)
        return 17;
    for (unsigned i = 0; i <= s[at + 4] && !f; i++)
        f = cube_fault(s + at + 5 + i * n, w);
    return f;
}

/* The whole file is checked before any answer; *w is its width. */
static struct permit_answer read_file(const uint8_t *s, size_t len, unsigned *w) {
    unsigned f = record_fault(s, len, 0, 1), before = 0;
    if (f)
        return fault(f, 0);
    if (u16(s) != 4)
        return fault(17, 0);
    *w = (unsigned)u16(s + 4);
    if (*w == 0 || *w > 320)
        return fault(10, 0);
    for (size_t at = 6; at < len; at += 2 + u16(s + at)) {
        f = difference_fault(s, len, at, *w, before++);
        if (f)
            return fault(f, at);
    }
    return said(0);
}

static int holds(const uint8_t *c, const uint8_t *spelled, size_t n) {
    unsigned bad = 0;
    for (size_t i = 0; i < n; i++)
        bad |= spelled[i] & (uint8_t)~c[i];
    return bad == 0;
}

static int in_difference(const uint8_t *rec, const uint8_t *spelled, size_t n) {
    if (!holds(rec + 5, spelled, n))
        return 0;
    for (unsigned i = 1; i <= rec[4]; i++)
        if (holds(rec + 5 + i * n, spelled, n))
            return 0;
    return 1;
}

struct permit_answer plain_member(const uint8_t *region, size_t region_len, const uint8_t *header, size_t header_len) {
    unsigned w;
    uint8_t spelled[80] = { 0 };
    struct permit_answer read = read_file(region, region_len, &w);
    if (read.number)
        return read;
    if (header_len != (w + 7) / 8 || (w % 8 && header[w / 8] & 255u >> w % 8))
        return said(11);
    for (unsigned p = 0; p < w; p++)
        spelled[p / 4] |= (uint8_t)(((header[p / 8] >> (7 - p % 8) & 1) + 1) << (6 - 2 * (p % 4)));
    unsigned index = 0;
    for (size_t at = 6; at < region_len; at += 2 + u16(region + at), index++)
        if (in_difference(region + at, spelled, (w + 3) / 4))
            return (struct permit_answer){ .number = 1, .index = (uint16_t)index };
    return said(2);
}

struct walk {
    size_t n;
    uint32_t allowance, spent;
    uint8_t survivor[80];
};

static int meets(const uint8_t *p, const uint8_t *c, size_t n) {
    unsigned bad = 0;
    for (size_t i = 0; i < n; i++)
        bad |= zeros(p[i] & c[i]);
    return bad == 0;
}

static int visit(struct walk *walk, const uint8_t *piece, const uint8_t *cuts, unsigned left) {
    size_t n = walk->n;
    if (walk->spent == walk->allowance)
        return UNDECIDED;
    walk->spent++;
    while (left && !meets(piece, cuts, n))
        left--, cuts += n;
    if (left == 0) {
        memcpy(walk->survivor, piece, n);
        return MEMBER;
    }
    uint8_t near[80], child[80];
    memcpy(near, piece, n);
    for (size_t i = 0; i < n; i++) {
        unsigned open = frees(near[i]) & ~frees(cuts[i]);
        for (unsigned place = 64; open && place; place /= 4) {
            if (!(open & place))
                continue;
            memcpy(child, near, n);
            child[i] = (uint8_t)(near[i] & ~(cuts[i] & 3 * place));
            near[i] = (uint8_t)(near[i] & ~(3 * place & ~(unsigned)cuts[i]));
            int found = visit(walk, child, cuts + n, left - 1);
            if (found != EMPTY)
                return found;
        }
    }
    return EMPTY;
}

struct permit_answer plain_empty(const uint8_t *region, size_t region_len, uint32_t allowance, uint8_t *header, size_t header_len) {
    unsigned w;
    struct walk walk = { .allowance = allowance };
    struct permit_answer read = read_file(region, region_len, &w);
    if (read.number)
        return read;
    if (header_len < (w + 7) / 8)
        return said(22);
    walk.n = (w + 3) / 4;
    int found = EMPTY;
    unsigned walked = 0;
    for (size_t at = 6; at < region_len && found == EMPTY; at += 2 + u16(region + at), walked++)
        found = visit(&walk, region + at + 5, region + at + 5 + walk.n, region[at + 4]);
    struct permit_answer answer = said((unsigned)found);
    answer.count = walk.spent;
    if (found != EMPTY)
        answer.index = (uint16_t)(walked - 1);
    if (found == MEMBER) {
        answer.written = (w + 7) / 8;
        memset(header, 0, answer.written);
        for (unsigned p = 0; p < w; p++)
            if ((walk.survivor[p / 4] >> (6 - 2 * (p % 4)) & 3) == 2)
                header[p / 8] |= (uint8_t)(128 >> p % 8);
    }
    return answer;
}
