#include "classes.h"

#include <stdlib.h>
#include <string.h>

#include "plain.h"

enum { MOST = 256 };

static uint64_t seed;

static uint64_t draw(void) {
    uint64_t z = seed += 0x9e3779b97f4a7c15u;
    z = (z ^ z >> 30) * 0xbf58476d1ce4e5b9u;
    z = (z ^ z >> 27) * 0x94d049bb133111ebu;
    return z ^ z >> 31;
}

static unsigned below(unsigned n) {
    return (unsigned)(draw() % n);
}

static unsigned between(unsigned a, unsigned b) {
    return a + below(b - a + 1);
}

/* A difference under construction: the codes 1, 2, 3 of each position, the base first. */
static unsigned width, cuts;
static uint8_t cubes[65][320];

static uint8_t *add_cut(void) {
    memset(cubes[++cuts], 3, sizeof *cubes);
    return cubes[cuts];
}

static void begin(unsigned w) {
    width = w;
    cuts = 0;
    memset(cubes[0], 3, sizeof *cubes);
}

struct field {
    unsigned at, n;
};

/* Fixes positions a to m of a field: where the base does too mostly to the base's value. */
static void fix(uint8_t *cube, struct field f, unsigned a, unsigned m, int foreign) {
    for (unsigned i = f.at + a; i < f.at + m; i++)
        cube[i] = cubes[0][i] == 3 || foreign ? (uint8_t)(1 + below(2)) : cubes[0][i];
}

/* A permit between two networks: source, destination, ports, day. */
static const struct field v4[] = { { 0, 32 }, { 32, 32 }, { 64, 16 }, { 80, 16 }, { 96, 3 } };
enum { SOURCE, DESTINATION, SOURCE_PORT, PORT, DAY };

static void v4_base(void) {
    begin(99);
    fix(cubes[0], v4[SOURCE], 0, below(2) ? 16 : 24, 1);
    fix(cubes[0], v4[DESTINATION], 0, below(2) ? 16 : 24, 1);
    if (below(3) == 0)
        fix(cubes[0], v4[PORT], 0, 16, 1);
}

static void v4_cut(void) {
    uint8_t *c = add_cut();
    int foreign = below(10) == 0;
    unsigned port = cubes[0][v4[PORT].at] == 3 ? PORT : SOURCE_PORT;
    switch (below(8)) {
    case 0: fix(c, v4[SOURCE], 0, 32, foreign); break;
    case 1: fix(c, v4[DESTINATION], 0, 32, foreign); break;
    case 2: fix(c, v4[SOURCE], 0, between(25, 30), foreign); break;
    case 3: fix(c, v4[DESTINATION], 0, between(25, 30), foreign); break;
    case 4: fix(c, v4[port], 0, 16, 0); break;
    case 5: fix(c, v4[SOURCE], 0, 32, foreign); fix(c, v4[port], 0, 16, 0); break;
    case 6: fix(c, v4[SOURCE], 0, between(25, 32), foreign); fix(c, v4[DESTINATION], 0, 32, foreign); break;
    default: fix(c, v4[DAY], 0, 3, 0); fix(c, v4[DESTINATION], 0, between(24, 30), foreign); break;
    }
}

/* An IPv6 header: version, class, flow, length, next header, hop limit, source, destination. */
static const struct field v6[] = { { 64, 128 }, { 192, 128 }, { 48, 8 }, { 56, 8 }, { 12, 20 }, { 0, 4 } };
enum { NEXT = 2, HOP, FLOW, VERSION };

static void v6_base(void) {
    begin(320);
    fix(cubes[0], v6[VERSION], 0, 4, 1);
    fix(cubes[0], v6[SOURCE], 0, below(2) ? 48 : 64, 1);
    fix(cubes[0], v6[DESTINATION], 0, below(2) ? 48 : 64, 1);
}

static void v6_cut(void) {
    uint8_t *c = add_cut();
    int foreign = below(10) == 0;
    switch (below(7)) {
    case 0: fix(c, v6[SOURCE], 0, 128, foreign); break;
    case 1: fix(c, v6[DESTINATION], 0, 128, foreign); break;
    case 2: fix(c, v6[SOURCE], 0, between(65, 72), foreign); break;
    case 3: fix(c, v6[DESTINATION], 0, between(65, 72), foreign); break;
    case 4: fix(c, v6[NEXT], 0, 8, 0); break;
    case 5: fix(c, v6[HOP], 0, between(2, 8), 0); fix(c, v6[NEXT], 0, 8, 0); break;
    default: fix(c, v6[SOURCE], 0, between(65, 80), foreign); fix(c, v6[FLOW], 0, between(4, 20), 0); break;
    }
}

/* Files under construction. */
static uint8_t file[1 << 21];
static size_t file_len;

static void open_file(void) {
    memcpy(file, (uint8_t[]){ 4, 0, 1, 0, (uint8_t)width, (uint8_t)(width >> 8) }, 6);
    file_len = 6;
}

static void put_difference(void) {
    unsigned n = (width + 3) / 4, len = 3 + (cuts + 1) * n;
    uint8_t *at = file + file_len;
    memcpy(at, (uint8_t[]){ (uint8_t)len, (uint8_t)(len >> 8), 2, 0, (uint8_t)cuts }, 5);
    memset(at + 5, 255, (cuts + 1) * n);
    for (unsigned i = 0; i <= cuts; i++)
        for (unsigned p = 0; p < width; p++)
            at[5 + i * n + p / 4] ^= (uint8_t)((3 ^ cubes[i][p]) << (6 - 2 * (p % 4)));
    file_len += 2 + len;
}

static struct question questions[MOST];
static size_t asked;

static void keep(const uint8_t *header, size_t header_len) {
    struct question *q = &questions[asked++];
    q->file = malloc(file_len);
    memcpy(q->file, file, file_len);
    q->len = file_len;
    q->header = header;
    q->header_len = header_len;
}

static void keep_difference(void) {
    open_file();
    put_difference();
    keep(NULL, 0);
}

/* Random permits of lo to hi cuts, `want` of them, whose walks have from `least` up to below `most` pieces. */
static void permits(uint64_t from, void (*base)(void), void (*cut)(void), unsigned lo, unsigned hi, uint32_t least, uint32_t most, size_t want) {
    uint8_t header[40];
    for (unsigned i = 0; asked < want && i < 4000; i++) {
        seed = from + i;
        base();
        for (unsigned j = between(lo, hi); j > 0; j--)
            cut();
        open_file();
        put_difference();
        struct permit_answer a = plain_empty(file, file_len, most, header, sizeof header);
        if (a.number != 3 && a.count >= least)
            keep(NULL, 0);
    }
}

/* Random cuts on two positions each. */
static void pairs(void) {
    for (unsigned i = 0; i < 32; i++) {
        seed = 60000 + i;
        begin(16);
        for (unsigned j = 0; j < 32; j++) {
            uint8_t *c = add_cut();
            unsigned p = below(16), q = (p + 1 + below(15)) % 16;
            c[p] = (uint8_t)(1 + below(2));
            c[q] = (uint8_t)(1 + below(2));
        }
        keep_difference();
    }
}

static void equality(void) {
    for (unsigned start = 32; start <= 64; start += 8) {
        begin(99);
        for (unsigned i = 0; i < 32; i++)
            for (unsigned v = 1; v <= 2; v++) {
                uint8_t *c = add_cut();
                c[i] = (uint8_t)v;
                c[start + i] = (uint8_t)(3 - v);
            }
        keep_difference();
    }
}

/* Twenty cuts on two positions of their own each, and then every value of two more positions: each way through meets the same end. */
static void repeats(void) {
    begin(42);
    for (unsigned i = 0; i < 20; i++) {
        uint8_t *c = add_cut();
        c[2 * i] = c[2 * i + 1] = 2;
    }
    for (unsigned v = 0; v < 4; v++) {
        uint8_t *c = add_cut();
        c[40] = (uint8_t)(1 + v / 2);
        c[41] = (uint8_t)(1 + v % 2);
    }
    keep_difference();
}

/* Region files of 256 permits, asked for headers near their bases. */
static void membership(void) {
    static uint8_t headers[16][13];
    for (unsigned i = 0; i < 16; i++) {
        seed = 90000 + i;
        v4_base();
        open_file();
        for (unsigned d = 0; d < 256; d++) {
            v4_base();
            for (unsigned j = between(1, 8); j > 0; j--)
                v4_cut();
            put_difference();
        }
        for (unsigned p = 0; p < width; p++)
            if (cubes[0][p] == 2 || (cubes[0][p] == 3 && below(2)))
                headers[i][p / 8] |= (uint8_t)(128 >> p % 8);
        keep(headers[i], sizeof headers[i]);
    }
}

const char *const class_names[] = { "permits.few", "permits.many", "permits.long", "ipv6.many", "ipv6.long", "pairs", "equality", "repeats", "member", NULL };

struct class class_named(const char *name) {
    struct class c = { name, "", questions, 0 };
    asked = 0;
    if (!strcmp(name, "permits.few"))
        c.what = "W 99, 1 to 8 cuts", permits(1000, v4_base, v4_cut, 1, 8, 1, 4000000, 48);
    else if (!strcmp(name, "permits.many"))
        c.what = "W 99, 33 to 64 cuts, below 1,000 pieces", permits(20000, v4_base, v4_cut, 33, 64, 1, 1000, 48);
    else if (!strcmp(name, "permits.long"))
        c.what = "W 99, 33 to 64 cuts, 1,000 to 4,000,000 pieces", permits(20000, v4_base, v4_cut, 33, 64, 1000, 4000000, 8);
    else if (!strcmp(name, "ipv6.many"))
        c.what = "W 320, 33 to 64 cuts, below 1,000 pieces", permits(40000, v6_base, v6_cut, 33, 64, 1, 1000, 24);
    else if (!strcmp(name, "ipv6.long"))
        c.what = "W 320, 33 to 64 cuts, 1,000 to 4,000,000 pieces", permits(40000, v6_base, v6_cut, 33, 64, 1000, 4000000, 4);
    else if (!strcmp(name, "pairs"))
        c.what = "W 16, 32 random cuts on two positions", pairs();
    else if (!strcmp(name, "equality"))
        c.what = "W 99, equality of two fields of 32 positions", equality();
    else if (!strcmp(name, "repeats"))
        c.what = "W 42, 5,242,879 pieces that repeat themselves", repeats();
    else if (!strcmp(name, "member"))
        c.what = "W 99, membership in 256 differences", membership();
    c.count = asked;
    return c;
}
