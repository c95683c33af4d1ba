/* bench list           the classes
   bench check CLASS    both answer every question of the class alike; prints questions, pieces and bytes of files
   bench ours CLASS     asks the archive each question once
   bench plain CLASS    asks the baseline each question once */
#include <stdio.h>
#include <stdlib.h>
#include <string.h>

#include "classes.h"
#include "plain.h"

static const uint32_t all = 4294967295u;

struct reply {
    struct permit_answer answer;
    uint8_t header[40];
};

/* What is counted is what happens inside these two. */
__attribute__((noinline)) struct reply ask_ours(const struct question *q);
__attribute__((noinline)) struct reply ask_plain(const struct question *q);

struct reply ask_ours(const struct question *q) {
    struct reply r = { .header = { 0 } };
    r.answer = q->header ? permit_member(q->file, q->len, q->header, q->header_len) : permit_empty(q->file, q->len, all, r.header, sizeof r.header);
    return r;
}

struct reply ask_plain(const struct question *q) {
    struct reply r = { .header = { 0 } };
    r.answer = q->header ? plain_member(q->file, q->len, q->header, q->header_len) : plain_empty(q->file, q->len, all, r.header, sizeof r.header);
    return r;
}

static int alike(const struct reply *a, const struct reply *b) {
    return a->answer.number == b->answer.number && a->answer.operand == b->answer.operand && a->answer.offset == b->answer.offset
           && a->answer.count == b->answer.count && a->answer.written == b->answer.written && a->answer.index == b->answer.index
           && !memcmp(a->header, b->header, sizeof a->header);
}

static int check(const struct class *c) {
    unsigned long long pieces = 0, bytes = 0;
    for (size_t i = 0; i < c->count; i++) {
        struct reply a = ask_ours(&c->questions[i]), b = ask_plain(&c->questions[i]);
        if (!alike(&a, &b)) {
            printf("%s: question %zu differs: number %u count %u index %u, baseline number %u count %u index %u\n", c->name, i,
                   (unsigned)a.answer.number, (unsigned)a.answer.count, (unsigned)a.answer.index, (unsigned)b.answer.number,
                   (unsigned)b.answer.count, (unsigned)b.answer.index);
            return 1;
        }
        pieces += a.answer.count;
        bytes += c->questions[i].len;
    }
    printf("%zu %llu %llu %s\n", c->count, pieces, bytes, c->what);
    return 0;
}

int main(int argc, char **argv) {
    if (argc == 2 && !strcmp(argv[1], "list")) {
        for (size_t i = 0; class_names[i]; i++)
            puts(class_names[i]);
        return 0;
    }
    if (argc != 3)
        return 2;
    struct class c = class_named(argv[2]);
    if (c.count == 0)
        return 2;
    if (!strcmp(argv[1], "check"))
        return check(&c);
    struct reply (*ask)(const struct question *) = !strcmp(argv[1], "ours") ? ask_ours : ask_plain;
    unsigned sum = 0;
    for (size_t i = 0; i < c.count; i++)
        sum += ask(&c.questions[i]).answer.number;
    printf("%u\n", sum);
    return 0;
}
