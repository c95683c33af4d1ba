/* Seeded questions, class by class. */
#ifndef CLASSES_H
#define CLASSES_H

#include <stddef.h>
#include <stdint.h>

struct question {
    uint8_t *file;
    size_t len;
    const uint8_t *header; /* membership; else NULL */
    size_t header_len;
};

struct class {
    const char *name, *what;
    struct question *questions;
    size_t count;
};

/* The class of that name; its count is 0 where there is none. */
struct class class_named(const char *name);

extern const char *const class_names[];

#endif
