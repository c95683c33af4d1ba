/* A packet broker's host: can any header come through the region in a file, is the header that it shows a member, and
   which permit lets it through? */
#include <stdio.h>
#include <stdlib.h>

#include "broker.h"

static uint8_t region[65536];

static void print_answer(const char *question, struct permit_answer a) {
    printf("%s: number %u operand %u offset %zu count %u written %zu index %u\n", question, (unsigned)a.number, (unsigned)a.operand, a.offset,
           (unsigned)a.count, a.written, (unsigned)a.index);
}

int main(int argc, char **argv) {
    if (argc != 2) {
        fprintf(stderr, "usage: host FILE\n");
        return 2;
    }
    FILE *file = fopen(argv[1], "rb");
    if (file == NULL) {
        perror(argv[1]);
        return 2;
    }
    size_t length = fread(region, 1, sizeof region, file);
    fclose(file);

    uint8_t header[40] = {0};
    struct permit_answer empty = permit_empty(region, length, 1000000, header, sizeof header);
    print_answer("empty", empty);
    if (empty.number != 2) {
        return 0;
    }
    printf("header:");
    for (size_t i = 0; i < empty.written; i++) {
        printf(" %02X", (unsigned)header[i]);
    }
    printf("\n");
    print_answer("member", permit_member(region, length, header, empty.written));
    return 0;
}
