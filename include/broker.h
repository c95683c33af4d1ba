/* The two questions that the packet broker's C host asks of a region file. Link libbroker.a. */
#ifndef BROKER_H
#define BROKER_H

#include <stddef.h>
#include <stdint.h>

/* The index of a result where no difference decided. */
#define PERMIT_NO_DIFFERENCE 65535u

/* A result: its number (docs/FORMAT.md, 31 to 49), the operand at fault (1, 2, else 0), the offset of the record at
   fault, the count of pieces, the bytes written, and the index of the difference that decided, counted from 0
   (docs/FORMAT.md, 150 to 152). A part that has nothing to say is 0, but for the index: PERMIT_NO_DIFFERENCE. */
struct permit_answer {
    uint8_t number;
    uint8_t operand;
    size_t offset;
    uint32_t count;
    size_t written;
    uint16_t index;
};

/* Is the header in the region? 1 yes, and the index is that of the first difference that holds it; 2 no; or a
   refusal. */
struct permit_answer permit_member(const uint8_t *region, size_t region_len, const uint8_t *header, size_t header_len);

/* Is no header in the region? 1 none, 2 one is and is written to the front of the buffer, 3 undecided within the
   allowance, or a refusal. The index is that of the difference whose header is shown, or whose next visit the
   allowance does not pay for. Nothing but the header written changes in the buffer. */
struct permit_answer permit_empty(const uint8_t *region, size_t region_len, uint32_t allowance, uint8_t *header, size_t header_len);

#endif
