/* The baseline: the written walk and membership in plain C, by bytes, with every refusal of docs/FORMAT.md. */
#ifndef PLAIN_H
#define PLAIN_H

#include "broker.h"

struct permit_answer plain_member(const uint8_t *region, size_t region_len, const uint8_t *header, size_t header_len);
struct permit_answer plain_empty(const uint8_t *region, size_t region_len, uint32_t allowance, uint8_t *header, size_t header_len);

#endif
