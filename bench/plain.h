/* The plain C loop: as till_next_field of till.h. */
#ifndef PLAIN_H
#define PLAIN_H
#include "till.h"

till_field plain_next_field(size_t held, uint16_t *buffer, size_t buffer_len, const uint16_t *block, size_t block_len, uint8_t last);
#endif
