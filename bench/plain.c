/* The plain C loop that the cutter is measured beside: the same job, the same answers, no proof. A file of its own, as a library
 * would be. */
#include <string.h>
#include "plain.h"

till_field plain_next_field(size_t held, uint16_t *buffer, size_t buffer_len, const uint16_t *block, size_t block_len, uint8_t last)
{
    till_field f = {0, 0, held, 0, 0, 0};
    size_t size = 0;
    if (last > 1) {
        f.number = 12;
        return f;
    }
    if (buffer_len < TILL_FIELD_LIMIT) {
        f.number = 20;
        return f;
    }
    if (block_len > TILL_PIECE_LIMIT) {
        f.number = 11;
        return f;
    }
    if (held > TILL_FIELD_LIMIT) {
        f.number = 27;
        return f;
    }
    while (size < block_len && block[size] != 0x7C && block[size] != 0x0A)
        size++;
    if (held + size > TILL_FIELD_LIMIT) {
        f.number = 21;
        return f;
    }
    if (size < block_len) {
        f.end = block[size] == 0x7C ? TILL_BAR : TILL_LINE_FEED;
        f.read = size + 1;
    } else if (last && held + size > 0) {
        f.end = TILL_TEXT_END;
        f.read = size;
    } else {
        memcpy(buffer + held, block, 2 * size);
        f.number = 1;
        f.read = size;
        f.held = held + size;
        return f;
    }
    f.held = 0;
    f.count = held + size;
    if (held == 0) {
        f.place = TILL_IN_BLOCK;
        return f;
    }
    memcpy(buffer + held, block, 2 * size);
    return f;
}
