/* A function with a run call's parameters that does nothing: what its call takes of the stack is taken by the parameters alone. */
#include "till.h"

till_outcome nothing_decode(till_run run, TILL_TABLES, const uint8_t *piece, size_t piece_len, uint8_t last, uint16_t *out, size_t out_len)
{
    (void)page, (void)default_byte, (void)default_unit, (void)classes, (void)classes_len, (void)singles, (void)singles_len;
    (void)pairs, (void)pairs_len, (void)index, (void)index_len, (void)blocks, (void)blocks_len;
    (void)piece, (void)piece_len, (void)last, (void)out, (void)out_len;
    till_outcome o = {run, 0, 0, 0};
    return o;
}
