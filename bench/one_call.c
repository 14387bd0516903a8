/* The call on a whole text: beside the run call on the same texts, and counting (no room) beside both and ICU's preflight.
 * Use: one_call TEXTS TABLES PASSES. */
#include <unicode/ucnv.h>
#include "common.h"

#define BLOCK 65536 /* bytes of a text */
enum way { RUN, ONE_CALL, COUNT, PREFLIGHT, WAYS };

static const struct {
    const char *name;
    int page;
} texts[] = {{"ascii", 0}, {"japanese", 0}, {"latin", 1}, {"damaged", 0}, {"journal", 0}};

static UConverter *icu[2];
static uint8_t out[4 * BLOCK];

/* Converts or counts a text, a block a call: the sum of what the calls wrote or say is needed. */
static size_t pass(enum way way, const table_set *t, int page, int encode, const uint8_t *text, size_t size)
{
    size_t sum = 0, unit = encode ? 2 : 1;
    for (size_t at = 0; at < size; at += BLOCK) {
        size_t n = (size - at < BLOCK ? size - at : BLOCK) / unit, room = way == COUNT ? 0 : 2 * BLOCK;
        const void *piece = text + at;
        if (way == RUN) {
            till_run run = till_start((uint8_t)encode, t->page, 5, 5, 5).run;
            till_outcome o = encode ? till_encode(run, TABLES(t), piece, n, 1, out, room) : till_decode(run, TABLES(t), piece, n, 1, (uint16_t *)out, room);
            sum += o.written;
        } else if (way == PREFLIGHT) {
            UErrorCode error = U_ZERO_ERROR;
            sum += (size_t)(encode ? ucnv_fromUChars(icu[page], NULL, 0, piece, (int32_t)n, &error) : ucnv_toUChars(icu[page], NULL, 0, piece, (int32_t)n, &error));
        } else {
            till_text r = encode ? till_encode_text(5, 5, 5, TABLES(t), piece, n, out, room)
                                 : till_decode_text(5, 5, 5, TABLES(t), piece, n, (uint16_t *)out, room);
            sum += way == COUNT ? r.need : r.written;
        }
    }
    return sum;
}

static int row(const char *folder, const table_set *t, int k, int encode, int passes)
{
    char name[4096];
    size_t size, sums[WAYS];
    double best[WAYS] = {1e9, 1e9, 1e9, 1e9};
    snprintf(name, sizeof name, "%s/%s.%s", folder, texts[k].name, encode ? "units" : "bytes");
    uint8_t *text = read_file(name, &size);
    for (int turn = 0; turn < passes; turn++)
        for (enum way way = RUN; way < WAYS; way++) {
            double from = now();
            sums[way] = pass(way, t, texts[k].page, encode, text, size);
            double took = now() - from;
            if (took < best[way])
                best[way] = took;
        }
    free(text);
    if (sums[ONE_CALL] != sums[RUN] || sums[COUNT] != sums[RUN])
        die("the calls do not agree");
    double costs = best[ONE_CALL] / best[RUN], counts = best[ONE_CALL] / best[COUNT], ahead = best[PREFLIGHT] / best[COUNT];
    printf("| %s | %s | %.0f | %.0f (%.3f%s) | %.0f (%.2f%s) | %.0f (%.2f%s) |\n", texts[k].name, encode ? "encode" : "decode", size / best[RUN] / 1e6,
        size / best[ONE_CALL] / 1e6, costs, costs <= 1.1 ? "" : " !", size / best[COUNT] / 1e6, counts, counts >= 1 ? "" : " !",
        size / best[PREFLIGHT] / 1e6, ahead, ahead >= 1 ? "" : " !");
    return (costs > 1.1) + (counts < 1) + (ahead < 1);
}

int main(int argc, char **argv)
{
    table_set pages[2];
    static const char *const names[2] = {"cp932.tbl", "cp1252.tbl"}, *const converters[2] = {"ibm-943_P15A-2003", "ibm-5348_P100-1997"};
    int over = 0;
    if (argc != 4)
        die("use: one_call TEXTS TABLES PASSES");
    for (int i = 0; i < 2; i++) {
        char path[4096];
        UErrorCode error = U_ZERO_ERROR;
        snprintf(path, sizeof path, "%s/%s", argv[2], names[i]);
        pages[i] = read_image(path);
        icu[i] = ucnv_open(converters[i], &error);
        if (U_FAILURE(error))
            die("ICU has not the page");
    }
    printf("MB/s of input, texts of 65,536 bytes. One call with room for all: in parentheses its time over the run call's. Counting: the one call\n"
           "with no room, and its speed over converting. ICU: its preflight, and counting's speed over it.\n\n");
    printf("| Text | Direction | run call | one call | counting | ICU |\n|---|---|---|---|---|---|\n");
    for (int encode = 0; encode < 2; encode++)
        for (int k = 0; k < 5; k++)
            over += row(argv[1], &pages[texts[k].page], k, encode, atoi(argv[3]));
    printf("\n%d ratios beyond their bound (1.1; 1.0; 1.0)\n", over);
    return 0;
}
