/* Encoding inside the one buffer that holds the units beside encoding from a separate buffer by the call on a whole text.
 * Use: in_place TEXTS TABLES PASSES. */
#include "common.h"

enum way { SEPARATE, IN_PLACE, WAYS };

static const struct {
    const char *name;
    int page;
} texts[] = {{"ascii", 0}, {"japanese", 0}, {"journal", 0}, {"latin", 1}, {"emoji", 0}};
static const size_t sizes[] = {512, 8192, 65536}; /* bytes of a buffer */
static uint8_t out[65537];

/* One pass over a text, a buffer of `size` bytes a call: the bytes written. In place the text is changed. */
static size_t pass(enum way way, const table_set *t, uint8_t *text, size_t all, size_t size)
{
    size_t sum = 0;
    for (size_t at = 0; at + size <= all; at += size) {
        if (way == SEPARATE)
            sum += till_encode_text(TILL_REPLACING, TABLES(t), (const uint16_t *)(text + at), size / 2, out, size + 1).written;
        else
            sum += till_encode_in_place(TILL_REPLACING, TABLES(t), text + at, size).written;
    }
    return sum;
}

int main(int argc, char **argv)
{
    int under = 0;
    char path[4096];
    table_set pages[2];
    if (argc != 4)
        die("use: in_place TEXTS TABLES PASSES");
    read_pages(argv[2], pages);
    printf("| Text | Buffer | separate | in place |\n|---|---|---|---|\n");
    for (size_t k = 0; k < sizeof texts / sizeof *texts; k++)
        for (size_t b = 0; b < sizeof sizes / sizeof *sizes; b++) {
            size_t all, sums[WAYS] = {0};
            double best[WAYS] = {1e9, 1e9};
            snprintf(path, sizeof path, "%s/%s.units", argv[1], texts[k].name);
            uint8_t *text = read_file(path, &all), *units = malloc(all);
            if (!units)
                die("no memory");
            for (int turn = 0; turn < atoi(argv[3]); turn++)
                for (enum way way = SEPARATE; way < WAYS; way++) {
                    memcpy(units, text, all);
                    double from = now();
                    sums[way] = pass(way, &pages[texts[k].page], units, all, sizes[b]);
                    double took = now() - from;
                    if (took < best[way])
                        best[way] = took;
                }
            free(text);
            free(units);
            if (sums[SEPARATE] != sums[IN_PLACE])
                die("another number of bytes was written");
            double ratio = best[SEPARATE] / best[IN_PLACE];
            printf("| %s | %d | %.0f | %.0f (%.2f%s) |\n", texts[k].name, (int)sizes[b], all / best[SEPARATE] / 1e6, all / best[IN_PLACE] / 1e6, ratio, ratio < 0.5 ? " !" : "");
            under += ratio < 0.5;
        }
    printf("\n%d ratios below their bound.\n", under);
    return 0;
}
