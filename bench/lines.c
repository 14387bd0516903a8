/* Breaks of byte texts into lines: proposing and checking them beside decoding the same text by one run call.
 * The bound is for the 32 and 42 columns of receipt printers; narrower lines are shown beside them. Use: lines TEXTS TABLES PASSES. */
#include "common.h"

#define BLOCK 65536 /* bytes of a text */
#define BLOCKS 17   /* of a file at most */
#define WIDTH 16    /* the narrowest lines */
#define LIST (BLOCK / (WIDTH - 1) + 1) /* places that our breaks are sure to fit */
enum way { DECODE, PROPOSE, CHECK, WAYS };

static const struct {
    const char *name;
    int page;
} texts[] = {{"ascii", 0}, {"japanese", 0}, {"latin", 1}, {"damaged", 0}, {"journal", 0}};

static uint16_t units[2 * BLOCK];
static uint64_t breaks[BLOCKS][LIST];
static size_t counts[BLOCKS];

/* One pass over a text, a block a call: the sum of the units, of the breaks that were proposed, or of the numbers of the checks. */
static size_t pass(enum way way, const table_set *t, const uint8_t *text, size_t size, uint64_t width)
{
    size_t sum = 0;
    for (size_t at = 0, k = 0; at < size; at += BLOCK, k++) {
        size_t n = size - at < BLOCK ? size - at : BLOCK;
        if (way == DECODE) {
            till_run run = till_start(TILL_DECODING, t->page, TILL_REPLACING).run;
            sum += till_decode(run, TABLES(t), text + at, n, 1, units, 2 * BLOCK).written;
        } else if (way == PROPOSE) {
            till_breaks r = till_propose_breaks(TABLES(t), text + at, n, width, breaks[k], LIST);
            if (r.number != 0)
                die("no breaks");
            sum += counts[k] = r.count;
        } else {
            sum += till_check_breaks(TABLES(t), text + at, n, width, breaks[k], counts[k]);
        }
    }
    return sum;
}

int main(int argc, char **argv)
{
    table_set pages[2];
    static const uint64_t widths[] = {WIDTH, 32, 42};
    int under = 0;
    if (argc != 4)
        die("use: lines TEXTS TABLES PASSES");
    read_pages(argv[2], pages);
    printf("| Text | Width | decode | propose | check |\n|---|---|---|---|---|\n");
    for (size_t k = 0; k < sizeof texts / sizeof *texts; k++)
        for (size_t w = 0; w < sizeof widths / sizeof *widths; w++) {
            char name[4096];
            size_t size, wrong = 0;
            double best[WAYS] = {1e9, 1e9, 1e9};
            snprintf(name, sizeof name, "%s/%s.bytes", argv[1], texts[k].name);
            uint8_t *text = read_file(name, &size);
            if (size > (size_t)BLOCK * BLOCKS)
                die("a text is too long");
            const table_set *t = &pages[texts[k].page];
            for (int turn = 0; turn < atoi(argv[3]); turn++)
                for (enum way way = DECODE; way < WAYS; way++) {
                    double from = now();
                    size_t sum = pass(way, t, text, size, widths[w]);
                    double took = now() - from;
                    if (way == CHECK)
                        wrong += sum;
                    if (took < best[way])
                        best[way] = took;
                }
            free(text);
            if (wrong)
                die("our breaks are not acceptable");
            double ahead = best[DECODE] / best[PROPOSE], checked = best[DECODE] / best[CHECK];
            int bound = widths[w] > WIDTH;
            printf("| %s | %d | %.0f | %.0f (%.2f%s) | %.0f (%.2f%s) |\n", texts[k].name, (int)widths[w], size / best[DECODE] / 1e6, size / best[PROPOSE] / 1e6,
                ahead, bound && ahead < 1 ? " !" : "", size / best[CHECK] / 1e6, checked, bound && checked < 1 ? " !" : "");
            if (bound)
                under += (ahead < 1) + (checked < 1);
        }
    printf("\n%d ratios below their bound.\n", under);
    return 0;
}
