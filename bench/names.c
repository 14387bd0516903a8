/* The standard spelling of a list of names beside decoding it and encoding the units by two calls on the whole text.
 * Use: names TEXTS TABLES PASSES. */
#include "common.h"

#define SIZE 65536
enum way { TWO_CALLS, SPELL, WAYS };

static const struct {
    const char *name;
    int page;
} texts[] = {{"names", 0}, {"journal", 0}, {"japanese", 0}, {"latin", 1}, {"ascii", 0}};
static uint16_t units[SIZE + 1];
static uint8_t out[SIZE];

/* How many bytes the spelling has. */
static size_t spelled(enum way way, const table_set *t, const uint8_t *text)
{
    if (way == SPELL) {
        till_spelled r = till_spell(TABLES(t), text, SIZE, out, SIZE);
        if (r.number != 0)
            die("no spelling");
        return r.written;
    }
    till_text decoded = till_decode_text(TILL_STANDARD, TABLES(t), text, SIZE, units, SIZE + 1);
    return till_encode_text(TILL_STANDARD, TABLES(t), units, decoded.written, out, SIZE).written;
}

int main(int argc, char **argv)
{
    int under = 0;
    char path[4096];
    if (argc != 4)
        die("use: names TEXTS TABLES PASSES");
    table_set pages[2];
    read_pages(argv[2], pages);
    printf("| Text | decode and encode | spell |\n|---|---|---|\n");
    for (size_t k = 0; k < sizeof texts / sizeof *texts; k++) {
        size_t size, sizes[WAYS] = {0};
        double best[WAYS] = {1e9, 1e9};
        snprintf(path, sizeof path, "%s/%s.bytes", argv[1], texts[k].name);
        uint8_t *text = read_file(path, &size);
        if (size < SIZE)
            die("a text is too short");
        end_with_line(text, SIZE);
        for (int turn = 0; turn < atoi(argv[3]); turn++)
            for (enum way way = TWO_CALLS; way < WAYS; way++) {
                double from = now();
                for (int times = 0; times < 16; times++)
                    sizes[way] = spelled(way, &pages[texts[k].page], text);
                double took = (now() - from) / 16;
                if (took < best[way])
                    best[way] = took;
            }
        free(text);
        if (sizes[TWO_CALLS] != sizes[SPELL])
            die("the spellings differ");
        double ratio = best[TWO_CALLS] / best[SPELL];
        printf("| %s | %.0f | %.0f (%.2f%s) |\n", texts[k].name, SIZE / best[TWO_CALLS] / 1e6, SIZE / best[SPELL] / 1e6, ratio, ratio < 0.5 ? " !" : "");
        under += ratio < 0.5;
    }
    printf("\n%d ratios below their bound.\n", under);
    return 0;
}
