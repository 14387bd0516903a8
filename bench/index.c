/* Finding code n of a journal of 65,536 bytes by its index, beside reading from the journal's front: by the same call with an index
 * that has no later block to begin at, and by a plain loop over the classes. Use: index TEXTS TABLES PASSES. */
#include "common.h"

#define SIZE 65536
#define ENTRIES (SIZE / 512)
#define FINDS 1000
enum way { INDEXED, FRONT, PLAIN, APPEND, WAYS };

static const char *const texts[] = {"ascii", "japanese", "damaged", "journal"};

/* Code n by reading from the front: a lead byte takes the byte after it, unless that is below 80 and may not be second. */
static size_t plain_find(const table_set *t, const uint8_t *text, size_t size, uint64_t n)
{
    size_t at = 0;
    for (; at < size; n--) {
        if (n == 0)
            return at;
        int lead = (t->classes[text[at]] & 3) == 2 && at + 1 < size && (0x80 <= text[at + 1] || t->classes[text[at + 1]] & 4);
        at += 1 + lead;
    }
    return size;
}

/* FINDS codes, spread over the journal: the sum of their places. */
static size_t finds(enum way way, const table_set *t, const uint8_t *text, const uint32_t *entries, uint64_t codes)
{
    size_t sum = 0;
    for (uint64_t k = 0; k < FINDS; k++) {
        uint64_t n = k * 7919 % codes;
        if (way == PLAIN)
            sum += plain_find(t, text, SIZE, n);
        else
            sum += till_find_code(TABLES(t), text, SIZE, entries, ENTRIES, n).place;
    }
    return sum;
}

int main(int argc, char **argv)
{
    int under = 0;
    char path[4096];
    if (argc != 4)
        die("use: index TEXTS TABLES PASSES");
    snprintf(path, sizeof path, "%s/cp932.tbl", argv[2]);
    table_set page = read_image(path);
    printf("| Text | find by the index, ns | from the front, ns | a plain loop, ns | index made anew, us |\n|---|---|---|---|---|\n");
    for (size_t k = 0; k < sizeof texts / sizeof *texts; k++) {
        uint32_t entries[ENTRIES], none[ENTRIES];
        size_t size, sums[WAYS] = {0};
        double best[WAYS] = {1e9, 1e9, 1e9, 1e9};
        snprintf(path, sizeof path, "%s/%s.bytes", argv[1], texts[k]);
        uint8_t *text = read_file(path, &size);
        if (size < SIZE || till_append_index(TABLES(&page), text, SIZE, 0, entries, ENTRIES).count != ENTRIES)
            die("no index");
        for (size_t i = 0; i < ENTRIES; i++)
            none[i] = i == 0 ? 0 : UINT32_MAX;
        uint64_t codes = entries[ENTRIES - 1] / 2;
        for (int turn = 0; turn < atoi(argv[3]); turn++)
            for (enum way way = INDEXED; way < WAYS; way++) {
                double from = now();
                if (way == APPEND)
                    till_append_index(TABLES(&page), text, SIZE, 0, entries, ENTRIES);
                else
                    sums[way] = finds(way, &page, text, way == INDEXED ? entries : none, codes);
                double took = now() - from;
                if (took < best[way])
                    best[way] = took;
            }
        free(text);
        if (sums[INDEXED] != sums[FRONT] || sums[INDEXED] != sums[PLAIN])
            die("another code was found");
        double front = best[FRONT] / best[INDEXED], plain = best[PLAIN] / best[INDEXED];
        printf("| %s | %.0f | %.0f (%.0f%s) | %.0f (%.0f%s) | %.0f |\n", texts[k], best[INDEXED] / FINDS * 1e9, best[FRONT] / FINDS * 1e9, front, front < 20 ? " !" : "",
            best[PLAIN] / FINDS * 1e9, plain, plain < 20 ? " !" : "", best[APPEND] * 1e6);
        under += (front < 20) + (plain < 20);
    }
    printf("\n%d ratios below their bound.\n", under);
    return 0;
}
