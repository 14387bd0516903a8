/* Listing the findings of a text beside counting it by the call on a whole text.
 * Use: findings TEXTS TABLES PASSES. */
#include "common.h"

#define SIZE 65536
#define LIST 1024
enum way { COUNT, FIND, WAYS };

/* How many bytes of a text are damaged, of 65,536: none in the texts that the bound is for. */
static const struct {
    const char *name;
    int page;
    int damaged;
} texts[] = {{"japanese", 0, 0}, {"journal", 0, 0}, {"latin", 1, 0}, {"ascii", 0, 0}, {"japanese", 0, 16}, {"journal", 0, 16}, {"ascii", 0, 16}, {"journal", 0, 1024}, {"ascii", 0, 1024}};
static till_finding list[LIST];

/* The flags of the whole reading, or a flag where there are findings. */
static int found(enum way way, const table_set *t, const uint8_t *text)
{
    if (way == FIND) {
        till_listed r = till_findings(TILL_REPLACING, TABLES(t), text, SIZE, list, LIST);
        if (r.number != 0)
            die("no findings");
        return r.count != 0;
    }
    till_text r = till_decode_text(TILL_REPLACING, TABLES(t), text, SIZE, NULL, 0);
    return (r.flags & 7) != 0;
}

int main(int argc, char **argv)
{
    int under = 0;
    char path[4096];
    if (argc != 4)
        die("use: findings TEXTS TABLES PASSES");
    table_set pages[2];
    read_pages(argv[2], pages);
    printf("| Text | damaged bytes | count | list findings |\n|---|---|---|---|\n");
    for (size_t k = 0; k < sizeof texts / sizeof *texts; k++) {
        size_t size;
        int any[WAYS] = {0};
        double best[WAYS] = {1e9, 1e9};
        snprintf(path, sizeof path, "%s/%s.bytes", argv[1], texts[k].name);
        uint8_t *text = read_file(path, &size);
        if (size < SIZE)
            die("a text is too short");
        end_with_line(text, SIZE);
        /* FF is never a code of page 932 */
        for (int i = 0; i < texts[k].damaged; i++)
            text[(size_t)i * (SIZE / texts[k].damaged) + SIZE / texts[k].damaged / 2] = 0xFF;
        for (int turn = 0; turn < atoi(argv[3]); turn++)
            for (enum way way = COUNT; way < WAYS; way++) {
                double from = now();
                for (int times = 0; times < 16; times++)
                    any[way] = found(way, &pages[texts[k].page], text);
                double took = (now() - from) / 16;
                if (took < best[way])
                    best[way] = took;
            }
        free(text);
        if (any[COUNT] != any[FIND] || any[FIND] != (texts[k].damaged != 0))
            die("findings and flags differ");
        double ratio = best[COUNT] / best[FIND];
        int low = texts[k].damaged == 0 && ratio < 0.8;
        printf("| %s | %d | %.0f | %.0f (%.2f%s) |\n", texts[k].name, texts[k].damaged, SIZE / best[COUNT] / 1e6, SIZE / best[FIND] / 1e6, ratio, low ? " !" : "");
        under += low;
    }
    printf("\n%d ratios below their bound.\n", under);
    return 0;
}
