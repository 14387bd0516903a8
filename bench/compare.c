/* Throughput of two archives of the converter in one interleaved run.
 * Use: compare TEXTS TABLES PASSES. For each row: text, direction, block in bytes, and both archives' best MB/s. The archives are
 * linked with their functions renamed: old_till_decode, new_till_decode and so on. */
#include "common.h"

#define CALL(name) \
    till_outcome name(till_run, uint16_t, uint8_t, uint16_t, const uint8_t *, size_t, const uint16_t *, size_t, const uint16_t *, \
        size_t, const uint8_t *, size_t, const uint16_t *, size_t, const void *, size_t, uint8_t, void *, size_t)
#define START(name) till_handed name(uint8_t, uint16_t, uint8_t, uint8_t, uint8_t)

typedef CALL(run_call);
typedef START(start_call);
CALL(old_till_decode);
CALL(new_till_decode);
CALL(old_till_encode);
CALL(new_till_encode);
START(new_till_start);

static run_call *const calls[2][2] = {{old_till_decode, old_till_encode}, {new_till_decode, new_till_encode}};

static const struct {
    const char *name;
    int page, directions; /* directions: 1 decoding, 2 encoding */
} texts[] = {{"ascii", 0, 3}, {"japanese", 0, 3}, {"latin", 1, 3}, {"damaged", 0, 3}, {"journal", 0, 3}, {"kana", 0, 3},
    {"figures", 0, 3}, {"emoji", 0, 2}};

static void pass(run_call *call, till_run run, const table_set *t, const uint8_t *text, size_t units, size_t unit, size_t block, uint8_t *out)
{
    for (size_t at = 0; at < units; at += block) {
        size_t n = units - at < block ? units - at : block;
        till_outcome o = call(run, TABLES(t), text + at * unit, n, at + n == units, out, 2 * n + 16);
        if (o.number > 1 || o.read != n)
            die("a block was not read whole");
        run = o.run;
    }
}

static void row(const char *folder, const table_set *t, int k, int direction, size_t bytes, int passes)
{
    char name[4096];
    size_t size, unit = direction ? 2 : 1;
    snprintf(name, sizeof name, "%s/%s.%s", folder, texts[k].name, direction ? "units" : "bytes");
    uint8_t *text = read_file(name, &size), *out = malloc(4 * bytes + 1024);
    double best[2] = {1e9, 1e9};
    till_run run = new_till_start((uint8_t)direction, t->page, 5, 5, 5).run;
    for (int turn = 0; turn < passes; turn++)
        for (int which = 0; which < 2; which++) {
            double from = now();
            pass(calls[which][direction], run, t, text, size / unit, unit, bytes / unit, out);
            double took = now() - from;
            if (took < best[which])
                best[which] = took;
        }
    printf("%s %s %zu %.1f %.1f\n", texts[k].name, direction ? "encode" : "decode", bytes, size / best[0] / 1e6, size / best[1] / 1e6);
    free(text);
    free(out);
}

int main(int argc, char **argv)
{
    table_set pages[2];
    if (argc != 4)
        die("use: compare TEXTS TABLES PASSES");
    read_pages(argv[2], pages);
    for (size_t k = 0; k < sizeof texts / sizeof *texts; k++)
        for (int direction = 0; direction < 2; direction++)
            for (size_t bytes = 512; bytes <= 65536; bytes *= 128)
                if (texts[k].directions >> direction & 1)
                    row(argv[1], &pages[texts[k].page], (int)k, direction, bytes, atoi(argv[3]));
    return 0;
}
