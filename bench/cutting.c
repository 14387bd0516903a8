/* Throughput of cutting a decoded journal into fields, and of a whole import (decoding and cutting), beside a plain C loop (plain.c)
 * and glibc's iconv. Use: cutting TEXTS TABLES PASSES. */
#include <errno.h>
#include <iconv.h>
#include <inttypes.h>
#include "common.h"
#include "plain.h"

#define BLOCK 512
#define ROUNDS 4
#define TEXTS 3

typedef till_field cutter(size_t, uint16_t *, size_t, const uint16_t *, size_t, uint8_t);

/* What a program keeps between blocks, and what it learns of the fields. */
typedef struct {
    size_t held, fields, records, units;
    uint16_t buffer[TILL_FIELD_LIMIT];
} cut_state;

/* All fields of a block. */
static inline void cut_block(cut_state *s, cutter *next, const uint16_t *block, size_t n, int last)
{
    size_t at = 0;
    while (at < n || last) {
        till_field f = next(s->held, s->buffer, TILL_FIELD_LIMIT, block + at, n - at, (uint8_t)last);
        if (f.number > 1)
            die("a field call was refused");
        s->held = f.held;
        at += f.read;
        if (f.number == 1)
            break;
        s->fields++;
        s->records += f.end == TILL_LINE_FEED;
        s->units += f.count;
    }
}

/* The same, with a sum over all units and ends: for the comparison, not for the clock. */
static uint64_t checked_cut(cutter *next, const uint16_t *units, size_t n, size_t block, cut_state *s)
{
    uint64_t sum = 0;
    size_t at = 0;
    memset(s, 0, sizeof *s);
    for (;;) {
        size_t part = n - at < block ? n - at : block;
        const uint16_t *here = units + at;
        till_field f = next(s->held, s->buffer, TILL_FIELD_LIMIT, here, part, at + part == n);
        if (f.number > 1)
            die("a field call was refused");
        s->held = f.held;
        at += f.read;
        if (f.number == 0) {
            const uint16_t *field = f.place == TILL_IN_BLOCK ? here : s->buffer;
            for (size_t i = 0; i < f.count; i++)
                sum = sum * 31 + field[i];
            sum = sum * 31 + f.end;
            s->fields++;
            s->records += f.end == TILL_LINE_FEED;
        } else if (at == n)
            return sum;
    }
}

static void cut_text(cut_state *s, cutter *next, const uint16_t *units, size_t n)
{
    size_t at = 0;
    memset(s, 0, sizeof *s);
    while (at < n) {
        size_t part = n - at < BLOCK ? n - at : BLOCK;
        cut_block(s, next, units + at, part, at + part == n);
        at += part;
    }
}

/* An import by the till converter and its cutter. */
static void import_till(cut_state *s, const table_set *t, const uint8_t *text, size_t n)
{
    uint16_t units[2 * BLOCK];
    till_run run = fresh_run(t, TILL_DECODING);
    size_t at = 0;
    memset(s, 0, sizeof *s);
    while (at < n) {
        size_t part = n - at < BLOCK ? n - at : BLOCK;
        int last = at + part == n;
        till_outcome o = till_decode(run, TABLES(t), text + at, part, (uint8_t)last, units, 2 * BLOCK);
        if (o.number > 1)
            die("the till converter did not read a block");
        run = o.run;
        cut_block(s, till_next_field, units, o.written, last);
        at += part;
    }
}

/* An import by iconv and the plain loop. A lead at a block's end stays unread and begins the next block. */
static void import_iconv(cut_state *s, iconv_t cd, const uint8_t *text, size_t n)
{
    uint16_t units[2 * BLOCK];
    size_t at = 0;
    memset(s, 0, sizeof *s);
    iconv(cd, NULL, NULL, NULL, NULL);
    while (at < n) {
        size_t part = n - at < BLOCK ? n - at : BLOCK;
        int last = at + part == n;
        char *from = (char *)text + at, *to = (char *)units;
        size_t left = part, space = sizeof units;
        if (iconv(cd, &from, &left, &to, &space) == (size_t)-1 && (errno != EINVAL || last))
            die("iconv did not read a block");
        cut_block(s, plain_next_field, units, (size_t)(to - (char *)units) / 2, last);
        at += part - left;
    }
}

typedef struct {
    const char *name;
    uint8_t *bytes;
    uint16_t *units;
    size_t byte_count, unit_count;
    double best[4]; /* cut by till, by the plain loop; imported by till, by iconv and the plain loop */
} journal;

static int same(const cut_state *a, size_t fields, size_t records)
{
    return a->fields == fields && a->records == records;
}

/* Both cutters on the decoded text, in blocks of several sizes, and both imports, against what expected.py counted. */
static int open_journal(journal *j, const char *folder, const char *name, const table_set *t, iconv_t cd)
{
    char path[4096];
    size_t size, fields, records;
    uint64_t sum;
    static const size_t blocks[] = {1, 7, 255, 512, 65536};
    cut_state s;
    int differing = 0;
    j->name = name;
    snprintf(path, sizeof path, "%s/%s.bytes", folder, name);
    j->bytes = read_file(path, &j->byte_count);
    snprintf(path, sizeof path, "%s/%s.units", folder, name);
    j->units = (uint16_t *)read_file(path, &size);
    j->unit_count = size / 2;
    snprintf(path, sizeof path, "%s/%s.cut", folder, name);
    FILE *f = fopen(path, "r");
    if (!f || fscanf(f, "%zu %zu %" SCNu64, &fields, &records, &sum) != 3)
        die(path);
    fclose(f);
    for (size_t i = 0; i < sizeof blocks / sizeof *blocks; i++) {
        differing |= checked_cut(till_next_field, j->units, j->unit_count, blocks[i], &s) != sum || !same(&s, fields, records);
        differing |= checked_cut(plain_next_field, j->units, j->unit_count, blocks[i], &s) != sum || !same(&s, fields, records);
    }
    import_till(&s, t, j->bytes, j->byte_count);
    differing |= !same(&s, fields, records);
    import_iconv(&s, cd, j->bytes, j->byte_count);
    differing |= !same(&s, fields, records);
    for (int i = 0; i < 4; i++)
        j->best[i] = 1e9;
    return differing;
}

static void run_one(const journal *j, int what, const table_set *t, iconv_t cd)
{
    cut_state s;
    if (what == 0)
        cut_text(&s, till_next_field, j->units, j->unit_count);
    else if (what == 1)
        cut_text(&s, plain_next_field, j->units, j->unit_count);
    else if (what == 2)
        import_till(&s, t, j->bytes, j->byte_count);
    else
        import_iconv(&s, cd, j->bytes, j->byte_count);
}

int main(int argc, char **argv)
{
    char name[4096];
    if (argc != 4)
        die("use: cutting TEXTS TABLES PASSES");
    int passes = atoi(argv[3]), differing = 0, low = 0;
    snprintf(name, sizeof name, "%s/cp932.tbl", argv[2]);
    table_set t = read_image(name);
    iconv_t cd = iconv_open("UTF-16LE", "CP932");
    if (cd == (iconv_t)-1)
        die("iconv has no such page");
    static const char *const names[TEXTS] = {"journal", "figures", "notes"};
    journal journals[TEXTS];
    for (int i = 0; i < TEXTS; i++)
        differing |= open_journal(&journals[i], argv[1], names[i], &t, cd);
    for (int round = 0; round < ROUNDS; round++)
        for (int i = 0; i < TEXTS; i++)
            for (int turn = 0; turn < (passes + ROUNDS - 1) / ROUNDS; turn++)
                for (int what = 0; what < 4; what++) {
                    double from = now();
                    run_one(&journals[i], what, &t, cd);
                    double took = now() - from;
                    if (took < journals[i].best[what])
                        journals[i].best[what] = took;
                }
    printf("MB/s of input, best of %d passes; in parentheses till's speed over the other's (`!`: below 0.9, for imports below 2.0):\n\n", passes);
    printf("| Text | Units of a field | Cut: till | Plain C | Import: till | iconv and plain C |\n|---|---|---|---|---|---|\n");
    for (int i = 0; i < TEXTS; i++) {
        const journal *j = &journals[i];
        cut_state s;
        double cut = j->best[1] / j->best[0], import = j->best[3] / j->best[2], bytes = (double)j->byte_count;
        cut_text(&s, till_next_field, j->units, j->unit_count);
        low += (cut < 0.9) + (import < 2.0);
        printf("| %s | %.1f | %.0f | %.0f (%.2f%s) | %.0f | %.0f (%.2f%s) |\n", j->name, (double)s.units / (double)s.fields,
            2.0 * (double)j->unit_count / j->best[0] / 1e6, 2.0 * (double)j->unit_count / j->best[1] / 1e6, cut, cut < 0.9 ? " !" : "",
            bytes / j->best[2] / 1e6, bytes / j->best[3] / 1e6, import, import < 2.0 ? " !" : "");
    }
    printf("\n%d ratios below their bound; fields %s\n", low, differing ? "DIFFER" : "agree");
    return differing;
}
