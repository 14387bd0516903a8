/* Throughput of the till converter and its peers: glibc's iconv, ICU and encoding_rs, in one interleaved run.
 * Use: bench TEXTS TABLES PASSES. TEXTS has the files of make_texts.py and expected.py, TABLES the table images. */
#include <errno.h>
#include <iconv.h>
#include <unicode/ucnv.h>
#include "common.h"

#define PEERS 4 /* the till converter is the first */
#define ENCODE TILL_ENCODING

static const char *const peer_names[PEERS] = {"till", "iconv", "ICU", "encoding_rs"};

/* The pages: the table image, and the peers' names. encoding_rs has no page 850 and 437. */
#define PAGES 8
static const struct {
    const char *image, *iconv, *icu;
    int ers;
} names[PAGES] = {{"cp932", "CP932", "ibm-943_P15A-2003", 1}, {"cp1252", "CP1252", "ibm-5348_P100-1997", 1},
    {"cp936", "CP936", "ibm-1386_P100-2001", 1}, {"cp949", "CP949", "ibm-1363_P11B-1998", 1}, {"cp950", "CP950", "ibm-1373_P100-2002", 1},
    {"cp874", "CP874", "ibm-874_P100-1995", 1}, {"cp850", "CP850", "ibm-850_P100-1995", 0}, {"cp437", "CP437", "ibm-437_P100-1995", 0}};
static table_set pages[PAGES];

/* The state that a converter keeps from block to block. */
typedef struct {
    int direction;
    const table_set *tables;
    till_run run;
    iconv_t iconv;
    size_t unread; /* units that a peer left unread at a block's end: the next block begins with them */
    UConverter *icu;
    void *ers; /* none where encoding_rs has not the page */
    int strict, replaced; /* strict: ICU stops where it would substitute; replaced: something was not converted */
} state;

void *ers_decoder(uint16_t page);
void *ers_encoder(uint16_t page);
void ers_reset_decoder(void *d, uint16_t page);
void ers_reset_encoder(void *e, uint16_t page);
ptrdiff_t ers_decode(void *d, const uint8_t *src, size_t n, int last, uint16_t *dst, size_t room);
ptrdiff_t ers_encode(void *e, const uint16_t *src, size_t n, int last, uint8_t *dst, size_t room);

/* Each feed takes n units of input (bytes or UTF-16 units) and gives the number of units of output written. */
static size_t feed_till(state *s, const void *in, size_t n, int last, void *out, size_t room)
{
    till_outcome o;
    if (s->direction == ENCODE)
        o = till_encode(s->run, TABLES(s->tables), in, n, (uint8_t)last, out, room);
    else
        o = till_decode(s->run, TABLES(s->tables), in, n, (uint8_t)last, out, room);
    if (o.number > 1 || o.read != n)
        die("the till converter did not read a block");
    s->run = o.run;
    s->replaced = o.run.flags != 0;
    return o.written;
}

/* How many bytes iconv's caller goes on at a bad place: one unit, in encoding a whole surrogate pair. */
static size_t bad_bytes(int direction, const char *from, size_t left)
{
    const uint8_t *b = (const uint8_t *)from;
    if (direction != ENCODE)
        return 1;
    return left >= 4 && (b[1] & 0xFC) == 0xD8 && (b[3] & 0xFC) == 0xDC ? 4 : 2;
}

/* iconv stops at each bad place: the caller writes the default and goes on behind it, as callers of iconv do. */
static size_t feed_iconv(state *s, const void *in, size_t n, int last, void *out, size_t room)
{
    size_t unit = s->direction == ENCODE ? 2 : 1, wide = s->direction == ENCODE ? 1 : 2;
    char *from = (char *)in, *to = out;
    size_t left = n * unit, space = room * wide;
    s->unread = 0;
    for (;;) {
        if (iconv(s->iconv, &from, &left, &to, &space) != (size_t)-1)
            break;
        if (errno == EINVAL && !last) {
            s->unread = left / unit;
            break;
        }
        if ((errno != EILSEQ && errno != EINVAL) || left < unit)
            die("iconv did not read a block");
        s->replaced = 1;
        size_t bad = bad_bytes(s->direction, from, left);
        from += bad;
        left -= bad;
        if (s->direction == ENCODE) {
            *to++ = (char)s->tables->default_byte;
        } else {
            *to++ = (char)s->tables->default_unit;
            *to++ = (char)(s->tables->default_unit >> 8);
        }
        space -= wide;
    }
    if (last && iconv(s->iconv, NULL, NULL, &to, &space) == (size_t)-1)
        die("iconv did not end");
    return (size_t)(to - (char *)out) / wide;
}

static size_t feed_icu(state *s, const void *in, size_t n, int last, void *out, size_t room)
{
    UErrorCode error = U_ZERO_ERROR;
    size_t written;
    if (s->direction == ENCODE) {
        const UChar *from = in;
        char *to = out;
        ucnv_fromUnicode(s->icu, &to, to + room, &from, from + n, NULL, (UBool)last, &error);
        written = (size_t)(to - (char *)out);
    } else {
        const char *from = in;
        UChar *to = out;
        ucnv_toUnicode(s->icu, &to, to + room, &from, from + n, NULL, (UBool)last, &error);
        written = (size_t)(to - (UChar *)out);
    }
    s->replaced = U_FAILURE(error);
    if (s->replaced && !s->strict)
        die("ICU did not read a block");
    return written;
}

/* encoding_rs takes a high surrogate at a block's end for one alone: the caller leaves it unread. */
static size_t feed_ers(state *s, const void *in, size_t n, int last, void *out, size_t room)
{
    s->unread = s->direction == ENCODE && !last && (((const uint16_t *)in)[n - 1] & 0xFC00) == 0xD800;
    n -= s->unread;
    ptrdiff_t written =
        s->direction == ENCODE ? ers_encode(s->ers, in, n, last, out, room) : ers_decode(s->ers, in, n, last, out, room);
    if (written < 0)
        die("encoding_rs did not read a block");
    return (size_t)written;
}

typedef size_t feeder(state *, const void *, size_t, int, void *, size_t);
static feeder *const feeders[PEERS] = {feed_till, feed_iconv, feed_icu, feed_ers};

static void open_state(state *s, int page, int direction)
{
    UErrorCode error = U_ZERO_ERROR;
    const char *name = names[page].iconv;
    s->direction = direction;
    s->tables = &pages[page];
    s->strict = s->replaced = 0;
    s->iconv = direction == ENCODE ? iconv_open(name, "UTF-16LE") : iconv_open("UTF-16LE", name);
    if (s->iconv == (iconv_t)-1)
        die("iconv has no such page");
    s->icu = ucnv_open(names[page].icu, &error);
    if (U_FAILURE(error))
        die("ICU has no such page");
    ucnv_setSubstChars(s->icu, "?", 1, &error);
    if (U_FAILURE(error))
        die("ICU does not write 3F");
    s->ers = !names[page].ers ? NULL : direction == ENCODE ? ers_encoder(s->tables->page) : ers_decoder(s->tables->page);
}

static void reset_state(state *s, int peer)
{
    if (peer == 0)
        s->run = fresh_run(s->tables, (uint8_t)s->direction);
    else if (peer == 1)
        iconv(s->iconv, NULL, NULL, NULL, NULL);
    else if (peer == 2)
        ucnv_reset(s->icu);
    else if (s->direction == ENCODE)
        ers_reset_encoder(s->ers, s->tables->page);
    else
        ers_reset_decoder(s->ers, s->tables->page);
}

/* A text through a converter in blocks of `block` units. With `step` 1 the output is joined, with 0 every block is written to the same place. */
static size_t pass(state *s, int peer, const uint8_t *text, size_t units, size_t block, uint8_t *out, int step)
{
    size_t unit = s->direction == ENCODE ? 2 : 1, wide = s->direction == ENCODE ? 1 : 2;
    size_t at = 0, written = 0;
    reset_state(s, peer);
    s->unread = 0;
    while (at < units) {
        size_t n = units - at < block ? units - at : block;
        written += feeders[peer](s, text + at * unit, n, at + n == units, out + (step ? written * wide : 0), 2 * n + 16);
        at += n - s->unread;
    }
    return written;
}

#define TEXTS 13

static const struct {
    const char *name;
    int page, damaged, encode_only;
} texts[TEXTS] = {{"ascii", 0, 0, 0}, {"japanese", 0, 0, 0}, {"latin", 1, 0, 0}, {"damaged", 0, 1, 0}, {"journal", 0, 0, 0},
    {"kana", 0, 0, 0}, {"chinese", 2, 0, 0}, {"korean", 3, 0, 0}, {"taiwan", 4, 0, 0}, {"thai", 5, 0, 0}, {"western", 6, 0, 0}, {"dos", 7, 0, 0},
    {"emoji", 0, 0, 1}};

/* How many codes (decoding: single bytes and pairs) or units (encoding) a peer converts as the till converter does. */
static void agreement(int page, int direction, int peer)
{
    const table_set *t = &pages[page];
    state s;
    size_t same = 0, other = 0, only_till = 0, only_peer = 0;
    uint8_t in[2], out[2][64];
    size_t written[2];
    UErrorCode error = U_ZERO_ERROR;
    open_state(&s, page, direction);
    s.strict = 1;
    ucnv_setToUCallBack(s.icu, UCNV_TO_U_CALLBACK_STOP, NULL, NULL, NULL, &error);
    ucnv_setFromUCallBack(s.icu, UCNV_FROM_U_CALLBACK_STOP, NULL, NULL, NULL, &error);
    for (unsigned code = 0; code < 65536; code++) {
        size_t n = 1;
        int bad[2];
        if (direction == ENCODE) {
            in[0] = (uint8_t)code;
            in[1] = (uint8_t)(code >> 8);
        } else if (code < 256) {
            if (t->classes[code] & 2)
                continue;
            in[0] = (uint8_t)code;
        } else {
            if (!(t->classes[code >> 8] & 2) || !(t->classes[code & 255] & 4))
                continue;
            in[0] = (uint8_t)(code >> 8);
            in[1] = (uint8_t)code;
            n = 2;
        }
        for (int k = 0; k < 2; k++) {
            int p = k ? peer : 0;
            s.replaced = 0;
            written[k] = pass(&s, p, in, n, n, out[k], 1);
            if (p == 3) /* encoding_rs says it by what it writes */
                s.replaced = direction == ENCODE ? out[k][0] == '?' && code != '?' : out[k][0] == 0xFD && out[k][1] == 0xFF;
            bad[k] = s.replaced || written[k] == 0;
        }
        if (bad[0] && bad[1])
            continue;
        if (bad[0])
            only_peer++;
        else if (bad[1])
            only_till++;
        else if (written[0] == written[1] && !memcmp(out[0], out[1], written[0] * (direction == ENCODE ? 1 : 2)))
            same++;
        else
            other++;
    }
    if (U_FAILURE(error))
        die("ICU takes no callback");
    printf("| %u | %s | %s | %zu | %zu | %zu | %zu |\n", t->page, direction == ENCODE ? "encode" : "decode", peer_names[peer], same, other,
        only_till, only_peer);
}

/* A row of the table: a text, a direction and a size of blocks in bytes. */
typedef struct {
    const char *name;
    state s;
    uint8_t *text, *out;
    size_t size, block;
    double best[PEERS];
} cell;

#define CELLS 50
#define ROUNDS 4

/* What is asked for of till's speed over a peer's. Short ASCII is encoded at memory's speed by encoding_rs, which tests no tables. */
static double bound(const cell *c, int peer)
{
    if (peer == 1)
        return 2.0;
    if (!strcmp(c->name, "journal"))
        return 1.5;
    return !strcmp(c->name, "ascii") && c->s.direction == ENCODE && c->block == 512 && peer == 3 ? 1.0 : 1.3;
}

static int has(const cell *c, int peer)
{
    return peer < 3 || c->s.ers;
}

static size_t cell_pass(cell *c, int peer, int step)
{
    size_t unit = c->s.direction == ENCODE ? 2 : 1;
    return pass(&c->s, peer, c->text, c->size / unit, c->block / unit, c->out, step);
}

/* Reads a row's text and compares each converter's output with the second converter's; peers only on sound text. */
static int open_cell(cell *c, const char *folder, int k, int direction, size_t block)
{
    char name[4096];
    size_t expected_size, wide = direction == ENCODE ? 1 : 2;
    int differing = 0;
    snprintf(name, sizeof name, "%s/%s.%s", folder, texts[k].name, direction == ENCODE ? "encoded" : "decoded");
    uint8_t *expected = read_file(name, &expected_size);
    snprintf(name, sizeof name, "%s/%s.%s", folder, texts[k].name, direction == ENCODE ? "units" : "bytes");
    c->name = texts[k].name;
    c->text = read_file(name, &c->size);
    c->out = malloc(4 * c->size + 1024);
    c->block = block;
    open_state(&c->s, texts[k].page, direction);
    for (int p = 0; p < PEERS && has(c, p); p++) {
        size_t written = cell_pass(c, p, 1);
        c->best[p] = 1e9;
        if ((p == 0 || !texts[k].damaged) && (written * wide != expected_size || memcmp(c->out, expected, expected_size))) {
            printf("%s: %s differs from the second converter\n", c->name, peer_names[p]);
            differing = 1;
        }
    }
    free(expected);
    return differing;
}

int main(int argc, char **argv)
{
    if (argc != 4)
        die("use: bench TEXTS TABLES PASSES");
    int passes = atoi(argv[3]);
    for (int page = 0; page < PAGES; page++)
        pages[page] = read_page(argv[2], names[page].image);

    printf("Codes (decoding) and units (encoding) one by one:\n\n");
    printf("| Page | Direction | Peer | Same | Other | Only till | Only peer |\n|---|---|---|---|---|---|---|\n");
    for (int page = 0; page < 2; page++)
        for (int direction = 0; direction < 2; direction++)
            for (int peer = 1; peer < PEERS; peer++)
                agreement(page, direction, peer);

    printf("\nMB/s of input; in parentheses till's speed over the peer's (`!`: below its bound):\n\n");
    printf("| Text | Direction | Block | till | iconv | ICU | encoding_rs |\n|---|---|---|---|---|---|---|\n");
    static cell cells[CELLS];
    int n = 0, low = 0, differing = 0;
    for (int direction = 0; direction < 2; direction++)
        for (int k = 0; k < TEXTS; k++)
            for (size_t block = 512; block <= 65536 && (direction == ENCODE || !texts[k].encode_only); block *= 128)
                differing |= open_cell(&cells[n++], argv[1], k, direction, block);
    /* several rounds over all cells, so that a busy second of the machine does not spoil one of them */
    for (int round = 0; round < ROUNDS; round++)
        for (int i = 0; i < CELLS; i++)
            for (int turn = 0; turn < (passes + ROUNDS - 1) / ROUNDS; turn++)
                for (int p = 0; p < PEERS && has(&cells[i], p); p++) {
                    double from = now();
                    cell_pass(&cells[i], p, 0);
                    double took = now() - from;
                    if (took < cells[i].best[p])
                        cells[i].best[p] = took;
                }
    for (int i = 0; i < CELLS; i++) {
        const cell *c = &cells[i];
        printf("| %s | %s | %zu | %.0f |", c->name, c->s.direction == ENCODE ? "encode" : "decode", c->block, (double)c->size / c->best[0] / 1e6);
        for (int p = 1; p < PEERS; p++) {
            if (!has(c, p)) {
                printf(" |");
                continue;
            }
            double ratio = c->best[p] / c->best[0];
            int mark = ratio < bound(c, p);
            low += mark;
            printf(" %.0f (%.2f%s) |", (double)c->size / c->best[p] / 1e6, ratio, mark ? " !" : "");
        }
        printf("\n");
    }
    printf("\n%d ratios below their bound; outputs %s\n", low, differing ? "DIFFER" : "agree");
    return differing;
}
