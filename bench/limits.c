/* The stack that a call takes, and how a call's cost grows with its piece and with the leads of the table set.
 * Use: limits TEXTS TABLES. */
#include <pthread.h>
#include <sys/mman.h>
#include "common.h"

till_outcome nothing_decode(till_run run, TILL_TABLES, const uint8_t *piece, size_t piece_len, uint8_t last, uint16_t *out, size_t out_len);

#define STACK (1 << 20)
#define PAINT 0xA5

enum call { NOTHING, DECODE, ENCODE, DECODE_HERE, ENCODE_HERE, START, SAVE, LOAD, SHAPE, CALLS };
static const char *const call_names[CALLS] = {"(parameters of a run call)", "till_decode", "till_encode", "till_decode_here", "till_encode_here", "till_start", "till_save", "till_load", "till_shape"};

static table_set pages[2]; /* 932, 1252 */
static uint8_t *text;
static size_t text_size, piece_size;
static uint8_t *lowest_free; /* the painted part of the thread's stack: its lowest byte, and the stack pointer of the caller */
static enum call which;
static uint16_t units_out[200000];
static uint8_t bytes_out[200000], line[TILL_LINE_LIMIT];
static till_outcome outcome;
static till_here here;
static till_run record;
static till_handed handed;
static till_saved saved;
static till_fault fault;
static size_t deepest;

static const table_set *volatile page_now = pages;

static int is_encoding(enum call c)
{
    return c == ENCODE || c == ENCODE_HERE;
}

/* Paints the free stack, makes one call, and looks for the deepest byte that is no longer painted. */
__attribute__((noinline)) static size_t painted_call(const uint8_t *piece)
{
    const table_set *t = page_now;
    till_run run = fresh_run(t, is_encoding(which));
    record = run;
    uint8_t *sp;
    __asm__ volatile("mov %%rsp, %0" : "=r"(sp));
    /* not by memset: its frame would lie in what is painted */
    for (volatile uint8_t *p = lowest_free; p < sp; p++)
        *p = PAINT;
    switch (which) {
    case NOTHING: outcome = nothing_decode(run, TABLES(t), piece, piece_size, 1, units_out, 200000); break;
    case DECODE: outcome = till_decode(run, TABLES(t), piece, piece_size, 1, units_out, 200000); break;
    case ENCODE: outcome = till_encode(run, TABLES(t), (const uint16_t *)piece, piece_size / 2, 1, bytes_out, 200000); break;
    case DECODE_HERE: here = till_decode_here(&record, TABLES(t), piece, piece_size, 1, units_out, 200000); break;
    case ENCODE_HERE: here = till_encode_here(&record, TABLES(t), (const uint16_t *)piece, piece_size / 2, 1, bytes_out, 200000); break;
    case START: handed = till_start(0, t->page, 5, 5, 5); break;
    case SAVE: saved = till_save(run, line, sizeof line); break;
    case LOAD: handed = till_load(line, saved.size); break;
    default: fault = till_shape(TABLES(t)); break;
    }
    uint8_t *p = lowest_free;
    while (p < sp && *(volatile uint8_t *)p == PAINT)
        p++;
    return (size_t)(sp - p);
}

static void *on_thread(void *stack)
{
    lowest_free = stack;
    for (size_t at = 0; at + piece_size <= text_size; at += piece_size) {
        size_t n = painted_call(text + at);
        if (n > deepest)
            deepest = n;
        if (piece_size < 4096 && at > 40 * piece_size)
            break;
        if (which < DECODE || which > ENCODE_HERE)
            break;
    }
    return NULL;
}

static void measure_stack(enum call c, size_t size)
{
    pthread_attr_t a;
    pthread_t id;
    void *stack = mmap(NULL, STACK, PROT_READ | PROT_WRITE, MAP_PRIVATE | MAP_ANONYMOUS, -1, 0);
    which = c;
    piece_size = size;
    pthread_attr_init(&a);
    if (stack == MAP_FAILED || pthread_attr_setstack(&a, stack, STACK) || pthread_create(&id, &a, on_thread, stack))
        die("no thread");
    pthread_join(id, NULL);
    munmap(stack, STACK);
}

static void load_text(const char *folder, const char *name, const char *kind)
{
    char path[4096];
    free(text);
    snprintf(path, sizeof path, "%s/%s.%s", folder, name, kind);
    text = read_file(path, &text_size);
}

static void stack_table(const char *folder)
{
    /* a page with lead bytes, and one of single bytes: they go by loops of their own */
    static const struct {
        const char *name;
        int page;
    } texts[] = {{"ascii", 0}, {"japanese", 0}, {"damaged", 0}, {"journal", 0}, {"latin", 1}, {"damaged", 1}};
    printf("\nStack of a call, in bytes below the caller's stack pointer (parameters and return address included), the deepest byte\n"
           "written over pieces of 1, 512 and 65,536 bytes of six texts, of the pages 932 and 1252:\n\n");
    printf("| Call | Bytes |\n|---|---|\n");
    for (enum call c = NOTHING; c < CALLS; c++) {
        deepest = 0;
        for (size_t k = 0; k < sizeof texts / sizeof *texts; k++) {
            page_now = &pages[texts[k].page];
            load_text(folder, texts[k].name, is_encoding(c) ? "units" : "bytes");
            measure_stack(c, is_encoding(c) ? 2 : 1);
            measure_stack(c, 512);
            measure_stack(c, 65536);
        }
        printf("| %s | %zu%s |\n", call_names[c], deepest, deepest < 512 ? "" : " !");
    }
}

/* Nanoseconds of one call, the best of many. */
static double call_time(const table_set *t, int encode, const void *piece, size_t bytes)
{
    till_run run = fresh_run(t, (uint8_t)encode);
    double best = 1e9;
    int calls = bytes < 4096 ? 64 : 8;
    for (int turn = 0; turn < 300; turn++) {
        double from = now();
        for (int k = 0; k < calls; k++) {
            till_outcome o = encode ? till_encode(run, TABLES(t), piece, bytes / 2, 0, bytes_out, 200000)
                                    : till_decode(run, TABLES(t), piece, bytes, 0, units_out, 200000);
            if (o.number > 1)
                die("a call was refused");
        }
        double took = (now() - from) / calls;
        if (took < best)
            best = took;
    }
    return best * 1e9;
}

static void growth_table(const char *folder)
{
    static const size_t sizes[5] = {512, 1024, 4096, 16384, 65536};
    static const char *const names[2] = {"ascii", "japanese"};
    printf("\nNanoseconds of one call by the bytes of its piece (page 932, best of 300 rounds; in parentheses ns for a byte):\n\n");
    printf("| Text | Direction | 512 | 1,024 | 4,096 | 16,384 | 65,536 |\n|---|---|---|---|---|---|---|\n");
    for (int encode = 0; encode < 2; encode++)
        for (int k = 0; k < 2; k++) {
            load_text(folder, names[k], encode ? "units" : "bytes");
            printf("| %s | %s |", names[k], encode ? "encode" : "decode");
            for (int i = 0; i < 5; i++) {
                double ns = call_time(&pages[0], encode, text, sizes[i]);
                printf(" %.0f (%.2f) |", ns, ns / (double)sizes[i]);
            }
            printf("\n");
        }
}

/* A table set with leads from 80 on, so far apart: ASCII, and every pair of a lead with 40 to 7E has a character of its own. */
static table_set made_page(unsigned leads, unsigned apart)
{
    table_set t;
    t.page = 7;
    t.default_byte = 0x3F;
    t.default_unit = 0xFFFD;
    t.sizes[0] = t.sizes[1] = t.sizes[3] = 256;
    t.sizes[2] = 256 * leads;
    t.sizes[4] = 256 * 256;
    t.classes = calloc(256, 1);
    t.singles = malloc(512);
    t.pairs = malloc(512 * leads + 64);
    t.index = malloc(256);
    t.blocks = malloc(2 * t.sizes[4]);
    memset(t.singles, 0xFF, 512);
    memset(t.pairs, 0xFF, 512 * leads);
    memset(t.blocks, 0xFF, 2 * t.sizes[4]);
    for (unsigned i = 0; i < 256; i++) {
        t.index[i] = (uint8_t)i;
        t.classes[i] = i < 128 ? 1 : 0;
        if (i < 128)
            t.singles[i] = t.blocks[i] = (uint16_t)i;
    }
    for (unsigned i = 0x40; i < 0x7F; i++)
        t.classes[i] = 5;
    for (unsigned j = 0; j < leads; j++) {
        unsigned lead = 0x80 + apart * j;
        t.classes[lead] = 2;
        for (unsigned i = 0x40; i < 0x7F; i++) {
            uint16_t unit = (uint16_t)(0x4000 + j * 64 + i);
            t.pairs[256 * j + i] = unit;
            t.blocks[unit] = (uint16_t)(lead << 8 | i);
        }
    }
    return t;
}

static void leads_table(const char *folder)
{
    enum { SETS = 8 };
    static const unsigned counts[SETS] = {0, 1, 2, 32, 60, 128, 32, 60}, apart[SETS] = {1, 1, 1, 1, 1, 1, 2, 2};
    table_set sets[SETS];
    uint8_t pairs[SETS][512];
    uint16_t units[SETS][256];
    uint32_t seed = 1;
    for (int i = 0; i < SETS; i++) {
        sets[i] = made_page(counts[i], apart[i]);
        for (int k = 0; k < 256; k++) {
            seed = seed * 1664525 + 1013904223;
            unsigned j = counts[i] ? (seed >> 16) % counts[i] : 0, second = 0x40 + (seed >> 8) % 63;
            pairs[i][2 * k] = (uint8_t)(counts[i] ? 0x80 + apart[i] * j : second);
            pairs[i][2 * k + 1] = (uint8_t)second;
            units[i][k] = (uint16_t)(counts[i] ? 0x4000 + j * 64 + second : second);
        }
    }
    printf("\nNanoseconds of one call of 512 bytes by the leads of the table set (made page, 256 blocks; pairs: 256 random pairs, with no\n"
           "lead 512 single bytes; gaps: every other byte from 80 on is a lead):\n\n");
    printf("| Text | Direction | 0 | 1 | 2 | 32 | 60 | 128 | 32, gaps | 60, gaps |\n|---|---|---|---|---|---|---|---|---|---|\n");
    for (int encode = 0; encode < 2; encode++) {
        load_text(folder, "ascii", encode ? "units" : "bytes");
        for (int k = 0; k < 2; k++) {
            printf("| %s | %s |", k ? "pairs" : "ascii", encode ? "encode" : "decode");
            for (int i = 0; i < SETS; i++)
                printf(" %.0f |", call_time(&sets[i], encode, k ? (encode ? (const void *)units[i] : pairs[i]) : text, 512));
            printf("\n");
        }
    }
}

int main(int argc, char **argv)
{
    if (argc != 3)
        die("use: limits TEXTS TABLES");
    read_pages(argv[2], pages);
    stack_table(argv[1]);
    growth_table(argv[1]);
    leads_table(argv[1]);
    return 0;
}
