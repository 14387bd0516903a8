/* Reads a table image (docs/CONSOLE.md, "A table image") for the calls of till.h. For programs that have files; a box has its tables in
 * flash. An image that is none ends the program with a message. */
#ifndef TABLE_IMAGE_H
#define TABLE_IMAGE_H
#include <stdint.h>
#include <stdio.h>
#include <stdlib.h>
#include <string.h>

/* A table set that is read from a table image. */
typedef struct {
    uint16_t page, default_unit;
    uint8_t default_byte;
    uint32_t sizes[5];
    uint8_t *classes;
    uint16_t *singles, *pairs;
    uint8_t *index;
    uint16_t *blocks;
} table_set;

#define TABLES(t) \
    (t)->page, (t)->default_byte, (t)->default_unit, (t)->classes, (t)->sizes[0], (t)->singles, (t)->sizes[1], (t)->pairs, \
        (t)->sizes[2], (t)->index, (t)->sizes[3], (t)->blocks, (t)->sizes[4]

static inline void die(const char *what)
{
    fprintf(stderr, "error: %s\n", what);
    exit(1);
}

static inline uint8_t *read_file(const char *name, size_t *size)
{
    FILE *f = fopen(name, "rb");
    if (!f)
        die(name);
    fseek(f, 0, SEEK_END);
    *size = (size_t)ftell(f);
    rewind(f);
    uint8_t *b = malloc(*size + 64);
    if (fread(b, 1, *size, f) != *size)
        die(name);
    fclose(f);
    return b;
}

/* Copies the next part of an image, if there is so much of it. */
static inline void *copy_part(const uint8_t **from, const uint8_t *end, uint64_t bytes)
{
    if ((uint64_t)(end - *from) < bytes)
        die("an image is shorter than its sizes ask for");
    void *p = malloc(bytes + 64);
    if (!p)
        die("no memory for an image");
    memcpy(p, *from, bytes);
    *from += bytes;
    return p;
}

/* An image: page, default byte, 0, default unit, two zeros, five sizes of four bytes, and the five tables; low byte first. Every
 * length is checked before it is used. */
static inline table_set read_image(const char *name)
{
    size_t size;
    uint8_t *b = read_file(name, &size);
    if (size < 28)
        die("an image is shorter than its head");
    const uint8_t *p = b + 28, *end = b + size;
    table_set t;
    t.page = (uint16_t)(b[0] | b[1] << 8);
    t.default_byte = b[2];
    t.default_unit = (uint16_t)(b[4] | b[5] << 8);
    for (int i = 0; i < 5; i++)
        t.sizes[i] = (uint32_t)b[8 + 4 * i] | (uint32_t)b[9 + 4 * i] << 8 | (uint32_t)b[10 + 4 * i] << 16 | (uint32_t)b[11 + 4 * i] << 24;
    t.classes = copy_part(&p, end, t.sizes[0]);
    t.singles = copy_part(&p, end, 2 * (uint64_t)t.sizes[1]);
    t.pairs = copy_part(&p, end, 2 * (uint64_t)t.sizes[2]);
    t.index = copy_part(&p, end, t.sizes[3]);
    t.blocks = copy_part(&p, end, 2 * (uint64_t)t.sizes[4]);
    if (p != end)
        die("an image is longer than its sizes ask for");
    free(b);
    return t;
}
#endif
