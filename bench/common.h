/* What the C programs of this folder share: table images, and the clock. */
#ifndef COMMON_H
#define COMMON_H
#include <time.h>
#include "table_image.h"
#include "till.h"

/* The processor's time of this thread, so that what else runs on the machine counts as little as may be. */
static inline double now(void)
{
    struct timespec t;
    clock_gettime(CLOCK_THREAD_CPUTIME_ID, &t);
    return (double)t.tv_sec + (double)t.tv_nsec * 1e-9;
}

/* A page from the folder of the table images, by its name. */
static inline table_set read_page(const char *folder, const char *name)
{
    char path[4096];
    snprintf(path, sizeof path, "%s/%s.tbl", folder, name);
    return read_image(path);
}

/* The pages of most texts: 932, 1252. */
static inline void read_pages(const char *folder, table_set pages[2])
{
    pages[0] = read_page(folder, "cp932");
    pages[1] = read_page(folder, "cp1252");
}

/* Ends the first `size` bytes of a text with a whole line, so that no code is cut at their end. */
static inline void end_with_line(uint8_t *text, size_t size)
{
    for (size_t i = size; i > 0 && text[i - 1] != '\n'; i--)
        text[i - 1] = '\n';
}

static inline till_run fresh_run(const table_set *t, uint8_t direction)
{
    till_run r = {0, 0, t->page, TILL_NOTHING, direction, 5, 5, 5, 0, 0};
    return r;
}
#endif
