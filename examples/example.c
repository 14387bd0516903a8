/* The C interface at work: a journal piece that is cut in the middle of a two-byte character, with a save and a load
 * between; and a receipt that is cut in the middle of an emoji. */
#include "table_image.h"
#include "till.h"

static void print_units(const uint16_t *units, size_t n)
{
    for (size_t i = 0; i < n; i++)
        printf(" %04X", units[i]);
    printf("\n");
}

static void print_field(till_field f, const uint16_t *buffer, const uint16_t *block)
{
    printf("next field %u, read %zu, held %zu, end %u, %s:", f.number, f.read, f.held, f.end, f.place == TILL_IN_BLOCK ? "block" : "buffer");
    print_units(f.place == TILL_IN_BLOCK ? block : buffer, f.count);
}

int main(int argc, char **argv)
{
    char name[4096];
    if (argc != 2)
        die("use: example TABLES");
    snprintf(name, sizeof name, "%s/cp932.tbl", argv[1]);
    table_set t = read_image(name);
    printf("shape %u\n", till_shape(TABLES(&t)).number);

    /* `A`, the two kanji of Japan (93FA 967B), a line feed; cut after the lead byte 96 */
    static const uint8_t first[4] = {0x41, 0x93, 0xFA, 0x96}, second[2] = {0x7B, 0x0A};
    uint16_t units[8];
    uint8_t line[TILL_LINE_LIMIT];

    till_handed start = till_start(TILL_DECODING, t.page, TILL_REPLACING);
    printf("start %u\n", start.number);
    till_outcome o = till_decode(start.run, TABLES(&t), first, sizeof first, 0, units, 8);
    printf("decode %u, read %zu, written %zu, pending %02X:", o.number, o.read, o.written, o.run.pending);
    print_units(units, o.written);

    till_saved saved = till_save(o.run, line, sizeof line);
    printf("save %u, %zu bytes: %.*s", saved.number, saved.size, (int)saved.size, (const char *)line);
    till_handed loaded = till_load(line, saved.size);
    printf("load %u\n", loaded.number);

    o = till_decode(loaded.run, TABLES(&t), second, sizeof second, 1, units, 8);
    printf("decode %u, read %zu, written %zu, ended %u:", o.number, o.read, o.written, o.run.ended);
    print_units(units, o.written);

    /* back to bytes */
    static const uint16_t text[3] = {0x0041, 0x65E5, 0x672C};
    uint8_t bytes[8];
    start = till_start(TILL_ENCODING, t.page, TILL_REPLACING);
    o = till_encode(start.run, TABLES(&t), text, 3, 1, bytes, 8);
    printf("encode %u, read %zu, written %zu:", o.number, o.read, o.written);
    for (size_t i = 0; i < o.written; i++)
        printf(" %02X", bytes[i]);
    printf("\n");

    /* a receipt piece that is cut in the middle of an emoji (D83D DE00), which no page has: one replacement */
    static const uint16_t cut[2] = {0x0041, 0xD83D}, rest[2] = {0xDE00, 0x0042};
    till_outcome pair = till_encode(start.run, TABLES(&t), cut, 2, 0, bytes, 8);
    printf("encode %u, read %zu, written %zu, pending %04X", pair.number, pair.read, pair.written, pair.run.pending);
    saved = till_save(pair.run, line, sizeof line);
    printf(", saved as %.*s", (int)saved.size, (const char *)line);
    pair = till_encode(till_load(line, saved.size).run, TABLES(&t), rest, 2, 1, bytes, 8);
    printf("encode %u, read %zu, written %zu, flags %u: %02X %02X\n", pair.number, pair.read, pair.written, pair.run.flags, bytes[0], bytes[1]);

    /* refusals: the run comes back as it was, and nothing is written */
    till_run bad = start.run;
    bad.direction = 2;
    o = till_encode(bad, TABLES(&t), text, 3, 1, bytes, 8);
    printf("direction 2: encode %u, read %zu, written %zu, direction %u\n", o.number, o.read, o.written, o.run.direction);
    bad = start.run;
    bad.pending = 257;
    printf("pending 257: save %u, decode %u\n", till_save(bad, line, sizeof line).number,
        till_decode(bad, TABLES(&t), first, 1, 1, units, 8).number);
    bad.pending = 0xDC00;
    printf("pending DC00: save %u, encode %u\n", till_save(bad, line, sizeof line).number,
        till_encode(bad, TABLES(&t), text, 3, 1, bytes, 8).number);
    o = till_encode(start.run, TABLES(&t), text, 3, 2, bytes, 8);
    printf("last 2: encode %u, ended %u\n", o.number, o.run.ended);
    printf("room 3: save %u\n", till_save(start.run, line, 3).number);
    printf("page 0: start %u, page %u\n", till_start(TILL_DECODING, 0, TILL_REPLACING).number, till_start(TILL_DECODING, 0, TILL_REPLACING).run.page);
    printf("no line: load %u\n", till_load(line, 0).number);
    t.index[0xFF] = 200; /* there are 107 blocks */
    till_fault fault = till_shape(TABLES(&t));
    printf("index 200: shape %u at %zX\n", fault.number, fault.place);
    bad = start.run;
    bad.direction = 2; /* the shape is asked first */
    printf("direction 2 and index 200: encode %u\n", till_encode(bad, TABLES(&t), text, 3, 1, bytes, 8).number);

    /* two fields of a text in two blocks: one wholly in the first, one that is held there and completed */
    static const uint16_t blocks[6] = {0x65E5, 0x672C, 0x007C, 0x0041, 0x0042, 0x000A};
    uint16_t buffer[TILL_FIELD_LIMIT];
    till_field f = till_next_field(0, buffer, TILL_FIELD_LIMIT, blocks, 4, 0);
    print_field(f, buffer, blocks);
    f = till_next_field(f.held, buffer, TILL_FIELD_LIMIT, blocks + 3, 1, 0);
    print_field(f, buffer, blocks + 3);
    f = till_next_field(f.held, buffer, TILL_FIELD_LIMIT, blocks + 4, 2, 1);
    print_field(f, buffer, blocks + 4);
    printf("buffer 255: next field %u; held 257: %u\n", till_next_field(0, buffer, 255, blocks, 4, 0).number,
        till_next_field(257, buffer, TILL_FIELD_LIMIT, blocks, 4, 0).number);
    return 0;
}
