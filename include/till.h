/* The C interface of the till converter (crates capi, capi_text and capi_products). tools/build_c.sh writes the archives: link libcapi.a,
 * for the calls on a whole text libcapi_text.a, and for the products on byte texts libcapi_products.a.
 *
 * Every call ends and answers on any numbers and any contents of its slices; none keeps anything between calls, takes memory or
 * does input or output. A slice is a pointer and a number of elements: the pointer is not NULL (also for 0 elements), aligned,
 * and good for that many elements, and a slice that is written overlaps no other. These are the caller's part; nothing checks them.
 *
 * Numbers of answers: 0 all read; 1 all read, a lead byte or a high surrogate is pending; 2 the next code does not fit; 3 stopped
 * by policy digit 0; 10 bad shape; 11 piece over 65,536 units; 12 the run breaks the run rules; 13 run of the other direction or another page;
 * 14 the pending byte is no lead here; 15 the run has ended; 16 read total over 4,294,967,295; 17 start numbers not allowed;
 * 18 not a saved line; 19 the line does not fit the room. 10 and above are refusals. */
#ifndef TILL_H
#define TILL_H
#include <stddef.h>
#include <stdint.h>

#ifdef __cplusplus
extern "C" {
#endif

#define TILL_DECODING 0
#define TILL_ENCODING 1
#define TILL_NOTHING 256         /* pending: nothing is carried */
#define TILL_PIECE_LIMIT 65536   /* the most units of input in one call */
#define TILL_LINE_LIMIT 44       /* the most bytes of a saved line */

#define TILL_FIELD_LIMIT 256     /* the most units of a field, and the least of a field buffer */
#define TILL_BAR 1
#define TILL_LINE_FEED 2
#define TILL_TEXT_END 3
#define TILL_IN_BUFFER 0
#define TILL_IN_BLOCK 1

/* A run, handed in and given back by value. Make one by till_start or till_load, and hand each call the run of the one before. */
typedef struct {
    uint64_t read;     /* units of input read so far */
    uint64_t written;  /* units of output written so far */
    uint16_t page;
    uint16_t pending;  /* what is carried: a lead byte (decoding), a high surrogate (encoding), or TILL_NOTHING */
    uint8_t direction; /* TILL_DECODING or TILL_ENCODING */
    uint8_t single;    /* policy digits: undefined single, undefined pair, invalid */
    uint8_t pair;
    uint8_t invalid;
    uint8_t flags;     /* 1 undefined single, 2 undefined pair, 4 invalid, 8 stopped */
    uint8_t ended;     /* 0 or 1 */
} till_run;

/* What a run call answers: the run for the next call, units of the piece read, units of output written, the answer's number. */
typedef struct {
    till_run run;
    size_t read;
    size_t written;
    uint8_t number;
} till_outcome;

/* What till_start and till_load answer: number 0 and a run, or the number of the refusal and a run of page 0, which no call takes. */
typedef struct {
    till_run run;
    uint8_t number;
} till_handed;

/* What a run call on a record answers; the new run is in the record. */
typedef struct {
    size_t read;
    size_t written;
    uint8_t number;
} till_here;

/* What till_save answers: number 0 and the line's length, or the number of the refusal. */
typedef struct {
    size_t size;
    uint8_t number;
} till_saved;

/* What till_shape answers. number: 0 good; 1 the page is 0; 2 to 6 a wrong size of classes, singles, pairs, index, blocks;
 * 7 an unknown class, 8 a lead below 80, 9 an index number that names no block, each at the place `place`. */
typedef struct {
    size_t place;
    uint8_t number;
} till_fault;

/* What till_next_field answers. number: 0 a field; 1 no field is complete and the whole block is held; or that of the refusal. */
typedef struct {
    size_t read;    /* units of the block read, the separator with its field */
    size_t count;   /* units of the field */
    size_t held;    /* for the next call */
    uint8_t number;
    uint8_t end;    /* what ended the field: TILL_BAR, TILL_LINE_FEED or TILL_TEXT_END; 0 if there is none */
    uint8_t place;  /* where its units are, at the front: TILL_IN_BUFFER or TILL_IN_BLOCK */
} till_field;

/* What a call on a whole text answers. number: 0 all read; 2 the need is over the room; 3 stopped; or that of the refusal, with zeros
 * beside it. */
typedef struct {
    size_t need;    /* units or bytes of output that all of the text needs */
    size_t read;    /* units of the text that were converted into the room */
    size_t written;
    uint8_t number;
    uint8_t flags;  /* those of all of the text, also where the room ended */
} till_text;

/* What a proposal of breaks answers. */
typedef struct {
    size_t count;   /* breaks written to the front of the list */
    uint8_t number; /* 0, or that of the refusal */
} till_breaks;

/* What appending to an index answers. */
typedef struct {
    size_t count;   /* entries for the journal */
    uint8_t number; /* 0, or that of the refusal */
} till_appended;

/* What finding a code answers. */
typedef struct {
    size_t place;   /* of its first byte, from 0 */
    size_t length;  /* 1 or 2 bytes */
    uint8_t number; /* 0, or that of the refusal */
} till_found;

/* What the spelling of a text answers. */
typedef struct {
    size_t written; /* bytes of the spelling */
    size_t place;   /* of 24: that of the first code at fault */
    uint8_t number; /* 0, or that of the refusal */
} till_spelled;

/* A code without a character. */
typedef struct {
    size_t place;   /* of its first byte, from 0 */
    uint8_t kind;   /* 1 undefined single, 2 undefined pair, 4 invalid */
    uint8_t size;   /* 1 or 2 bytes */
    uint8_t first;  /* these; second is 0 where there is one */
    uint8_t second;
    uint8_t digit;  /* the policy digit that was applied; 0 stopped the reading */
} till_finding;

/* What listing findings answers. */
typedef struct {
    size_t count;   /* how many there are, whatever the list's length */
    uint8_t number; /* 0, or that of the refusal */
} till_listed;

/* What encoding inside one buffer answers. */
typedef struct {
    size_t read;    /* units */
    size_t written; /* bytes at the buffer's front */
    uint8_t number; /* 0, 3, or that of the refusal */
    uint8_t flags;
} till_in_place;

/* The parameters of a table set: page, default byte, default unit, and the five tables. */
#define TILL_TABLES \
    uint16_t page, uint8_t default_byte, uint16_t default_unit, const uint8_t *classes, size_t classes_len, const uint16_t *singles, \
        size_t singles_len, const uint16_t *pairs, size_t pairs_len, const uint8_t *index, size_t index_len, const uint16_t *blocks, \
        size_t blocks_len

/* Policies by name, as three arguments. The standard stops on an invalid code; the replacing one writes the default for every code
 * without a character, and gets through. */
#define TILL_STANDARD 5, 5, 0
#define TILL_REPLACING 5, 5, 5

/* A fresh run: 0, or 17 if the direction is neither 0 nor 1, the page is 0 or a digit is not allowed. */
till_handed till_start(uint8_t direction, uint16_t page, uint8_t single, uint8_t pair, uint8_t invalid);

/* One call of a decoding run: bytes to UTF-16 units. last: 0, or any other number for the text's last piece. Answers 0 to 3 or 10 to
 * 16, the refusals in that order; 12 is also the answer to a run whose direction or ended is over 1, or whose pending is
 * neither a byte, TILL_NOTHING nor a high surrogate. A refused call
 * gives back the run it was handed, reads and writes nothing, and leaves out as it was. After answer 2 call again with the rest of
 * the piece, also where read is 0: a pending lead byte may have been settled alone (pending is then TILL_NOTHING). A piece of n bytes
 * gives at most n units, or n + 1 where a lead byte was pending. */
till_outcome till_decode(till_run run, TILL_TABLES, const uint8_t *piece, size_t piece_len, uint8_t last, uint16_t *out, size_t out_len);

/* One call of an encoding run: UTF-16 units to bytes; as till_decode. What is pending is a high surrogate: with a low one it is one
 * undefined single, else it is invalid. A piece of n units gives at most 2 n bytes, or 2 n + 1 where a unit was pending. */
till_outcome till_encode(till_run run, TILL_TABLES, const uint16_t *piece, size_t piece_len, uint8_t last, uint8_t *out, size_t out_len);

/* The same calls over one run record, which is updated where it stands: same answers, same output, and *run is then the new run. A
 * refused call leaves *run as it was. Both forms may be mixed in one run. In libcapi_record.a. */
till_here till_decode_here(till_run *run, TILL_TABLES, const uint8_t *piece, size_t piece_len, uint8_t last, uint16_t *out, size_t out_len);
till_here till_encode_here(till_run *run, TILL_TABLES, const uint16_t *piece, size_t piece_len, uint8_t last, uint8_t *out, size_t out_len);

/* A whole text of at most 65,536 units in one call, under the three digits; with no room it only counts: the need, and the flags that
 * a conversion would set. Answer 2, ahead of 3, exactly if the need is over the room. Refusals, in this order, with out as it was: 17 a digit
 * that is not allowed, 10, 11. */
till_text till_decode_text(uint8_t single, uint8_t pair, uint8_t invalid, TILL_TABLES, const uint8_t *text, size_t text_len, uint16_t *out,
    size_t out_len);
till_text till_encode_text(uint8_t single, uint8_t pair, uint8_t invalid, TILL_TABLES, const uint16_t *text, size_t text_len, uint8_t *out,
    size_t out_len);

/* Writes the run's line at the front of out: 0 and its length, or 12 (the run breaks the rules), or 19 (no room; out is as it was). */
till_saved till_save(till_run run, uint8_t *out, size_t out_len);

/* Reads the run of a saved line, which must be the whole slice: 0, or 18. */
till_handed till_load(const uint8_t *line, size_t line_len);

/* The shape report of a table set: the first bad place, if any. */
till_fault till_shape(TILL_TABLES);

/* The next field of a text that is met in blocks of units, each of which begins at the first unread unit: 007C ends a field, 000A a
 * field and a record, and the end of the text, in a call with any last but 0, a field that has units. held is 0 at first and then that of
 * the call before, whose buffer is handed in unchanged. 0: a field, shown from the block, or from the buffer where it began in
 * an earlier block; 1: none is complete, and the block is held. Refusals, with held and the buffer as before: 20 a
 * buffer of under 256 units; 11 a block of over 65,536; 27 a held over 256; 21 the next field has over 256 units. */
till_field till_next_field(size_t held, uint16_t *buffer, size_t buffer_len, const uint16_t *block, size_t block_len, uint8_t last);

/* Breaks of a byte text of at most 65,536 bytes into lines of at most width bytes, with no code cut. A break is the place, from 0, at
 * which a line after the first begins; the text's end is not listed. Archive libcapi_products.a.
 * Checking: 0 the breaks are acceptable; 10, 11, 30 they are not.
 * Proposing, each line as long as it can be: 0 and the count of breaks, which stand at the front of out; 10, 11, 31 none exists (a code
 * is longer than the width), 32 out is too short for them; then out is as it was. */
uint8_t till_check_breaks(TILL_TABLES, const uint8_t *text, size_t text_len, uint64_t width, const uint64_t *breaks, size_t breaks_len);
till_breaks till_propose_breaks(TILL_TABLES, const uint8_t *text, size_t text_len, uint64_t width, uint64_t *out, size_t out_len);

/* An index beside a stored journal of at most 65,536 bytes, to find its nth code (character). For each full or begun block of 512 bytes it
 * has an entry: twice the codes that start before the block, and 1 more if the block's first byte is the second byte of a code. Archive
 * libcapi_products.a.
 * Appending, after bytes were added to a journal that had former bytes (0: the index is made anew): 0 and the count of entries; 10, 11, 33
 * former is over the journal's length, 28 entries are too few or the former last one counts more codes than bytes before it; then
 * the entries are as they were.
 * Finding code n, from 0: 0 with its place and length; 10, 11, 28 entries are too few, 29 there is no such code. */
till_appended till_append_index(TILL_TABLES, const uint8_t *journal, size_t journal_len, size_t former, uint32_t *entries, size_t entries_len);
till_found till_find_code(TILL_TABLES, const uint8_t *journal, size_t journal_len, const uint32_t *entries, size_t entries_len, uint64_t n);

/* The standard spelling of a byte text of at most 65,536 bytes, at the front of out: the text decoded, and encoded again. Two texts that
 * have one mean the same units exactly if their spellings are equal bytes. Archive libcapi_products.a. 0 and the bytes written; 10, 11, 24
 * with the place of the first code at fault (it has no character, or one whose own code does not read back as it), 25 the spelling has over
 * 65,536 bytes or does not fit; then out is as it was. */
till_spelled till_spell(TILL_TABLES, const uint8_t *text, size_t text_len, uint8_t *out, size_t out_len);

/* The findings of a byte text of at most 65,536 bytes: its codes without a character, in order of place, up to the text's end or the first
 * stop. As many as fit stand at the front of list; the entries behind them are as they were. An empty list only counts. Archive
 * libcapi_findings.a. 0 and how many there are; 17, 10, 11; then list is as it was. */
till_listed till_findings(uint8_t single, uint8_t pair, uint8_t invalid, TILL_TABLES, const uint8_t *text, size_t text_len, till_finding *list, size_t list_len);

/* Encodes the units that a buffer holds, two bytes each, low byte first, at most 65,536 of them. The result stands at the buffer's front;
 * the bytes behind it are as they were. Archive libcapi_products.a. 0 all read, 3 stopped with the result so far at the front; 17, 10, 26 the
 * number of bytes is odd, 11; then the buffer is as it was. */
till_in_place till_encode_in_place(uint8_t single, uint8_t pair, uint8_t invalid, TILL_TABLES, uint8_t *buffer, size_t buffer_len);

#ifdef __cplusplus
}
#endif
#endif
