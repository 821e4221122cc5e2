/* Loafcompass for a desk's program, in C or C++: rows of the Fory standard row format.
 *
 * A slice is a pointer and a length; a pointer to no byte may be any but NULL, and what is lent to be written overlaps nothing else that
 * is lent. Every function takes any bytes of any length and ends with a result or a numbered refusal, and a refusal alters no byte of a
 * row, a batch, a log, a catalogue or an output.
 *
 * Each answers one number: the refusal's number in the upper half, 0 there for done, and in the lower half a length, or for 7 the
 * place of the first fault, counted from the row's first byte; of a schema that is added to a catalogue its number.
 *
 * A string is text, well-formed UTF-8 by RFC 3629, wherever one is written, checked, read or set; a binary takes any bytes. */
#ifndef LOAFCOMPASS_H
#define LOAFCOMPASS_H

#include <stddef.h>
#include <stdint.h>

#ifdef __cplusplus
extern "C" {
#endif

enum loaf_refusal {
    LOAF_DONE = 0,
    LOAF_SCHEMA = 1,      /* the schema breaks its rules, or the table is not its own, or the catalogue is none that adding leaves */
    LOAF_LISTING = 2,     /* the listing breaks its rules or does not fit the schema, or a string in it is no text */
    LOAF_TOO_LONG = 3,    /* the row is over 16,384 bytes */
    LOAF_ROOM = 4,        /* the output is too small; the length is the length needed, of a table in words */
    LOAF_NO_PLACE = 5,    /* there is no such place */
    LOAF_NULL_BEFORE = 6, /* a null stands before the path's end */
    LOAF_LAYOUT = 7,      /* the row breaks the layout, or a string in it is no text; the place says where */
    LOAF_UNFIT = 8,       /* the value does not fit the place; for a string, bytes that are no text */
    LOAF_RESIZE = 9,      /* the value would change the place's size, or the nullness of a string or binary */
    LOAF_BATCH = 10,      /* the batch or the log ends inside a size or a row */
    LOAF_LOG = 11,        /* the room can't hold the log with its chord, or the numbers its chords; or the window is over 1,000 */
    LOAF_FULL = 12,       /* the catalogue has 16 schemas, and this one is not among them */
    LOAF_NO_NUMBER = 13   /* the catalogue has not given out the number */
};

static inline uint32_t loaf_number(uint64_t answer) { return (uint32_t)(answer >> 32); }
static inline uint32_t loaf_length(uint64_t answer) { return (uint32_t)answer; }
static inline uint32_t loaf_place(uint64_t answer) { return (uint32_t)answer; }

/* Whether the bytes are a schema: done, or 1. */
uint64_t loaf_judge(const uint8_t *schema, size_t schema_length);

/* Whether the row stands for contents of the schema: done, or 1, 3, 7. */
uint64_t loaf_check(const uint8_t *schema, size_t schema_length, const uint8_t *row, size_t row_length);

/* The row that the format lays down for the listing, at the start of out, and its length: done, or 1, 2, 3, 4. */
uint64_t loaf_write(const uint8_t *schema, size_t schema_length, const uint8_t *listing, size_t listing_length, uint8_t *out, size_t out_length);

/* The row's listing at the start of out, and its length: done, or 1, 3, 7, 4. */
uint64_t loaf_list(const uint8_t *schema, size_t schema_length, const uint8_t *row, size_t row_length, uint8_t *out, size_t out_length);

enum loaf_kind { LOAF_NULL = 0, LOAF_BOOL = 1, LOAF_NUMBER = 2, LOAF_FLOAT32 = 3, LOAF_FLOAT64 = 4, LOAF_BYTES = 5, LOAF_CONTAINER = 6 };

/* One place, by its path: done, or 1, 3, 5, 6, 7, and 4 with the length 4 if the answer has fewer than 4 words.
 * answer[0] is the kind; answer[1] the bool, the number's 64 bits or the float's bits, or the start of a byte range or container;
 * answer[2] the range's length; answer[3] a container's count; unused words are 0. */
uint64_t loaf_read(const uint8_t *schema, size_t schema_length, const uint8_t *row, size_t row_length, const uint32_t *path, size_t path_length, uint64_t *answer, size_t answer_length);

/* One leaf set in the row: done, or 1, 3, 7, 5, 6, 8, 9. The kind is 0 to 5, as loaf_read tells it; the value is the bool, the number's
 * 64 bits or the float's bits, and has no say for null and bytes; the bytes have none for the other kinds. A kind that is none, a bool
 * over 1 or a float32 of more than 32 bits is refused with 8. */
uint64_t loaf_set(const uint8_t *schema, size_t schema_length, uint8_t *row, size_t row_length, const uint32_t *path, size_t path_length, uint32_t kind, uint64_t value, const uint8_t *bytes, size_t bytes_length);

/* Tables: what an entry works out of a schema before it looks at a row, kept beside the schema. A table is 64-bit words, one for each type of
 * the schema: at most LOAF_TABLE_WORDS, and never more than half the schema's bytes. They are plain words, to be kept anywhere and copied; but
 * they are for this library's version alone, so a program works them out and does not store them for another.
 *
 * Each entry below takes the schema and its table, and answers and writes as the entry of that name without _by does. A table that is not
 * exactly the one the schema gives is refused with 1, before all else, and alters no byte; so is every table beside a schema that breaks its
 * rules. A wrong or an old table is therefore never followed. */
enum { LOAF_TABLE_WORDS = 512 };

/* The schema's table at the start of table, and how many words it has: done, or 1, and 4 with the number of words needed. */
uint64_t loaf_table(const uint8_t *schema, size_t schema_length, uint64_t *table, size_t table_length);

/* Whether the bytes are a schema and the table is its own: done, or 1. */
uint64_t loaf_judge_by(const uint8_t *schema, size_t schema_length, const uint64_t *table, size_t table_length);

/* The entries of one row. */
uint64_t loaf_check_by(const uint8_t *schema, size_t schema_length, const uint64_t *table, size_t table_length, const uint8_t *row, size_t row_length);
uint64_t loaf_write_by(const uint8_t *schema, size_t schema_length, const uint64_t *table, size_t table_length,
    const uint8_t *listing, size_t listing_length, uint8_t *out, size_t out_length);
uint64_t loaf_list_by(const uint8_t *schema, size_t schema_length, const uint64_t *table, size_t table_length,
    const uint8_t *row, size_t row_length, uint8_t *out, size_t out_length);
uint64_t loaf_read_by(const uint8_t *schema, size_t schema_length, const uint64_t *table, size_t table_length,
    const uint8_t *row, size_t row_length, const uint32_t *path, size_t path_length, uint64_t *answer, size_t answer_length);
uint64_t loaf_set_by(const uint8_t *schema, size_t schema_length, const uint64_t *table, size_t table_length,
    uint8_t *row, size_t row_length, const uint32_t *path, size_t path_length, uint32_t kind, uint64_t value, const uint8_t *bytes, size_t bytes_length);

/* Batches: frames back to back, each a row's size as 4 bytes, big endian, and the row. Rows count from 0, and a row's range is its own bytes,
 * without its size. A batch may be of any length, so what could be over 32 bits stands in words lent beside the code, and the lower half of
 * the code is 0 but for the place of a 7, which counts from that row's own first byte, and where a line below says otherwise. */

/* How many rows the batch has, in answer[0]: done, or 10, and 4 with the length 1 if no word is lent. */
uint64_t loaf_batch_count(const uint8_t *batch, size_t batch_length, uint64_t *answer, size_t answer_length);

/* Where row k starts in the batch, in answer[0], and its length, in answer[1]: done, or 1, 10, 5, then 3, 7 of that row, and 4 with the
 * length 2 if fewer than two words are lent. */
uint64_t loaf_batch_fetch(const uint8_t *schema, size_t schema_length, const uint8_t *batch, size_t batch_length, size_t k, uint64_t *answer, size_t answer_length);

/* Whether every row stands for contents of the schema: done, or 1, 10, or 3, 7 of the first such row; that row's number stands in answer[0]
 * if a word is lent. */
uint64_t loaf_batch_check(const uint8_t *schema, size_t schema_length, const uint8_t *batch, size_t batch_length, uint64_t *answer, size_t answer_length);

/* The row in its frame behind the batch that the first `used` bytes of the room are: done, or 1, 10, then 3, 7 of the row, and 4 if the room
 * is too small. The batch's new length, or with 4 the length needed, stands in answer[0] if a word is lent. */
uint64_t loaf_batch_append(const uint8_t *schema, size_t schema_length, uint8_t *room, size_t room_length, size_t used, const uint8_t *row, size_t row_length, uint64_t *answer, size_t answer_length);

/* One place of row k: 1, 10, 5, then as loaf_read of that row. Ranges count from that row's first byte. */
uint64_t loaf_batch_read(const uint8_t *schema, size_t schema_length, const uint8_t *batch, size_t batch_length, size_t k, const uint32_t *path, size_t path_length, uint64_t *answer, size_t answer_length);

/* One leaf of row k set in the batch: 1, 10, 5, then as loaf_set of that row. No byte of another row, and no size, is written. */
uint64_t loaf_batch_set(const uint8_t *schema, size_t schema_length, uint8_t *batch, size_t batch_length, size_t k, const uint32_t *path, size_t path_length, uint32_t kind, uint64_t value, const uint8_t *bytes, size_t bytes_length);

/* The entries of a batch that take a schema, by its table. */
uint64_t loaf_batch_fetch_by(const uint8_t *schema, size_t schema_length, const uint64_t *table, size_t table_length,
    const uint8_t *batch, size_t batch_length, size_t k, uint64_t *answer, size_t answer_length);
uint64_t loaf_batch_check_by(const uint8_t *schema, size_t schema_length, const uint64_t *table, size_t table_length,
    const uint8_t *batch, size_t batch_length, uint64_t *answer, size_t answer_length);
uint64_t loaf_batch_append_by(const uint8_t *schema, size_t schema_length, const uint64_t *table, size_t table_length,
    uint8_t *room, size_t room_length, size_t used, const uint8_t *row, size_t row_length, uint64_t *answer, size_t answer_length);
uint64_t loaf_batch_read_by(const uint8_t *schema, size_t schema_length, const uint64_t *table, size_t table_length,
    const uint8_t *batch, size_t batch_length, size_t k, const uint32_t *path, size_t path_length, uint64_t *answer, size_t answer_length);
uint64_t loaf_batch_set_by(const uint8_t *schema, size_t schema_length, const uint64_t *table, size_t table_length,
    uint8_t *batch, size_t batch_length, size_t k, const uint32_t *path, size_t path_length, uint32_t kind, uint64_t value,
    const uint8_t *bytes, size_t bytes_length);

/* The stroke log: a batch whose rows hold a chord or two each, a tick and a key mask of 32 bits. No bytes is the empty log. Its schema is
 * "ro\2" "ro\2i4i4" "ro\2i4i4", so the entries of a batch read a log too. A row's second chord may be null, and nothing else: a first chord,
 * a tick or keys that is null is refused with 7 at the byte of the bitmap that says so. Rows may come from elsewhere, their chords in either
 * order. Each entry judges the whole log: 10, then 3, 7 of each row in turn, the place of a 7 counted from that row's own first byte. */
enum { LOAF_LOG_WINDOW = 1000 };

/* One chord added to the log that the first `used` bytes of the room are: done, or 10, 3, 7 of the log, and 11 if the window is over
 * LOAF_LOG_WINDOW or the room too small. It goes into the second place of the last row, if that is free and the chord's tick at most the
 * window behind the row's first tick, counted on through the counter's start at zero; otherwise it starts a row. No byte before the row it
 * goes into is written. The log's new length stands in answer[0] if a word is lent; it is at most 52 more than `used`. */
uint64_t loaf_log_add(uint8_t *room, size_t room_length, size_t used, uint32_t tick, uint32_t keys, uint32_t window, uint64_t *answer, size_t answer_length);

/* All chords of the log in their order, tick, keys, tick, keys .., at the start of out: done, or 10, 3, 7 of the log, and 11 if out is too
 * small. How many numbers they are stands in answer[0] if a word is lent; they are at most a 19th of the log's length. */
uint64_t loaf_log_read(const uint8_t *log, size_t log_length, uint32_t *out, size_t out_length, uint64_t *answer, size_t answer_length);

/* Chord n of the log, counted from 0, its tick in answer[0] and its keys in answer[1]: done, or 10, 3, 7 of the log, then 5, and 4 with the
 * length 2 if fewer than two words are lent. */
uint64_t loaf_log_chord(const uint8_t *log, size_t log_length, size_t n, uint64_t *answer, size_t answer_length);

/* The catalogue: at most LOAF_CATALOGUE_SCHEMAS schemas, so that a row goes with a number where it would go with its schema. Its two parties, as
 * the reporter's writer and the scopist's desk, lend the same LOAF_CATALOGUE_BYTES bytes, and either adds. Numbers count from 0, in the order of
 * first adding; a number stays with its schema, and nothing is removed. The next number, and the room left, depend on both parties.
 *
 * An empty catalogue is LOAF_CATALOGUE_BYTES bytes of which the first is 0, whatever the others are. The first byte says how many schemas there
 * are; behind it stands each schema's length in 2 bytes, little endian, and the schema. What lies behind these used bytes is not looked at.
 *
 * Each entry judges the whole catalogue, and refuses with 1 lent bytes that no run of adding leaves: another length, a count over 16, a schema
 * that breaks its rules, or one twice. The library takes no lock: while any call runs on a catalogue, no other party adds to it. */
enum { LOAF_CATALOGUE_BYTES = 16417, LOAF_CATALOGUE_SCHEMAS = 16 };

/* The schema's number, in the lower half: its old one if these bytes are there, in a full catalogue too, and then no byte is written; otherwise
 * the next, and the schema stands behind the others. Done, or 1 of the catalogue or the schema, 12. */
uint64_t loaf_catalogue_add(uint8_t *catalogue, size_t catalogue_length, const uint8_t *schema, size_t schema_length);

/* As loaf_catalogue_add, by the schema's table: 1 also where the table is not its own. */
uint64_t loaf_catalogue_add_by(uint8_t *catalogue, size_t catalogue_length, const uint8_t *schema, size_t schema_length,
    const uint64_t *table, size_t table_length);

/* The entries of one row, of the schema at a number: 1 of the catalogue, 13, then as the entry without catalogue_ with that schema. None of them
 * writes a byte of the catalogue. */
uint64_t loaf_catalogue_check(const uint8_t *catalogue, size_t catalogue_length, size_t number, const uint8_t *row, size_t row_length);
uint64_t loaf_catalogue_write(const uint8_t *catalogue, size_t catalogue_length, size_t number,
    const uint8_t *listing, size_t listing_length, uint8_t *out, size_t out_length);
uint64_t loaf_catalogue_list(const uint8_t *catalogue, size_t catalogue_length, size_t number,
    const uint8_t *row, size_t row_length, uint8_t *out, size_t out_length);
uint64_t loaf_catalogue_read(const uint8_t *catalogue, size_t catalogue_length, size_t number,
    const uint8_t *row, size_t row_length, const uint32_t *path, size_t path_length, uint64_t *answer, size_t answer_length);
uint64_t loaf_catalogue_set(const uint8_t *catalogue, size_t catalogue_length, size_t number,
    uint8_t *row, size_t row_length, const uint32_t *path, size_t path_length, uint32_t kind, uint64_t value, const uint8_t *bytes, size_t bytes_length);

#ifdef __cplusplus
}
#endif
#endif
