/* A schema worked out ahead: its table is kept beside it, and many rows are written, checked and read by it. A table of another schema, a cut
 * one and one with another word are refused with 1, and nothing is altered. */
#include <inttypes.h>
#include <stdio.h>
#include <string.h>

#include "../desk/loafcompass.h"

/* a struct of two strokes, each a struct of a time and a chord, both int32; and one that has the chords in int64 */
static const uint8_t schema[] = "ro\x02" "ro\x02" "i4i4" "ro\x02" "i4i4";
static const uint8_t other_schema[] = "ro\x02" "ro\x02" "i4i8" "ro\x02" "i4i8";
enum { SCHEMA = sizeof schema - 1, WORDS = SCHEMA / 2, ROWS = 1000 };

/* a schema never has more types than half its bytes */
static uint64_t table[WORDS], other_table[WORDS];
static size_t words;

static uint8_t row[128];
static size_t length;

static void say(const char *what, uint64_t answer) {
    if (loaf_number(answer)) printf("%s: refused %" PRIu32 " %" PRIu32 "\n", what, loaf_number(answer), loaf_length(answer));
    else printf("%s: done\n", what);
}

/* the row of the stroke number n and the one after it, with n and twice n as chords */
static uint64_t write_row(uint32_t n) {
    uint8_t listing[] = "ro" "ro" "i4...." "i4...." "ro" "i4...." "i4....";
    const uint32_t numbers[] = {n, n, n + 1, 2 * n};
    static const size_t at[] = {6, 12, 20, 26};
    for (int i = 0; i < 4; i++)
        for (int j = 0; j < 4; j++) listing[at[i] + j] = (uint8_t)(numbers[i] >> 8 * j);
    return loaf_write_by(schema, SCHEMA, table, words, listing, sizeof listing - 1, row, sizeof row);
}

static void read_many(void) {
    static const uint32_t chord[] = {1, 1};
    uint64_t place[4], refused = 0, together = 0;
    for (uint32_t n = 0; n < ROWS; n++) {
        uint64_t written = write_row(n);
        length = loaf_length(written);
        refused += loaf_number(written) || loaf_number(loaf_check_by(schema, SCHEMA, table, words, row, length)) ||
                   loaf_number(loaf_read_by(schema, SCHEMA, table, words, row, length, chord, 2, place, 4));
        together += place[1];
    }
    printf("%d rows written, checked and read by one table, %" PRIu64 " refused; their second chords together: %" PRIu64 "\n", ROWS, refused, together);
}

static void by_other_tables(void) {
    static const uint32_t chord[] = {1, 1};
    uint64_t place[4];
    uint8_t before[sizeof row];
    memcpy(before, row, sizeof row);

    say("check by another schema's table", loaf_check_by(schema, SCHEMA, other_table, words, row, length));
    say("read by another schema's table", loaf_read_by(schema, SCHEMA, other_table, words, row, length, chord, 2, place, 4));
    say("set by another schema's table", loaf_set_by(schema, SCHEMA, other_table, words, row, length, chord, 2, LOAF_NUMBER, 9, row, 0));
    say("set by a table that is cut", loaf_set_by(schema, SCHEMA, table, words - 1, row, length, chord, 2, LOAF_NUMBER, 9, row, 0));
    table[words - 1] ^= 1;
    say("set by a table with another word", loaf_set_by(schema, SCHEMA, table, words, row, length, chord, 2, LOAF_NUMBER, 9, row, 0));
    table[words - 1] ^= 1;
    printf("the row is as before: %s\n", memcmp(row, before, sizeof row) ? "no" : "yes");
    say("set by its own table", loaf_set_by(schema, SCHEMA, table, words, row, length, chord, 2, LOAF_NUMBER, 9, row, 0));
}

int main(void) {
    say("a table, into three words", loaf_table(schema, SCHEMA, table, 3));
    uint64_t worked = loaf_table(schema, SCHEMA, table, WORDS);
    say("a table", worked);
    words = loaf_length(worked);
    printf("its words: %zu\n", words);
    say("another schema's table", loaf_table(other_schema, SCHEMA, other_table, WORDS));
    say("a table of no schema", loaf_table(schema, SCHEMA - 1, other_table, WORDS));

    read_many();
    by_other_tables();
    return 0;
}
