/* One catalogue, two people: the reporter's writer and the scopist's desk lend the same bytes. Each adds the schemas that it has, keeps the numbers
 * that it is told, and hands its rows over with a number in place of a schema. Then what is refused: a number not given out, a seventeenth schema,
 * and bytes that no run of adding leaves. */
#include <inttypes.h>
#include <stdio.h>
#include <string.h>

#include "../desk/loafcompass.h"

/* what both lend: no schema yet, since its first byte is 0 */
static uint8_t catalogue[LOAF_CATALOGUE_BYTES], before[LOAF_CATALOGUE_BYTES];

/* a stroke is a time and a chord; an outline its text, and whether it was corrected; a page the times of its lines */
static const uint8_t stroke[] = "ro\x02" "i4i4";
static const uint8_t outline[] = "ro\x02" "stbo";
static const uint8_t page[] = "ro\x01" "lii4";

static uint8_t row[64];
static size_t length;

static void say(const char *what, uint64_t answer) {
    if (loaf_number(answer)) printf("%s: refused %" PRIu32 " %" PRIu32 "\n", what, loaf_number(answer), loaf_length(answer));
    else printf("%s: done\n", what);
}

/* The number that a schema gets, or has already. */
static size_t add(const char *what, const uint8_t *schema, size_t schema_length) {
    uint64_t answer = loaf_catalogue_add(catalogue, sizeof catalogue, schema, schema_length);
    if (loaf_number(answer)) say(what, answer);
    else printf("%s: number %" PRIu32 "\n", what, loaf_length(answer));
    return loaf_length(answer);
}

/* The same by the schema's table, which the desk works out ahead; another's table is refused. */
static void add_by_table(void) {
    uint64_t table[LOAF_TABLE_WORDS];
    size_t words = loaf_length(loaf_table(page, sizeof page - 1, table, LOAF_TABLE_WORDS));
    uint64_t answer = loaf_catalogue_add_by(catalogue, sizeof catalogue, page, sizeof page - 1, table, words);
    if (!loaf_number(answer)) printf("desk: a page, by its table: number %" PRIu32 "\n", loaf_length(answer));
    say("desk: a stroke, by the page's table", loaf_catalogue_add_by(catalogue, sizeof catalogue, stroke, sizeof stroke - 1, table, words));
}

/* The writer has an outline and its number, and makes the row. */
static void write_row(size_t number) {
    static const uint8_t listing[] = "ro" "st\x03\0\0\0STK" "bo\0";
    uint64_t answer = loaf_catalogue_write(catalogue, sizeof catalogue, number, listing, sizeof listing - 1, row, sizeof row);
    say("writer: a row is written", answer);
    length = loaf_length(answer);
}

/* The desk has the row and the number; it reads the text, and corrects it. */
static void correct_row(size_t number) {
    static const uint32_t text[] = {0}, corrected[] = {1};
    uint8_t listing[64];
    uint64_t place[4];
    say("desk: it is checked", loaf_catalogue_check(catalogue, sizeof catalogue, number, row, length));
    if (!loaf_catalogue_read(catalogue, sizeof catalogue, number, row, length, text, 1, place, 4))
        printf("desk: its text is %.*s\n", (int)place[2], (const char *)row + place[1]);
    say("desk: its text is set", loaf_catalogue_set(catalogue, sizeof catalogue, number, row, length, text, 1, LOAF_BYTES, 0, (const uint8_t *)"TPH", 3));
    say("desk: it is marked", loaf_catalogue_set(catalogue, sizeof catalogue, number, row, length, corrected, 1, LOAF_BOOL, 1, row, 0));
    if (!loaf_catalogue_read(catalogue, sizeof catalogue, number, row, length, text, 1, place, 4))
        printf("writer: its text is %.*s\n", (int)place[2], (const char *)row + place[1]);
    uint64_t listed = loaf_catalogue_list(catalogue, sizeof catalogue, number, row, length, listing, sizeof listing);
    if (!loaf_number(listed)) printf("writer: its listing has %" PRIu32 " bytes, the last is %d\n", loaf_length(listed), listing[loaf_length(listed) - 1]);
}

/* Structs of one int8 and more, up to all 16 numbers. */
static void fill(void) {
    uint8_t schema[3 + 2 * LOAF_CATALOGUE_SCHEMAS] = "ro";
    uint64_t answer = 0;
    for (size_t n = 1; n <= LOAF_CATALOGUE_SCHEMAS && !loaf_number(answer); n++) {
        schema[2] = (uint8_t)n;
        memcpy(schema + 1 + 2 * n, "i1", 2);
        answer = loaf_catalogue_add(catalogue, sizeof catalogue, schema, 3 + 2 * n);
    }
    printf("desk: %d schemas are there\n", catalogue[0]);
    say("desk: one more", answer);
}

static void damaged(size_t number) {
    say("all but a byte lent", loaf_catalogue_check(catalogue, sizeof catalogue - 1, number, row, length));
    catalogue[0]++;
    say("one schema more than there may be", loaf_catalogue_check(catalogue, sizeof catalogue, number, row, length));
    catalogue[0]--;
    catalogue[3] ^= 1; /* the mark of another schema than the row's */
    say("a schema that is none", loaf_catalogue_check(catalogue, sizeof catalogue, number, row, length));
    catalogue[3] ^= 1;
    say("put right", loaf_catalogue_check(catalogue, sizeof catalogue, number, row, length));
}

int main(void) {
    size_t strokes = add("writer: a stroke", stroke, sizeof stroke - 1);
    size_t outlines = add("writer: an outline", outline, sizeof outline - 1);
    add_by_table();
    add("desk: an outline, as the writer has it", outline, sizeof outline - 1);
    add("desk: a schema cut short", outline, sizeof outline - 2);

    write_row(outlines);
    correct_row(outlines);
    say("the row as a stroke", loaf_catalogue_check(catalogue, sizeof catalogue, strokes, row, length));
    say("the row by the number 3", loaf_catalogue_check(catalogue, sizeof catalogue, 3, row, length));

    fill();
    memcpy(before, catalogue, sizeof catalogue);
    add("desk: an outline again", outline, sizeof outline - 1);
    printf("the catalogue is as before: %s\n", memcmp(catalogue, before, sizeof catalogue) ? "no" : "yes");
    say("the row by its number", loaf_catalogue_check(catalogue, sizeof catalogue, outlines, row, length));

    damaged(outlines);
    return 0;
}
