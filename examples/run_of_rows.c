/* A run of strokes on a card: rows appended to a batch in a lent room, counted, checked, fetched and read; one chord corrected in its row,
 * every other row as before; and what a cut batch and a broken row are refused with. */
#include <inttypes.h>
#include <stdio.h>
#include <string.h>

#include "../desk/loafcompass.h"

/* a stroke: a time and a chord, both int32; its row has 8 bytes of nulls and two slots */
static const uint8_t schema[] = "ro\x02" "i4i4";
enum { SCHEMA = sizeof schema - 1, ROW = 24 };

static uint8_t room[96];
static size_t used;

static void say(const char *what, uint64_t answer) {
    if (loaf_number(answer)) printf("%s: refused %" PRIu32 " %" PRIu32 "\n", what, loaf_number(answer), loaf_length(answer));
    else printf("%s: done\n", what);
}

static void append(uint8_t time, uint8_t chord) {
    uint8_t row[ROW] = {0};
    uint64_t length = 0;
    row[8] = time;
    row[16] = chord;
    uint64_t answer = loaf_batch_append(schema, SCHEMA, room, sizeof room, used, row, sizeof row, &length, 1);
    say("append", answer);
    if (loaf_number(answer) == LOAF_ROOM) printf("  the whole takes %" PRIu64 " bytes\n", length);
    if (!loaf_number(answer)) used = (size_t)length;
}

static void say_chord(size_t k) {
    const uint32_t path[] = {1};
    uint64_t place[4];
    uint64_t answer = loaf_batch_read(schema, SCHEMA, room, used, k, path, 1, place, 4);
    if (loaf_number(answer)) say("read", answer);
    else printf("row %zu, chord %" PRId64 "\n", k, (int64_t)place[1]);
}

int main(void) {
    const uint32_t chord[] = {1};
    uint64_t told[2] = {0, 0};

    append(10, 5);
    append(20, 6);
    append(30, 7);
    append(40, 8); /* 4 and 24 bytes more than the room has */

    say("count", loaf_batch_count(room, used, told, 1));
    printf("rows: %" PRIu64 "\n", told[0]);
    say("check", loaf_batch_check(schema, SCHEMA, room, used, told, 1));
    say("fetch", loaf_batch_fetch(schema, SCHEMA, room, used, 1, told, 2));
    printf("row 1 is %" PRIu64 " bytes from byte %" PRIu64 " on\n", told[1], told[0]);
    say("fetch, past the end", loaf_batch_fetch(schema, SCHEMA, room, used, 3, told, 2));
    say("fetch, one word lent", loaf_batch_fetch(schema, SCHEMA, room, used, 1, told, 1));

    say("set", loaf_batch_set(schema, SCHEMA, room, used, 1, chord, 1, LOAF_NUMBER, 9, room, 0));
    for (size_t k = 0; k < 3; k++) say_chord(k);
    say("set, of no kind", loaf_batch_set(schema, SCHEMA, room, used, 1, chord, 1, 7, 0, room, 0));
    say("set, past the end", loaf_batch_set(schema, SCHEMA, room, used, 3, chord, 1, 7, 0, room, 0));

    say("count, cut inside a row", loaf_batch_count(room, used - 1, told, 1));
    say("read, cut inside a size", loaf_batch_read(schema, SCHEMA, room, used - ROW - 1, 0, chord, 1, told, 2));

    /* the rest of the second row's first slot is not zero */
    room[4 + ROW + 4 + 8 + 4] = 1;
    say("check, a broken row", loaf_batch_check(schema, SCHEMA, room, used, told, 1));
    printf("the first broken row: %" PRIu64 "\n", told[0]);
    say("set in another row", loaf_batch_set(schema, SCHEMA, room, used, 2, chord, 1, LOAF_NULL, 0, room, 0));
    say("set in the broken row", loaf_batch_set(schema, SCHEMA, room, used, 1, chord, 1, LOAF_NULL, 0, room, 0));
    return 0;
}
