/* Two strokes on a card: written from a listing, checked, read, one chord corrected, and the row of the March accident, whose two slots
 * point at one stroke. */
#include <inttypes.h>
#include <stdio.h>
#include <string.h>

#include "../desk/loafcompass.h"

/* a struct of two strokes, each a struct of a time and a chord, both int32 */
static const uint8_t schema[] = "ro\x02" "ro\x02" "i4i4" "ro\x02" "i4i4";
static const uint8_t listing[] = "ro" "ro" "i4\xE8\x03\0\0" "i4\x05\0\0\0" "ro" "i4\xE9\x03\0\0" "i4\x07\0\0\0";
enum { SCHEMA = sizeof schema - 1, LISTING = sizeof listing - 1 };

static uint8_t row[256];
static size_t length;

static void say(const char *what, uint64_t answer) {
    if (loaf_number(answer) == LOAF_LAYOUT) printf("%s: refused 7, at byte %" PRIu32 "\n", what, loaf_place(answer));
    else if (loaf_number(answer)) printf("%s: refused %" PRIu32 "\n", what, loaf_number(answer));
    else printf("%s: done, length %" PRIu32 "\n", what, loaf_length(answer));
}

static void say_chord(uint32_t stroke) {
    const uint32_t path[] = {stroke, 1};
    uint64_t answer[4];
    uint64_t read = loaf_read(schema, SCHEMA, row, length, path, 2, answer, 4);
    if (loaf_number(read)) say("read", read);
    else printf("stroke %" PRIu32 ", chord %" PRId64 "\n", stroke, (int64_t)answer[1]);
}

int main(void) {
    uint64_t written = loaf_write(schema, SCHEMA, listing, LISTING, row, sizeof row);
    say("write", written);
    length = loaf_length(written);
    say("check", loaf_check(schema, SCHEMA, row, length));

    uint8_t again[256];
    uint64_t listed = loaf_list(schema, SCHEMA, row, length, again, sizeof again);
    say("list", listed);
    printf("the listing again: %s\n", loaf_length(listed) == LISTING && !memcmp(again, listing, LISTING) ? "yes" : "no");

    /* one chord corrected: the other stroke reads as before */
    const uint32_t chord[] = {1, 1};
    say("set", loaf_set(schema, SCHEMA, row, length, chord, 2, LOAF_NUMBER, 9, row, 0));
    say_chord(0);
    say_chord(1);

    memcpy(row + 16, row + 8, 8);
    say("check, both slots at the first stroke", loaf_check(schema, SCHEMA, row, length));
    say("set, both slots at the first stroke", loaf_set(schema, SCHEMA, row, length, chord, 2, LOAF_NUMBER, 9, row, 0));
    return 0;
}
