/* A run of 10,000 chords added to one log, with ticks around the counter's start at zero: log_run SEED. What goes into a second place and what
 * starts a row, the length after each, and that a refusal alters nothing, are told here by the chords alone; at the end all of them are read back. */
#include <stdio.h>
#include <stdlib.h>
#include <string.h>
#include "../../desk/loafcompass.h"

enum { CHORDS = 10000, NEW_ROW = 52, SECOND_PLACE = 24, ROOM = CHORDS * NEW_ROW };
static uint8_t room[ROOM + 1], before[ROOM + 1];
static uint32_t chords[2 * CHORDS], numbers[2 * CHORDS];

static uint64_t state;
static uint32_t below(uint32_t n) {
    state = state * 6364136223846793005u + 1442695040888963407u;
    return (uint32_t)(state >> 33) % n;
}
static int differs(const char *what, size_t n) {
    fprintf(stderr, "log run: %s differs at chord %zu\n", what, n);
    return 1;
}

int main(int argc, char **argv) {
    static const uint32_t windows[] = {0, 1, 2, 999, 1000, 1000, 1000, 1001};
    static const uint32_t steps[] = {0, 1, 1, 2, 999, 1000, 1001, 3000};
    state = argc > 1 ? strtoull(argv[1], NULL, 10) : 1;
    memset(room, 0xAA, sizeof room);
    memcpy(before, room, sizeof room);
    size_t used = 0, refused = 0, seconds = 0, wraps = 0;
    uint32_t tick = 0xFFFFF000, first = 0;
    int is_free = 0;
    for (size_t n = 0; n < CHORDS;) {
        uint32_t next = tick + steps[below(8)], keys = below(0x7FFFFFFF) * 2 + below(2), window = windows[below(8)];
        if (0x2000 < next && next < 0x80000000) next = 0xFFFFF000 + below(0x1000);
        int joins = is_free && next - first <= window;
        size_t needed = used + (joins ? SECOND_PLACE : NEW_ROW), lent = below(16) ? needed + below(2) : needed - 1;
        uint64_t length = 0, answer = loaf_log_add(room, lent, used, next, keys, window, &length, 1);
        if (window > LOAF_LOG_WINDOW || lent < needed) {
            if (answer != (uint64_t)LOAF_LOG << 32 || memcmp(room, before, sizeof room)) return differs("a refusal", n);
            refused++;
            continue;
        }
        if (answer || length != needed) return differs("adding", n);
        wraps += next < tick && next < 0x80000000;
        seconds += joins;
        if (!joins) first = next;
        is_free = !joins;
        chords[2 * n] = tick = next;
        chords[2 * n + 1] = keys;
        size_t from = joins ? used - NEW_ROW : used;
        memcpy(before + from, room + from, needed - from);
        used = needed;
        n++;
    }
    if (memcmp(room, before, sizeof room)) return differs("what lies ahead of the last row, or behind the log,", CHORDS);
    uint64_t count = 0, chord[2];
    if (loaf_log_read(room, used, numbers, 2 * CHORDS - 1, &count, 1) != (uint64_t)LOAF_LOG << 32) return differs("reading into too few numbers", CHORDS);
    if (loaf_log_read(room, used, numbers, 2 * CHORDS, &count, 1) || count != 2 * CHORDS) return differs("how many were read", CHORDS);
    if (memcmp(numbers, chords, sizeof chords)) return differs("reading", CHORDS);
    for (int i = 0; i < 100; i++) {
        size_t n = below(CHORDS);
        if (loaf_log_chord(room, used, n, chord, 2) || chord[0] != chords[2 * n] || chord[1] != chords[2 * n + 1]) return differs("one chord", n);
    }
    if (loaf_log_chord(room, used, CHORDS, chord, 2) != (uint64_t)LOAF_NO_PLACE << 32) return differs("a chord past the end", CHORDS);
    if (!wraps || !seconds || !refused) return differs("what came up", 0);
    printf("desk: a run of %d chords is read back, %zu in a second place, %zu refused, the counter's start passed %zu times\n",
        CHORDS, seconds, refused, wraps);
    return 0;
}
