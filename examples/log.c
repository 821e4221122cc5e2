/* The log of a writer's firmware: chords added to a log in a small lent room as they are struck, a full log shipped and a new one begun, and
 * no chord lost; what takes a shipped log reads all chords back. Then one chord asked for, and what a log is refused with. */
#include <inttypes.h>
#include <stdio.h>

#include "../desk/loafcompass.h"

/* two rows of two chords each: a writer has little memory */
static uint8_t room[152];
static size_t used;

/* a chord at most so many ticks behind the first of a row goes beside it */
enum { WINDOW = 40 };

static void say(const char *what, uint64_t answer) {
    if (loaf_number(answer)) printf("%s: refused %" PRIu32 " %" PRIu32 "\n", what, loaf_number(answer), loaf_length(answer));
    else printf("%s: done\n", what);
}

/* The log goes out, and the room is free again. A card or a wire would take its bytes as they are; here its chords are printed. */
static void ship(void) {
    uint32_t numbers[sizeof room / 19];
    uint64_t count = 0;
    uint64_t answer = loaf_log_read(room, used, numbers, sizeof numbers / sizeof *numbers, &count, 1);
    if (loaf_number(answer)) { say("read", answer); return; }
    printf("shipped %zu bytes:", used);
    for (size_t i = 0; i < count; i += 2) printf(" %" PRIu32 " %08" PRIX32 "%s", numbers[i], numbers[i + 1], i + 2 < count ? "," : "\n");
    used = 0;
}

static uint64_t add(uint32_t tick, uint32_t keys) {
    uint64_t length = used;
    uint64_t answer = loaf_log_add(room, sizeof room, used, tick, keys, WINDOW, &length, 1);
    used = (size_t)length;
    return answer;
}

/* With a window that is allowed, 11 says that the log is full: it is shipped, and the chord starts the next one. */
static void strike(uint32_t tick, uint32_t keys) {
    uint64_t answer = add(tick, keys);
    if (loaf_number(answer) == LOAF_LOG) {
        ship();
        answer = add(tick, keys);
    }
    if (loaf_number(answer)) say("add", answer);
    else printf("tick %" PRIu32 ": the log has %zu bytes\n", tick, used);
}

static void say_chord(size_t n) {
    uint64_t chord[2];
    uint64_t answer = loaf_log_chord(room, used, n, chord, 2);
    if (loaf_number(answer)) say("chord", answer);
    else printf("chord %zu: %" PRIu64 " %08" PRIX64 "\n", n, chord[0], chord[1]);
}

int main(void) {
    uint64_t word = 0;

    strike(4294967270, 0x00000021);
    strike(4294967290, 0x00000040);
    strike(4294967295, 0x00000003); /* its row has no place left */
    strike(34, 0x00018000);         /* 35 ticks on: the counter has started again at zero */
    strike(100, 0x00000007);
    strike(141, 0x00000009);        /* 41 ticks on */
    strike(141, 0x80000000);
    strike(150, 0x00000001);
    strike(160, 0x00000002);

    say_chord(0);
    say_chord(1);
    say_chord(2);
    say("chord, one word lent", loaf_log_chord(room, used, 0, &word, 1));

    say("add, a window of 1,001", loaf_log_add(room, sizeof room, used, 170, 1, LOAF_LOG_WINDOW + 1, &word, 1));
    say("add, no room for a row", loaf_log_add(room, used + 51, used, 170, 1, WINDOW, &word, 1));
    say("add, cut inside a row", loaf_log_add(room, sizeof room, used - 1, 170, 1, WINDOW, &word, 1));

    /* a null tick: bit 0 in the bitmap of the first stroke, which starts at byte 24 of its row */
    room[4 + 24] = 1;
    say("add, a null tick", loaf_log_add(room, sizeof room, used, 170, 1, WINDOW, &word, 1));
    say("chord, a null tick", loaf_log_chord(room, used, 1, &word, 1));
    return 0;
}
