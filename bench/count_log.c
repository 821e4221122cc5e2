// count_log WHAT KIND ROWS REPS: runs one entry REPS times on a log of so many rows of two chords; the caller counts the instructions of two
// runs. A chord added behind a full row is written behind the log each time, so that each call finds the same log.
#include "plain.h"
#include "rows.h"
#include <stdio.h>
#include <stdlib.h>
#include <string.h>
#include "../desk/loafcompass.h"
static struct sample s;
static uint8_t room[1 << 20], plain_room[1 << 20];
static uint32_t numbers[1 << 16];
int main(int argc, char **argv) {
    if (argc != 5 || !make_sample(&s, argv[2], 2)) return 2;
    uint64_t sum = 0, answer[2], plain[2];
    const size_t rows = (size_t)atol(argv[3]), used = rows * (4 + s.row_len);
    if (rows == 0 || sizeof room < used + 52 || sizeof numbers / sizeof *numbers < 4 * rows) return 2;
    for (size_t i = 0; i < rows; i++) {
        uint8_t *frame = room + i * (4 + s.row_len);
        frame[3] = (uint8_t)s.row_len;
        memcpy(frame + 4, s.row, s.row_len);
    }
    memcpy(plain_room, room, sizeof room);
    if (loaf_log_add(room, sizeof room, used, 1001, 9, 1000, answer, 1) || plain_log_add(plain_room, sizeof plain_room, used, 1001, 9, 1000, plain)) return 1;
    if (answer[0] != plain[0] || memcmp(room, plain_room, sizeof room)) { fprintf(stderr, "logs differ\n"); return 1; }
    if (loaf_log_read(room, used, numbers, sizeof numbers / sizeof *numbers, answer, 1) || answer[0] != 4 * rows) return 1;
    if (loaf_log_chord(room, used, 2 * rows - 1, answer, 2) || answer[0] != numbers[4 * rows - 2] || answer[1] != numbers[4 * rows - 1]) return 1;
    for (long i = atol(argv[4]); i > 0; i--) {
        if (!strcmp(argv[1], "add")) sum += loaf_log_add(room, sizeof room, used, 1001, 9, 1000, answer, 1);
        else if (!strcmp(argv[1], "plain_add")) sum += plain_log_add(plain_room, sizeof plain_room, used, 1001, 9, 1000, plain);
        else if (!strcmp(argv[1], "check")) sum += loaf_batch_check(s.schema, s.schema_len, room, used, answer, 1);
        else if (!strcmp(argv[1], "read")) sum += loaf_log_read(room, used, numbers, sizeof numbers / sizeof *numbers, answer, 1);
        else if (!strcmp(argv[1], "chord")) sum += loaf_log_chord(room, used, 2 * rows - 1, answer, 2);
        else return 2;
    }
    if (sum) { fprintf(stderr, "refused\n"); return 1; }
    return 0;
}
