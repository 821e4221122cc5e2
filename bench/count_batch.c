// count_batch WHAT ROWS REPS: runs one entry of a batch REPS times on a batch of so many two-stroke rows; the caller counts the instructions
// of two runs. Of a fetched row every other frame is only passed: behind the first row, before the last.
#include "plain.h"
#include "rows.h"
#include <stdio.h>
#include <stdlib.h>
#include <string.h>
#include "../desk/loafcompass.h"
static struct sample s;
static uint8_t batch[1 << 20];
int main(int argc, char **argv) {
    if (argc != 4 || !make_sample(&s, "strokes", 2)) return 2;
    uint64_t sum = 0, answer[4], plain[4];
    size_t rows = (size_t)atol(argv[2]), used = 0;
    for (size_t i = 0; i < rows; i++) {
        if (loaf_batch_append(s.schema, s.schema_len, batch, sizeof batch, used, s.row, s.row_len, answer, 1)) return 2;
        used = (size_t)answer[0];
    }
    if (loaf_batch_count(batch, used, answer, 1) || plain_batch_count(batch, used, plain) || answer[0] != rows || plain[0] != rows) return 1;
    if (loaf_batch_fetch(s.schema, s.schema_len, batch, used, rows - 1, answer, 2) || plain_batch_fetch(s.schema, s.schema_len, batch, used, rows - 1, plain)) return 1;
    if (memcmp(answer, plain, 2 * sizeof *plain)) { fprintf(stderr, "fetches differ\n"); return 1; }
    for (long i = atol(argv[3]); i > 0; i--) {
        if (!strcmp(argv[1], "count")) sum += loaf_batch_count(batch, used, answer, 1);
        else if (!strcmp(argv[1], "plain_count")) sum += plain_batch_count(batch, used, answer);
        else if (!strcmp(argv[1], "check")) sum += loaf_batch_check(s.schema, s.schema_len, batch, used, answer, 1);
        else if (!strcmp(argv[1], "plain_check")) sum += plain_batch_check(s.schema, s.schema_len, batch, used, answer);
        else if (!strcmp(argv[1], "first")) sum += loaf_batch_fetch(s.schema, s.schema_len, batch, used, 0, answer, 2);
        else if (!strcmp(argv[1], "plain_first")) sum += plain_batch_fetch(s.schema, s.schema_len, batch, used, 0, answer);
        else if (!strcmp(argv[1], "last")) sum += loaf_batch_fetch(s.schema, s.schema_len, batch, used, rows - 1, answer, 2);
        else if (!strcmp(argv[1], "plain_last")) sum += plain_batch_fetch(s.schema, s.schema_len, batch, used, rows - 1, answer);
        else return 2;
    }
    if (sum) { fprintf(stderr, "refused\n"); return 1; }
    return 0;
}
