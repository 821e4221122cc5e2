// count WHAT KIND N REPS: runs one entry REPS times on one sample; the caller counts the instructions of two runs.
#include "plain.h"
#include "rows.h"
#include <stdio.h>
#include <stdlib.h>
#include <string.h>
#include "../desk/loafcompass.h"
static struct sample s;
static uint8_t listing[65536], out[65536];
static uint64_t table[LOAF_TABLE_WORDS], worked[LOAF_TABLE_WORDS];
int main(int argc, char **argv) {
    if (argc != 5 || !make_sample(&s, argv[2], (unsigned)atoi(argv[3]))) return 2;
    uint64_t sum = 0, answer[4], plain[4];
    if (loaf_read(s.schema, s.schema_len, s.row, s.row_len, s.path, s.steps, answer, 4) || plain_read(s.schema, s.schema_len, s.row, s.row_len, s.path, s.steps, plain)) return 2;
    if (memcmp(answer, plain, sizeof plain)) { fprintf(stderr, "reads differ\n"); return 1; }
    const uint32_t kind = (uint32_t)answer[0];
    size_t listed = (size_t)loaf_list(s.schema, s.schema_len, s.row, s.row_len, listing, sizeof listing);
    const uint64_t tabled = loaf_table(s.schema, s.schema_len, table, LOAF_TABLE_WORDS);
    if (loaf_number(tabled)) return 2;
    const size_t words = loaf_length(tabled);
    // The entry is looked up once, so that a call costs no more than a jump beside itself.
    static const char *const names[] = {
        "judge", "plain_judge", "check", "plain_check", "write", "plain_write", "list", "plain_list", "read", "plain_read", "set", "plain_set",
        "check_by", "write_by", "list_by", "read_by", "set_by", "table"};
    unsigned entry = 0;
    while (entry < sizeof names / sizeof *names && strcmp(names[entry], argv[1])) entry++;
    for (long i = atol(argv[4]); i > 0; i--) switch (entry) {
        case 0: sum += loaf_judge(s.schema, s.schema_len); break;
        case 1: sum += !plain_judge(s.schema, s.schema_len); break;
        case 2: sum += loaf_check(s.schema, s.schema_len, s.row, s.row_len); break;
        case 3: sum += plain_check(s.schema, s.schema_len, s.row, s.row_len); break;
        case 4: sum += loaf_write(s.schema, s.schema_len, listing, listed, out, sizeof out) >> 32; break;
        case 5: sum += plain_write(s.schema, s.schema_len, listing, listed, out, sizeof out) >> 32; break;
        case 6: sum += loaf_list(s.schema, s.schema_len, s.row, s.row_len, out, sizeof out) >> 32; break;
        case 7: sum += plain_list(s.schema, s.schema_len, s.row, s.row_len, out, sizeof out) >> 32; break;
        case 8: sum += loaf_read(s.schema, s.schema_len, s.row, s.row_len, s.path, s.steps, answer, 4); break;
        case 9: sum += plain_read(s.schema, s.schema_len, s.row, s.row_len, s.path, s.steps, answer); break;
        case 10: sum += loaf_set(s.schema, s.schema_len, s.row, s.row_len, s.path, s.steps, kind, 7, (const uint8_t *)"TPH", 3); break;
        case 11: sum += plain_set(s.schema, s.schema_len, s.row, s.row_len, s.path, s.steps, kind, 7, (const uint8_t *)"TPH", 3); break;
        case 12: sum += loaf_check_by(s.schema, s.schema_len, table, words, s.row, s.row_len); break;
        case 13: sum += loaf_write_by(s.schema, s.schema_len, table, words, listing, listed, out, sizeof out) >> 32; break;
        case 14: sum += loaf_list_by(s.schema, s.schema_len, table, words, s.row, s.row_len, out, sizeof out) >> 32; break;
        case 15: sum += loaf_read_by(s.schema, s.schema_len, table, words, s.row, s.row_len, s.path, s.steps, answer, 4); break;
        case 16: sum += loaf_set_by(s.schema, s.schema_len, table, words, s.row, s.row_len, s.path, s.steps, kind, 7, (const uint8_t *)"TPH", 3); break;
        case 17: sum += loaf_table(s.schema, s.schema_len, worked, LOAF_TABLE_WORDS) >> 32; break;
        default: return 2;
    }
    if (sum) { fprintf(stderr, "refused\n"); return 1; }
    return 0;
}
