// count_catalogue WHAT SCHEMAS PLACE REPS: runs one entry REPS times by a catalogue of so many schemas; the caller counts the instructions of two
// runs. The schema of the two-stroke row has the number PLACE, and is not there where PLACE is SCHEMAS; the others are structs of 1 to 16 int64.
// A new schema is taken off again by the count before each call, so that each call finds the same catalogue.
#include "rows.h"
#include <stdio.h>
#include <stdlib.h>
#include <string.h>
#include "../desk/loafcompass.h"
static struct sample s, other;
static uint8_t catalogue[LOAF_CATALOGUE_BYTES], row[72], listing[256], out[256];
int main(int argc, char **argv) {
    if (argc != 5 || !make_sample(&s, "strokes", 2)) return 2;
    const size_t schemas = (size_t)atol(argv[2]), place = (size_t)atol(argv[3]), all = sizeof catalogue;
    if (LOAF_CATALOGUE_SCHEMAS < schemas || schemas < place) return 2;
    for (size_t i = 0; i < schemas; i++) {
        if (!make_sample(&other, "fields", (unsigned)i + 1)) return 2;
        const struct sample *added = i == place ? &s : &other;
        if (loaf_catalogue_add(catalogue, all, added->schema, added->schema_len) != i) return 1;
    }
    uint64_t sum = 0, answer[4] = {0}, plain[4] = {0};
    if (loaf_read(s.schema, s.schema_len, s.row, s.row_len, s.path, s.steps, plain, 4)) return 1;
    const uint32_t kind = (uint32_t)plain[0];
    const uint64_t listed = loaf_list(s.schema, s.schema_len, s.row, s.row_len, listing, sizeof listing);
    if (place < schemas) {
        if (loaf_catalogue_read(catalogue, all, place, s.row, s.row_len, s.path, s.steps, answer, 4) || memcmp(answer, plain, sizeof plain)) return 1;
        if (loaf_catalogue_list(catalogue, all, place, s.row, s.row_len, out, sizeof out) != listed || memcmp(out, listing, listed)) return 1;
        if (loaf_catalogue_write(catalogue, all, place, listing, listed, row, sizeof row) != s.row_len || memcmp(row, s.row, s.row_len)) return 1;
    }
    // The entry is looked up once, so that a call costs no more than a jump beside itself.
    static const char *const names[] = {"check", "read", "set", "write", "list", "add"};
    unsigned entry = 0;
    while (entry < sizeof names / sizeof *names && strcmp(names[entry], argv[1])) entry++;
    for (long i = atol(argv[4]); i > 0; i--) switch (entry) {
        case 0: sum += loaf_catalogue_check(catalogue, all, place, s.row, s.row_len); break;
        case 1: sum += loaf_catalogue_read(catalogue, all, place, s.row, s.row_len, s.path, s.steps, answer, 4); break;
        case 2: sum += loaf_catalogue_set(catalogue, all, place, s.row, s.row_len, s.path, s.steps, kind, 7, (const uint8_t *)"TPH", 3); break;
        case 3: sum += loaf_catalogue_write(catalogue, all, place, listing, listed, out, sizeof out) >> 32; break;
        case 4: sum += loaf_catalogue_list(catalogue, all, place, s.row, s.row_len, out, sizeof out) >> 32; break;
        case 5:
            catalogue[0] = (uint8_t)schemas;
            sum += loaf_catalogue_add(catalogue, all, s.schema, s.schema_len) != place;
            break;
        default: return 2;
    }
    if (sum) { fprintf(stderr, "refused\n"); return 1; }
    return 0;
}
