// Rows and schemas for the benchmark, laid out by hand, each with the path of a leaf in its middle.
#ifndef ROWS_H
#define ROWS_H
#include <stdint.h>
#include <stddef.h>
struct sample { const char *name; uint8_t schema[1024]; size_t schema_len; uint8_t row[16384]; size_t row_len; unsigned children;
                uint32_t path[4]; size_t steps; };
int make_sample(struct sample *s, const char *kind, unsigned n);
#endif
