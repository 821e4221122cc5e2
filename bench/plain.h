#ifndef PLAIN_H
#define PLAIN_H
#include <stdint.h>
#include <stddef.h>
int plain_judge(const uint8_t *schema, size_t schema_len);
uint64_t plain_check(const uint8_t *schema, size_t schema_len, const uint8_t *row, size_t row_len);
uint64_t plain_list(const uint8_t *schema, size_t schema_len, const uint8_t *row, size_t row_len, uint8_t *out, size_t room);
uint64_t plain_write(const uint8_t *schema, size_t schema_len, const uint8_t *listing, size_t listing_len, uint8_t *out, size_t room);
uint64_t plain_read(const uint8_t *schema, size_t schema_len, const uint8_t *row, size_t row_len, const uint32_t *path, size_t steps, uint64_t *answer);
uint64_t plain_set(const uint8_t *schema, size_t schema_len, uint8_t *row, size_t row_len, const uint32_t *path, size_t steps, uint32_t kind, uint64_t value, const uint8_t *bytes, size_t length);
uint64_t plain_batch_count(const uint8_t *batch, size_t len, uint64_t *answer);
uint64_t plain_batch_check(const uint8_t *schema, size_t schema_len, const uint8_t *batch, size_t len, uint64_t *answer);
uint64_t plain_batch_fetch(const uint8_t *schema, size_t schema_len, const uint8_t *batch, size_t len, size_t k, uint64_t *answer);
uint64_t plain_log_add(uint8_t *room, size_t room_len, size_t used, uint32_t tick, uint32_t keys, uint32_t window, uint64_t *answer);
// the end of the frame at a place, 0 where the bytes end inside it; the frames from a place on and n before it, -1 where they end inside one
size_t plain_frame_end(const uint8_t *batch, size_t len, size_t at);
int64_t plain_count_on(const uint8_t *batch, size_t len, size_t at, int64_t n);
// whether bytes are text, well-formed UTF-8
int plain_is_text(const uint8_t *bytes, size_t length);
// whether a row of an accepted schema, at most 16,384 bytes, keeps to the layout
int plain_fits(const uint8_t *schema, const uint8_t *row, size_t row_len);
// a type's line in the table, its width, and the position behind it in an accepted schema
int plain_place(const uint8_t *mark);
int plain_width(int place);
size_t plain_skip(const uint8_t *schema, size_t at);
#endif
