// A stroke log by hand: a batch whose rows hold a chord or two.
#include "plain.h"
#include <string.h>

static const uint8_t schema[] = "ro\2" "ro\2i4i4" "ro\2i4i4";
enum { WINDOW_LIMIT = 1000, ONE = 48, TWO = 72 };

static uint32_t get4(const uint8_t *p) { return p[0] | (uint32_t)p[1] << 8 | (uint32_t)p[2] << 16 | (uint32_t)p[3] << 24; }
static void put4(uint8_t *p, uint32_t v) { for (int i = 0; i < 4; i++) p[i] = (uint8_t)(v >> (8 * i)); }

// Stroke i of a row that keeps to the layout: where it starts, and whether it is null.
static size_t stroke(const uint8_t *row, int i) { return get4(row + 12 + 8 * i); }
static int is_null(const uint8_t *row, int i) { return row[0] >> i & 1; }

// 7 and the place where a null stands that a log can't have, else 0.
static uint64_t nulls(const uint8_t *row) {
    if (is_null(row, 0)) return 7ull << 32;
    for (int i = 0; i < 2; i++) if (!is_null(row, i) && row[stroke(row, i)]) return 7ull << 32 | stroke(row, i);
    return 0;
}
// A refusal, or 0 and where the last row starts, 0 where there is none.
static uint64_t judge(const uint8_t *log, size_t len, size_t *last) {
    for (size_t at = 0; at < len;) {
        size_t end = plain_frame_end(log, len, at), size = end - at - 4;
        if (!end) return 10ull << 32;
        const uint8_t *row = log + at + 4;
        uint64_t code = size > 16384 ? 3ull << 32 : plain_fits(schema, row, size) ? nulls(row) : 7ull << 32;
        if (code) return plain_count_on(log, len, end, 0) < 0 ? 10ull << 32 : code;
        *last = at + 4;
        at = end;
    }
    return 0;
}
static void put_stroke(uint8_t *row, int i, uint32_t tick, uint32_t keys) {
    uint8_t *at = row + 24 + 24 * i;
    put4(row + 8 + 8 * i, 24);
    put4(row + 12 + 8 * i, 24 + 24 * i);
    put4(at + 8, tick);
    put4(at + 16, keys);
}
uint64_t plain_log_add(uint8_t *room, size_t room_len, size_t used, uint32_t tick, uint32_t keys, uint32_t window, uint64_t *answer) {
    if (room_len < used) return 10ull << 32;
    size_t last = 0;
    uint64_t code = judge(room, used, &last);
    if (code) return code;
    if (window > WINDOW_LIMIT) return 11ull << 32;
    uint8_t row[TWO] = {0};
    size_t start = used + 4, size = ONE;
    if (last && is_null(room + last, 1)) {
        const uint8_t *first = room + last + stroke(room + last, 0);
        if (tick - get4(first + 8) <= window) {
            start = last;
            size = TWO;
            put_stroke(row, 0, get4(first + 8), get4(first + 16));
        }
    }
    if (size == ONE) row[0] = 2;
    put_stroke(row, size == TWO, tick, keys);
    if (start + size > room_len) return 11ull << 32;
    memcpy(room + start - 4, (const uint8_t[]){0, 0, 0, (uint8_t)size}, 4);
    memcpy(room + start, row, size);
    answer[0] = start + size;
    return 0;
}
