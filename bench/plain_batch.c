// Batches by hand: frames back to back, each a row's size as 4 bytes, big endian, and the row.
#include "plain.h"

size_t plain_frame_end(const uint8_t *b, size_t len, size_t at) {
    if (len - at < 4) return 0;
    size_t size = (size_t)b[at] << 24 | (size_t)b[at + 1] << 16 | (size_t)b[at + 2] << 8 | b[at + 3];
    return len - at - 4 < size ? 0 : at + 4 + size;
}
int64_t plain_count_on(const uint8_t *b, size_t len, size_t at, int64_t n) {
    for (; at < len; n++) if (!(at = plain_frame_end(b, len, at))) return -1;
    return n;
}
uint64_t plain_batch_count(const uint8_t *b, size_t len, uint64_t *answer) {
    int64_t n = plain_count_on(b, len, 0, 0);
    if (n < 0) return 10ull << 32;
    answer[0] = (uint64_t)n;
    return 0;
}
uint64_t plain_batch_check(const uint8_t *s, size_t slen, const uint8_t *b, size_t len, uint64_t *answer) {
    if (!plain_judge(s, slen)) return 1ull << 32;
    for (size_t at = 0, n = 0; at < len; n++) {
        size_t end = plain_frame_end(b, len, at), size = end - at - 4;
        if (!end) return 10ull << 32;
        uint64_t number = size > 16384 ? 3 : plain_fits(s, b + at + 4, size) ? 0 : 7;
        if (number) {
            if (plain_count_on(b, len, end, 0) < 0) return 10ull << 32;
            answer[0] = n;
            return number << 32;
        }
        at = end;
    }
    return 0;
}
uint64_t plain_batch_fetch(const uint8_t *s, size_t slen, const uint8_t *b, size_t len, size_t k, uint64_t *answer) {
    if (!plain_judge(s, slen)) return 1ull << 32;
    size_t start = 0, size = 0, n = 0;
    for (size_t at = 0; at < len; n++) {
        size_t end = plain_frame_end(b, len, at);
        if (!end) return 10ull << 32;
        if (n == k) { start = at + 4; size = end - start; }
        at = end;
    }
    if (k >= n) return 5ull << 32;
    if (size > 16384) return 3ull << 32;
    if (!plain_fits(s, b + start, size)) return 7ull << 32;
    answer[0] = start; answer[1] = size;
    return 0;
}
