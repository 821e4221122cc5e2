// Text in plain C: the table of RFC 3629, a character at a time.
#include "plain.h"

static int in(uint8_t x, uint8_t low, uint8_t high) { return low <= x && x <= high; }

int plain_is_text(const uint8_t *b, size_t n) {
    size_t i = 0;
    while (i < n) {
        uint8_t a = b[i];
        size_t left = n - i, size = a < 0x80 ? 1 : a < 0xE0 ? 2 : a < 0xF0 ? 3 : 4;
        if (size > 1) {
            uint8_t low = a == 0xE0 ? 0xA0 : a == 0xF0 ? 0x90 : 0x80, high = a == 0xED ? 0x9F : a == 0xF4 ? 0x8F : 0xBF;
            if (!in(a, 0xC2, 0xF4) || left < size || !in(b[i + 1], low, high)) return 0;
            for (size_t k = 2; k < size; k++) if (!in(b[i + k], 0x80, 0xBF)) return 0;
        }
        i += size;
    }
    return 1;
}
