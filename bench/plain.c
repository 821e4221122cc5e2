// The same rules in plain C, as one would write them by hand: the anchor that the proved code is counted against.
#include "plain.h"
#include <string.h>

static uint64_t get(const uint8_t *p, int n) { uint64_t v = 0; memcpy(&v, p, (size_t)n); return v; }
static size_t pad(size_t n) { return (n + 7) & ~(size_t)7; }
static size_t bitmap(size_t n) { return (n + 63) / 64 * 8; }

static const int widths[12] = {1, 1, 2, 4, 8, 4, 8, 0, 0, 0, 0, 0};

#define MARK(a, b) ((a) | (b) << 8)
static int place(const uint8_t *s) {
    switch (MARK(s[0], s[1])) {
    case MARK('b', 'o'): return 0;
    case MARK('i', '1'): return 1;
    case MARK('i', '2'): return 2;
    case MARK('i', '4'): return 3;
    case MARK('i', '8'): return 4;
    case MARK('f', '4'): return 5;
    case MARK('f', '8'): return 6;
    case MARK('s', 't'): return 7;
    case MARK('b', 'i'): return 8;
    case MARK('l', 'i'): return 9;
    case MARK('m', 'a'): return 10;
    case MARK('r', 'o'): return 11;
    default: return 12;
    }
}
// The position after a type, or 0.
static size_t skip(const uint8_t *s, size_t len, size_t at, int depth) {
    if (!depth || at + 2 > len) return 0;
    int k = place(s + at);
    at += 2;
    if (k < 9) return at;
    if (k == 9) return skip(s, len, at, depth - 1);
    if (k == 10) { at = skip(s, len, at, depth - 1); return at ? skip(s, len, at, depth - 1) : 0; }
    if (k == 11) {
        if (at >= len) return 0;
        int n = s[at++];
        if (n < 1 || n > 128) return 0;
        while (n--) if (!(at = skip(s, len, at, depth - 1))) return 0;
        return at;
    }
    return 0;
}
int plain_judge(const uint8_t *s, size_t len) {
    return len <= 1024 && len >= 2 && s[0] == 'r' && s[1] == 'o' && skip(s, len, 0, 8) == len;
}

static int value(const uint8_t *s, size_t at, int depth, const uint8_t *b, size_t len);

static int zero(const uint8_t *p, size_t n) { for (size_t i = 0; i < n; i++) if (p[i]) return 0; return 1; }

// Whether the present values stand one after another in some order: each unit of 8 bytes belongs to one of them, and no empty one stands
// inside another. They all are placed before one is looked into, so that no byte is looked at under two of them.
static int tiled(const uint8_t *s, size_t at, const uint8_t *b, size_t len, size_t head, size_t n, int list, size_t fixed) {
    enum { FREE, FIRST, LATER } unit[2048];
    size_t units = (len - fixed) / 8, used = 0;
    if (len % 8) return 0;
    memset(unit, 0, (units + 1) * sizeof *unit);
    for (int empty = 0; empty < 2; empty++) {
        size_t type = at;
        for (size_t i = 0; i < n; i++) {
            uint64_t x = get(b + head + bitmap(n) + i * 8, 8), off = x >> 32, size = x & 0xFFFFFFFF;
            int varies = place(s + type) > 6 && !(b[head + i / 8] >> (i % 8) & 1);
            if (!list) type = skip(s, 1024, type, 9);
            if (!varies || (size == 0) != empty) continue;
            if (off < fixed || off % 8 || off + pad(size) > len) return 0;
            size_t u = (off - fixed) / 8, end = u + pad(size) / 8;
            if (empty && unit[u] == LATER) return 0;
            used += end - u;
            for (size_t v = u; v < end; v++) {
                if (unit[v] != FREE) return 0;
                unit[v] = v == u ? FIRST : LATER;
            }
        }
    }
    return used == units;
}
// Children from their types: next is 0 for a list, whose type stays. Values are taken to stand in field order up to the first that does not.
static int children(const uint8_t *s, size_t at, int depth, const uint8_t *b, size_t len, size_t head, size_t n, int list) {
    int k0 = place(s + at);
    size_t types = at, w = list ? (k0 < 7 ? (size_t)widths[k0] : 8) : 8;
    if (n > len) return 0;
    size_t slots = head + bitmap(n), end = slots + n * w, fixed = slots + pad(n * w), cur = fixed;
    int placed = 0;
    if (cur > len) return 0;
    for (size_t i = n; i < bitmap(n) * 8; i++) if (b[head + i / 8] >> (i % 8) & 1) return 0;
    for (size_t i = 0; i < n; i++) {
        int k = list ? k0 : place(s + at);
        const uint8_t *p = b + slots + i * w;
        if (!(b[head + i / 8] >> (i % 8) & 1)) {
            if (k < 7) {
                if (k == 0 && p[0] > 1) return 0;
                if (!zero(p + widths[k], w - (size_t)widths[k])) return 0;
            } else {
                uint64_t x = get(p, 8), size = x & 0xFFFFFFFF;
                if (x >> 32 != cur) {
                    if (!placed && !(placed = tiled(s, types, b, len, head, n, list, fixed))) return 0;
                    cur = x >> 32;
                }
                if (cur + pad(size) > len) return 0;
                if (k == 7 && !plain_is_text(b + cur, size)) return 0;
                if (k > 8 && !value(s, at, depth, b + cur, size)) return 0;
                if (!zero(b + cur + size, pad(size) - size)) return 0;
                cur += pad(size);
            }
        }
        if (!list) at = skip(s, 1024, at, 9);
    }
    return zero(b + end, pad(n * w) - n * w) && (placed || cur == len);
}
static int list_of(const uint8_t *s, size_t at, int depth, const uint8_t *b, size_t len) {
    return len >= 8 && children(s, at, depth, b, len, 8, get(b, 8), 1);
}
static int value(const uint8_t *s, size_t at, int depth, const uint8_t *b, size_t len) {
    int k = place(s + at);
    if (k == 9) return list_of(s, at + 2, depth - 1, b, len);
    if (k == 10) {
        if (len < 8) return 0;
        uint64_t K = get(b, 8);
        if (K > len - 8) return 0;
        return list_of(s, at + 2, depth - 1, b + 8, K) && list_of(s, skip(s, 1024, at + 2, 9), depth - 1, b + 8 + K, len - 8 - K) && get(b + 8, 8) == get(b + 8 + K, 8);
    }
    return children(s, at + 3, depth - 1, b, len, 0, s[at + 2], 0);
}
int plain_fits(const uint8_t *s, const uint8_t *row, size_t len) { return value(s, 0, 8, row, len); }
uint64_t plain_check(const uint8_t *s, size_t slen, const uint8_t *row, size_t len) {
    if (!plain_judge(s, slen)) return 1ull << 32;
    if (len > 16384) return 3ull << 32;
    return value(s, 0, 8, row, len) ? 0 : 7ull << 32;
}

int plain_place(const uint8_t *mark) { return place(mark); }
int plain_width(int k) { return widths[k]; }
size_t plain_skip(const uint8_t *s, size_t at) { return skip(s, 1024, at, 9); }
