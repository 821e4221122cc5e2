// Reading one place by its path and setting one leaf, by the same rules, in plain C.
#include "plain.h"
#include <string.h>

static uint64_t get(const uint8_t *p, int n) { uint64_t v = 0; memcpy(&v, p, (size_t)n); return v; }
static size_t pad(size_t n) { return (n + 7) & ~(size_t)7; }
static size_t bitmap(size_t n) { return (n + 63) / 64 * 8; }
static uint64_t refused(unsigned n) { return (uint64_t)n << 32; }

// A place: its type, the type of a list's elements, its bytes, and where its bit and its slot or element stand.
struct spot { int kind; size_t at, element; size_t start, len; size_t bits, number, slot, wide; int null; };

static size_t wide(const uint8_t *s, size_t at) { int k = plain_place(s + at); return k < 7 ? (size_t)plain_width(k) : 8; }

static void of_type(const uint8_t *s, struct spot *p, size_t at) { p->kind = plain_place(s + at); p->at = at; p->element = at + 2; }

// The type that a step leads to, by the schema alone.
static int type_step(const uint8_t *s, struct spot *p, uint32_t step) {
    if (p->kind == 11) {
        if (step >= s[p->at + 2]) return 0;
        size_t at = p->at + 3;
        while (step--) at = plain_skip(s, at);
        of_type(s, p, at);
    } else if (p->kind == 9) of_type(s, p, p->element);
    else if (p->kind == 10) {
        if (step > 1) return 0;
        p->element = step ? plain_skip(s, p->at + 2) : p->at + 2;
        p->kind = 9;
    } else return 0;
    return 1;
}

// The rules of the place itself.
static int own(const uint8_t *s, const struct spot *p, const uint8_t *row) {
    const uint8_t *b = row + p->start;
    if (p->kind == 11) return p->len >= bitmap(s[p->at + 2]) + 8u * s[p->at + 2];
    if (p->kind == 9) {
        if (p->len < 8) return 0;
        uint64_t n = get(b, 8);
        return n <= p->len && 8 + bitmap(n) + pad(n * wide(s, p->element)) <= p->len;
    }
    if (p->kind == 10) return p->len >= 8 && get(b, 8) % 8 == 0 && get(b, 8) <= p->len - 8;
    if (p->kind == 7) return plain_is_text(b, p->len);
    return p->kind != 0 || b[0] < 2;
}

// One step on; 0, or the refusal's number.
static unsigned step_in(const uint8_t *s, struct spot *p, const uint8_t *row, uint32_t step) {
    const uint8_t *b = row + p->start;
    if (p->kind == 10) {
        uint64_t K = get(b, 8);
        type_step(s, p, step);
        if (step) { p->start += 8 + K; p->len -= 8 + K; } else { p->start += 8; p->len = K; }
        return own(s, p, row) ? 0 : 7;
    }
    size_t head = p->kind == 9 ? 8 : 0, n = p->kind == 9 ? get(b, 8) : s[p->at + 2], w = p->kind == 9 ? wide(s, p->element) : 8;
    if (step >= n) return 5;
    size_t fixed = head + bitmap(n) + pad(n * w), within = p->len;
    p->bits = p->start + head; p->number = step; p->slot = p->start + head + bitmap(n) + step * w; p->wide = w;
    size_t from = p->start;
    type_step(s, p, step);
    p->null = b[head + step / 8] >> (step % 8) & 1;
    if (p->null) return 0;
    if (p->kind < 7) { p->start = p->slot; p->len = (size_t)plain_width(p->kind); }
    else {
        uint64_t x = get(row + p->slot, 8), offset = x >> 32, size = x & 0xFFFFFFFF;
        if (offset < fixed || offset % 8 || offset + size > within) return 7;
        p->start = from + offset; p->len = size;
    }
    return own(s, p, row) ? 0 : 7;
}

static unsigned find(const uint8_t *s, const uint8_t *row, size_t len, const uint32_t *path, size_t steps, struct spot *p) {
    if (steps > 16) return 5;
    of_type(s, p, 0);
    for (size_t i = 0; i < steps; i++) if (!type_step(s, p, path[i])) return 5;
    memset(p, 0, sizeof *p);
    of_type(s, p, 0);
    p->len = len;
    if (!own(s, p, row)) return 7;
    for (size_t i = 0; i < steps; i++) {
        if (p->null) return 6;
        unsigned n = step_in(s, p, row, path[i]);
        if (n) return n;
    }
    return 0;
}

uint64_t plain_read(const uint8_t *s, size_t slen, const uint8_t *row, size_t len, const uint32_t *path, size_t steps, uint64_t *answer) {
    struct spot p;
    if (!plain_judge(s, slen)) return refused(1);
    if (len > 16384) return refused(3);
    unsigned n = find(s, row, len, path, steps, &p);
    if (n) return refused(n);
    memset(answer, 0, 4 * sizeof *answer);
    if (p.null) return 0;
    const uint8_t *b = row + p.start;
    if (p.kind < 7) {
        uint64_t v = get(b, plain_width(p.kind));
        int shift = 64 - 8 * plain_width(p.kind);
        answer[0] = p.kind == 0 ? 1 : p.kind < 5 ? 2 : p.kind == 5 ? 3 : 4;
        answer[1] = answer[0] == 2 ? (uint64_t)((int64_t)(v << shift) >> shift) : v;
        return 0;
    }
    answer[0] = p.kind < 9 ? 5 : 6; answer[1] = p.start; answer[2] = p.len;
    if (p.kind > 8) answer[3] = p.kind == 9 ? get(b, 8) : p.kind == 10 ? 2 : s[p.at + 2];
    return 0;
}

// Whether a number fits w bytes.
static int fits(int64_t v, int w) { return w == 8 || (v >= -(1ll << (8 * w - 1)) && v < 1ll << (8 * w - 1)); }

uint64_t plain_set(const uint8_t *s, size_t slen, uint8_t *row, size_t len, const uint32_t *path, size_t steps, uint32_t kind, uint64_t value, const uint8_t *bytes, size_t n) {
    struct spot p;
    uint64_t bad = plain_check(s, slen, row, len);
    if (bad) return bad;
    unsigned no = find(s, row, len, path, steps, &p);
    if (no) return refused(no);
    int w = p.kind < 7 ? plain_width(p.kind) : 0;
    if (p.kind > 8) return refused(8);
    if (p.kind > 6) {
        if (kind != 0 && kind != 5) return refused(8);
        if (kind == 5 && p.kind == 7 && !plain_is_text(bytes, n)) return refused(8);
        if (p.null ? kind != 0 : kind != 5 || n != p.len) return refused(9);
        if (p.null) memset(row + p.slot, 0, p.wide); else memcpy(row + p.start, bytes, n);
        return 0;
    }
    int fit = kind == 0 || (kind == 1 && p.kind == 0 && value < 2) || (kind == 2 && p.kind > 0 && p.kind < 5 && fits((int64_t)value, w)) ||
              (kind == 3 && p.kind == 5 && value >> 32 == 0) || (kind == 4 && p.kind == 6);
    if (!fit) return refused(8);
    uint8_t bit = (uint8_t)(1 << p.number % 8), *flag = row + p.bits + p.number / 8;
    *flag = (uint8_t)(kind ? *flag & ~bit : *flag | bit);
    memset(row + p.slot, 0, p.wide);
    if (kind) memcpy(row + p.slot, &value, (size_t)w);
    return 0;
}
