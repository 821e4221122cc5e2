// Writing a row from a listing and listing it back, by the same rules, in plain C: judge and measure, then write.
#include "plain.h"
#include <string.h>

static uint64_t get(const uint8_t *p, int n) { uint64_t v = 0; memcpy(&v, p, (size_t)n); return v; }
static void put(uint8_t *p, uint64_t v, int n) { memcpy(p, &v, (size_t)n); }
static size_t pad(size_t n) { return (n + 7) & ~(size_t)7; }
static size_t bitmap(size_t n) { return (n + 63) / 64 * 8; }

// ---- list: into out, or only measured where out is NULL; the position behind is returned

static size_t list_value(const uint8_t *s, size_t at, const uint8_t *b, size_t len, uint8_t *out, size_t pos);

static size_t list_children(const uint8_t *s, size_t at, const uint8_t *b, size_t head, size_t n, int list, uint8_t *out, size_t pos) {
    int k0 = plain_place(s + at);
    size_t w = list && k0 < 7 ? (size_t)plain_width(k0) : 8, slots = head + bitmap(n);
    for (size_t i = 0; i < n; i++) {
        int k = list ? k0 : plain_place(s + at);
        const uint8_t *p = b + slots + i * w;
        if (b[head + i / 8] >> (i % 8) & 1) {
            if (out) memcpy(out + pos, "nu", 2);
            pos += 2;
        } else if (k < 7) {
            if (out) { memcpy(out + pos, s + at, 2); memcpy(out + pos + 2, p, (size_t)plain_width(k)); }
            pos += 2 + (size_t)plain_width(k);
        } else {
            uint64_t x = get(p, 8);
            pos = list_value(s, at, b + (x >> 32), x & 0xFFFFFFFF, out, pos);
        }
        if (!list) at = plain_skip(s, at);
    }
    return pos;
}
static size_t list_counted(const uint8_t *s, size_t at, const uint8_t *b, uint8_t *out, size_t pos) {
    return list_children(s, at, b, 8, get(b, 8), 1, out, pos);
}
static size_t list_value(const uint8_t *s, size_t at, const uint8_t *b, size_t len, uint8_t *out, size_t pos) {
    int k = plain_place(s + at);
    if (out) memcpy(out + pos, s + at, 2);
    pos += 2;
    if (k == 11) return list_children(s, at + 3, b, 0, s[at + 2], 0, out, pos);
    size_t n = k < 9 ? len : get(k == 10 ? b + 8 : b, 8);
    if (out) put(out + pos, n, 4);
    pos += 4;
    if (k < 9) {
        if (out) memcpy(out + pos, b, len);
        return pos + len;
    }
    if (k == 9) return list_counted(s, at + 2, b, out, pos);
    pos = list_counted(s, at + 2, b + 8, out, pos);
    return list_counted(s, plain_skip(s, at + 2), b + 8 + get(b, 8), out, pos);
}
uint64_t plain_list(const uint8_t *s, size_t slen, const uint8_t *row, size_t len, uint8_t *out, size_t room) {
    uint64_t refused = plain_check(s, slen, row, len);
    if (refused) return refused;
    size_t need = list_value(s, 0, row, len, NULL, 0);
    if (need > room) return 4ull << 32 | need;
    list_value(s, 0, row, len, out, 0);
    return need;
}

// ---- write: first judged and measured, the size of a value's bytes in *size

struct listing { const uint8_t *l; size_t len, pos; };
static int measure(const uint8_t *s, size_t at, struct listing *l, size_t *size);

static int nothing(struct listing *l) { return l->pos + 2 <= l->len && l->l[l->pos] == 'n' && l->l[l->pos + 1] == 'u'; }

static int measure_children(const uint8_t *s, size_t at, struct listing *l, size_t head, size_t n, int list, size_t *size) {
    int k0 = plain_place(s + at);
    size_t w = list && k0 < 7 ? (size_t)plain_width(k0) : 8, total = head + bitmap(n) + pad(n * w), one;
    for (size_t i = 0; i < n; i++) {
        if (nothing(l)) l->pos += 2;
        else {
            if (!measure(s, at, l, &one)) return 0;
            if ((list ? k0 : plain_place(s + at)) > 6) total += pad(one);
        }
        if (!list) at = plain_skip(s, at);
    }
    *size = total;
    return 1;
}
static int measure(const uint8_t *s, size_t at, struct listing *l, size_t *size) {
    int k = plain_place(s + at);
    if (l->pos + 2 > l->len || l->l[l->pos] != s[at] || l->l[l->pos + 1] != s[at + 1]) return 0;
    l->pos += 2;
    if (k < 7) {
        size_t w = (size_t)plain_width(k);
        if (w > l->len - l->pos || (k == 0 && l->l[l->pos] > 1)) return 0;
        l->pos += w;
        *size = w;
        return 1;
    }
    if (k == 11) return measure_children(s, at + 3, l, 0, s[at + 2], 0, size);
    if (4 > l->len - l->pos) return 0;
    size_t n = get(l->l + l->pos, 4), keys, values;
    l->pos += 4;
    if (k < 9) {
        if (n > l->len - l->pos || (k == 7 && !plain_is_text(l->l + l->pos, n))) return 0;
        l->pos += n;
        *size = n;
        return 1;
    }
    if (k == 9) return measure_children(s, at + 2, l, 8, n, 1, size);
    if (!measure_children(s, at + 2, l, 8, n, 1, &keys) || !measure_children(s, plain_skip(s, at + 2), l, 8, n, 1, &values)) return 0;
    *size = 8 + keys + values;
    return 1;
}

static size_t write_value(const uint8_t *s, size_t at, struct listing *l, uint8_t *b);

static size_t write_children(const uint8_t *s, size_t at, struct listing *l, uint8_t *b, size_t head, size_t n, int list) {
    int k0 = plain_place(s + at);
    size_t w = list && k0 < 7 ? (size_t)plain_width(k0) : 8, slots = head + bitmap(n), cur = slots + pad(n * w);
    memset(b + head, 0, cur - head);
    for (size_t i = 0; i < n; i++) {
        int k = list ? k0 : plain_place(s + at);
        if (nothing(l)) {
            b[head + i / 8] |= (uint8_t)(1 << i % 8);
            l->pos += 2;
        } else if (k < 7) {
            memcpy(b + slots + i * w, l->l + l->pos + 2, (size_t)plain_width(k));
            l->pos += 2 + (size_t)plain_width(k);
        } else {
            size_t size = write_value(s, at, l, b + cur);
            memset(b + cur + size, 0, pad(size) - size);
            put(b + slots + i * 8, (uint64_t)cur << 32 | size, 8);
            cur += pad(size);
        }
        if (!list) at = plain_skip(s, at);
    }
    return cur;
}
static size_t write_value(const uint8_t *s, size_t at, struct listing *l, uint8_t *b) {
    int k = plain_place(s + at);
    l->pos += 2;
    if (k == 11) return write_children(s, at + 3, l, b, 0, s[at + 2], 0);
    size_t n = get(l->l + l->pos, 4);
    l->pos += 4;
    if (k < 9) {
        memcpy(b, l->l + l->pos, n);
        l->pos += n;
        return n;
    }
    if (k == 9) {
        put(b, n, 8);
        return write_children(s, at + 2, l, b, 8, n, 1);
    }
    put(b + 8, n, 8);
    size_t keys = write_children(s, at + 2, l, b + 8, 8, n, 1);
    put(b, keys, 8);
    put(b + 8 + keys, n, 8);
    return 8 + keys + write_children(s, plain_skip(s, at + 2), l, b + 8 + keys, 8, n, 1);
}
uint64_t plain_write(const uint8_t *s, size_t slen, const uint8_t *listing, size_t len, uint8_t *out, size_t room) {
    if (!plain_judge(s, slen)) return 1ull << 32;
    struct listing l = {listing, len, 0};
    size_t size;
    if (len > 65536 || !measure(s, 0, &l, &size) || l.pos != len) return 2ull << 32;
    if (size > 16384) return 3ull << 32;
    if (size > room) return 4ull << 32 | size;
    l.pos = 0;
    return write_value(s, 0, &l, out);
}
