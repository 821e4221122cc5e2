#include "rows.h"
#include <string.h>

static void put(uint8_t *p, uint64_t v, int n) { for (int i = 0; i < n; i++) p[i] = (uint8_t)(v >> (8 * i)); }
static size_t pad(size_t n) { return (n + 7) / 8 * 8; }
static size_t bitmap(size_t n) { return (n + 63) / 64 * 8; }
static void slot(uint8_t *p, size_t off, size_t size) { put(p, (uint64_t)off << 32 | size, 8); }

static void mark(struct sample *s, const char *m) { s->schema[s->schema_len++] = m[0]; s->schema[s->schema_len++] = m[1]; }
static void root(struct sample *s, unsigned n) { mark(s, "ro"); s->schema[s->schema_len++] = (uint8_t)n; }

// One field that is a list of n elements of width w; returns the list's start. Its data follows.
static size_t one_list(struct sample *s, unsigned n, size_t w, size_t data) {
    size_t fixed = 8 + bitmap(n) + pad(n * w);
    slot(s->row + 8, 16, fixed + data);
    put(s->row + 16, n, 8);
    s->row_len = 16 + fixed + data;
    return 16;
}

// What a text of a kind is made of: characters of one byte to four.
static const char *letters(const char *kind) {
    static const char *const kinds[][2] = {{"ascii", "S"}, {"binary", "S"}, {"two-byte", "\xC3\xA9"}, {"three-byte", "\xE6\xBC\xA2"}, {"four-byte", "\xF0\x9F\x99\x82"},
                                           {"mixed", "caf\xC3\xA9, "}};
    for (size_t i = 0; i < sizeof kinds / sizeof *kinds; i++) if (!strcmp(kinds[i][0], kind)) return kinds[i][1];
    return NULL;
}

int make_sample(struct sample *s, const char *kind, unsigned n) {
    memset(s, 0, sizeof *s);
    s->children = n;
    int back = !strncmp(kind, "reversed ", 9);   // the last value stands first
    if (back) kind += 9;
    if (!strcmp(kind, "strings")) {            // a list of n three-byte strings
        root(s, 1); mark(s, "li"); mark(s, "st");
        if (16 + 8 + bitmap(n) + 16 * (size_t)n > sizeof s->row) return 0;
        size_t at = one_list(s, n, 8, 8 * (size_t)n), slots = at + 8 + bitmap(n), data = 8 + bitmap(n) + 8 * (size_t)n;
        for (unsigned i = 0; i < n; i++) {
            size_t cur = data + 8 * (back ? n - 1 - i : i);
            slot(s->row + slots + 8 * i, cur, 3); memcpy(s->row + at + cur, "STK", 3);
        }
    } else if (!strcmp(kind, "numbers")) {     // a list of n int64
        root(s, 1); mark(s, "li"); mark(s, "i8");
        if (16 + 8 + bitmap(n) + 8 * (size_t)n > sizeof s->row) return 0;
        size_t at = one_list(s, n, 8, 0);
        for (unsigned i = 0; i < n; i++) put(s->row + at + 8 + bitmap(n) + 8 * i, i * 77u, 8);
    } else if (!strcmp(kind, "fields")) {      // a struct of n int64
        root(s, n);
        for (unsigned i = 0; i < n; i++) mark(s, "i8");
        s->row_len = bitmap(n) + 8 * (size_t)n;
        for (unsigned i = 0; i < n; i++) put(s->row + bitmap(n) + 8 * i, i * 77u, 8);
    } else if (!strcmp(kind, "structs")) {     // a list of n structs of an int64 and a string
        root(s, 1); mark(s, "li"); root(s, 2); mark(s, "i8"); mark(s, "st");
        size_t each = 8 + 16 + 8;
        if (16 + 8 + bitmap(n) + (8 + each) * (size_t)n > sizeof s->row) return 0;
        size_t at = one_list(s, n, 8, each * n), slots = at + 8 + bitmap(n), data = 8 + bitmap(n) + 8 * (size_t)n;
        for (unsigned i = 0; i < n; i++) {
            size_t cur = data + each * (back ? n - 1 - i : i);
            uint8_t *p = s->row + at + cur;
            slot(s->row + slots + 8 * i, cur, each);
            put(p + 8, i, 8); slot(p + 16, 24, 3); memcpy(p + 24, "STK", 3);
        }
    } else if (!strcmp(kind, "strokes")) {     // a row of two nested strokes, each a struct of two int32
        root(s, 2); root(s, 2); mark(s, "i4"); mark(s, "i4"); root(s, 2); mark(s, "i4"); mark(s, "i4");
        s->row_len = 8 + 16 + 48; s->children = 2;
        for (unsigned i = 0; i < 2; i++) {
            size_t cur = 24 + 24 * (back ? 1 - i : i);
            slot(s->row + 8 + 8 * i, cur, 24); put(s->row + cur + 8, 1000 + i, 4); put(s->row + cur + 16, 5, 4);
        }
    } else if (letters(kind)) {                // one string of n letters, or a binary of n bytes
        const char *letter = letters(kind);
        size_t each = strlen(letter), size = each * n;
        root(s, 1); mark(s, strcmp(kind, "binary") ? "st" : "bi");
        s->row_len = 16 + pad(size);
        if (s->row_len > sizeof s->row) return 0;
        slot(s->row + 8, 16, size);
        for (unsigned i = 0; i < n; i++) memcpy(s->row + 16 + each * i, letter, each);
    } else return 0;
    const uint32_t middle[] = {0, n / 2, 1}, field[] = {n / 2}, chord[] = {1, 1};
    if (letters(kind)) { s->steps = 1; return 1; }
    int top = !strcmp(kind, "fields"), two = !strcmp(kind, "strokes");
    s->steps = top ? 1 : two || strcmp(kind, "structs") ? 2 : 3;
    memcpy(s->path, top ? field : two ? chord : middle, s->steps * sizeof *s->path);
    return 1;
}
