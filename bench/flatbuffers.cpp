// flatbuffers WHAT KIND N REPS: runs FlatBuffers' verifier, accessor or builder REPS times on the contents of one sample; the caller
// counts the instructions of two runs. flatbuffers time KIND N: nanoseconds of ours and theirs in one run, the best of many.
#include "rows_generated.h"
extern "C" {
#include "rows.h"
}
#include "../desk/loafcompass.h"
#include <chrono>
#include <cstdio>
#include <cstdlib>
#include <cstring>
#include <vector>
using namespace bench;
using flatbuffers::FlatBufferBuilder;
using flatbuffers::Offset;

static struct sample s;
static enum { STRINGS, NUMBERS, FIELDS, STRUCTS, STROKES } kind;
static unsigned n;
static FlatBufferBuilder maker(65536);
static uint8_t listing[65536], out[65536];
static volatile uint64_t sink;

static uint64_t build() {
    maker.Clear();
    if (kind == STRINGS) {
        std::vector<Offset<flatbuffers::String>> items(n);
        for (unsigned i = 0; i < n; i++) items[i] = maker.CreateString("STK", 3);
        maker.Finish(CreateStrings(maker, maker.CreateVector(items)));
    } else if (kind == NUMBERS) {
        int64_t *items;
        auto vector = maker.CreateUninitializedVector<int64_t>(n, &items);
        for (unsigned i = 0; i < n; i++) items[i] = i * 77u;
        maker.Finish(CreateNumbers(maker, vector));
    } else if (kind == FIELDS) {
        FieldsBuilder fields(maker);
        for (unsigned i = 0; i < n; i++) maker.AddElement<int64_t>((flatbuffers::voffset_t)(4 + 2 * i), i * 77u, -1);
        maker.Finish(fields.Finish());
    } else if (kind == STRUCTS) {
        std::vector<Offset<Pair>> items(n);
        for (unsigned i = 0; i < n; i++) items[i] = CreatePair(maker, i, maker.CreateString("STK", 3));
        maker.Finish(CreateStructs(maker, maker.CreateVector(items)));
    } else {
        auto first = CreateStroke(maker, 1000, 5), second = CreateStroke(maker, 1001, 5);
        maker.Finish(CreateStrokes(maker, first, second));
    }
    return maker.GetSize();
}

static uint64_t verify() {
    flatbuffers::Verifier verifier(maker.GetBufferPointer(), maker.GetSize());
    if (kind == STRINGS) return verifier.VerifyBuffer<Strings>();
    if (kind == NUMBERS) return verifier.VerifyBuffer<Numbers>();
    if (kind == FIELDS) return verifier.VerifyBuffer<Fields>();
    if (kind == STRUCTS) return verifier.VerifyBuffer<Structs>();
    return verifier.VerifyBuffer<Strokes>();
}

// The leaf in the middle, without a look at the rest, as the sample's path has it.
static uint64_t look() {
    const uint8_t *buffer = maker.GetBufferPointer();
    if (kind == STRINGS) return flatbuffers::GetRoot<Strings>(buffer)->items()->Get(n / 2)->size();
    if (kind == NUMBERS) return (uint64_t)flatbuffers::GetRoot<Numbers>(buffer)->items()->Get(n / 2);
    if (kind == FIELDS) return (uint64_t)flatbuffers::GetRoot<Fields>(buffer)->f50();
    if (kind == STRUCTS) return flatbuffers::GetRoot<Structs>(buffer)->items()->Get(n / 2)->text()->size();
    return (uint64_t)flatbuffers::GetRoot<Strokes>(buffer)->second()->keys();
}

template <class Call> static double best(Call call) {
    double least = 1e9;
    for (int run = 0; run < 200; run++) {
        auto from = std::chrono::steady_clock::now();
        for (int i = 0; i < 100; i++) sink = call();
        std::chrono::duration<double, std::nano> took = std::chrono::steady_clock::now() - from;
        if (took.count() / 100 < least) least = took.count() / 100;
    }
    return least;
}

int main(int argc, char **argv) {
    if (argc < 4) return 2;
    const char *kinds[] = {"strings", "numbers", "fields", "structs", "strokes"};
    int number = 0;
    while (number < STROKES && strcmp(kinds[number], argv[2])) number++;
    kind = (decltype(kind))number;
    n = (unsigned)atoi(argv[3]);
    if (!make_sample(&s, argv[2], n)) return 2;
    build();
    if (!verify()) return 1;
    if (!strcmp(argv[1], "time")) {
        uint64_t answer[4];
        size_t listed = (size_t)loaf_list(s.schema, s.schema_len, s.row, s.row_len, listing, sizeof listing);
        printf("%.0f %.0f %.0f %.0f %.0f %.0f\n", best([] { return loaf_check(s.schema, s.schema_len, s.row, s.row_len); }), best(verify),
            best([&] { return loaf_read(s.schema, s.schema_len, s.row, s.row_len, s.path, s.steps, answer, 4); }), best(look),
            best([&] { return loaf_write(s.schema, s.schema_len, listing, listed, out, sizeof out); }), best(build));
        return 0;
    }
    uint64_t (*const call)() = !strcmp(argv[1], "verify") ? verify : !strcmp(argv[1], "access") ? look : build;
    for (long i = argc == 5 ? atol(argv[4]) : 0; i > 0; i--) sink = call();
    return 0;
}
