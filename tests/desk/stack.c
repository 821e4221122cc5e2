// stack FILE..: the row of each input of the card tool, which must be sound, is checked, listed, read and set on a stack of 64 KB. Below it
// lies a page that nothing may touch, so that a call which wants more ends the program. Says how much of the stack was used at most.
#define _GNU_SOURCE
#include <stdio.h>
#include <string.h>
#include <sys/mman.h>
#include <ucontext.h>
#include "../../desk/loafcompass.h"

enum { STACK = 64 * 1024, PAGE = 4096, UNUSED = 0xA5 };

static uint8_t input[2 + 1024 + 16384], listing[3 * 16384];
static size_t input_length;
static ucontext_t caller, on_stack;
static const char *wrong;
static size_t most;

// Answers where a call is not what it must be for a sound row.
static const char *calls(void) {
    size_t schema_length = input[0] | (size_t)input[1] << 8;
    const uint8_t *schema = input + 2;
    uint8_t *row = input + 2 + schema_length;
    size_t row_length = input_length - 2 - schema_length;
    uint64_t answer[4];
    const uint32_t first = 0;
    if (loaf_check(schema, schema_length, row, row_length)) return "check";
    if (loaf_number(loaf_list(schema, schema_length, row, row_length, listing, sizeof listing))) return "list";
    if (loaf_read(schema, schema_length, row, row_length, &first, 1, answer, 4) || answer[0] != LOAF_CONTAINER) return "read";
    // A container can't be set, which is said of a sound row alone.
    if (loaf_number(loaf_set(schema, schema_length, row, row_length, &first, 1, LOAF_NULL, 0, input, 0)) != LOAF_UNFIT) return "set";
    return NULL;
}

static void start(void) { wrong = calls(); }

int main(int argc, char **argv) {
    uint8_t *area = mmap(NULL, PAGE + STACK, PROT_READ | PROT_WRITE, MAP_PRIVATE | MAP_ANONYMOUS, -1, 0);
    if (area == MAP_FAILED || mprotect(area, PAGE, PROT_NONE)) { fprintf(stderr, "no stack\n"); return 1; }
    uint8_t *stack = area + PAGE;
    for (int i = 1; i < argc; i++) {
        FILE *file = fopen(argv[i], "rb");
        if (!file) { fprintf(stderr, "%s is not there\n", argv[i]); return 1; }
        input_length = fread(input, 1, sizeof input, file);
        fclose(file);
        memset(stack, UNUSED, STACK);
        getcontext(&on_stack);
        on_stack.uc_stack.ss_sp = stack;
        on_stack.uc_stack.ss_size = STACK;
        on_stack.uc_link = &caller;
        makecontext(&on_stack, start, 0);
        swapcontext(&caller, &on_stack);
        if (wrong) { fprintf(stderr, "%s: %s answers otherwise\n", argv[i], wrong); return 1; }
        size_t unused = 0;
        while (unused < STACK && stack[unused] == UNUSED) unused++;
        if (STACK - unused > most) most = STACK - unused;
    }
    printf("desk: %d rows in any order on a stack of 64 KB, of which %zu bytes are used\n", argc - 1, most);
    return 0;
}
