// Every sequence of one, two and three bytes as a string, through the C names: a check takes it exactly if the verdicts on standard input
// (tests/second/short_texts.py) have it, and else tells the slot; as a binary it is taken.
#include <stdio.h>
#include <string.h>
#include "../../desk/loafcompass.h"

static const uint8_t string[] = {'r', 'o', 1, 's', 't'}, binary[] = {'r', 'o', 1, 'b', 'i'};
static uint8_t verdicts[(256 + 65536 + 16777216) / 8];

int main(void) {
    if (fread(verdicts, 1, sizeof verdicts, stdin) != sizeof verdicts || getchar() != EOF) return 2;
    size_t bit = 0, taken = 0;
    for (unsigned length = 1; length < 4; length++)
        for (uint32_t n = 0; n < 1u << 8 * length; n++, bit++) {
            uint8_t row[24] = {0, 0, 0, 0, 0, 0, 0, 0, (uint8_t)length, 0, 0, 0, 16};
            for (unsigned i = 0; i < length; i++) row[16 + i] = (uint8_t)(n >> 8 * (length - 1 - i));
            int text = verdicts[bit / 8] >> bit % 8 & 1;
            uint64_t want = text ? 0 : (uint64_t)LOAF_LAYOUT << 32 | 8, got = loaf_check(string, sizeof string, row, sizeof row);
            if (got != want || loaf_check(binary, sizeof binary, row, sizeof row)) {
                printf("desk: %02x %02x %02x, the first %u of them, is answered %llx\n", row[16], row[17], row[18], length, (unsigned long long)got);
                return 1;
            }
            taken += text;
        }
    printf("desk: of %zu sequences of one to three bytes %zu are text, as Python's decoder has it\n", bit, taken);
    return 0;
}
