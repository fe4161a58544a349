/* Calls the layout from C, and compares each answer with the expected one. */
#include <inttypes.h>
#include <stdio.h>

#include "retain_layout.h"

static int differences = 0;

static void expect(const char *question, uint32_t answer, uint32_t expected)
{
    printf("%s: %" PRIu32, question, answer);
    if (answer != expected) {
        printf(" (expected %" PRIu32 ")", expected);
        differences = 1;
    }
    printf("\n");
}

static void judge(const char *question, uint32_t answer, uint32_t expected)
{
    if (answer == 0) {
        printf("%s: accepted", question);
    } else {
        printf("%s: refused by rule %" PRIu32, question, answer);
    }
    if (answer != expected) {
        printf(" (expected %" PRIu32 ")", expected);
        differences = 1;
    }
    printf("\n");
}

int main(void)
{
    printf("A plan has data chunks and parities before its changeover, and after it.\n");
    judge("  12 and 2 before, 6 and 2 after", retain_plan_check(256, 12, 2, 6, 2, 1), 3);
    judge("  12 and 3 before, 6 and 3 after", retain_plan_check(256, 12, 3, 6, 3, 1), 0);

    printf("Where does data chunk 11 lie, with 4 and 2 before, 5 and 2 after?\n");
    uint32_t place = retain_chunk_place(256, 4, 2, 5, 2, 1, 11);
    expect("  module", place / 256, 0);
    expect("  slot", place % 256, 2);
    expect("  a chunk that there is not, number 20 of 0 to 19, lies nowhere", retain_chunk_place(256, 4, 2, 5, 2, 1, 20), RETAIN_NOWHERE);

    printf("What does the changeover from 12 and 3 to 14 and 3 read?\n");
    uint32_t counts = retain_counts(256, 12, 3, 14, 3, 1);
    expect("  data chunks", counts / 65536, 10);
    expect("  parity chunks", counts % 65536, 21);
    expect("  a refused plan reads nothing, and is answered by", retain_counts(256, 12, 2, 6, 2, 1), RETAIN_NOWHERE);

    printf("The label of a pool is 16 bytes that say its plan.\n");
    const uint8_t label[RETAIN_LABEL_BYTES] = {1, 0, 0, 1, 12, 0, 3, 0, 14, 0, 3, 0, 1, 0, 0, 0};
    judge("  the label of a good plan", retain_label_check(label, sizeof label), 0);
    judge("  the same bytes without the last", retain_label_check(label, 15), 15);

    printf(differences ? "Some answers differ.\n" : "All answers are as expected.\n");
    return differences;
}
