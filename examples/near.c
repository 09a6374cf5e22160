/* Is a point near a line? Asked through kneukelboom.h; `make` builds and runs it. */
#include "kneukelboom.h"
#include <stdio.h>

int main(void) {
    const char *words[] = {"built", "yes", "no", "inside", "outside", "on", "undecided", "refused"};
    const int64_t points[6] = {0, 0, 4, 3, 8, 0};
    int64_t table[KNEUKELBOOM_TABLE_LEN(6)];
    kneukelboom_reply reply = kneukelboom_build(points, 6, table, KNEUKELBOOM_TABLE_LEN(6));
    printf("%s\n", words[reply.word]);
    for (uint32_t allowance = 1; allowance <= 2; allowance++) {
        reply = kneukelboom_near(points, 6, table, KNEUKELBOOM_TABLE_LEN(6), 4, 5, 2, allowance);
        printf("%s, visits %u of %u\n", words[reply.word], (unsigned)reply.visits, (unsigned)allowance);
    }
    return 0;
}
