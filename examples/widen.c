/* Points and a table that version 1 stored, widened and asked, with no table built again; `make` builds and runs it. */
#include "kneukelboom.h"
#include <stdio.h>
#include <string.h>

#define NUMBERS KNEUKELBOOM_TABLE_LEN(6)
#define ROOM (NUMBERS + 2)

/* The line (0,0) (4,3) (8,0), and what version 1 built for it. */
static const int32_t old_points[6] = {0, 0, 4, 3, 8, 0};
static const int32_t old_table[NUMBERS] = {
    0, 2, 1,  0, 24, 0, 64, 0, 8, 0, 3, /* the root, */
    0, 1, -1, 0, 0,  0, 25, 0, 4, 0, 3, /* its left half */
    1, 2, -1, 0, 0,  0, 25, 4, 8, 0, 3  /* and its right half */
};

static void say(const char *what, int holds) {
    printf("%s: %s\n", what, holds ? "yes" : "no");
}

int main(void) {
    int64_t points[6], table[ROOM], lent[ROOM], built[ROOM];
    for (size_t i = 0; i < ROOM; i++)
        table[i] = lent[i] = built[i] = 5;

    /* one number too few */
    kneukelboom_reply reply = kneukelboom_widen(old_table, NUMBERS, table, NUMBERS - 1);
    printf("refused %u: %s\n", (unsigned)reply.number, kneukelboom_sentence(reply.number));
    say("nothing is written", memcmp(table, lent, sizeof table) == 0);

    /* two more than it takes: they stay */
    say("points are widened", kneukelboom_widen(old_points, 6, points, 6).word == KNEUKELBOOM_BUILT);
    say("the table is widened", kneukelboom_widen(old_table, NUMBERS, table, ROOM).word == KNEUKELBOOM_BUILT);
    say("the line is built", kneukelboom_build(points, 6, built, ROOM).word == KNEUKELBOOM_BUILT);
    say("widened is what is built", memcmp(table, built, sizeof table) == 0);
    say("numbers past it stay", memcmp(table + NUMBERS, lent, 2 * sizeof *table) == 0);

    reply = kneukelboom_near(points, 6, table, NUMBERS, 4, 5, 2, 10);
    say("(4,5) is within 2", reply.word == KNEUKELBOOM_YES);
    return 0;
}
