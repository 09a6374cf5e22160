/*
 * A table from other software, checked once and then asked as a built one is; and a table that only looks good, which
 * the checker refuses: a question would answer over it, and falsely. `make` builds and runs it.
 */
#include "kneukelboom.h"
#include <stdio.h>

#define POINTS_LEN 10
#define TABLE_LEN KNEUKELBOOM_TABLE_LEN(POINTS_LEN)
#define CMIN 3 /* the column of a row where its strip begins */

static const char *const words[] = {"built", "yes", "no", "inside", "outside", "on the ring", "undecided", "refused"};

/* The ring (0,0) (4,0) (4,4) (0,4) (0,0), and a table that splits at its points 1, 2 and 3; the builder splits at 2. */
static const int64_t points[POINTS_LEN] = {0, 0, 4, 0, 4, 4, 0, 4, 0, 0};
static int64_t other[TABLE_LEN] = {
    0, 4, 1,  0,   4, 0, 4,  0, 4, 0, 4, /* row 0, the root, */
    0, 1, -1, 0,   0, 0, 16, 0, 4, 0, 0, /* its left half */
    1, 4, 2,  -16, 0, 0, 16, 0, 4, 0, 4, /* and its right half; row 2 */
    1, 2, -1, 0,   0, 0, 16, 4, 4, 0, 4, /* has a left half */
    2, 4, 3,  -16, 0, 0, 32, 0, 4, 0, 4, /* and a right half, row 4, */
    2, 3, -1, 0,   0, 0, 16, 0, 4, 4, 4, /* and that */
    3, 4, -1, 0,   0, 0, 16, 0, 0, 0, 4  /* has two more */
};
static int64_t built[TABLE_LEN];

static void check(const char *whose, const int64_t *table) {
    kneukelboom_reply reply = kneukelboom_check(points, POINTS_LEN, table, TABLE_LEN);
    if (reply.word == KNEUKELBOOM_ACCEPTED)
        printf("%s: accepted\n", whose);
    else
        printf("%s: refused %u: %s (row %u)\n", whose, (unsigned)reply.number, kneukelboom_sentence(reply.number),
               (unsigned)reply.place);
}

static void ask(const char *whose, const int64_t *table, int64_t x, int64_t y, int64_t distance) {
    kneukelboom_reply near = kneukelboom_near(points, POINTS_LEN, table, TABLE_LEN, x, y, distance, UINT32_MAX);
    kneukelboom_reply side = kneukelboom_inside(points, POINTS_LEN, table, TABLE_LEN, x, y, UINT32_MAX);
    printf("%s: is (%d,%d) within %d? %s, visits %u; which side? %s, visits %u\n", whose, (int)x, (int)y, (int)distance,
           words[near.word], (unsigned)near.visits, words[side.word], (unsigned)side.visits);
}

int main(void) {
    kneukelboom_build(points, POINTS_LEN, built, TABLE_LEN);
    check("the built table", built);
    check("the other table", other);
    ask("the built table", built, 2, 2, 2);
    ask("the other table", other, 2, 2, 2);

    /* every row is still good, so no question refuses it; but the strip of row 2 leaves out (4,4) and (0,4) */
    other[2 * KNEUKELBOOM_ROW_WIDTH + CMIN] = -15;
    check("one strip too narrow", other);
    puts("Asked unchecked, that one says no and outside of (2,4), which is on the ring:");
    ask("the built table", built, 2, 4, 0);
    ask("one strip too narrow", other, 2, 4, 0);
    return 0;
}
