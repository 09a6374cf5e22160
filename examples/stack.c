/*
 * The stack that each call takes at its deepest. Each call runs on a thread whose stack is painted first; what is no
 * longer painted afterwards was used. What a thread takes that calls nothing is taken off.
 *
 * Prints a line for each call: what it asked of which line, the levels of calls that the tables allow, the bytes. Ends
 * with status 1 where a call took more than the header says, or answered otherwise than expected.
 */
#define _XOPEN_SOURCE 600
#include "kneukelboom.h"
#include <pthread.h>
#include <stdio.h>
#include <stdlib.h>
#include <string.h>

#define POINTS KNEUKELBOOM_MOST_POINTS
#define SEGMENTS (POINTS - 1)
#define NUMBERS (2 * POINTS)
#define TABLE_NUMBERS KNEUKELBOOM_TABLE_LEN(NUMBERS)
#define STACK_SIZE ((size_t)8 << 20)
#define PAINT 0xa5

/* Enough to come to the deepest pair; all pairs would take minutes. */
#define ALLOWANCE 200000

typedef struct line {
    int64_t points[NUMBERS];
    int64_t table[TABLE_NUMBERS];
} line;

typedef struct question {
    enum { NOTHING, BUILD, WIDEN, CHECK, NEAR, INSIDE, MEET, AGREE } call;
    line *a;
    const line *b;
    kneukelboom_reply reply;
} question;

/* Points of version 1. */
static int32_t old[NUMBERS];

static unsigned failures = 0;

/* ---- lines */

/* Strokes from side to side, each shorter than the one before: every split is next to the first point. */
static void make_comb(line *l, int64_t height) {
    for (int64_t i = 0; i < POINTS; i++) {
        int64_t stroke = 16000 - 3 * i;
        l->points[2 * i] = i - 2048;
        l->points[2 * i + 1] = height + (i % 2 == 0 ? stroke : -stroke);
    }
}

/* The same from its other end: every split is next to the last point. */
static void make_comb_back(line *l, int64_t height) {
    line *forth = malloc(sizeof *forth);
    if (forth == NULL) {
        exit(1);
    }
    make_comb(forth, height);
    for (size_t i = 0; i < POINTS; i++) {
        memcpy(&l->points[2 * i], &forth->points[2 * (SEGMENTS - i)], 2 * sizeof(int64_t));
    }
    free(forth);
}

/* A line that ends where it begins. */
static void close_ring(line *l) {
    memcpy(&l->points[2 * SEGMENTS], l->points, 2 * sizeof(int64_t));
}

/* A ring as flat as the sheet allows, along the bottom and back. */
static void make_flat_ring(line *l, int64_t height) {
    for (int64_t i = 0; i < SEGMENTS; i++) {
        int back = i >= SEGMENTS / 2;
        l->points[2 * i] = back ? SEGMENTS - 1 - i : i;
        l->points[2 * i + 1] = -KNEUKELBOOM_SHEET + height + back;
    }
    close_ring(l);
}

/* Rows that dismiss nothing, good by every rule, with every split next to the last point: no walk can go deeper. */
static void make_table_without_end(line *l) {
    const int64_t sheet = KNEUKELBOOM_SHEET;
    for (int64_t r = 0; r < 2 * SEGMENTS - 1; r++) {
        int leaf = r >= SEGMENTS - 1;
        int64_t first = leaf ? r - (SEGMENTS - 1) : 0;
        int64_t last = leaf ? first + 1 : SEGMENTS - r;
        const int64_t row[KNEUKELBOOM_ROW_WIDTH] = {first,     last,      leaf ? -1 : last - 1, INT64_MIN,
                                                    INT64_MAX, INT64_MIN, INT64_MAX,            -sheet,
                                                    sheet,     -sheet,    sheet};
        memcpy(&l->table[r * KNEUKELBOOM_ROW_WIDTH], row, sizeof row);
    }
}

/* ---- levels */

/* The levels of calls from a row on. A walk and the checker go to a right half in place of its node, a build calls
 * itself twice. */
static size_t levels_from(const line *l, size_t row, int walks) {
    const int64_t *r = &l->table[row * KNEUKELBOOM_ROW_WIDTH];
    if (r[2] < 0) {
        return 1;
    }
    size_t left = 1 + levels_from(l, row + 1, walks);
    size_t right = levels_from(l, row + 2 * (size_t)(r[2] - r[0]), walks) + (walks ? 0 : 1);
    return left > right ? left : right;
}

/* A pair is halved once for each half of its nodes; to widen is one loop. */
static size_t levels_of(const question *q) {
    if (q->call == WIDEN) {
        return 1;
    }
    size_t a = levels_from(q->a, 0, q->call != BUILD);
    size_t b = q->b == NULL ? 0 : levels_from(q->b, 0, 1);
    if (q->call == MEET) {
        return a + b - 1;
    }
    return a > b ? a : b;
}

/* ---- stacks */

/* The first point of A is the asked one: no node that begins there is dismissed. */
static void *ask(void *asked) {
    question *q = asked;
    line *a = q->a;
    const line *b = q->b;
    const int64_t x = a->points[0], y = a->points[1];
    switch (q->call) {
    case NOTHING:
        break;
    case BUILD:
        q->reply = kneukelboom_build(a->points, NUMBERS, a->table, TABLE_NUMBERS);
        break;
    case WIDEN:
        q->reply = kneukelboom_widen(old, NUMBERS, a->points, NUMBERS);
        break;
    case CHECK:
        q->reply = kneukelboom_check(a->points, NUMBERS, a->table, TABLE_NUMBERS);
        break;
    case NEAR:
        q->reply = kneukelboom_near(a->points, NUMBERS, a->table, TABLE_NUMBERS, x, y, 0, ALLOWANCE);
        break;
    case INSIDE:
        q->reply = kneukelboom_inside(a->points, NUMBERS, a->table, TABLE_NUMBERS, x, y, ALLOWANCE);
        break;
    case MEET:
        q->reply = kneukelboom_meet(a->points, NUMBERS, a->table, TABLE_NUMBERS, b->points, NUMBERS, b->table,
                                    TABLE_NUMBERS, ALLOWANCE);
        break;
    case AGREE:
        q->reply = kneukelboom_agree(a->points, NUMBERS, a->table, TABLE_NUMBERS, b->points, NUMBERS, b->table,
                                     TABLE_NUMBERS, 0, ALLOWANCE);
        break;
    }
    return NULL;
}

/* The bytes of stack that a thread takes which asks this. */
static size_t bytes_of(question *q) {
    static unsigned char *stack = NULL;
    pthread_attr_t attributes;
    pthread_t thread;
    if (stack == NULL && posix_memalign((void **)&stack, 4096, STACK_SIZE) != 0) {
        exit(1);
    }
    memset(stack, PAINT, STACK_SIZE);
    if (pthread_attr_init(&attributes) != 0 || pthread_attr_setstack(&attributes, stack, STACK_SIZE) != 0 ||
        pthread_create(&thread, &attributes, ask, q) != 0 || pthread_join(thread, NULL) != 0) {
        fputs("no thread\n", stderr);
        exit(1);
    }
    pthread_attr_destroy(&attributes);
    size_t painted = 0;
    while (painted < STACK_SIZE && stack[painted] == PAINT) {
        painted++;
    }
    return STACK_SIZE - painted;
}

static size_t bound_of(const question *q) {
    switch (q->call) {
    case BUILD:
    case CHECK:
        return KNEUKELBOOM_STACK_BUILD(SEGMENTS);
    case WIDEN:
        return KNEUKELBOOM_STACK_BUILD(0);
    case NEAR:
    case INSIDE:
    case AGREE:
        return KNEUKELBOOM_STACK_WALK(SEGMENTS);
    case MEET:
        return KNEUKELBOOM_STACK_MEET(2 * SEGMENTS);
    default:
        return 0;
    }
}

static void measure(const char *said, question q, uint32_t expected) {
    question nothing = {NOTHING, q.a, q.b, {0, 0, 0, 0, 0}};
    size_t idle = bytes_of(&nothing);
    size_t bytes = bytes_of(&q) - idle;
    size_t levels = levels_of(&q);
    printf("%-28s %5zu levels %8zu bytes\n", said, levels, bytes);
    if (bytes > bound_of(&q)) {
        printf("  more than the %zu bytes that the header says\n", bound_of(&q));
        failures++;
    }
    if (q.reply.word != expected) {
        printf("  word %u, not %u\n", (unsigned)q.reply.word, (unsigned)expected);
        failures++;
    }
}

int main(void) {
    static line a, b;
    const question build = {BUILD, &a, NULL, {0, 0, 0, 0, 0}};
    const question build_b = {BUILD, &b, NULL, {0, 0, 0, 0, 0}};
    const question widen = {WIDEN, &a, NULL, {0, 0, 0, 0, 0}};
    const question check = {CHECK, &a, NULL, {0, 0, 0, 0, 0}};
    const question near = {NEAR, &a, NULL, {0, 0, 0, 0, 0}};
    const question inside = {INSIDE, &a, NULL, {0, 0, 0, 0, 0}};
    const question meet = {MEET, &a, &b, {0, 0, 0, 0, 0}};
    const question agree = {AGREE, &a, &b, {0, 0, 0, 0, 0}};

    make_comb(&a, 0);
    make_comb(&b, 1);
    measure("build, a comb", build, KNEUKELBOOM_BUILT);
    measure("build, one unit higher", build_b, KNEUKELBOOM_BUILT);
    measure("check, a comb", check, KNEUKELBOOM_ACCEPTED);
    measure("near, a comb", near, KNEUKELBOOM_YES);
    measure("meet, two combs", meet, KNEUKELBOOM_NO);
    measure("agree, two combs", agree, KNEUKELBOOM_NO);

    make_comb_back(&a, 0);
    make_comb_back(&b, 1);
    measure("build, a comb back", build, KNEUKELBOOM_BUILT);
    measure("build, one unit higher", build_b, KNEUKELBOOM_BUILT);
    measure("check, a comb back", check, KNEUKELBOOM_ACCEPTED);
    measure("near, a comb back", near, KNEUKELBOOM_YES);
    measure("meet, two combs back", meet, KNEUKELBOOM_NO);
    measure("agree, two combs back", agree, KNEUKELBOOM_NO);
    b = a;
    measure("agree, a comb back, twice", agree, KNEUKELBOOM_UNDECIDED);
    close_ring(&a);
    measure("build, a ring of a comb", build, KNEUKELBOOM_BUILT);
    measure("check, a ring of a comb", check, KNEUKELBOOM_ACCEPTED);
    measure("inside, a ring of a comb", inside, KNEUKELBOOM_ON);

    make_flat_ring(&a, 0);
    make_flat_ring(&b, 9);
    make_table_without_end(&a);
    make_table_without_end(&b);
    measure("check, rows by hand", check, KNEUKELBOOM_ACCEPTED);
    measure("near, rows by hand", near, KNEUKELBOOM_YES);
    measure("inside, rows by hand", inside, KNEUKELBOOM_ON);
    measure("meet, rows by hand", meet, KNEUKELBOOM_UNDECIDED);
    b = a;
    measure("agree, rows by hand", agree, KNEUKELBOOM_UNDECIDED);
    measure("widen, points", widen, KNEUKELBOOM_BUILT);
    return failures == 0 ? 0 : 1;
}
