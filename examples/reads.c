/*
 * How often building reads each number of a line, for those who keep points in slow storage. The points stand in memory
 * that may not be read: each read is caught and counted, let through as one step, and the memory closed again.
 *
 * Measuring a node is to read each point of its run once. What the checks read is counted by a build that passes all of
 * them but the last (refusal 6), and is taken off. Prints the reads of each line; ends with status 1 where a number is
 * read more often than there are nodes that cover its point.
 */
#define _GNU_SOURCE
#include "kneukelboom.h"
#include <signal.h>
#include <stdio.h>
#include <string.h>
#include <sys/mman.h>
#include <ucontext.h>
#include <unistd.h>

#define POINTS 257
#define NUMBERS (2 * POINTS)
#define TABLE_NUMBERS KNEUKELBOOM_TABLE_LEN(NUMBERS)
#define ROOM 8192 /* whole pages, more than the numbers take */
#define ONE_STEP 0x100 /* the processor's trap flag: a signal comes after the next instruction */

static int64_t *points;
static int64_t table[TABLE_NUMBERS];
static unsigned reads[NUMBERS];

/* ---- reads, one by one */

static void on_read(int number, siginfo_t *about, void *context) {
    greg_t *flags = &((ucontext_t *)context)->uc_mcontext.gregs[REG_EFL];
    if (number == SIGTRAP) {
        mprotect(points, ROOM, PROT_NONE);
        *flags &= ~(greg_t)ONE_STEP;
        return;
    }
    size_t at = (size_t)((char *)about->si_addr - (char *)points) / sizeof *points;
    if (at >= NUMBERS) {
        static const char said[] = "a read outside of the points\n";
        _exit(write(2, said, sizeof said - 1) < 0 ? 2 : 1);
    }
    reads[at]++;
    mprotect(points, ROOM, PROT_READ);
    *flags |= ONE_STEP;
}

static void catch_reads(void) {
    struct sigaction action;
    memset(&action, 0, sizeof action);
    action.sa_sigaction = on_read;
    action.sa_flags = SA_SIGINFO;
    sigaction(SIGSEGV, &action, NULL);
    sigaction(SIGTRAP, &action, NULL);
}

/* Builds into a table of so many numbers, and counts what is read. */
static uint32_t read_by(size_t table_len) {
    memset(reads, 0, sizeof reads);
    mprotect(points, ROOM, PROT_NONE);
    kneukelboom_reply reply = kneukelboom_build(points, NUMBERS, table, table_len);
    mprotect(points, ROOM, PROT_READ | PROT_WRITE);
    return reply.number;
}

/* The nodes that cover a point, by the rows that are built. */
static unsigned nodes_of(int64_t point) {
    unsigned nodes = 0;
    for (const int64_t *row = table; row < table + TABLE_NUMBERS; row += KNEUKELBOOM_ROW_WIDTH) {
        nodes += row[0] <= point && point <= row[1];
    }
    return nodes;
}

static int measure(const char *said) {
    unsigned checks[NUMBERS], total = 0, too_often = 0;
    uint32_t short_table = read_by(TABLE_NUMBERS - 1);
    memcpy(checks, reads, sizeof checks);
    uint32_t built = read_by(TABLE_NUMBERS);
    for (int64_t i = 0; i < NUMBERS; i++) {
        unsigned measuring = reads[i] - checks[i];
        total += measuring;
        too_often += measuring > nodes_of(i / 2);
    }
    printf("%-12s %6u reads to measure, %u numbers read twice for a node\n", said, total, too_often);
    return short_table != KNEUKELBOOM_REFUSED_SHORT_TABLE || built != 0 || total == 0 || too_often != 0;
}

/* ---- lines */

static void put(int64_t i, int64_t x, int64_t y) {
    points[2 * i] = x;
    points[2 * i + 1] = y;
}

int main(void) {
    int failed = 0;
    points = mmap(NULL, ROOM, PROT_READ | PROT_WRITE, MAP_PRIVATE | MAP_ANONYMOUS, -1, 0);
    if (points == MAP_FAILED) {
        return 1;
    }
    catch_reads();
    for (int64_t i = 0; i < POINTS; i++) {
        put(i, 40 * i, i * i % 97);
    }
    failed |= measure("a river");
    for (int64_t i = 0; i < POINTS; i++) {
        put(i, i, (i % 2 == 0 ? 1 : -1) * (16000 - 3 * i));
    }
    failed |= measure("a comb");
    put(POINTS - 1, points[0], points[1]);
    failed |= measure("a closed one");
    return failed;
}
