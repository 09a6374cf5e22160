/*
 * kneukelboom.h: verified strip trees over whole-number lines, for C and C++.
 *
 * A line is a list of points in sheet units of 1/16 metre. Its strip tree is built once, into a table that the caller
 * lends, or checked once, where other software wrote the table; then four questions are asked of line and table: is a
 * point near the line, do two lines meet, does a point lie inside a ring, do two lines agree. docs/RULES.md has the
 * rules. The functions are proved: docs/STATEMENTS.md names the theorem for each promise below.
 *
 * Promises
 *   1. Every call takes every input and ends. Bad input gets its numbered refusal, by a fixed order of checks. A
 *      refused build or widening leaves what was lent to it as it was; numbers past those that it writes stay
 *      unchanged; the questions and the checker write nothing.
 *   2. For a table that kneukelboom_build wrote, or that kneukelboom_check accepted, for these points, each answer is
 *      the one that plain geometry gives over all the original segments.
 *   3. Once one allowance brings an answer or a refusal, every larger one brings the same after the same number of
 *      visits.
 *   4. A table that version 1 built, widened, is number by number the one that this version builds for the widened
 *      points.
 * Promises 2 and 3 are, of a built table, the theorems near-built, meet-built, in-built and agree-built, and of an
 * accepted one near-accepted, meet-accepted, in-accepted and agree-accepted; 3 holds of any table. Promise 4 is the
 * theorem widened-built, of what the rules of version 1 let a builder write.
 *
 * A table from elsewhere is answered too, but put it through kneukelboom_check first. What that accepts, and nobody
 * changes afterwards, is as good as a built one. Where points can be built, it accepts exactly the sound tables, whose
 * rows are good and whose strips and boxes hold their points (theorems accepted-sound, sound-accepted), so always what
 * kneukelboom_build wrote (built-accepted). Over a table that was never checked, where the strips or boxes of
 * good-looking rows leave points out, a no or an outside can be false, and no question tells.
 *
 * Undecided means: the search needs more visits than were allowed. It says nothing about the lines, and is never to be
 * read as a no. Ask again with a larger allowance. For lines of n and m segments these always suffice: 2n-1 visits for
 * near and inside, 2nm-1 for meet, (n+1)(2m-1) + (m+1)(2n-1) for agree; UINT32_MAX is above them all.
 *
 * Nothing is allocated, kept or copied: no heap, no state between calls, so calls may run in several threads at once.
 *
 * Walks, the builder and the checker call themselves, and nothing proves that a thread has room for it: see
 * KNEUKELBOOM_STACK_BUILD and the two after it for what a thread with a small stack must have left.
 *
 * What the caller owes, as for any C function that takes arrays
 *   - A pointer leads to at least as many numbers as the length after it says. It may be null only where that length is
 *     0.
 *   - Nobody writes points or tables during a call, and what a build or a widening writes overlaps no part of what it
 *     reads.
 *
 * Example: is (4,5) within 2 units of the line (0,0) (4,3) (8,0)?
 *
 *     const int64_t points[6] = {0, 0, 4, 3, 8, 0};
 *     int64_t table[KNEUKELBOOM_TABLE_LEN(6)];
 *     kneukelboom_reply reply = kneukelboom_build(points, 6, table, KNEUKELBOOM_TABLE_LEN(6));
 *     if (reply.word == KNEUKELBOOM_BUILT)
 *         reply = kneukelboom_near(points, 6, table, KNEUKELBOOM_TABLE_LEN(6), 4, 5, 2, 10);
 *     // reply.word is KNEUKELBOOM_YES, reply.visits is 2
 *
 * To link: `make` in the repository's root writes an archive and a shared object (x86-64 Linux), which need no other
 * library; `make install` puts them where `pkg-config --cflags --libs kneukelboom` tells. rust/tests/header.rs holds
 * this file against the proved source, crates/kneukelboom_c/src/lib.rt.
 */
#ifndef KNEUKELBOOM_H
#define KNEUKELBOOM_H

#include <stddef.h>
#include <stdint.h>

#ifdef __cplusplus
extern "C" {
#endif

/*
 * The version of this interface. The symbol of each call ends in it, so that this header with an archive of another
 * version fails to link, instead of reading other rows. It rises when rows, limits, replies or calls change so that a
 * program compiled before would read something else; what is only added leaves it as it is.
 *
 * A program of version 1, whose points and tables were int32_t and whose sheet was -16,383 to 16,383, moves to version
 * 2 by making them int64_t. Those that it has stored it widens by kneukelboom_widen: no table has to be built again.
 */
#define KNEUKELBOOM_VERSION 2
#define KNEUKELBOOM_PASTED(call, version) call##version
#define KNEUKELBOOM_SYMBOL(call, version) KNEUKELBOOM_PASTED(call, version)
#define kneukelboom_build KNEUKELBOOM_SYMBOL(kneukelboom_build_v, KNEUKELBOOM_VERSION)
#define kneukelboom_widen KNEUKELBOOM_SYMBOL(kneukelboom_widen_v, KNEUKELBOOM_VERSION)
#define kneukelboom_check KNEUKELBOOM_SYMBOL(kneukelboom_check_v, KNEUKELBOOM_VERSION)
#define kneukelboom_near KNEUKELBOOM_SYMBOL(kneukelboom_near_v, KNEUKELBOOM_VERSION)
#define kneukelboom_inside KNEUKELBOOM_SYMBOL(kneukelboom_inside_v, KNEUKELBOOM_VERSION)
#define kneukelboom_meet KNEUKELBOOM_SYMBOL(kneukelboom_meet_v, KNEUKELBOOM_VERSION)
#define kneukelboom_agree KNEUKELBOOM_SYMBOL(kneukelboom_agree_v, KNEUKELBOOM_VERSION)

/* Sizes: points of a line, coordinates -1,000,000 to 1,000,000, distance 0 to 2,000,000. */
#define KNEUKELBOOM_FEWEST_POINTS 2
#define KNEUKELBOOM_MOST_POINTS 4097
#define KNEUKELBOOM_SHEET 1000000
#define KNEUKELBOOM_FARTHEST 2000000

/* How many numbers a row of a table has, and the table of a line: 2n-1 rows for n segments. The line's length counts
 * numbers, two for a point. */
#define KNEUKELBOOM_ROW_WIDTH 11
#define KNEUKELBOOM_TABLE_LEN(points_len) ((points_len) < 4 ? 0 : KNEUKELBOOM_ROW_WIDTH * ((points_len) - 3))

/*
 * The bytes of stack that a call takes at its deepest, for lines of so many segments: n for build and check, 0 for
 * widen; n for near and inside, the greater of n and m for agree; n + m for meet. A tree, built or from elsewhere, is
 * that deep only where each of its splits lies next to an end. Not proved: examples/stack.c measures it, on lines of
 * 4,097 points (build 262,272 bytes, check 327,736, near 786,513, inside 852,032, agree 786,673, meet 1,310,752), and
 * fails where that is more than is said here.
 */
#define KNEUKELBOOM_STACK_BUILD(segments) (256 + 96 * (segments))
#define KNEUKELBOOM_STACK_WALK(segments) (256 + 208 * (segments))
#define KNEUKELBOOM_STACK_MEET(segments) (256 + 176 * (segments))

/* What a reply says: `word`. */
enum {
    KNEUKELBOOM_BUILT = 0,     /* build: the table is written; widen: the numbers are */
    KNEUKELBOOM_ACCEPTED = 0,  /* check: the table is sound for these points */
    KNEUKELBOOM_YES = 1,       /* near, meet, agree */
    KNEUKELBOOM_NO = 2,        /* near, meet, agree */
    KNEUKELBOOM_INSIDE = 3,    /* inside */
    KNEUKELBOOM_OUTSIDE = 4,   /* inside */
    KNEUKELBOOM_ON = 5,        /* inside: the point is on the ring itself */
    KNEUKELBOOM_UNDECIDED = 6, /* any question: more visits are needed than were allowed */
    KNEUKELBOOM_REFUSED = 7    /* any call: see `number` */
};

/* Which line: `line`. */
enum {
    KNEUKELBOOM_NO_LINE = 0,
    KNEUKELBOOM_LINE_A = 1, /* the first line of a call, or its only one */
    KNEUKELBOOM_LINE_B = 2  /* the second line of meet and agree */
};

/*
 * Why a call was refused: `number`. Checked in this order: a build 1 to 6; widen 6 alone; check 1 to 6, then row by
 * row 21 and 22, so that the lowest row at fault decides; a question 1, 2, 3, 6 (A wholly, then B), then 7, 8 (in agree
 * as each point comes up), 9, then 10 as it walks. Points and rows are counted from 0; the place is 0 where none is
 * named here. The line is the one whose points or table are at fault: A where a call has one line; widen's 6, 7, and 8
 * outside agree, have none. (12 and 13 are the question program's own.)
 */
enum {
    KNEUKELBOOM_REFUSED_ODD_LENGTH = 1,       /* odd length of a points array */
    KNEUKELBOOM_REFUSED_TOO_FEW_POINTS = 2,   /* fewer than 2 points */
    KNEUKELBOOM_REFUSED_TOO_MANY_POINTS = 3,  /* more than 4,097 points */
    KNEUKELBOOM_REFUSED_POINT_OFF_SHEET = 4,  /* build, check: a point off the sheet; place: the lowest such point */
    KNEUKELBOOM_REFUSED_EQUAL_NEIGHBOURS = 5, /* build, check: two neighbours equal, after all of 4; place: the lower */
    KNEUKELBOOM_REFUSED_SHORT_TABLE = 6,      /* table shorter than 11 * (2n-1); widen: fewer numbers lent than old */
    KNEUKELBOOM_REFUSED_DISTANCE = 7,         /* distance outside 0 to 2,000,000 */
    KNEUKELBOOM_REFUSED_ASKED_OFF_SHEET = 8,  /* asked point off the sheet; place: in agree the point's index, else 0 */
    KNEUKELBOOM_REFUSED_NO_RING = 9,          /* inside: fewer than 4 points, or first and last differ */
    KNEUKELBOOM_REFUSED_BAD_ROW = 10,         /* a row that was read at a visit is bad: the table is not this line's;
                                                 place: the row */
    KNEUKELBOOM_REFUSED_ROW_NOT_GOOD = 21,    /* check: a row is not good for its range; place: the row */
    KNEUKELBOOM_REFUSED_POINT_LEFT_OUT = 22   /* check: the strip or box of a good row leaves out a point of its run;
                                                 place: the row */
};

/* The sentence of a refusal's number; any other number gets one that says so. */
static inline const char *kneukelboom_sentence(uint32_t number) {
    switch (number) {
    case KNEUKELBOOM_REFUSED_ODD_LENGTH: return "the line has an odd number of coordinates";
    case KNEUKELBOOM_REFUSED_TOO_FEW_POINTS: return "the line has fewer than 2 points";
    case KNEUKELBOOM_REFUSED_TOO_MANY_POINTS: return "the line has more than 4,097 points";
    case KNEUKELBOOM_REFUSED_POINT_OFF_SHEET: return "a point of the line is off the sheet";
    case KNEUKELBOOM_REFUSED_EQUAL_NEIGHBOURS: return "two neighbouring points of the line are equal";
    case KNEUKELBOOM_REFUSED_SHORT_TABLE:
        return "the table of the line is too short for its points, or the list to widen into is too short";
    case KNEUKELBOOM_REFUSED_DISTANCE: return "the distance is not from 0 to 2,000,000";
    case KNEUKELBOOM_REFUSED_ASKED_OFF_SHEET: return "the asked point is off the sheet";
    case KNEUKELBOOM_REFUSED_NO_RING:
        return "the line is no ring: it has fewer than 4 points, or does not end where it begins";
    case KNEUKELBOOM_REFUSED_BAD_ROW: return "a row of the table of the line is bad";
    case KNEUKELBOOM_REFUSED_ROW_NOT_GOOD: return "a row of the table of the line is not good for its range";
    case KNEUKELBOOM_REFUSED_POINT_LEFT_OUT: return "a row of the table of the line leaves out a point of its run";
    default: return "no refusal of the library has this number";
    }
}

/*
 * What a call answers. `number`, `line` and `place` are 0 but for a refusal, and for agree's no, where `line` and
 * `place` name the first point that is not near the other line.
 */
typedef struct kneukelboom_reply {
    uint32_t word;   /* KNEUKELBOOM_BUILT to KNEUKELBOOM_REFUSED */
    uint32_t visits; /* visits made; with undecided, the allowance; 0 where a refusal comes before the walk */
    uint32_t number; /* of the refusal, or 0 */
    uint32_t line;   /* KNEUKELBOOM_NO_LINE, KNEUKELBOOM_LINE_A or KNEUKELBOOM_LINE_B */
    uint64_t place;  /* of the refusal, or the point of agree's no, or 0 */
} kneukelboom_reply;

/*
 * Every length counts numbers, not points; points lie as x, y, x, y. In a question the table is one that build wrote or
 * check accepted for these points; any other is answered too, with refusal 10 where a row that is read is bad, and at
 * your own risk where none is.
 */

/*
 * Writes the table of a line: built, or refused and nothing is written. Past the checks, each point is read once for
 * each node that covers it (not proved: examples/reads.c counts).
 */
kneukelboom_reply kneukelboom_build(const int64_t *points, size_t points_len, int64_t *table, size_t table_len);

/*
 * Writes each of the old numbers, points or a table as version 1 had them, to the front of the wide ones: built, or
 * refused 6 and nothing is written, where fewer wide numbers are lent. Any lengths and any numbers; wide numbers past
 * the old ones stay unchanged.
 */
kneukelboom_reply kneukelboom_widen(const int32_t *old, size_t old_len, int64_t *wide, size_t wide_len);

/*
 * Is a table sound for these points, whoever wrote it? Accepted or refused. It only reads, and has no allowance. Splits
 * may be any inner points of their runs; strips and boxes may be wider than their points need, boxes up to the sheet's
 * edge; numbers past the 2n-1 rows are not looked at. Over an accepted table the answers are those over the built one;
 * the visits can differ, for a walk follows the splits of its table.
 */
kneukelboom_reply kneukelboom_check(const int64_t *points, size_t points_len, const int64_t *table, size_t table_len);

/* Is (x,y) within the distance of some segment of the line? Exactly that far is within. Yes, no, undecided, refused. */
kneukelboom_reply kneukelboom_near(const int64_t *points, size_t points_len, const int64_t *table, size_t table_len,
                                   int64_t x, int64_t y, int64_t distance, uint32_t allowance);

/* On which side of a ring is (x,y)? Inside, outside, on, undecided, refused. Where it crosses itself, inside is odd. */
kneukelboom_reply kneukelboom_inside(const int64_t *points, size_t points_len, const int64_t *table, size_t table_len,
                                     int64_t x, int64_t y, uint32_t allowance);

/* Do two lines share a point, ends, touches and overlaps included? Yes, no, undecided or refused. */
kneukelboom_reply kneukelboom_meet(const int64_t *points_a, size_t points_a_len, const int64_t *table_a,
                                   size_t table_a_len, const int64_t *points_b, size_t points_b_len,
                                   const int64_t *table_b, size_t table_b_len,
                                   uint32_t allowance);

/*
 * Is each point of A within the distance of B, and each point of B within it of A? Yes, no, undecided or refused. A no
 * names the first point that is not: A's points are asked in order, then B's.
 */
kneukelboom_reply kneukelboom_agree(const int64_t *points_a, size_t points_a_len, const int64_t *table_a,
                                    size_t table_a_len, const int64_t *points_b, size_t points_b_len,
                                    const int64_t *table_b, size_t table_b_len,
                                    int64_t distance, uint32_t allowance);

#ifdef __cplusplus
}
#endif

#endif
