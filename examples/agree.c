/*
 * Do two survey lines agree? `agree DISTANCE A.txt B.txt` asks through kneukelboom.h; `make` builds and runs it. A file
 * has a point on each row: x and y, whole numbers in sheet units of 1/16 metre. Exit status: 0 yes, 1 no, 2 otherwise.
 */
#include "kneukelboom.h"
#include <stdio.h>
#include <stdlib.h>

/* Room for one point more than a line may have: a longer file is refused, not cut off. */
#define ROOM (2 * (KNEUKELBOOM_MOST_POINTS + 1))

typedef struct {
    int64_t points[ROOM], table[KNEUKELBOOM_TABLE_LEN(ROOM)];
    size_t points_len, table_len;
} survey;

static void read_survey(const char *path, survey *line) {
    FILE *file = fopen(path, "r");
    char row[80], rest;
    int x, y;
    if (!file) {
        perror(path);
        exit(2);
    }
    while (line->points_len < ROOM && fgets(row, sizeof row, file)) {
        if (sscanf(row, "%9d %9d %c", &x, &y, &rest) != 2) {
            printf("%s: no point: %s", path, row);
            exit(2);
        }
        line->points[line->points_len++] = x;
        line->points[line->points_len++] = y;
    }
    fclose(file);
    line->table_len = KNEUKELBOOM_TABLE_LEN(line->points_len);
    kneukelboom_reply reply = kneukelboom_build(line->points, line->points_len, line->table, line->table_len);
    if (reply.word == KNEUKELBOOM_REFUSED) {
        printf("%s: refused %u: %s (place %u)\n", path, (unsigned)reply.number, kneukelboom_sentence(reply.number),
               (unsigned)reply.place);
        exit(2);
    }
}

int main(int count, char **words) {
    static survey a, b;
    int distance;
    char rest;
    if (count != 4 || sscanf(words[1], "%9d %c", &distance, &rest) != 1) {
        fprintf(stderr, "agree DISTANCE A.txt B.txt\n");
        return 2;
    }
    read_survey(words[2], &a);
    read_survey(words[3], &b);
    kneukelboom_reply reply = kneukelboom_agree(a.points, a.points_len, a.table, a.table_len, b.points, b.points_len,
                                                b.table, b.table_len, distance, UINT32_MAX);
    switch (reply.word) {
    case KNEUKELBOOM_YES:
        printf("yes: each point of either line is near the other (visits: %u)\n", (unsigned)reply.visits);
        return 0;
    case KNEUKELBOOM_NO:
        printf("no: point %u of %s is not near the other line (visits: %u)\n", (unsigned)reply.place,
               words[reply.line == KNEUKELBOOM_LINE_A ? 2 : 3], (unsigned)reply.visits);
        return 1;
    case KNEUKELBOOM_UNDECIDED: /* cannot be: UINT32_MAX visits are enough. Where it can, it is no no: ask with more */
        printf("undecided: more than %u visits are needed\n", (unsigned)reply.visits);
        return 2;
    default:
        printf("refused %u: %s\n", (unsigned)reply.number, kneukelboom_sentence(reply.number));
        return 2;
    }
}
