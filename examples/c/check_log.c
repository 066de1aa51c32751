/*
 * Judges two logs of another product, a table that threads work on: five answered operations of three workers, with the
 * positions of their calls and answers as that product counts them. Worker 2 looks up account 1000 while the others
 * post to it, and finds the first post's total alone: the first order that explains that is shown as the places of the
 * operations in the log. In the second log each post was answered with its own amount, as if the other had not been: no
 * order explains that. A refusal ends the run with a line on standard error and exit status 1. Nothing is allocated.
 */
#include <inttypes.h>
#include <stdio.h>
#include <string.h>

#include "totals.h"

enum { CAPACITY = 4, DEPTH = 2, OPERATIONS = 5 };

/* Worker, kind, account, total, answer, the answer's total, and the positions of call and answer. */
static const struct totals_logged right[OPERATIONS] = {
    {0, TOTALS_POST, 1000, 12500, TOTALS_POSTED, 12500, 1, 4},
    {1, TOTALS_POST, 1000, 2900, TOTALS_POSTED, 15400, 2, 6},
    {2, TOTALS_LOOKUP, 1000, 0, TOTALS_FOUND, 12500, 3, 5},
    {0, TOTALS_INSERT, 1001, 4000, TOTALS_ADDED, 0, 7, 10},
    {1, TOTALS_DELETE, 1001, 0, TOTALS_ABSENT, 0, 8, 9},
};

/* Shows the verdict: 0, or 1 where it was refused. */
static int judge(const char *title, const struct totals_logged *log)
{
    uint64_t order[OPERATIONS];
    uint64_t number = totals_check_log((const uint64_t *)log, TOTALS_LOGGED_WORDS * OPERATIONS, CAPACITY, DEPTH, order,
                                       OPERATIONS);
    size_t i;
    if (number != TOTALS_OK && number != TOTALS_NO) {
        fprintf(stderr, "%s: refused %" PRIu64 "\n", title, number);
        return 1;
    }
    printf("%s: %s", title, number == TOTALS_OK ? "order" : "no");
    for (i = 0; number == TOTALS_OK && i < OPERATIONS; i++)
        printf(" %" PRIu64, order[i]);
    printf("\n");
    return 0;
}

int main(void)
{
    struct totals_logged lost[OPERATIONS];
    int wrong;
    memcpy(lost, right, sizeof right);
    lost[1].answer_total = 2900;
    wrong = judge("both posts count", right) || judge("one post is lost", lost);
    return wrong || fflush(stdout) != 0 || ferror(stdout);
}
