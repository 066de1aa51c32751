/*
 * What steps write to a report, by its length: steps, total and check to three places or more, the first two to two
 * places, nothing to fewer, and nothing past the third place. What is wrong is said on standard error; the exit status
 * is 1 then.
 */
#include <inttypes.h>
#include <stdio.h>

#include "totals.h"

enum { LENGTH = TOTALS_GREATEST_WORDS, LONGEST = 4, BEFORE = 1000, TOTAL = -700, MOST = TOTALS_GREATEST_STEPS(1) };

/* Worker 0 is handed an operation, or goes on with its own; then a single step or a run; and what is to come of it. */
struct turn {
    uint64_t kind;  /* 0 to go on */
    uint32_t place; /* of the account */
    int64_t total;
    enum { STEP, RUN } by;
    uint64_t most, number;
    size_t tells; /* how many words, where the report has room */
    uint64_t told[3];
};

/*
 * One worker, buckets of 2, depth 1 at most: the third account needs a split, and leaves the bucket of places 5 and 6
 * full at that depth. It then takes what corrects these two, and a new account when one of them is removed.
 */
static const struct turn turns[] = {
    {0, 0, 0, STEP, 1, TOTALS_IDLE, 0, {0, 0, 0}},
    {0, 0, 0, RUN, MOST, TOTALS_IDLE, 0, {0, 0, 0}},
    {TOTALS_INSERT, 5, TOTAL, RUN, 12, TOTALS_MOVED, 3, {12, 0, 0}},
    {0, 0, 0, RUN, 0, TOTALS_MOVED, 3, {0, 0, 0}},
    {0, 0, 0, STEP, 1, TOTALS_ADDED, 3, {13, 0, 1}},
    {TOTALS_INSERT, 6, TOTAL, STEP, 1, TOTALS_MOVED, 0, {0, 0, 0}},
    {0, 0, 0, RUN, MOST, TOTALS_ADDED, 3, {13, 0, 1}},
    {TOTALS_INSERT, 2147483648, TOTAL, RUN, MOST - 1, TOTALS_MOVED, 3, {22, 0, 0}},
    {0, 0, 0, STEP, 1, TOTALS_ADDED, 3, {23, 0, 2}},
    {TOTALS_INSERT, 7, TOTAL, RUN, MOST, TOTALS_CROWDED, 3, {13, 0, 1}},
    {TOTALS_LOOKUP, 5, TOTAL, RUN, MOST, TOTALS_FOUND, 3, {2, (uint64_t)TOTAL, 0}},
    {TOTALS_LOOKUP, 7, TOTAL, RUN, 1, TOTALS_MOVED, 3, {1, 0, 0}},
    {0, 0, 0, STEP, 1, TOTALS_NONE, 3, {2, 0, 0}},
    {TOTALS_POST, 2147483648, TOTAL, RUN, 12, TOTALS_MOVED, 3, {12, 0, 0}},
    {0, 0, 0, STEP, 1, TOTALS_POSTED, 3, {13, (uint64_t)(2 * TOTAL), 1}},
    {TOTALS_POST, 2147483648, INT64_MIN, RUN, MOST, TOTALS_OVERRUN, 3, {13, 0, 1}},
    {TOTALS_POST, 5, INT64_MIN, RUN, MOST, TOTALS_OVERRUN, 3, {13, 0, 1}},
    {TOTALS_POST, 5, TOTAL, RUN, MOST, TOTALS_POSTED, 3, {13, (uint64_t)(2 * TOTAL), 1}},
    {TOTALS_INSERT, 6, TOTAL, RUN, MOST, TOTALS_REPLACED, 3, {13, 0, 1}},
    {TOTALS_POST, 7, INT64_MIN, RUN, 12, TOTALS_MOVED, 3, {12, 0, 0}},
    {0, 0, 0, STEP, 1, TOTALS_CROWDED, 3, {13, 0, 1}},
    {TOTALS_DELETE, 7, TOTAL, RUN, MOST, TOTALS_ABSENT, 3, {13, 0, 1}},
    {TOTALS_DELETE, 5, TOTAL, RUN, MOST, TOTALS_REMOVED, 3, {13, 0, 1}},
    {TOTALS_POST, 7, INT64_MIN, RUN, MOST, TOTALS_POSTED, 3, {13, (uint64_t)INT64_MIN, 1}},
    {TOTALS_INSERT, 5, TOTAL, RUN, MOST, TOTALS_CROWDED, 3, {13, 0, 1}},
};

static uint64_t words[LENGTH];

/* Whether a turn with a report of so many places goes wrong; there are two more behind it, which are not lent. */
static int wrong(const struct turn *turn, size_t places)
{
    uint64_t report[LONGEST + 2], number;
    size_t place, told = turn->tells <= places ? turn->tells : places == 2 ? 2 : 0;
    int errors = 0;
    for (place = 0; place < LONGEST + 2; place++)
        report[place] = BEFORE + place;
    if (turn->kind != 0 &&
        totals_call(words, LENGTH, 0, turn->kind, totals_account_at(turn->place), turn->total) != TOTALS_OK)
        return fprintf(stderr, "the account at place %" PRIu32 ": refused\n", turn->place);
    number = turn->by == STEP ? totals_step(words, LENGTH, 0, report, places)
                              : totals_run(words, LENGTH, 0, turn->most, report, places);
    if (number != turn->number)
        errors += fprintf(stderr, "%" PRIu64 " came back and not %" PRIu64 "\n", number, turn->number);
    for (place = 0; place < LONGEST + 2; place++)
        if (report[place] != (place < told ? turn->told[place] : BEFORE + place))
            errors += fprintf(stderr, "place %d of %d: %" PRIu64 "\n", (int)place, (int)places, report[place]);
    return errors;
}

int main(void)
{
    size_t places, i;
    int errors = 0;
    for (places = 0; places <= LONGEST; places++) {
        if (totals_open(words, LENGTH, 1, 2, 1) != TOTALS_OK)
            return 1;
        for (i = 0; i < sizeof turns / sizeof turns[0]; i++)
            if (wrong(&turns[i], places)) {
                fprintf(stderr, "turn %d is wrong\n", (int)i);
                errors = 1;
            }
    }
    return errors;
}
