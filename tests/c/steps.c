/*
 * The header's figures of steps, as C and as C++: for each number of workers a line with the greatest steps, and those
 * at check 0, 1, .. up to one more than there are. The macros are also tried as constants, inside other expressions,
 * with every integer type, and by how often they evaluate an argument; the exit status is 1 where something is wrong.
 */
#include <inttypes.h>
#include <stdio.h>

#include "totals.h"

#if TOTALS_GREATEST_STEPS(1) != 23 || TOTALS_CHECK_STEPS(1, 1) != 13 || TOTALS_CHECK_STEPS(1, 5) != 0
#error "the figures of one worker"
#endif

enum { MOST = TOTALS_GREATEST_STEPS(TOTALS_GREATEST_WORKERS) };

/* Operators beside the macros, and in their arguments: those of two workers at check 3 and at most. */
static int closed(void)
{
    static const char places[TOTALS_CHECK_STEPS(TOTALS_GREATEST_WORKERS, TOTALS_GREATEST_CHECK)] = {0};
    return sizeof places == MOST && 2 * TOTALS_CHECK_STEPS(0 ? 3 : 2, 1 | 2) == 86 &&
           2 * TOTALS_GREATEST_STEPS(1 + 1) == 114;
}

#define AGREE(type) \
    ((uint64_t)TOTALS_CHECK_STEPS((type)workers, (type)check) == TOTALS_CHECK_STEPS(workers, check) && \
     (uint64_t)TOTALS_GREATEST_STEPS((type)workers) == TOTALS_GREATEST_STEPS(workers))

/* The figures are the same for arguments of every type. */
static int typed(uint64_t workers, uint64_t check)
{
    return AGREE(signed char) && AGREE(unsigned char) && AGREE(short) && AGREE(unsigned short) && AGREE(int) &&
           AGREE(unsigned) && AGREE(long) && AGREE(unsigned long) && AGREE(int64_t) && AGREE(size_t);
}

static unsigned evaluations;

static uint64_t counted(uint64_t argument)
{
    evaluations++;
    return argument;
}

/* So many evaluations at most since this was last asked. */
static int within(unsigned most)
{
    int kept = evaluations <= most;
    evaluations = 0;
    return kept;
}

static int seldom(uint64_t workers, uint64_t check)
{
    return TOTALS_GREATEST_STEPS(counted(workers)) == TOTALS_GREATEST_STEPS(workers) && within(2) &&
           TOTALS_CHECK_STEPS(counted(workers), check) == TOTALS_CHECK_STEPS(workers, check) && within(2) &&
           TOTALS_CHECK_STEPS(workers, counted(check)) == TOTALS_CHECK_STEPS(workers, check) && within(4);
}

int main(void)
{
    uint64_t workers, check;
    int right = closed();
    for (workers = TOTALS_LEAST_WORKERS; workers <= TOTALS_GREATEST_WORKERS; workers++) {
        printf("%" PRIu64 " %" PRIu64, workers, TOTALS_GREATEST_STEPS(workers));
        for (check = 0; check <= TOTALS_GREATEST_CHECK + 1; check++) {
            right = right && typed(workers, check) && seldom(workers, check);
            printf(" %" PRIu64, TOTALS_CHECK_STEPS(workers, check));
        }
        printf("\n");
    }
    return !right || fflush(stdout) != 0;
}
