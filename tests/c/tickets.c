/*
 * Ticket numbers of 64 bits over the C interface. In the words of a fresh table one worker's last ticket is set, near
 * the greatest or a few below the least of 17, 32, 33 and 64 bits; the other worker starts with 1. Then an order of
 * turns, and after each the number that came back, what was told, the worker's last ticket and the listing are looked
 * at. What is wrong is said on standard error; the exit status is 1 then.
 */
#include <inttypes.h>
#include <stdio.h>
#include <string.h>

#include "totals.h"

#if TOTALS_GREATEST_UPDATES != UINT64_MAX
#error "the greatest ticket number"
#endif

/* Two workers. Where their records begin, how long each is, and where in it the last ticket stands: docs/LAYOUT.md. */
enum { WORKERS = 2, WORKERS_AT = 16 + 4 * WORKERS, WORKER_SIZE = 4 * WORKERS + 24, WORKER_TICKET = 3 };

enum { LENGTH = TOTALS_GREATEST_WORDS, PLACES = 8, GO_ON = 0, ALL = TOTALS_GREATEST_STEPS(WORKERS) };
enum { TAKEN = 5 }; /* tickets by worker 1 in an order, at most */

/* The least places whose first two bits are 10, and 11; those of small ones are 00. */
#define IN_10 2147483648
#define IN_11 3221225472

/* An account by its place, and its total. The accounts at 5, 6, 7, 8, IN_10, 9, IN_10 + 1 and IN_11 ascend so. */
struct row {
    uint32_t place;
    int64_t total;
};

/*
 * A worker is handed an operation, or goes on with its own, and is given steps. What comes of it: a number, what is
 * told, how many tickets the worker has taken so far, and the rows that are listed.
 */
struct turn {
    uint64_t worker, kind;
    struct row operand;
    uint64_t most, number, told[3], taken;
    size_t count;
    struct row rows[4];
};

/* Worker 1 has one ticket left. */
static const struct turn ending[] = {
    {1, TOTALS_INSERT, {5, 50}, ALL, TOTALS_ADDED, {15, 0, 1}, 1, 1, {{5, 50}}},
    {1, TOTALS_INSERT, {5, 51}, ALL, TOTALS_SPENT, {0, 0, 0}, 1, 1, {{5, 50}}},
    {1, TOTALS_DELETE, {5, 0}, ALL, TOTALS_SPENT, {0, 0, 0}, 1, 1, {{5, 50}}},
    {1, TOTALS_POST, {5, 1}, ALL, TOTALS_SPENT, {0, 0, 0}, 1, 1, {{5, 50}}},
    {1, GO_ON, {0, 0}, 1, TOTALS_IDLE, {0, 0, 0}, 1, 1, {{5, 50}}},
    {1, TOTALS_LOOKUP, {5, 0}, ALL, TOTALS_FOUND, {2, 50, 0}, 1, 1, {{5, 50}}},
    {0, TOTALS_DELETE, {5, 0}, ALL, TOTALS_REMOVED, {15, 0, 1}, 1, 0, {{0, 0}}},
    {1, TOTALS_LOOKUP, {5, 0}, ALL, TOTALS_NONE, {2, 0, 0}, 1, 0, {{0, 0}}},
    {0, TOTALS_INSERT, {6, 60}, ALL, TOTALS_ADDED, {15, 0, 1}, 2, 1, {{6, 60}}},
    {1, TOTALS_INSERT, {7, 70}, ALL, TOTALS_SPENT, {0, 0, 0}, 1, 1, {{6, 60}}},
};

/*
 * Worker 1 announces, worker 0 ends its own update and has carried out both, and worker 1 ends: in an empty bucket, in
 * the same one, and in a full one, which is split; then each in the half that it did not update last.
 */
static const struct turn helped[] = {
    {1, TOTALS_INSERT, {5, 50}, 3, TOTALS_MOVED, {3, 0, 0}, 1, 0, {{0, 0}}},
    {0, TOTALS_INSERT, {9, 90}, ALL, TOTALS_ADDED, {15, 0, 1}, 1, 2, {{5, 50}, {9, 90}}},
    {1, GO_ON, {0, 0}, ALL, TOTALS_ADDED, {15, 0, 1}, 1, 2, {{5, 50}, {9, 90}}},
    {1, TOTALS_DELETE, {9, 0}, 3, TOTALS_MOVED, {3, 0, 0}, 2, 2, {{5, 50}, {9, 90}}},
    {0, TOTALS_INSERT, {5, 51}, ALL, TOTALS_REPLACED, {15, 0, 1}, 2, 1, {{5, 51}}},
    {1, GO_ON, {0, 0}, ALL, TOTALS_REMOVED, {15, 0, 1}, 2, 1, {{5, 51}}},
    {0, TOTALS_INSERT, {6, 60}, ALL, TOTALS_ADDED, {15, 0, 1}, 3, 2, {{5, 51}, {6, 60}}},
    {1, TOTALS_INSERT, {IN_10, 70}, ALL, TOTALS_ADDED, {15, 0, 1}, 3, 3, {{5, 51}, {6, 60}, {IN_10, 70}}},
    {1, TOTALS_INSERT, {IN_10 + 1, 80}, 3, TOTALS_MOVED, {3, 0, 0}, 4, 3, {{5, 51}, {6, 60}, {IN_10, 70}}},
    {0, TOTALS_DELETE, {6, 0}, ALL, TOTALS_REMOVED, {29, 0, 2}, 4, 3, {{5, 51}, {IN_10, 70}, {IN_10 + 1, 80}}},
    {1, GO_ON, {0, 0}, ALL, TOTALS_ADDED, {15, 0, 1}, 4, 3, {{5, 51}, {IN_10, 70}, {IN_10 + 1, 80}}},
    {1, TOTALS_DELETE, {5, 0}, ALL, TOTALS_REMOVED, {15, 0, 1}, 5, 2, {{IN_10, 70}, {IN_10 + 1, 80}}},
    {0, TOTALS_INSERT, {IN_10, 71}, ALL, TOTALS_REPLACED, {15, 0, 1}, 5, 2, {{IN_10, 71}, {IN_10 + 1, 80}}},
    {1, TOTALS_LOOKUP, {IN_10, 0}, ALL, TOTALS_FOUND, {2, 71, 0}, 5, 2, {{IN_10, 71}, {IN_10 + 1, 80}}},
};

/* Worker 0 fills a bucket; the first two updates of worker 1 split what is full, and its third finds room. */
static const struct turn splitting[] = {
    {0, TOTALS_INSERT, {5, 50}, ALL, TOTALS_ADDED, {15, 0, 1}, 1, 1, {{5, 50}}},
    {0, TOTALS_INSERT, {IN_10, 60}, ALL, TOTALS_ADDED, {15, 0, 1}, 2, 2, {{5, 50}, {IN_10, 60}}},
    {1, TOTALS_INSERT, {IN_10 + 1, 70}, ALL, TOTALS_ADDED, {29, 0, 2}, 1, 3, {{5, 50}, {IN_10, 60}, {IN_10 + 1, 70}}},
    {1, TOTALS_INSERT, {IN_11, 80}, ALL, TOTALS_ADDED, {29, 0, 2}, 2, 4,
     {{5, 50}, {IN_10, 60}, {IN_10 + 1, 70}, {IN_11, 80}}},
    {1, TOTALS_DELETE, {5, 0}, ALL, TOTALS_REMOVED, {15, 0, 1}, 3, 3, {{IN_10, 60}, {IN_10 + 1, 70}, {IN_11, 80}}},
};

/*
 * Worker 1 announces a post, worker 0 ends its own and has carried out both, and worker 1 is told its own total: of new
 * accounts, of one whose sum is an overrun, and in a full bucket, which is split.
 */
static const struct turn posting[] = {
    {1, TOTALS_POST, {5, 50}, 3, TOTALS_MOVED, {3, 0, 0}, 1, 0, {{0, 0}}},
    {0, TOTALS_POST, {9, 90}, ALL, TOTALS_POSTED, {15, 90, 1}, 1, 2, {{5, 50}, {9, 90}}},
    {1, GO_ON, {0, 0}, ALL, TOTALS_POSTED, {15, 50, 1}, 1, 2, {{5, 50}, {9, 90}}},
    {1, TOTALS_POST, {9, INT64_MAX}, 3, TOTALS_MOVED, {3, 0, 0}, 2, 2, {{5, 50}, {9, 90}}},
    {0, TOTALS_POST, {5, -51}, ALL, TOTALS_POSTED, {15, UINT64_MAX, 1}, 2, 2, {{5, -1}, {9, 90}}},
    {1, GO_ON, {0, 0}, ALL, TOTALS_OVERRUN, {15, 0, 1}, 2, 2, {{5, -1}, {9, 90}}},
    {1, TOTALS_POST, {5, 11}, ALL, TOTALS_POSTED, {15, 10, 1}, 3, 2, {{5, 10}, {9, 90}}},
    {0, TOTALS_POST, {9, 10}, ALL, TOTALS_POSTED, {15, 100, 1}, 3, 2, {{5, 10}, {9, 100}}},
    {1, TOTALS_POST, {IN_10, 0}, ALL, TOTALS_POSTED, {15, 0, 1}, 4, 3, {{5, 10}, {IN_10, 0}, {9, 100}}},
    {1, TOTALS_POST, {IN_10, 70}, 3, TOTALS_MOVED, {3, 0, 0}, 5, 3, {{5, 10}, {IN_10, 0}, {9, 100}}},
    {0, TOTALS_POST, {9, 1}, ALL, TOTALS_POSTED, {29, 101, 2}, 4, 3, {{5, 10}, {IN_10, 70}, {9, 101}}},
    {1, GO_ON, {0, 0}, ALL, TOTALS_POSTED, {15, 70, 1}, 5, 3, {{5, 10}, {IN_10, 70}, {9, 101}}},
};

/*
 * A full bucket at the greatest depth, 0. Worker 1's new account is crowded, and stays so though worker 0 makes room
 * before worker 1 reads its answer; the next one finds the room. Then updates of both in the full bucket, one of them a
 * new account's, and once more room for one.
 */
static const struct turn crowding[] = {
    {0, TOTALS_INSERT, {5, 50}, ALL, TOTALS_ADDED, {15, 0, 1}, 1, 1, {{5, 50}}},
    {0, TOTALS_INSERT, {6, 60}, ALL, TOTALS_ADDED, {15, 0, 1}, 2, 2, {{5, 50}, {6, 60}}},
    {1, TOTALS_INSERT, {7, 70}, 8, TOTALS_MOVED, {8, 0, 0}, 1, 2, {{5, 50}, {6, 60}}},
    {0, TOTALS_DELETE, {5, 0}, ALL, TOTALS_REMOVED, {15, 0, 1}, 3, 1, {{6, 60}}},
    {1, GO_ON, {0, 0}, ALL, TOTALS_CROWDED, {15, 0, 1}, 1, 1, {{6, 60}}},
    {1, TOTALS_POST, {7, 70}, ALL, TOTALS_POSTED, {15, 70, 1}, 2, 2, {{6, 60}, {7, 70}}},
    {1, TOTALS_POST, {7, INT64_MAX}, 3, TOTALS_MOVED, {3, 0, 0}, 3, 2, {{6, 60}, {7, 70}}},
    {0, TOTALS_INSERT, {6, 61}, ALL, TOTALS_REPLACED, {15, 0, 1}, 4, 2, {{6, 61}, {7, 70}}},
    {1, GO_ON, {0, 0}, ALL, TOTALS_OVERRUN, {15, 0, 1}, 3, 2, {{6, 61}, {7, 70}}},
    {1, TOTALS_DELETE, {9, 0}, 3, TOTALS_MOVED, {3, 0, 0}, 4, 2, {{6, 61}, {7, 70}}},
    {0, TOTALS_POST, {8, 80}, ALL, TOTALS_CROWDED, {15, 0, 1}, 5, 2, {{6, 61}, {7, 70}}},
    {1, GO_ON, {0, 0}, ALL, TOTALS_ABSENT, {15, 0, 1}, 4, 2, {{6, 61}, {7, 70}}},
    {0, TOTALS_DELETE, {7, 0}, ALL, TOTALS_REMOVED, {15, 0, 1}, 6, 1, {{6, 61}}},
    {1, TOTALS_INSERT, {8, 80}, ALL, TOTALS_ADDED, {15, 0, 1}, 5, 2, {{6, 61}, {8, 80}}},
};

struct order {
    uint64_t capacity, depth;
    const struct turn *turns;
    size_t count;
};

#define ORDER(capacity, depth, turns) {capacity, depth, turns, sizeof turns / sizeof turns[0]}

static const struct order at_the_end = ORDER(2, 1, ending);
static const struct order at_an_edge[] = {ORDER(3, 1, helped), ORDER(2, 2, splitting), ORDER(3, 1, posting),
                                          ORDER(2, 0, crowding)};

/* The least tickets of 17, 32, 33 and 64 bits. */
static const uint64_t edges[] = {UINT64_C(1) << 16, UINT64_C(1) << 31, UINT64_C(1) << 32, UINT64_C(1) << 63};

static uint64_t words[LENGTH];

static uint64_t *last_ticket(uint64_t worker)
{
    return &words[WORKERS_AT + WORKER_SIZE * worker + WORKER_TICKET];
}

/* Not 0 where the listing is another one than the turn has. */
static int listing_errors(const struct turn *turn)
{
    uint32_t accounts[PLACES];
    int64_t totals[PLACES];
    uint64_t count = 0;
    size_t i;
    int errors = 0;
    if (totals_list(words, LENGTH, accounts, PLACES, totals, PLACES, &count, 1) != TOTALS_OK || count != turn->count)
        return fprintf(stderr, "%" PRIu64 " accounts listed\n", count);
    for (i = 0; i < count; i++)
        if (accounts[i] != totals_account_at(turn->rows[i].place) || totals[i] != turn->rows[i].total)
            errors += fprintf(stderr, "listed: %" PRIu32 " %" PRId64 "\n", accounts[i], totals[i]);
    return errors;
}

/* Not 0 where a worker's turn goes wrong; it had this ticket last at first. A refused turn changes no word. */
static int turn_errors(const struct turn *turn, uint64_t worker, uint64_t last)
{
    static uint64_t before[LENGTH];
    uint64_t report[3] = {0, 0, 0}, number = TOTALS_OK;
    int errors = 0;
    memcpy(before, words, sizeof words);
    if (turn->kind != GO_ON)
        number = totals_call(words, LENGTH, worker, turn->kind, totals_account_at(turn->operand.place),
                             turn->operand.total);
    if (number == TOTALS_OK)
        number = totals_run(words, LENGTH, worker, turn->most, report, 3);
    if (number != turn->number)
        errors += fprintf(stderr, "%" PRIu64 " came back and not %" PRIu64 "\n", number, turn->number);
    if (memcmp(report, turn->told, sizeof report) != 0)
        errors += fprintf(stderr, "told: %" PRIu64 " %" PRIu64 " %" PRIu64 "\n", report[0], report[1], report[2]);
    if (*last_ticket(worker) != last + turn->taken)
        errors += fprintf(stderr, "last ticket %" PRIu64 "\n", *last_ticket(worker));
    if (number != TOTALS_MOVED && number < TOTALS_ADDED && memcmp(words, before, sizeof words) != 0)
        errors += fprintf(stderr, "a refused turn changed a word\n");
    return errors + listing_errors(turn);
}

/* Not 0 where an order goes wrong in which worker 1 has this last ticket at first; the workers may be exchanged. */
static int order_errors(const struct order *order, uint64_t last, uint64_t exchanged)
{
    size_t i;
    int errors = 0;
    if (totals_open(words, LENGTH, WORKERS, order->capacity, order->depth) != TOTALS_OK)
        return fprintf(stderr, "not opened\n");
    *last_ticket(1 ^ exchanged) = last;
    for (i = 0; i < order->count; i++) {
        const struct turn *turn = &order->turns[i];
        if (turn_errors(turn, turn->worker ^ exchanged, turn->worker == 1 ? last : 0))
            errors += fprintf(stderr, "buckets of %" PRIu64 ", last ticket %" PRIu64 " of worker %" PRIu64
                              " at first: turn %d is wrong\n", order->capacity, last, 1 ^ exchanged, (int)i);
    }
    return errors;
}

static int errors_at_an_edge(uint64_t last, uint64_t exchanged)
{
    size_t i;
    int errors = 0;
    for (i = 0; i < sizeof at_an_edge / sizeof at_an_edge[0]; i++)
        errors += order_errors(&at_an_edge[i], last, exchanged);
    return errors;
}

int main(void)
{
    uint64_t exchanged, below;
    size_t i;
    int errors = 0;
    for (exchanged = 0; exchanged < WORKERS; exchanged++) {
        errors += order_errors(&at_the_end, UINT64_MAX - 1, exchanged);
        errors += errors_at_an_edge(0, exchanged) + errors_at_an_edge(UINT64_MAX - TAKEN, exchanged);
        for (i = 0; i < sizeof edges / sizeof edges[0]; i++)
            for (below = 1; below <= TAKEN; below++)
                errors += errors_at_an_edge(edges[i] - below, exchanged);
    }
    return errors != 0;
}
