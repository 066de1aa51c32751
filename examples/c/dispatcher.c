/*
 * A report run: three workers post twelve invoices to a table of totals; a dispatcher gives each a few steps at a time.
 * The accounts are numbered from 1000 up; the table spreads them over its buckets. Two accounts get invoices from all
 * three workers, and no post is lost. Worker 2 is parked in the middle of one until the others have finished: they
 * carry it out. Nothing is allocated. The steps are planned by the most that an operation takes, and the checks that
 * answered say how many were taken. Then the year is closed: what the other months came to is posted, one amount an
 * account, the yearly rebates are shown, and the accounts are exported as a CSV file. What a call returns is always
 * looked at: a refusal, an invoice that the table has no room for or that makes a total of more than 64 bits, and a
 * month whose invoices and totals differ end the run with a line on standard error and exit status 1.
 */
#include <inttypes.h>
#include <limits.h>
#include <stdio.h>

#include "totals.h"

enum { WORKERS = 3, CAPACITY = 4, DEPTH = 2, INVOICES = 4, NOBODY = WORKERS };
enum { PLACES = CAPACITY << DEPTH }; /* the most accounts that the table can hold */
enum { BYTES = TOTALS_EXPORT_HEADER + TOTALS_EXPORT_ROW * PLACES }; /* the most of a file of so many accounts */
enum { UPDATE_STEPS = TOTALS_GREATEST_STEPS(WORKERS), CHECKS = TOTALS_GREATEST_CHECK };
enum { PLANNED = WORKERS * INVOICES * UPDATE_STEPS }; /* the most steps of the month */

struct invoice {
    uint32_t account;
    int64_t cents;
};

static const struct invoice invoices[WORKERS][INVOICES] = {
    {{1000, 12500}, {1003, 4000}, {1001, -2500}, {1000, 900}},
    {{1001, 7300}, {1004, 1500}, {1000, 2900}, {1005, 6000}},
    {{1002, 8800}, {1000, 450}, {1001, 5000}, {1006, 150}},
};

/* What the other months of the year came to; account 1003 is below 0 then. */
static const struct invoice other_months[] = {
    {1000, 5983250}, {1001, 990234}, {1002, 991233}, {1003, -9000}, {1004, 24998500},
};

/* What a worker is at: the number of its invoice, and whether that is being posted. */
struct worker {
    unsigned invoice;
    enum { RESTING, POSTING } stage;
};

static struct worker workers[WORKERS];
static unsigned answers[CHECKS]; /* of the month, by their check */
static uint64_t words[408]; /* as many as totals_words_needed(3, 4, 2) says; totals_open refuses fewer */
static const size_t length = sizeof words / sizeof words[0];

static const char *answer_word(uint64_t answer)
{
    switch (answer) {
    case TOTALS_ADDED: return "added";
    case TOTALS_REPLACED: return "replaced";
    case TOTALS_REMOVED: return "removed";
    case TOTALS_ABSENT: return "absent";
    case TOTALS_FOUND: return "found";
    case TOTALS_NONE: return "none";
    case TOTALS_POSTED: return "posted";
    case TOTALS_CROWDED: return "crowded";
    case TOTALS_OVERRUN: return "overrun";
    default: return "no answer";
    }
}

/* What a worker has done; the cents are those of a post. */
static void print_operation(unsigned w, uint64_t kind, uint32_t account, int64_t cents)
{
    if (kind == TOTALS_POST)
        printf("worker %u posts %" PRId64 " to %" PRIu32 ": ", w, cents, account);
    else
        printf("worker %u %s %" PRIu32 ": ", w, kind == TOTALS_LOOKUP ? "looks up" : "deletes", account);
}

/* An answer, its total where it has one, and the steps, as a report has them. */
static void print_answer(uint64_t answer, const uint64_t *report)
{
    printf("%s", answer_word(answer));
    if (answer == TOTALS_FOUND || answer == TOTALS_POSTED)
        printf(" %" PRId64, (int64_t)report[1]);
    printf(", %" PRIu64 " steps\n", report[0]);
}

/* This and all functions below return 0, or 1 where they have said on standard error what is wrong. */
static int refused(uint64_t number, const char *call)
{
    if (number != TOTALS_OK)
        fprintf(stderr, "%s: refused %" PRIu64 "\n", call, number);
    return number != TOTALS_OK;
}

/* Crowded and overrun are answers, and nothing was changed: an invoice that is not kept elsewhere would be lost. */
static int not_carried_out(uint64_t answer, unsigned w, uint32_t account)
{
    fprintf(stderr, "%s: worker %u's update of account %" PRIu32 " was not carried out\n", answer_word(answer), w,
            account);
    return 1;
}

/* Totals have 64 bits; a sum that has more is no total. */
static int add(int64_t *sum, int64_t amount)
{
    int over = amount > 0 ? *sum > INT64_MAX - amount : *sum < INT64_MIN - amount;
    if (over)
        fprintf(stderr, "%" PRId64 " + %" PRId64 " has more than 64 bits\n", *sum, amount);
    else
        *sum += amount;
    return over;
}

/* After a post's answer comes the next invoice. */
static int answered(unsigned w, uint64_t answer, const uint64_t report[3])
{
    const struct invoice *invoice = &invoices[w][workers[w].invoice];
    if (answer != TOTALS_POSTED)
        return not_carried_out(answer, w, invoice->account);
    answers[report[2] - 1]++;
    print_operation(w, TOTALS_POST, invoice->account, invoice->cents);
    print_answer(answer, report);
    workers[w].stage = RESTING;
    workers[w].invoice++;
    return 0;
}

/* One turn: a resting worker starts on its next invoice; then up to so many steps. */
static int turn(unsigned w, uint64_t steps)
{
    const struct invoice *invoice = &invoices[w][workers[w].invoice];
    uint64_t report[3] = {0, 0, 0};
    uint64_t number;
    if (workers[w].stage == RESTING) {
        if (refused(totals_call(words, length, w, TOTALS_POST, invoice->account, invoice->cents), "post"))
            return 1;
        workers[w].stage = POSTING;
    }
    number = totals_run(words, length, w, steps, report, 3);
    if (number == TOTALS_MOVED)
        return 0; /* a page break; the worker is parked until its next turn, wherever its operation is */
    return number < TOTALS_ADDED ? refused(number, "run") : answered(w, number, report);
}

/* How many invoices there still are to post, without the parked worker's. */
static unsigned left(unsigned parked)
{
    unsigned w, count = 0;
    for (w = 0; w < WORKERS; w++)
        if (w != parked)
            count += INVOICES - workers[w].invoice;
    return count;
}

/* Turns in a fixed, mixed order, so many at most, until all is posted. The parked worker gets none. */
static int dispatch(unsigned turns, unsigned parked)
{
    static const struct {
        unsigned worker, steps;
    } order[] = {{0, 7}, {2, 5}, {1, 9}, {1, 2}, {0, 4}, {2, 3}, {0, 6}, {1, 8}};
    unsigned t, w;
    for (t = 0; t < turns && left(parked) > 0; t++) {
        w = order[t % 8].worker;
        if (w != parked && workers[w].invoice < INVOICES && turn(w, order[t % 8].steps))
            return 1;
    }
    return 0;
}

/* An operation from its call to its answer, which takes no more steps than an update at most. */
static int at_once(unsigned w, uint64_t kind, uint32_t account, int64_t cents)
{
    uint64_t report[2] = {0, 0};
    uint64_t number;
    if (refused(totals_call(words, length, w, kind, account, cents), "call"))
        return 1;
    number = totals_run(words, length, w, UPDATE_STEPS, report, 2);
    if (number == TOTALS_MOVED) {
        fprintf(stderr, "worker %u: no answer after %" PRIu64 " steps\n", w, report[0]);
        return 1;
    }
    if (number < TOTALS_ADDED)
        return refused(number, "run");
    if (number == TOTALS_CROWDED || number == TOTALS_OVERRUN)
        return not_carried_out(number, w, account);
    print_operation(w, kind, account, cents);
    print_answer(number, report);
    return 0;
}

/* All accounts with their totals, ascending, and the sum of the totals; parked workers do not matter. */
static int show(const char *title, int64_t *sum)
{
    uint32_t accounts[PLACES];
    int64_t totals[PLACES];
    uint64_t count = 0, i;
    if (refused(totals_list(words, length, accounts, PLACES, totals, PLACES, &count, 1), "list"))
        return 1;
    printf("%s: %" PRIu64 " accounts\n", title, count);
    for (i = 0, *sum = 0; i < count; i++) {
        printf("%10" PRIu32 " %6" PRId64 "\n", accounts[i], totals[i]);
        if (add(sum, totals[i]))
            return 1;
    }
    return 0;
}

/* The sum of the totals against that of the invoices, which the table has no part in. */
static int check_month(int64_t totals)
{
    int64_t sum = 0;
    unsigned w, i;
    for (w = 0; w < WORKERS; w++)
        for (i = 0; i < INVOICES; i++)
            if (add(&sum, invoices[w][i].cents))
                return 1;
    if (sum != totals)
        fprintf(stderr, "the invoices are %" PRId64 " in all, the totals %" PRId64 "\n", sum, totals);
    else
        printf("the month: invoices and totals are %" PRId64 " each\n", sum);
    return sum != totals;
}

/* What the month took: each check that answered is so many steps. */
static int show_steps(void)
{
    uint64_t taken = 0;
    unsigned check;
    printf("posts by check:");
    for (check = 1; check <= CHECKS; check++) {
        printf(" %u", answers[check - 1]);
        taken += answers[check - 1] * TOTALS_CHECK_STEPS(WORKERS, check);
    }
    printf("; steps: %" PRIu64 " of %d planned\n", taken, PLANNED);
    return 0;
}

static int post_other_months(void)
{
    size_t i;
    for (i = 0; i < sizeof other_months / sizeof other_months[0]; i++)
        if (at_once(0, TOTALS_POST, other_months[i].account, other_months[i].cents))
            return 1;
    return 0;
}

/* The rebate on each account's total, and their sum: a rebate has 59 bits at most, and there are few of them. */
static int show_rebates(void)
{
    uint32_t accounts[PLACES];
    uint64_t rebates[PLACES], count = 0, sum = 0, i;
    if (refused(totals_rebates(words, length, accounts, PLACES, rebates, PLACES, &count, 1), "rebates"))
        return 1;
    printf("the year's rebates: %" PRIu64 " accounts\n", count);
    for (i = 0; i < count; i++) {
        printf("%10" PRIu32 " %6" PRIu64 "\n", accounts[i], rebates[i]);
        sum += rebates[i];
    }
    printf("the rebates are %" PRIu64 " in all\n", sum);
    return 0;
}

/* The file's lines end with CR LF; its totals are in units. */
static int show_file(void)
{
    uint8_t file[BYTES];
    uint64_t size = 0;
    if (refused(totals_export(words, length, file, BYTES, &size, 1), "export"))
        return 1;
    printf("the year as a file: %" PRIu64 " bytes\n", size);
    fwrite(file, 1, (size_t)size, stdout);
    return 0;
}

static int report_run(void)
{
    int64_t sum;
    return refused(totals_open(words, length, WORKERS, CAPACITY, DEPTH), "open") || dispatch(26, NOBODY) ||
           show("worker 2 is parked, posting 450 to 1000", &sum) || dispatch(UINT_MAX, 2) ||
           show("worker 2 is still parked", &sum) || dispatch(UINT_MAX, NOBODY) ||
           show("all is posted", &sum) || check_month(sum) || show_steps() || at_once(0, TOTALS_LOOKUP, 1000, 0) ||
           at_once(1, TOTALS_DELETE, 1006, 0) || show("at the end", &sum) || post_other_months() || show_rebates() ||
           show_file();
}

int main(void)
{
    int wrong = report_run();
    return wrong || fflush(stdout) != 0 || ferror(stdout);
}
