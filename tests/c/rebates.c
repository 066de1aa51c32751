/*
 * Rebates over the C interface. With the argument `lines` it reads totals from standard input, one a line, and writes
 * each with its rebate. Without, it tries tables of few accounts and of as many as there can be: a table's rebates are
 * those on the totals that it lists, with lists and reports of several lengths, and a refusal changes nothing. What is
 * wrong is said on standard error; the exit status is 1 then.
 */
#include <inttypes.h>
#include <stdio.h>
#include <string.h>

#include "totals.h"

enum { LENGTH = TOTALS_GREATEST_WORDS, MOST = TOTALS_GREATEST_COUNT, MORE = 2, BEFORE = 7 };

/* Totals with their rebates: negative, 0, at the edges of the bands, where the rounding turns, and the extremes. */
static const struct figure {
    int64_t total;
    uint64_t rebate;
} figures[] = {
    {INT64_MIN, 0},        {-1, 0},
    {0, 0},                {999999, 0},
    {1000000, 0},          {1000033, 0},
    {1000034, 1},          {1000099, 1},
    {1000100, 2},          {5000000, 60000},
    {5000019, 60000},      {5000020, 60001},
    {6000000, 85000},      {20000000, 435000},
    {20000014, 435000},    {20000015, 435001},
    {20000100, 435004},    {INT64_MAX, UINT64_C(322818021289652153)},
};
enum { FIGURES = sizeof figures / sizeof figures[0] };

static uint64_t words[LENGTH], kept[LENGTH];
/* What is lent to totals_rebates, with places behind that are not; and the listing of the same table. */
static uint32_t accounts[MOST + MORE], listed[MOST];
static uint64_t rebates[MOST + MORE], report[1 + MORE];
static int64_t totals[MOST];

/* Every total of standard input with its rebate; not 0 where a line is no total. */
static int lines(void)
{
    int64_t total;
    int fields;
    while ((fields = scanf("%" SCNd64, &total)) == 1)
        printf("%" PRId64 " %" PRIu64 "\n", total, totals_rebate(total));
    if (fields != EOF)
        fprintf(stderr, "a line is no total\n");
    return fields != EOF || ferror(stdin) || fflush(stdout) != 0 || ferror(stdout);
}

static int figure_errors(void)
{
    int i, errors = 0;
    for (i = 0; i < FIGURES; i++)
        if (totals_rebate(figures[i].total) != figures[i].rebate)
            errors += fprintf(stderr, "the rebate on %" PRId64 "\n", figures[i].total);
    return errors;
}

/* Calls totals_rebates with so many places in each list and in the report; they and those behind them held BEFORE. */
static uint64_t call(size_t account_places, size_t rebate_places, size_t report_places)
{
    size_t i;
    for (i = 0; i < MOST + MORE; i++) {
        accounts[i] = BEFORE;
        rebates[i] = BEFORE;
    }
    for (i = 0; i < 1 + MORE; i++)
        report[i] = BEFORE;
    memcpy(kept, words, sizeof words);
    return totals_rebates(words, LENGTH, accounts, account_places, rebates, rebate_places, report, report_places);
}

/* Not 0 where the last call changed a word, a list from this row on, or the report from this place on. */
static int changes(size_t row, size_t place)
{
    int errors = 0;
    if (memcmp(kept, words, sizeof words) != 0)
        errors += fprintf(stderr, "a word has changed\n");
    for (; row < MOST + MORE; row++)
        if (accounts[row] != BEFORE || rebates[row] != BEFORE)
            errors += fprintf(stderr, "row %d has changed\n", (int)row);
    for (; place < 1 + MORE; place++)
        if (report[place] != BEFORE)
            errors += fprintf(stderr, "place %d of the report has changed\n", (int)place);
    return errors;
}

/* Not 0 where a call that is to be refused is not, with this number, or changes anything. */
static int refusal_errors(size_t account_places, size_t rebate_places, uint64_t wanted)
{
    size_t places;
    int errors = 0;
    for (places = 0; places <= 2; places++) {
        uint64_t number = call(account_places, rebate_places, places);
        if (number != wanted)
            errors += fprintf(stderr, "%" PRIu64 " came back and not %" PRIu64 "\n", number, wanted);
        errors += changes(0, 0);
    }
    return errors;
}

/* Not 0 where the table's rebates are not those on its listing's rows, in longer lists, and with this report. */
static int row_errors(size_t count, size_t more_accounts, size_t more_rebates, size_t places)
{
    uint64_t number = call(count + more_accounts, count + more_rebates, places);
    size_t i;
    int errors = changes(count, places > 0 ? 1 : 0);
    if (number != TOTALS_OK || (places > 0 && report[0] != count))
        errors += fprintf(stderr, "%" PRIu64 " came back, with %" PRIu64 " rows\n", number, report[0]);
    for (i = 0; i < count; i++)
        if (accounts[i] != listed[i] || rebates[i] != totals_rebate(totals[i]))
            errors += fprintf(stderr, "row %d: %" PRIu32 " %" PRIu64 "\n", (int)i, accounts[i], rebates[i]);
    return errors;
}

/* The account that is inserted as the i-th of so many: in no order of numbers or places, 16 in each of 256 buckets. */
static uint32_t account(uint32_t i) { return totals_account_at((i * 1597 % MOST) << 20); }

/* Not 0 where a table does not take so many accounts, the figures' totals in turn, or does not list them. */
static int filling_errors(uint32_t count)
{
    uint64_t number = totals_open(words, LENGTH, 1, TOTALS_GREATEST_CAPACITY, TOTALS_GREATEST_DEPTH), rows = 0;
    uint32_t i;
    for (i = 0; i < count && number == TOTALS_OK; i++) {
        number = totals_call(words, LENGTH, 0, TOTALS_INSERT, account(i), figures[i % FIGURES].total);
        if (number == TOTALS_OK && totals_run(words, LENGTH, 0, TOTALS_GREATEST_STEPS(1), report, 0) != TOTALS_ADDED)
            return fprintf(stderr, "insert %" PRIu32 " of %" PRIu32 " is not added\n", i, count);
    }
    if (number != TOTALS_OK || totals_list(words, LENGTH, listed, MOST, totals, MOST, &rows, 1) != TOTALS_OK)
        return fprintf(stderr, "a table of %" PRIu32 " accounts: refused\n", count);
    return rows == count ? 0 : fprintf(stderr, "%" PRIu64 " accounts listed\n", rows);
}

/* Not 0 where something is wrong with the rebates of a table of so many accounts, 2 at least. */
static int table_errors(uint32_t count)
{
    size_t places;
    int errors = filling_errors(count);
    for (places = 0; places <= 2; places++)
        errors += row_errors(count, 0, 0, places);
    if (count + MORE <= MOST)
        errors += row_errors(count, MORE, 1, 1) + row_errors(count, 1, MORE, 2);
    errors += refusal_errors(count - 1, count, TOTALS_NARROW) + refusal_errors(count, count - 1, TOTALS_NARROW);
    errors += refusal_errors(count - 1, count - 1, TOTALS_NARROW) + refusal_errors(0, 0, TOTALS_NARROW);
    words[0] = 0; /* no mark of a table: with lists that would do, and with lists that are too short */
    errors += refusal_errors(count, count, TOTALS_STRANGE) + refusal_errors(0, count, TOTALS_STRANGE);
    return errors + refusal_errors(count, 0, TOTALS_STRANGE) + refusal_errors(0, 0, TOTALS_STRANGE);
}

/* Not 0 where something is wrong with the rebates of a table without accounts. */
static int empty_errors(void)
{
    int errors = filling_errors(0);
    return errors + row_errors(0, 0, 0, 1) + row_errors(0, 1, MORE, 2);
}

int main(int argc, char **argv)
{
    if (argc > 1 && strcmp(argv[1], "lines") == 0)
        return lines();
    return (figure_errors() + table_errors(FIGURES) + table_errors(MOST) + empty_errors()) != 0;
}
