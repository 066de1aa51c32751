/*
 * Places of accounts over the C interface: both functions against the multiplications that they are and back again, at
 * edge numbers and at a million others; a listing of as many accounts as a table can hold, by number; and accounts from
 * 1000 up until one is crowded, which goes by places. What is wrong is said on standard error; the exit status is 1
 * then.
 */
#include <inttypes.h>
#include <stdio.h>

#include "totals.h"

enum { CAPACITY = TOTALS_GREATEST_CAPACITY, DEPTH = TOTALS_GREATEST_DEPTH, BUCKETS = 1 << DEPTH };
enum { LENGTH = TOTALS_GREATEST_WORDS, MOST = TOTALS_GREATEST_COUNT, RANDOM = 1000000, BEFORE = 7 };

static uint64_t words[LENGTH], report[1];
static uint32_t accounts[MOST];
static int64_t totals[MOST];

/* Document 02's place of an account, and the way back. */
static uint32_t place_of(uint32_t account) { return account * UINT32_C(2654435761); }
static uint32_t account_of(uint32_t place) { return place * UINT32_C(244002641); }

/* Not 0 where a number is wrong by either function, or there and back. */
static int number_errors(uint32_t number)
{
    uint32_t place = totals_place(number), account = totals_account_at(number);
    if (place == place_of(number) && account == account_of(number) && totals_account_at(place) == number &&
        totals_place(account) == number)
        return 0;
    return fprintf(stderr, "%" PRIu32 ": place %" PRIu32 ", account %" PRIu32 "\n", number, place, account);
}

static int all_number_errors(void)
{
    uint64_t state = 8;
    int bit, i, errors = number_errors(UINT32_MAX - 1) + number_errors(UINT32_MAX);
    for (bit = 0; bit < 32; bit++) {
        uint32_t power = UINT32_C(1) << bit;
        errors += number_errors(power - 1) + number_errors(power) + number_errors(power + 1);
    }
    for (i = 0; i < RANDOM; i++) {
        state = state * UINT64_C(6364136223846793005) + UINT64_C(1442695040888963407);
        errors += number_errors((uint32_t)(state >> 32));
    }
    return errors;
}

/* The answer to worker 0's insert of an account, whose total is its number and below 0. */
static uint64_t insert(uint32_t account)
{
    uint64_t number = totals_call(words, LENGTH, 0, TOTALS_INSERT, account, -(int64_t)account);
    return number != TOTALS_OK ? number : totals_run(words, LENGTH, 0, TOTALS_GREATEST_STEPS(1), report, 0);
}

/* Not 0 where the listing has not so many accounts, ascending, each with its total, or writes past them. */
static int listing_errors(uint64_t most)
{
    uint64_t count = 0, i;
    int errors = 0;
    for (i = 0; i < MOST; i++) {
        accounts[i] = BEFORE;
        totals[i] = BEFORE;
    }
    if (totals_list(words, LENGTH, accounts, MOST, totals, MOST, &count, 1) != TOTALS_OK || count != most)
        return fprintf(stderr, "%" PRIu64 " accounts listed\n", count);
    for (i = 0; i < count; i++)
        if ((i > 0 && accounts[i] <= accounts[i - 1]) || totals[i] != -(int64_t)accounts[i])
            errors += fprintf(stderr, "listed: %" PRIu32 " %" PRId64 "\n", accounts[i], totals[i]);
    for (; i < MOST; i++)
        if (accounts[i] != BEFORE || totals[i] != BEFORE)
            errors += fprintf(stderr, "written past the count, at %" PRIu64 "\n", i);
    return errors;
}

/* Not 0 where a table does not take CAPACITY accounts for each of its buckets, in no order, or takes one more. */
static int full_errors(void)
{
    uint32_t i;
    int errors = 0;
    if (totals_open(words, LENGTH, 1, CAPACITY, DEPTH) != TOTALS_OK)
        return fprintf(stderr, "not opened\n");
    for (i = 0; i < MOST; i++)
        if (insert(totals_account_at((i * 1597 % MOST) << 20)) != TOTALS_ADDED)
            errors += fprintf(stderr, "insert %" PRIu32 " of %d is not added\n", i, MOST);
    for (i = 0; i < BUCKETS; i++)
        if (insert(totals_account_at(i << 24 | 5)) != TOTALS_CROWDED)
            errors += fprintf(stderr, "bucket %" PRIu32 " is not crowded\n", i);
    return errors + listing_errors(MOST);
}

/* Not 0 where accounts from 1000 up are not added for as long as CAPACITY of their places agree in the first bits. */
static int from_1000_up_errors(void)
{
    static unsigned taken[BUCKETS];
    uint32_t account = 1000;
    int errors = 0;
    if (totals_open(words, LENGTH, 1, CAPACITY, DEPTH) != TOTALS_OK)
        return fprintf(stderr, "not opened\n");
    for (; taken[place_of(account) >> (32 - DEPTH)]++ < CAPACITY; account++)
        if (insert(account) != TOTALS_ADDED)
            errors += fprintf(stderr, "%" PRIu32 " is not added\n", account);
    if (insert(account) != TOTALS_CROWDED)
        errors += fprintf(stderr, "%" PRIu32 " is not crowded\n", account);
    return errors + listing_errors(account - 1000);
}

int main(void)
{
    int errors = all_number_errors() + full_errors() + from_1000_up_errors();
    return errors != 0;
}
