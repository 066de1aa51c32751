/*
 * Judging logs over the C interface. With the argument `judge` it reads logs from standard input, each as the program
 * `judge` reads one, an empty line between two, and writes the verdict on each. Without, it tries what is refused, in
 * its order, and what is written, with lists of several lengths. What it lends ends where a page begins that nobody can
 * read or write, so that a call that left it would end the program. What is wrong is said on standard error; the exit
 * status is 1 then.
 */
#define _DEFAULT_SOURCE
#include <inttypes.h>
#include <stddef.h>
#include <stdio.h>
#include <stdlib.h>
#include <string.h>
#include <sys/mman.h>
#include <unistd.h>

#include "totals.h"

enum { WORDS = TOTALS_LOGGED_WORDS, MOST = 4096, MORE = 2, LINE = 512, BEFORE = 9 };

/* An operation is eight words, in this order. */
#define AT(field, place) typedef char field##_at[offsetof(struct totals_logged, field) == 8 * (place) ? 1 : -1]
AT(worker, 0);
AT(kind, 1);
AT(account, 2);
AT(total, 3);
AT(answer, 4);
AT(answer_total, 5);
AT(call, 6);
AT(end, 7);
typedef char of_eight_words[sizeof(struct totals_logged) == WORDS * sizeof(uint64_t) && WORDS == 8 ? 1 : -1];

static struct totals_logged logged[MOST];
static uint64_t capacity, depth;
static uint64_t *log_end, *order_end; /* where the pages begin that nobody can touch */
static uint64_t *order;               /* as last lent */

/* Where the page behind so many words begins. */
static uint64_t *lend(size_t words)
{
    size_t page = (size_t)sysconf(_SC_PAGESIZE);
    size_t room = (words * sizeof(uint64_t) + page - 1) / page * page;
    char *base = mmap(NULL, room + page, PROT_READ | PROT_WRITE, MAP_PRIVATE | MAP_ANONYMOUS, -1, 0);
    if (base == MAP_FAILED || mprotect(base + room, page, PROT_NONE) != 0) {
        perror("memory");
        exit(2);
    }
    return (uint64_t *)(void *)(base + room);
}

/* Calls totals_check_log with the first so many words of the log and so many places, all of which held BEFORE. */
static uint64_t call(size_t length, size_t places)
{
    uint64_t *log = log_end - length;
    size_t i;
    memcpy(log, logged, length * sizeof *log);
    order = order_end - places;
    for (i = 0; i < places; i++)
        order[i] = BEFORE;
    return totals_check_log(log, length, capacity, depth, order, places);
}

/* Not 0 where the last call, which was lent so many places, changed one from this one on. */
static int changes(size_t place, size_t places)
{
    int errors = 0;
    for (; place < places; place++)
        if (order[place] != BEFORE)
            errors += fprintf(stderr, "place %d of the order has changed\n", (int)place);
    return errors;
}

/* Not 0 where so many words do not come to this number with so many places, or these are written. */
static int number_errors(size_t length, size_t places, uint64_t wanted)
{
    uint64_t number = call(length, places);
    int errors = changes(0, places);
    if (number != wanted)
        errors += fprintf(stderr, "%" PRIu64 " came back and not %" PRIu64 "\n", number, wanted);
    return errors;
}

/* Three operations that one order alone explains: the second, the third, the first. */
static const struct totals_logged three[] = {
    {7, TOTALS_LOOKUP, 1000, 0, TOTALS_FOUND, -20, 4, 6},
    {7, TOTALS_INSERT, 1000, 50, TOTALS_ADDED, 0, 1, 2},
    {8, TOTALS_POST, 1000, -70, TOTALS_POSTED, -20, 3, 5},
};
enum { THREE = sizeof three / sizeof three[0] };
static const uint64_t explained[THREE] = {1, 2, 0};

/* The log is these three, with b 2 and M 0. */
static void reset(void)
{
    memcpy(logged, three, sizeof three);
    capacity = 2;
    depth = 0;
}

/* Not 0 where an array of structs is not judged as the words it is, or a list is not written as far as it is to be. */
static int order_errors(void)
{
    size_t places;
    int errors = 0;
    reset();
    for (places = THREE; places <= THREE + MORE; places++) {
        if (call(THREE * WORDS, places) != TOTALS_OK || memcmp(order, explained, sizeof explained) != 0)
            errors += fprintf(stderr, "not the order, with %d places\n", (int)places);
        errors += changes(THREE, places);
    }
    memset(order, 0, sizeof explained);
    if (totals_check_log((const uint64_t *)three, THREE * WORDS, 2, 0, order, THREE) != TOTALS_OK ||
        memcmp(order, explained, sizeof explained) != 0)
        errors += fprintf(stderr, "not the order of an array of structs\n");
    for (places = 0; places <= MORE; places++)
        errors += number_errors(0, places, TOTALS_OK);
    return errors;
}

/* Not 0 where of two orders the one with the higher place at its start is written. Account 1001 is not there. */
static int first_errors(void)
{
    static const struct totals_logged two[] = {
        {7, TOTALS_LOOKUP, 1001, 0, TOTALS_NONE, 0, 2, 3},
        {8, TOTALS_LOOKUP, 1001, 0, TOTALS_NONE, 0, 1, 4},
    };
    reset();
    memcpy(logged, two, sizeof two);
    if (call(2 * WORDS, 2) != TOTALS_OK || order[0] != 0 || order[1] != 1)
        return fprintf(stderr, "not the first of two orders\n");
    return 0;
}

/* Not 0 where a list that is too short is not refused, or a log that no order explains is not answered so. */
static int narrow_errors(void)
{
    size_t places;
    int errors = 0;
    reset();
    for (places = 0; places < THREE; places++)
        errors += number_errors(THREE * WORDS, places, TOTALS_NARROW);
    logged[0].answer_total = 1;
    for (places = 0; places <= THREE + MORE; places++)
        errors += number_errors(THREE * WORDS, places, places < THREE ? TOTALS_NARROW : TOTALS_NO);
    return errors;
}

/* Not 0 where so many words, which are no log, are not refused so, or wrong settings are not told before. */
static int bad_errors(size_t length)
{
    size_t places;
    int errors = 0;
    for (places = 0; places <= THREE + MORE; places++) {
        errors += number_errors(length, places, TOTALS_BAD_LOG);
        depth = TOTALS_GREATEST_DEPTH + 1;
        errors += number_errors(length, places, TOTALS_SETTINGS);
        depth = TOTALS_LEAST_DEPTH;
        capacity = TOTALS_LEAST_CAPACITY - 1;
        errors += number_errors(length, places, TOTALS_SETTINGS);
        capacity = TOTALS_LEAST_CAPACITY;
    }
    return errors;
}

/* Not 0 where the log with other positions of an operation is not refused. */
static int position_errors(size_t place, uint64_t call, uint64_t end)
{
    reset();
    logged[place].call = call;
    logged[place].end = end;
    return bad_errors(THREE * WORDS);
}

/* Not 0 where more than 12 operations, or lengths that make no whole operations, are not refused. */
static int length_errors(void)
{
    uint64_t i;
    size_t length;
    int errors = 0;
    reset();
    for (length = 0; length <= THREE * WORDS; length++)
        errors += length % WORDS == 0 ? 0 : bad_errors(length);
    for (i = 0; i < MOST; i++) {
        struct totals_logged lookup = {1, TOTALS_LOOKUP, 1000, 0, TOTALS_NONE, 0, 2 * i, 2 * i + 1};
        logged[i] = lookup;
    }
    if (call(TOTALS_GREATEST_LOGGED * WORDS, TOTALS_GREATEST_LOGGED) != TOTALS_OK)
        errors += fprintf(stderr, "no order of %d operations\n", TOTALS_GREATEST_LOGGED);
    for (length = TOTALS_GREATEST_LOGGED * WORDS + 1; length <= MOST * WORDS; length += length < 200 ? 1 : 997)
        errors += bad_errors(length);
    return errors;
}

/* Not 0 where another fault of a log is not refused. */
static int fault_errors(void)
{
    /* positions that repeat; an end that is not after its call; operations of one worker that overlap */
    int errors = position_errors(0, 3, 6) + position_errors(0, 5, 6) + position_errors(0, 4, 5) +
                 position_errors(1, 1, 3) + position_errors(2, 3, 4) + position_errors(1, 2, 1) +
                 position_errors(1, 2, 2) + position_errors(2, UINT64_MAX, 0) + position_errors(1, 1, 7);
    reset();
    logged[2].worker = 7;
    errors += bad_errors(THREE * WORDS);
    reset();
    logged[2].kind = 0;
    errors += bad_errors(THREE * WORDS);
    logged[2].kind = TOTALS_POST + 1;
    errors += bad_errors(THREE * WORDS);
    reset();
    logged[2].account |= UINT64_C(1) << 32;
    return errors + bad_errors(THREE * WORDS);
}

/* An answer's number, by its word; 0 where it is none. */
static uint64_t answer_number(const char *word)
{
    static const char *const answers[] = {"added",  "replaced", "removed", "absent", "found",  "none",
                                          "posted", "?",        "crowded", "?",      "overrun"};
    size_t i;
    for (i = 0; i < sizeof answers / sizeof answers[0]; i++)
        if (strcmp(word, answers[i]) == 0)
            return TOTALS_ADDED + i;
    return 0;
}

/* Reads an operation: not 0 where the line is none. */
static int operation_errors(const char *line, struct totals_logged *x)
{
    char word[16];
    int fields = sscanf(line, "%" SCNu64 " %" SCNu64 " %" SCNu64 " %" SCNd64 " %15s %" SCNd64 " %" SCNu64 " %" SCNu64,
                        &x->worker, &x->kind, &x->account, &x->total, word, &x->answer_total, &x->call, &x->end);
    x->answer = fields == 8 ? answer_number(word) : 0;
    return x->answer != 0 ? 0 : fprintf(stderr, "no operation: %s", line);
}

/* Reads a log and the empty line behind it: not 0 where a line is none of a log. */
static int reading_errors(char *line, size_t *count)
{
    int errors = 0;
    if (sscanf(line, "%" SCNu64 " %" SCNu64, &capacity, &depth) != 2)
        errors += fprintf(stderr, "no settings: %s", line);
    for (*count = 0; fgets(line, LINE, stdin) != NULL && line[0] != '\n'; ++*count)
        errors += *count < MOST ? operation_errors(line, &logged[*count]) : fprintf(stderr, "a longer log\n");
    return errors;
}

/* Judges the log and writes the verdict: not 0 where a place is written that is not to be. */
static int verdict_errors(size_t count, size_t more)
{
    uint64_t number = call(count * WORDS, count + more);
    size_t i, written = number == TOTALS_OK ? count : 0;
    int errors = changes(written, count + more);
    if (number == TOTALS_OK || number == TOTALS_NO)
        printf("%s", number == TOTALS_OK ? "order" : "no");
    else
        printf("refused %" PRIu64, number);
    for (i = 0; i < written; i++)
        printf(" %" PRIu64, order[i]);
    printf("\n");
    if (count > 0 && (number == TOTALS_OK || number == TOTALS_NO))
        errors += number_errors(count * WORDS, count - 1, TOTALS_NARROW);
    return errors;
}

/* The verdict on each log of standard input; not 0 where something is wrong. */
static int judge(void)
{
    char line[LINE];
    size_t count, logs;
    for (logs = 0; fgets(line, LINE, stdin) != NULL; logs++)
        if (reading_errors(line, &count) + verdict_errors(count, logs % (MORE + 1)) != 0)
            return 1;
    return ferror(stdin) || fflush(stdout) != 0 || ferror(stdout);
}

int main(int argc, char **argv)
{
    log_end = lend(MOST * WORDS);
    order_end = lend(MOST + MORE);
    if (argc > 1 && strcmp(argv[1], "judge") == 0)
        return judge();
    return (order_errors() + first_errors() + narrow_errors() + length_errors() + fault_errors()) != 0;
}
