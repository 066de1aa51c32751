/*
 * The lines of `totals` over the C interface: reads them from standard input and answers each as the program does. The
 * steps of an answer are held against the figure of its check; another one ends the program with a line on standard
 * error. What it lends stands between pages that nobody can read or write, so that a call that left what it was lent
 * would end the program.
 */
#define _DEFAULT_SOURCE
#include <inttypes.h>
#include <stdio.h>
#include <stdlib.h>
#include <sys/mman.h>
#include <unistd.h>

#include "totals.h"

enum { WORDS = 8192, PLACES = TOTALS_GREATEST_COUNT, REPORT = 3, LONGEST = 64, SMALL = 65535, STEPS = 9999 };

static uint64_t workers; /* of the last opening */
static uint64_t *words, *report;
static uint32_t *accounts;
static int64_t *totals;

/* So many bytes, all 0, that end where the second of the two pages begins. */
static void *lend(size_t bytes)
{
    size_t page = (size_t)sysconf(_SC_PAGESIZE);
    size_t room = (bytes + page - 1) / page * page;
    char *base = mmap(NULL, room + 2 * page, PROT_NONE, MAP_PRIVATE | MAP_ANONYMOUS, -1, 0);
    if (base == MAP_FAILED || mprotect(base + page, room, PROT_READ | PROT_WRITE) != 0) {
        perror("memory");
        exit(2);
    }
    return base + page + room - bytes;
}

/* What is left of a line. */
struct rest {
    const char *next, *end;
};

/* Digits without leading zeros: a number up to `most`. */
static int digits(struct rest *line, uint64_t most, uint64_t *number)
{
    const char *start = line->next;
    *number = 0;
    for (; line->next < line->end && *line->next >= '0' && *line->next <= '9'; line->next++) {
        uint64_t digit = (uint64_t)(*line->next - '0');
        if (digit > most || *number > (most - digit) / 10)
            return 0;
        *number = *number * 10 + digit;
    }
    return line->next > start && (*start != '0' || line->next == start + 1);
}

/* A space and a number. */
static int field(struct rest *line, uint64_t most, uint64_t *number)
{
    return line->next < line->end && *line->next++ == ' ' && digits(line, most, number);
}

/* A space and a number that may start with a minus; -0 is none. */
static int signed_field(struct rest *line, int64_t *number)
{
    uint64_t size;
    if (line->end - line->next < 2 || line->next[0] != ' ' || line->next[1] != '-') {
        int read = field(line, INT64_MAX, &size);
        *number = read ? (int64_t)size : 0;
        return read;
    }
    line->next += 2;
    if (!digits(line, (uint64_t)INT64_MAX + 1, &size) || size == 0)
        return 0;
    *number = -(int64_t)(size - 1) - 1;
    return 1;
}

/* An account, a total for an insert, an amount for a post, and the end of the line. */
static int operation(struct rest *line, uint64_t kind, uint64_t *account, int64_t *total)
{
    *total = 0;
    return field(line, UINT32_MAX, account) &&
           ((kind != TOTALS_INSERT && kind != TOTALS_POST) || signed_field(line, total)) && line->next == line->end;
}

static int print_number(uint64_t number)
{
    return number == TOTALS_OK ? printf("ok\n") : printf("refused %" PRIu64 "\n", number);
}

static int print_open(uint64_t n, uint64_t b, uint64_t m)
{
    uint64_t number = totals_open(words, WORDS, n, b, m);
    if (number == TOTALS_OK)
        workers = n;
    return print_number(number);
}

/* An update takes the steps of the check that answered it, a lookup 2 and no check. */
static int right_steps(uint64_t answer)
{
    int lookup = answer == TOTALS_FOUND || answer == TOTALS_NONE;
    uint64_t steps = !lookup ? TOTALS_CHECK_STEPS(workers, report[2]) : report[2] == 0 ? TOTALS_LOOKUP_STEPS : 0;
    int right = report[0] == steps && steps > 0 && steps <= TOTALS_GREATEST_STEPS(workers);
    if (!right)
        fprintf(stderr, "%" PRIu64 " steps with check %" PRIu64 "\n", report[0], report[2]);
    return right;
}

static int print_run(uint64_t number)
{
    static const char *const answers[] = {"added",  "replaced", "removed", "absent", "found",  "none",
                                          "posted", "?",        "crowded", "?",      "overrun"};
    if (number == TOTALS_MOVED)
        return printf("moved %" PRIu64 "\n", report[0]);
    if (number < TOTALS_ADDED)
        return print_number(number);
    if (!right_steps(number))
        return -1;
    printf("answered %s ", answers[number - TOTALS_ADDED]);
    if (number == TOTALS_FOUND || number == TOTALS_POSTED)
        printf("%" PRId64 " ", (int64_t)report[1]);
    return printf("%" PRIu64 "\n", report[0]);
}

static int print_list(void)
{
    uint64_t number = totals_list(words, WORDS, accounts, PLACES, totals, PLACES, report, REPORT);
    uint64_t i;
    if (number != TOTALS_OK)
        return print_number(number);
    for (i = 0; i < report[0]; i++)
        if (printf("%" PRIu32 " %" PRId64 "\n", accounts[i], totals[i]) < 0)
            return -1;
    return printf("end %" PRIu64 "\n", report[0]);
}

/* Answers a line; below 0 where that could not be written, or is wrong. */
static int answer(const char *text, size_t length)
{
    struct rest line = {text + 1, text + length};
    uint64_t a, b, c, kind;
    int64_t total;
    switch (length > 0 && length <= LONGEST ? text[0] : '\0') {
    case 'O':
        if (field(&line, SMALL, &a) && field(&line, SMALL, &b) && field(&line, SMALL, &c) && line.next == line.end)
            return print_open(a, b, c);
        break;
    case 'I':
    case 'D':
    case 'L':
    case 'P':
        kind = text[0] == 'I'   ? TOTALS_INSERT
               : text[0] == 'D' ? TOTALS_DELETE
               : text[0] == 'L' ? TOTALS_LOOKUP
                                : TOTALS_POST;
        if (field(&line, SMALL, &a) && operation(&line, kind, &b, &total))
            return print_number(totals_call(words, WORDS, a, kind, (uint32_t)b, total));
        break;
    case 'S':
        if (field(&line, SMALL, &a) && field(&line, STEPS, &b) && b > 0 && line.next == line.end)
            return print_run(totals_run(words, WORDS, a, b, report, REPORT));
        break;
    case 'T':
        if (length == 1)
            return print_list();
        break;
    }
    return printf("unread\n");
}

int main(void)
{
    char line[LONGEST];
    size_t length = 0;
    int byte;
    words = lend(WORDS * sizeof *words);
    report = lend(REPORT * sizeof *report);
    accounts = lend(PLACES * sizeof *accounts);
    totals = lend(PLACES * sizeof *totals);
    /* a longer line is counted, not kept; the end of the input ends a line that has begun */
    while ((byte = getchar()) != EOF || length > 0) {
        if (byte != '\n' && byte != EOF) {
            if (length < LONGEST)
                line[length] = (char)byte;
            length++;
            continue;
        }
        if (answer(line, length) < 0)
            return 1;
        length = 0;
    }
    return ferror(stdin) || fflush(stdout) != 0;
}
