/*
 * The export over the C interface. With two arguments it reads rows from standard input, an account and its total a
 * line, inserts them, and writes the exported file to the file that is named first and the rows that are listed to the
 * other. Without, it tries tables of few accounts and of as many as there can be: their files are the wanted ones byte
 * for byte, with outputs and reports of several lengths, and a refusal changes nothing. What is wrong is said on
 * standard error; the exit status is 1 then.
 */
#include <inttypes.h>
#include <stdio.h>
#include <string.h>

#include "totals.h"

enum { LENGTH = TOTALS_GREATEST_WORDS, MOST = TOTALS_GREATEST_COUNT, LONGEST = TOTALS_GREATEST_EXPORT };
enum { FIRST = TOTALS_EXPORT_HEADER, MORE = 2, BEFORE = '?' };

/* Totals as they are written: document 02's, on both sides of 0 and of a unit, and the extremes. */
static const struct figure {
    int64_t total;
    const char *text;
} figures[] = {
    {INT64_MIN, "-92233720368547758.08"},     {INT64_MIN + 1, "-92233720368547758.07"},
    {INT64_MIN + 8, "-92233720368547758.00"}, {-1205, "-12.05"},
    {-101, "-1.01"},                          {-100, "-1.00"},
    {-99, "-0.99"},                           {-10, "-0.10"},
    {-7, "-0.07"},                            {-1, "-0.01"},
    {0, "0.00"},                              {1, "0.01"},
    {7, "0.07"},                              {10, "0.10"},
    {99, "0.99"},                             {100, "1.00"},
    {101, "1.01"},                            {1205, "12.05"},
    {100000000, "1000000.00"},                {INT64_MAX, "92233720368547758.07"},
};
enum { FIGURES = sizeof figures / sizeof figures[0] };

static uint64_t words[LENGTH], kept[LENGTH], report[1 + MORE];
/* What is lent to totals_export, with bytes behind that are not; the file that is wanted there; the table's listing. */
static uint8_t out[LONGEST + MORE];
static char wanted[LONGEST + 1];
static uint32_t listed[MOST];
static int64_t totals[MOST];

/* Calls totals_export with an output of so many bytes and a report of so many places; all of both held BEFORE. */
static uint64_t call(size_t length, size_t places)
{
    size_t i;
    memset(out, BEFORE, sizeof out);
    for (i = 0; i < 1 + MORE; i++)
        report[i] = BEFORE;
    memcpy(kept, words, sizeof words);
    return totals_export(words, LENGTH, out, length, report, places);
}

/* Not 0 where the last call changed a word, the output from this byte on, or the report from this place on. */
static int changes(size_t byte, size_t place)
{
    int errors = 0;
    if (memcmp(kept, words, sizeof words) != 0)
        errors += fprintf(stderr, "a word has changed\n");
    for (; byte < LONGEST + MORE; byte++)
        if (out[byte] != BEFORE)
            errors += fprintf(stderr, "byte %d has changed\n", (int)byte);
    for (; place < 1 + MORE; place++)
        if (report[place] != BEFORE)
            errors += fprintf(stderr, "place %d of the report has changed\n", (int)place);
    return errors;
}

/* Not 0 where a call that is to be refused is not, with this number, or changes anything. */
static int refusal_errors(size_t length, uint64_t refusal)
{
    size_t places;
    int errors = 0;
    for (places = 0; places <= 2; places++) {
        uint64_t number = call(length, places);
        if (number != refusal)
            errors += fprintf(stderr, "%" PRIu64 " came back and not %" PRIu64 "\n", number, refusal);
        errors += changes(0, 0);
    }
    return errors;
}

/* Not 0 where an output that is so much longer than the wanted file does not get it, or a report not its size. */
static int file_errors(size_t size, size_t more)
{
    size_t places;
    int errors = 0;
    for (places = 0; places <= 2; places++) {
        uint64_t number = call(size + more, places);
        if (number != TOTALS_OK || (places > 0 && report[0] != size))
            errors += fprintf(stderr, "%" PRIu64 " came back, with %" PRIu64 " bytes\n", number, report[0]);
        if (memcmp(out, wanted, size) != 0)
            errors += fprintf(stderr, "another file of %d bytes than\n%s", (int)size, wanted);
        errors += changes(size, places > 0 ? 1 : 0);
    }
    return errors;
}

/* Opens a table of so many workers: not 0 where it is refused. */
static int opening_errors(uint64_t workers)
{
    uint64_t number = totals_open(words, LENGTH, workers, TOTALS_GREATEST_CAPACITY, TOTALS_GREATEST_DEPTH);
    return number == TOTALS_OK ? 0 : fprintf(stderr, "open: refused %" PRIu64 "\n", number);
}

/* Not 0 where worker 0 does not add an account with a total. */
static int insert_errors(uint32_t account, int64_t total)
{
    if (totals_call(words, LENGTH, 0, TOTALS_INSERT, account, total) == TOTALS_OK &&
        totals_run(words, LENGTH, 0, TOTALS_GREATEST_RUN, report, 0) == TOTALS_ADDED)
        return 0;
    return fprintf(stderr, "%" PRIu32 " is not added\n", account);
}

/* Lists the table: how many rows it has. */
static size_t list(void)
{
    uint64_t count = 0;
    if (totals_list(words, LENGTH, listed, MOST, totals, MOST, &count, 1) != TOTALS_OK)
        fprintf(stderr, "the listing is refused\n");
    return (size_t)count;
}

/* The text of a figure's total. */
static const char *text_of(int64_t total)
{
    size_t i;
    for (i = 0; i < FIGURES; i++)
        if (figures[i].total == total)
            return figures[i].text;
    return "no figure";
}

/* Makes the wanted file of the table's listing, whose totals are figures, and gives its size. */
static size_t want(void)
{
    size_t i, count = list(), size = (size_t)sprintf(wanted, "account,total\r\n");
    for (i = 0; i < count; i++)
        size += (size_t)sprintf(wanted + size, "%" PRIu32 ",%s\r\n", listed[i], text_of(totals[i]));
    return size;
}

/* Not 0 where the table's file is not the wanted one, of this size, or a refusal is wrong; it leaves strange words. */
static int export_errors(size_t size)
{
    size_t more;
    int errors = 0;
    for (more = 0; more <= MORE && size + more <= LONGEST; more++)
        errors += file_errors(size, more);
    errors += refusal_errors(size - 1, TOTALS_NARROW) + refusal_errors(size / 2, TOTALS_NARROW);
    errors += refusal_errors(FIRST - 1, TOTALS_NARROW) + refusal_errors(0, TOTALS_NARROW);
    words[0] = 0; /* no mark of a table: with an output that would do, and with one that is too short */
    errors += refusal_errors(size, TOTALS_STRANGE) + refusal_errors(size - 1, TOTALS_STRANGE);
    return errors + refusal_errors(FIRST - 1, TOTALS_STRANGE) + refusal_errors(0, TOTALS_STRANGE);
}

/*
 * Not 0 where a table of so many accounts, inserted in no order of numbers or places, with the figures' totals in turn,
 * is not exported as its listing.
 */
static int table_errors(uint32_t count)
{
    int errors = opening_errors(1);
    uint32_t i;
    for (i = 0; i < count; i++)
        errors += insert_errors(totals_account_at((i * 1597 % MOST) << 20), figures[i % FIGURES].total);
    if (list() != count)
        errors += fprintf(stderr, "not %" PRIu32 " accounts listed\n", count);
    return errors + export_errors(want());
}

/*
 * Not 0 where the longest file, of accounts of ten digits, 16 in each of 256 buckets, with the lowest total, has not
 * TOTALS_GREATEST_EXPORT bytes.
 */
static int longest_errors(void)
{
    int errors = opening_errors(1);
    uint32_t first, low, account, taken;
    for (first = 0; first < 256; first++)
        for (low = 0, taken = 0; taken < TOTALS_GREATEST_CAPACITY; low++)
            if ((account = totals_account_at(first << 24 | low)) >= 1000000000) {
                errors += insert_errors(account, INT64_MIN);
                taken++;
            }
    if (want() != LONGEST)
        return errors + fprintf(stderr, "the longest file has %d bytes\n", (int)want());
    return errors + export_errors(LONGEST);
}

/*
 * Not 0 where document 02's figures, the extremes, 0, and a total on either side of it are not these bytes; or where an
 * output of any smaller length is not refused, or does not stay.
 */
static int named_errors(void)
{
    static const char file[] = "account,total\r\n0,0.07\r\n1,-0.07\r\n1000,-12.05\r\n1001,0.00\r\n"
                               "4294967294,92233720368547758.07\r\n4294967295,-92233720368547758.08\r\n";
    size_t length, size = sizeof file - 1;
    int errors = opening_errors(1);
    errors += insert_errors(UINT32_MAX, INT64_MIN) + insert_errors(1001, 0) + insert_errors(0, 7);
    errors += insert_errors(1000, -1205) + insert_errors(1, -7) + insert_errors(UINT32_MAX - 1, INT64_MAX);
    memcpy(wanted, file, sizeof file);
    for (length = 0; length < size; length++)
        errors += refusal_errors(length, TOTALS_NARROW);
    return errors + export_errors(size);
}

/* Not 0 where a busy worker matters: worker 1 is parked after 3 steps of an insert, which worker 0 then carries out. */
static int busy_errors(void)
{
    int errors = opening_errors(2) + insert_errors(1000, 7);
    if (totals_call(words, LENGTH, 1, TOTALS_INSERT, 1001, -7) != TOTALS_OK ||
        totals_run(words, LENGTH, 1, 3, report, 0) != TOTALS_MOVED)
        errors += fprintf(stderr, "worker 1 is not parked\n");
    strcpy(wanted, "account,total\r\n1000,0.07\r\n");
    errors += file_errors(strlen(wanted), 0);
    errors += insert_errors(1002, -1205);
    strcpy(wanted, "account,total\r\n1000,0.07\r\n1001,-0.07\r\n1002,-12.05\r\n");
    return errors + export_errors(strlen(wanted));
}

/* Inserts the rows of standard input: not 0 where a line is no row, or a row is not added. */
static int reading_errors(void)
{
    int fields, errors = opening_errors(1);
    uint32_t account;
    int64_t total;
    while ((fields = scanf("%" SCNu32 " %" SCNd64, &account, &total)) == 2)
        errors += insert_errors(account, total);
    return fields == EOF ? errors : errors + fprintf(stderr, "a line is no row\n");
}

/* Writes the exported file to one file and the listed rows to another: not 0 where that fails. */
static int writing_errors(const char *file_name, const char *rows_name)
{
    FILE *file = fopen(file_name, "wb"), *rows = fopen(rows_name, "w");
    size_t i, count = list();
    int errors = 0;
    if (file == NULL || rows == NULL)
        return fprintf(stderr, "%s or %s: not opened\n", file_name, rows_name);
    if (call(LONGEST, 1) != TOTALS_OK)
        errors += fprintf(stderr, "the export is refused\n");
    else if (fwrite(out, 1, (size_t)report[0], file) != report[0])
        errors += fprintf(stderr, "%s: not written\n", file_name);
    for (i = 0; i < count; i++)
        if (fprintf(rows, "%" PRIu32 " %" PRId64 "\n", listed[i], totals[i]) < 0)
            errors += fprintf(stderr, "%s: not written\n", rows_name);
    return errors + (fclose(file) != 0) + (fclose(rows) != 0);
}

int main(int argc, char **argv)
{
    if (argc == 3)
        return (reading_errors() + writing_errors(argv[1], argv[2])) != 0;
    return (named_errors() + table_errors(0) + table_errors(1) + table_errors(FIGURES) + table_errors(MOST) +
            longest_errors() + busy_errors()) != 0;
}
