/*
 * The totals table for C: a wait-free extendible hash table of accounts and totals over one lent slice of 64-bit words.
 * The functions are those of the static library capi, whose contracts (crates/capi) are what is said here. What to do
 * about each number that they return: docs/USING.md.
 *
 * What every function promises
 *   - It takes any words and any numbers. Whatever the words hold, it reads and writes nothing outside the slices it
 *     was lent, and returns.
 *   - Where it returns a refusal (1 to 8, 10, 14), it has changed no word, no list, no output and no report.
 *   - It keeps nothing between calls: all of the table is in the words; totals_check_log takes a log and no table's
 *     words. It allocates nothing, and calls nothing but memcpy and memset.
 *   - Over words that totals_open accepted and that nothing but these calls has changed since, lent whole each time:
 *     TOTALS_STRANGE never comes; answers and listings are those of a plain table that serves each operation at one
 *     moment between its call and its answer, rebates are those on the listing's totals, and an exported file has the
 *     listing's rows; whatever the other workers do, a lookup is answered at the second step after its call, an update
 *     at step 2n+11, 6n+17, 8n+27 or 12n+33, which are its four checks, and with one worker at step 13 or 23.
 *
 * What the caller owes
 *   - A slice is a pointer and a length, counted in its items. The pointer is not null, also where the length is 0, is
 *     aligned for the item's type, and as many items as the length says can be read there and, where the pointer is not
 *     const, written.
 *   - The slices of one call do not overlap.
 *   - One call at a time over the same words, totals_list, totals_rebates and totals_export included. Workers are
 *     numbers and no threads: one caller interleaves their steps. Nothing here locks or waits; threads would need a
 *     lock around every call.
 *   - The number that is returned is looked at: an insert or a post that is answered TOTALS_CROWDED, and a post that is
 *     answered TOTALS_OVERRUN, was not carried out.
 */
#ifndef TOTALS_H
#define TOTALS_H

#include <stddef.h>
#include <stdint.h>

#ifdef __cplusplus
extern "C" {
#endif

/* Limits of the settings: workers n, bucket size b, greatest depth M. */
#define TOTALS_LEAST_WORKERS 1
#define TOTALS_GREATEST_WORKERS 8
#define TOTALS_LEAST_CAPACITY 2
#define TOTALS_GREATEST_CAPACITY 16
#define TOTALS_LEAST_DEPTH 0
#define TOTALS_GREATEST_DEPTH 8

/*
 * The words needed for the least and for the greatest settings, and the most accounts a table can hold: b of those
 * whose places (totals_place) agree in the first M bits, most significant first, so b times 2^M where the places are
 * spread over all 32 bits.
 */
#define TOTALS_LEAST_WORDS 162
#define TOTALS_GREATEST_WORDS 17305
#define TOTALS_GREATEST_COUNT 4096

/*
 * The bytes of an exported file: of its first line; of a row's line at most; and of the whole file at most, which are
 * TOTALS_EXPORT_HEADER + TOTALS_EXPORT_ROW * TOTALS_GREATEST_COUNT. A table of b and M needs no more than
 * TOTALS_EXPORT_HEADER + TOTALS_EXPORT_ROW * (b << M).
 */
#define TOTALS_EXPORT_HEADER 15
#define TOTALS_EXPORT_ROW 34
#define TOTALS_GREATEST_EXPORT 139279

/* A log for totals_check_log: the words of an operation, and the most operations. */
#define TOTALS_LOGGED_WORDS 8
#define TOTALS_GREATEST_LOGGED 12

/*
 * The greatest ticket number. Each update of a worker takes its next one, from 1 on after an opening: so this is also
 * how many updates one worker can make. And how many steps one totals_run gives at most.
 */
#define TOTALS_GREATEST_UPDATES UINT64_C(18446744073709551615)
#define TOTALS_GREATEST_RUN 256

/*
 * How many steps an operation takes, exactly. A lookup takes TOTALS_LOOKUP_STEPS. An update is answered by one of its
 * checks, 1 to TOTALS_GREATEST_CHECK: the report tells by which, and TOTALS_CHECK_STEPS(workers, check) is what it took
 * then, 0 for a number that is no check's. With one worker checks 1 and 2 alone answer, after 13 and 23 steps.
 * TOTALS_GREATEST_STEPS(workers) is the most that an operation takes: 23 with one worker, else 12 * workers + 33.
 *
 * Arguments may have any integer type; constants give a constant, also after #if. An argument is evaluated more than
 * once: workers twice at most, check four times at most.
 */
#define TOTALS_LOOKUP_STEPS 2
#define TOTALS_GREATEST_CHECK 4
#define TOTALS_CHECK_STEPS(workers, check) \
    ((check) == 1   ? 2 * (workers) + 11 \
     : (check) == 2 ? 6 * (workers) + 17 \
     : (check) == 3 ? 8 * (workers) + 27 \
     : (check) == 4 ? 12 * (workers) + 33 \
                    : 0)
#define TOTALS_GREATEST_STEPS(workers) \
    ((workers) == 1 ? TOTALS_CHECK_STEPS(workers, 2) : TOTALS_CHECK_STEPS(workers, TOTALS_GREATEST_CHECK))

/* Opened, accepted, listed, exported, an order found; and of steps: made, and the operation goes on. */
#define TOTALS_OK 0
#define TOTALS_MOVED 0

/* Refusals. 9 and 11 are no refusals: crowded and overrun are answers. */
#define TOTALS_SETTINGS 1  /* n, b or M is outside its range */
#define TOTALS_SHORT 2     /* fewer words lent than needed */
#define TOTALS_STRANGER 3  /* the worker's number is n or more (workers count from 0) */
#define TOTALS_BUSY 4      /* a call to a worker whose operation has no answer yet */
#define TOTALS_IDLE 5      /* a step for a worker without operation */
#define TOTALS_KIND 6      /* not 1 insert, 2 delete, 3 lookup, 4 post */
#define TOTALS_SPENT 7     /* insert, delete or post by a worker that has no ticket number left */
#define TOTALS_STRANGE 8   /* the words are no table: see totals_call */
#define TOTALS_NARROW 10   /* listing or rebates: a list shorter than the count; export: an output than the file;
                              judging a log: the list for the order shorter than the log */
#define TOTALS_BAD_LOG 14  /* the words are no log: see totals_check_log */

/* Judging a log: no order explains it. This is no refusal. */
#define TOTALS_NO 16

/* Kinds of operations. */
#define TOTALS_INSERT 1
#define TOTALS_DELETE 2
#define TOTALS_LOOKUP 3
#define TOTALS_POST 4

/* Answers: every number from 17 on that a step or a run returns. Found and posted have a total, in the report. */
#define TOTALS_ADDED 17    /* insert: the account was not there */
#define TOTALS_REPLACED 18 /* insert: the account was there */
#define TOTALS_REMOVED 19  /* delete: the account was there */
#define TOTALS_ABSENT 20   /* delete: the account was not there */
#define TOTALS_FOUND 21    /* lookup: the account's total */
#define TOTALS_NONE 22     /* lookup: the account is not there */
#define TOTALS_POSTED 23   /* post: the account's new total; an account that was not there has started from 0 */
#define TOTALS_CROWDED 25  /* insert or post: the account was not there, and the places of b others agree with its place
                              in the first M bits; nothing changed, the update was not carried out. A delete, an
                              insert that replaces and a post to an account that is there are never answered so */
#define TOTALS_OVERRUN 27  /* post: the account was there, and the sum is outside the 64-bit signed range; nothing
                              changed, the post was not carried out */

/*
 * How many words a table of these settings needs: 162 to 17,305. Or TOTALS_SETTINGS, 1, where one of them is outside
 * its range.
 */
uint64_t totals_words_needed(uint64_t workers, uint64_t capacity, uint64_t depth);

/*
 * Lays a fresh, empty table with idle workers into the words, whatever they held; words past those needed stay as they
 * are. Returns TOTALS_OK, or, tested in this order and with no word changed:
 *   TOTALS_SETTINGS  a setting is outside its range;
 *   TOTALS_SHORT     length is below totals_words_needed.
 */
uint64_t totals_open(uint64_t *words, size_t length, uint64_t workers, uint64_t capacity, uint64_t depth);

/*
 * Hands an operation to an idle worker. It takes its steps later; an update, which is an insert, a delete or a post,
 * takes its ticket number here, the worker's last plus 1, a lookup takes none. total counts for insert and post only:
 * an insert's is what the account's total is set to, a post's is the amount that is added to it; an account that is not
 * there starts from 0 and is made, also by an amount of 0. Returns TOTALS_OK, or, tested in this order and with no word
 * changed:
 *   TOTALS_STRANGE   the words fail a check: there are fewer than 162; the first one has no mark of a table, or a
 *                    greatest depth above 8; the second one, the words needed, is above length; they are too few for
 *                    the workers that the first one names and one record. Words of zeros always fail. Words that pass
 *                    are served, whatever the rest of them holds.
 *   TOTALS_STRANGER  worker is n or more;
 *   TOTALS_BUSY      the worker's operation has no answer yet;
 *   TOTALS_KIND      kind is none of TOTALS_INSERT, TOTALS_DELETE, TOTALS_LOOKUP, TOTALS_POST;
 *   TOTALS_SPENT     an insert, a delete or a post, and the worker has no ticket number left: its last one, which
 *                    stands in the words, is TOTALS_GREATEST_UPDATES. A lookup is still accepted.
 */
uint64_t totals_call(uint64_t *words, size_t length, uint64_t worker, uint64_t kind, uint32_t account, int64_t total);

/*
 * One step of a worker's operation. Returns
 *   TOTALS_MOVED     the operation goes on; the report is not touched;
 *   an answer, TOTALS_ADDED to TOTALS_OVERRUN: the operation has ended and the worker is idle again. A report of three
 *                    places or more then has
 *                      at place 0 the steps that the operation took in all;
 *                      at place 1 the total of TOTALS_FOUND or TOTALS_POSTED as a word of two's complement,
 *                      (int64_t)report[1], or 0 where the answer is another;
 *                      at place 2 which of its checks answered an update, 1 to TOTALS_GREATEST_CHECK, or 0 where the
 *                      operation is a lookup.
 *                    What is past them stays. A report of two places has the first two of these, and a shorter one is
 *                    not touched. Over words that no opening left, more steps than their figure may come with a lookup
 *                    and with the last check, and with one worker all four checks may answer.
 * Or, tested in this order and with no word and no report changed:
 *   TOTALS_STRANGE   as in totals_call;
 *   TOTALS_STRANGER  worker is n or more;
 *   TOTALS_IDLE      the worker has no operation.
 */
uint64_t totals_step(uint64_t *words, size_t length, uint64_t worker, uint64_t *report, size_t report_length);

/*
 * Up to `most` steps of a worker's operation, ending early at its answer, and given up after TOTALS_GREATEST_RUN steps,
 * which no operation of an opened table takes. Returns as totals_step does, with the same tests in the same order, made
 * once; but where it returns TOTALS_MOVED, a report of three places or more has at place 0 the steps that were given,
 * and at places 1 and 2 a 0; one of two places has the first two of these. Over words that no opening left an operation
 * may vanish at a step; the run then ends there with TOTALS_MOVED.
 */
uint64_t totals_run(uint64_t *words, size_t length, uint64_t worker, uint64_t most, uint64_t *report,
                    size_t report_length);

/*
 * Writes the accounts with their totals to the start of both lists, ascending by the account's number, and nothing past
 * the count; a report of one place or more has the count at place 0. The words stay as they are. Lists of
 * TOTALS_GREATEST_COUNT places are long enough for every table. Over words that no opening left an account may come
 * more than once; its rows then stand in ascending order of their totals.
 * Returns TOTALS_OK, or, tested in this order and with no list and no report changed:
 *   TOTALS_STRANGE   as in totals_call;
 *   TOTALS_NARROW    the accounts or the totals list is shorter than the count.
 */
uint64_t totals_list(const uint64_t *words, size_t length, uint32_t *accounts, size_t accounts_length, int64_t *totals,
                     size_t totals_length, uint64_t *report, size_t report_length);

/*
 * Writes the accounts with the rebates on their totals to the start of both lists: the rows that totals_list writes, in
 * its order, with totals_rebate of each total in the place of the total; nothing past the count; a report of one place
 * or more has the count at place 0. The words stay as they are. Lists of TOTALS_GREATEST_COUNT places are long enough
 * for every table. It keeps the listing in two lists of its own and so takes about 50 kB of stack. Over words that no
 * opening left an account may come more than once; its rows then stand in ascending order of their totals.
 * Returns TOTALS_OK, or, tested in this order and with no list and no report changed:
 *   TOTALS_STRANGE   as in totals_call;
 *   TOTALS_NARROW    the accounts or the rebates list is shorter than the count.
 */
uint64_t totals_rebates(const uint64_t *words, size_t length, uint32_t *accounts, size_t accounts_length,
                        uint64_t *rebates, size_t rebates_length, uint64_t *report, size_t report_length);

/*
 * Writes the listing as a file to the start of the output: RFC 4180 records, each a line that CR LF ends, the last one
 * too. The first line is `account,total`; then comes a line for each row that totals_list writes, in its order: the
 * account's number, a comma, and the total, which is in cents, in units with two decimals. That is a minus where the
 * total is below 0, the units without zeros in front, a point and two digits: -12.05 for -1205, 0.07 for 7, -0.07 for
 * -7, 0.00 for 0, -92233720368547758.08 for the lowest total. No field has quotes. A line determines its account and
 * its total.
 *
 * Nothing is written past the file, no byte of 0 either; a report of one place or more has the number of the file's
 * bytes at place 0. The words stay as they are; busy workers do not matter. An output of TOTALS_GREATEST_EXPORT bytes
 * is long enough for every table; one of less than TOTALS_EXPORT_HEADER for none. It keeps the listing in two lists of
 * its own and so takes about 50 kB of stack. Over words that no opening left an account may come more than once; its
 * rows then stand in ascending order of their totals.
 * Returns TOTALS_OK, or, tested in this order and with no byte of the output and no report changed:
 *   TOTALS_STRANGE   as in totals_call;
 *   TOTALS_NARROW    the output is shorter than the file.
 */
uint64_t totals_export(const uint64_t *words, size_t length, uint8_t *out, size_t out_length, uint64_t *report,
                       size_t report_length);

/*
 * The yearly rebate on a total in cents, in cents. Each rate, in hundredths of a percent, is for the part of the total
 * inside its band, and a band has its end in it:
 *
 *        above           to    rate
 *            0    1,000,000       0
 *    1,000,000    5,000,000     150
 *    5,000,000   20,000,000     250
 *   20,000,000                  350
 *
 * The sum over the bands is rounded once to the cent, half upward. A negative total gets 0. So 6,000,000 gives 85,000,
 * 1,000,033 gives 0 and 1,000,034 gives 1. A greater total never has a smaller rebate, and no rebate is above a total
 * that is not negative. Takes any total and is never refused: whatever it returns is a rebate.
 */
uint64_t totals_rebate(int64_t total);

/*
 * The place of an account: its number times 2,654,435,761 modulo 2^32. Its first bits, most significant first, choose
 * the bucket: accounts whose places agree in as many first bits as the bucket is deep share one. So accounts that are
 * numbered one after another, as from 1000 up, are spread over all buckets. Words and lists hold the account's number,
 * never its place. Takes any number and is never refused.
 */
uint32_t totals_place(uint32_t account);

/*
 * The account at a place: the place times 244,002,641 modulo 2^32. It is the way back, exact in either order: for every
 * x of 32 bits totals_account_at(totals_place(x)) and totals_place(totals_account_at(x)) are x. So it tells which
 * accounts share a bucket. Takes any number and is never refused.
 */
uint32_t totals_account_at(uint32_t place);

/*
 * An operation of a log, as eight words. An array of such structs is lent to totals_check_log by a cast to
 * const uint64_t *, with TOTALS_LOGGED_WORDS times their number for the length. As a word a total is one of two's
 * complement, (uint64_t)total. Workers are any numbers; only which of them are equal counts. Positions are any numbers,
 * none twice; only which of them is greater counts.
 */
struct totals_logged {
    uint64_t worker;
    uint64_t kind;        /* TOTALS_INSERT, TOTALS_DELETE, TOTALS_LOOKUP or TOTALS_POST */
    uint64_t account;     /* of 32 bits */
    int64_t total;        /* an insert's total or a post's amount; ignored for a delete and a lookup */
    uint64_t answer;      /* as a step returns it: TOTALS_ADDED to TOTALS_OVERRUN */
    int64_t answer_total; /* the total of TOTALS_FOUND or TOTALS_POSTED; ignored for the other answers */
    uint64_t call;        /* the call's position */
    uint64_t end;         /* the answer's position */
};

/*
 * Judges a log of up to TOTALS_GREATEST_LOGGED answered operations, of this table or another: whether some order of
 * them explains it. Such an order has each operation once, and none before one that was answered before its call, whose
 * end is below its call. A plain table that starts empty, fed the operations in this order, gives all the answers of
 * the log. It has the rule of TOTALS_CROWDED, with capacity for b and depth for M.
 *
 * Returns TOTALS_OK where there is such an order. The first of them is then written to the start of the list: the
 * places of the operations in the log, counted from 0. Nothing is written past their number. Of two orders the first is
 * the one with the lower place where they first differ, whatever the positions are. An empty log is explained by the
 * empty order.
 * Returns TOTALS_NO where there is none, with the list as it was. So it does for an answer's number that no operation
 * gives.
 * Or, tested in this order, before the search and with the list as it was:
 *   TOTALS_SETTINGS  capacity or depth is outside its range;
 *   TOTALS_BAD_LOG   length is no multiple of TOTALS_LOGGED_WORDS; there are more than TOTALS_GREATEST_LOGGED
 *                    operations; two of all positions, calls and ends, are equal; an end is not after its call; two
 *                    operations of one worker overlap, neither answered before the other's call; a kind is none of the
 *                    four; or an account has more than 32 bits;
 *   TOTALS_NARROW    the list is shorter than the number of operations.
 *
 * It takes about 15 kB of stack. Most logs take microseconds; the longest search known takes three seconds
 * (docs/USING.md).
 */
uint64_t totals_check_log(const uint64_t *log, size_t length, uint64_t capacity, uint64_t depth, uint64_t *order,
                          size_t order_length);

#ifdef __cplusplus
}
#endif

#endif
