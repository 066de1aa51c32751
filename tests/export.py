#!/usr/bin/env python3
# export.py FILE ROWS: reads an exported file with Python's csv and decimal modules, which have no part in the project,
# and compares what its records say with the rows of the other file, an account and its total in cents a line. Says what
# is wrong on standard error; the exit status is 1 then.
import csv
import decimal
import sys

ACCOUNTS = range(2**32)
TOTALS = range(-(2**63), 2**63)


def fail(what):
    sys.exit(f"export.py: {what}")


def check_line_ends(name):
    """CR LF ends every line, the last one too, and neither byte is anywhere else."""
    with open(name, "rb") as file:
        content = file.read()
    if not content.endswith(b"\r\n"):
        fail("CR LF does not end the last line")
    lines = content.split(b"\r\n")[:-1]
    for number, line in enumerate(lines, 1):
        if b"\r" in line or b"\n" in line or line == b"":
            fail(f"line {number} is {line}")
    return len(lines)


def account_of(field):
    account = int(field)
    if str(account) != field or account not in ACCOUNTS:
        fail(f"{field!r} is no account")
    return account


def total_of(field):
    """The cents of a total in units, of which no more and no less than two decimals are written."""
    units = decimal.Decimal(field)
    total = int(units * 100)
    if total not in TOTALS or format(decimal.Decimal(total).scaleb(-2), "f") != field:
        fail(f"{field!r} is no total in units")
    return total


def row_of(record):
    if len(record) != 2:
        fail(f"{record} has not two fields")
    return account_of(record[0]), total_of(record[1])


def exported_rows(name):
    """The rows of all records but the first, which names the fields."""
    with open(name, newline="", encoding="ascii") as file:
        records = list(csv.reader(file, strict=True))
    if len(records) != check_line_ends(name):
        fail(f"{len(records)} records are not as many as lines")
    if records[0] != ["account", "total"]:
        fail(f"the header is {records[0]}")
    return [row_of(record) for record in records[1:]]


def listed_rows(name):
    with open(name, encoding="ascii") as file:
        return [tuple(map(int, line.split())) for line in file]


def main(file_name, rows_name):
    # a product with more digits than are kept would be an error, not a rounded number
    decimal.getcontext().traps[decimal.Inexact] = True
    exported, listed = exported_rows(file_name), listed_rows(rows_name)
    for number, (row, wanted) in enumerate(zip(exported, listed), 1):
        if row != wanted:
            fail(f"row {number} is {row} and not {wanted}")
    if len(exported) != len(listed):
        fail(f"{len(exported)} rows are exported, and {len(listed)} listed")


if len(sys.argv) != 3:
    fail("two files are needed")
try:
    main(sys.argv[1], sys.argv[2])
except (csv.Error, decimal.DecimalException, ValueError) as error:
    fail(f"{type(error).__name__}: {error}")
