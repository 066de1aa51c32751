#!/usr/bin/env bash
# The interfaces for C and Rust: the header, the library's symbols, the examples, the Rust crate's tests, reports of
# every length, tickets of 64 bits, places of accounts, rebates, exports, logs, and the rebates on random totals, the
# exports of random rows, the verdicts on random logs and the lines of `totals` over the C interface against the second
# model. Exported files are also read by Python's csv and decimal modules; where there is no python3, these tests fail.
# The last line is 'N passed, M failed'; the exit status is 0 only if M is 0.
# interfaces.sh [SEED LINES]...: without arguments, fixed seeds of 600,000 lines in all.
set -u
cd "$(dirname "$0")/.." || exit 2
[ $# -gt 0 ] || set -- 11 200000 12 200000 13 200000
. tests/counts.sh
library=target/staticlib/libcapi.a
strict=(-Wall -Wextra -pedantic -Werror -Iinclude)
model=model/target/release/model

build() {
  ./build.sh
  check $? "build.sh"
  cargo build --quiet --release --offline --manifest-path model/Cargo.toml --target-dir model/target
  check $? "the second model is built"
}

# the header twice and nothing else, as each language, by each compiler that is there
header() {
  local compiler
  printf '#include "totals.h"\n#include "totals.h"\n' >"$run/header.h"
  for compiler in cc clang; do
    command -v "$compiler" >/dev/null || continue
    "$compiler" -std=c99 "${strict[@]}" -fsyntax-only -x c "$run/header.h"
    check $? "the header as C99 by $compiler"
    steps "$compiler" -std=c99
  done
  {
    echo '#include "totals.h"'
    echo 'static_assert(TOTALS_GREATEST_UPDATES == UINT64_MAX, "the greatest ticket number");'
    echo 'static_assert(sizeof(totals_logged) == 64 && offsetof(totals_logged, end) == 56, "an operation of a log");'
    echo 'int main() { return totals_words_needed(1, 2, 0) != TOTALS_LEAST_WORDS; }'
  } >"$run/linked.cc"
  for compiler in c++ clang++; do
    command -v "$compiler" >/dev/null || continue
    "$compiler" -std=c++11 "${strict[@]}" -fsyntax-only -x c++ "$run/header.h"
    check $? "the header as C++11 by $compiler"
    "$compiler" -std=c++11 "${strict[@]}" "$run/linked.cc" "$library" -o "$run/linked" && "$run/linked"
    check $? "a C++ program linked by $compiler"
    steps "$compiler" -std=c++11 -x c++
  done
}

# steps COMPILER OPTION...: the header's macros are well made; tests/header.rs holds their figures against the crate's
steps() {
  "$@" "${strict[@]}" tests/c/steps.c -o "$run/steps" && "$run/steps" >"$run/figures" && [ -s "$run/figures" ]
  check $? "the header's figures of steps by $1"
}

# the library has the header's functions and no more, and calls nothing but memcpy and memset
symbols() {
  sed -nE 's/^uint(32|64)_t (totals_[a-z_]+)\(.*$/\2/p' include/totals.h | sort >"$run/declared"
  nm -g --defined-only "$library" | awk 'NF == 3 { print $3 }' | sort | diff "$run/declared" -
  check $? "the library exports the $(wc -l <"$run/declared") functions of the header and no more"
  nm -g --undefined-only "$library" |
    awk 'NF == 2 && $2 != "memcpy" && $2 != "memset" { print; other = 1 } END { exit other }'
  check $? "the library calls memcpy and memset only"
}

# example PROGRAM NAME TEXT: the program prints the stored output of this name, and nothing to standard error
example() {
  "$1" >"$run/output" 2>"$run/error" && [ ! -s "$run/error" ] && diff "$run/output" "examples/$2.out"
  check $? "$3"
}

examples() {
  local name
  for name in dispatcher check_log; do
    example "target/examples/$name" "$name" "the C example $name prints the stored output"
    example "bindings/rust/target/release/examples/$name" "$name" "the Rust example $name prints the stored output"
  done
}

# readme LANGUAGE: the README's text in that language
readme() { awk -v start="\`\`\`$1" '$0 == start { on = 1; next } /^```/ { on = 0 } on' README.md; }

# what the README shows is built and does what it says there
shown() {
  readme c >"$run/shown.c" && cc -std=c99 "${strict[@]}" "$run/shown.c" "$library" -o "$run/shown" &&
    [ "$("$run/shown")" = "found 700" ]
  check $? "the README's C prints what it says"
  readme rust >"$run/shown.rs" && rustc --edition 2021 --extern totals=bindings/rust/target/release/libtotals.rlib \
    -L native=target/staticlib "$run/shown.rs" -o "$run/shown-rust" && "$run/shown-rust"
  check $? "the README's Rust runs"
}

# adds the counts of the crate's tests; a run that failed without a count is one failure
crate() {
  local status a b p=0 f=0
  cargo test --release --offline --no-fail-fast --manifest-path bindings/rust/Cargo.toml \
    --target-dir bindings/rust/target >"$run/log" 2>&1
  status=$?
  while read -r a b; do
    p=$((p + a))
    f=$((f + b))
  done < <(sed -nE 's/^test result: .* ([0-9]+) passed; ([0-9]+) failed;.*$/\1 \2/p' "$run/log")
  [ "$status" -eq 0 ] && [ "$p" -gt 0 ] || [ "$f" -gt 0 ] || f=1
  [ "$f" -eq 0 ] || cat "$run/log"
  echo "        the Rust crate's tests: $p passed, $f failed"
  passed=$((passed + p))
  failed=$((failed + f))
}

# sound NAME TEXT OPTION...: a program of tests/c finds nothing wrong with the library
sound() {
  local name=$1 text=$2
  shift 2
  cc -std=c99 "$@" "${strict[@]}" "tests/c/$name.c" "$library" -o "$run/$name" && "$run/$name"
  check $? "$text${1:+ with $1}"
}

reports() { sound reports "reports of 0 to 4 places" "$@"; }

places() { sound places "places there and back, listings by number, crowding by place" "$@"; }

tickets() { sound tickets "tickets near 2^64, and about 2^16, 2^31, 2^32 and 2^63 beside those from 1 on" "$@"; }

rebates() { sound rebates "rebates of a table on the totals that it lists, or a refusal that changes nothing" "$@"; }

# rebated SEED COUNT TEXT: totals are met with the same bytes by totals_rebate, in the program that `rebates` has built
# last, and by the model
rebated() {
  "$model" amounts "$1" "$2" >"$run/input" && "$model" rebates <"$run/input" >"$run/model" &&
    "$run/rebates" lines <"$run/input" >"$run/output" 2>"$run/error" && [ ! -s "$run/error" ] &&
    cmp "$run/output" "$run/model" && [ "$(wc -l <"$run/output")" -eq "$2" ]
  check $? "seed $1: the rebates on $2 totals $3, $(wc -c <"$run/output") bytes as from the model"
}

exports() { sound export "exports of a table, byte for byte, or a refusal that changes nothing" "$@"; }

# exported SEED COUNT TEXT: the table of random rows that the program makes which `exports` has built last is exported
# with the same bytes as by the model; and its file is read back as these rows by csv and decimal of Python
exported() {
  rm -f "$run/file" "$run/rows"
  "$model" rows "$1" "$2" >"$run/input" && "$model" export <"$run/input" >"$run/model" &&
    "$run/export" "$run/file" "$run/rows" <"$run/input" 2>"$run/error" && [ ! -s "$run/error" ] &&
    cmp "$run/file" "$run/model"
  check $? "seed $1: the export of $2 rows $3, $(wc -c <"$run/file") bytes as from the model"
  sort -n "$run/input" | cmp - "$run/rows" && python3 tests/export.py "$run/file" "$run/rows"
  check $? "seed $1: Python reads these $(wc -l <"$run/rows") rows in the file"
}

# unread TEXT COMMAND...: Python does not read the last rows in the file as the command changes it
unread() {
  local text=$1
  shift
  "$@" <"$run/file" >"$run/changed" && ! cmp -s "$run/file" "$run/changed" &&
    ! python3 tests/export.py "$run/changed" "$run/rows" 2>"$run/error" && grep -q '^export.py: ' "$run/error"
  check $? "Python does not read a file $text ($(cat "$run/error"))"
}

# what would be wrong with a file is seen
unread_files() {
  unread "with LF alone" tr -d '\r'
  unread "without the header" tail -n +2
  unread "without the last line's end" head -c -2
  unread "without the last row" head -n -1
  unread "with another last digit" sed '$ s/8\r$/7\r/'
  unread "without a sign below one unit" sed 's/,-0\./,0./'
  unread "with one decimal" sed 's/\(\.[0-9]\)[0-9]\r$/\1\r/'
  unread "with quotes that do not end" sed '2 s/,/,"/'
}

logs() { sound logs "a log's order, or a verdict that writes nothing" "$@"; }

# judged SEED COUNT TEXT OPTION...: random logs are judged by totals_check_log, in the program that `logs` has built
# last, as by the model, with the same orders
judged() {
  local status seed=$1 count=$2 text=$3
  shift 3
  "$model" logs "$seed" "$count" "$@" >"$run/input" &&
    "$run/logs" judge <"$run/input" >"$run/output" 2>"$run/error" && [ ! -s "$run/error" ] &&
    "$model" verdicts "$run/input" "$run/output" >"$run/model" && [ "$(wc -l <"$run/output")" -eq "$count" ]
  status=$?
  [ "$status" -eq 0 ] || head -n 20 "$run/error" "$run/model"
  check "$status" "seed $seed, logs $text: $(cat "$run/model")"
}

# verdicts SORT...: the last logs had all of these verdicts, and no other
verdicts() {
  [ "$(sed 's/^order.*$/order/' "$run/output" | sort -u)" = "$(printf '%s\n' "$@")" ]
  check $? "verdicts on these logs: $(printf '%s, ' "$@")and no other"
}

# compare PROGRAM SEED LINES TEXT: random lines are met with the same bytes by the program and by the model
compare() {
  "$model" lines "$2" "$3" >"$run/input" && "$model" totals <"$run/input" >"$run/model" &&
    "$1" <"$run/input" >"$run/output" 2>"$run/error" && [ ! -s "$run/error" ] && cmp "$run/output" "$run/model"
  check $? "seed $2: $3 lines $4, $(wc -c <"$run/output") bytes as from the model"
}

lines() {
  local occurred sorts='answered absent,answered added,answered crowded,answered found,answered none,'
  sorts+='answered overrun,answered posted,answered removed,answered replaced,'
  sorts+='end,moved,ok,refused 1,refused 2,refused 3,refused 4,refused 5,refused 8,row,unread,'
  cc -std=c99 -O2 "${strict[@]}" tests/c/lines.c "$library" -o "$run/lines"
  check $? "the program for lines over the C interface is built"
  while [ $# -ge 2 ]; do
    compare "$run/lines" "$1" "$2" "over the C interface"
    cat "$run/output" >>"$run/all"
    shift 2
  done
  occurred=$(awk '{ print /^(answered|refused) / ? $1 " " $2 : /^[0-9]/ ? "row" : $1 }' "$run/all" |
    sort -u | tr '\n' ',')
  [ "$occurred" = "$sorts" ]
  check $? "every sort of line comes up, and no other"
}

# each stored order is met with the stored output; by tests/orders.rs each check answers some of their updates
stored() {
  local order wrong=0 count=0
  for order in model/orders/*.txt; do
    "$run/lines" <"$order" >"$run/output" && cmp "$run/output" "${order%.txt}.out" || wrong=1
    count=$((count + 1))
  done
  [ "$wrong" -eq 0 ] && [ "$count" -gt 0 ]
  check $? "$count stored orders over the C interface"
}

# the C programs once more with the compiler's own checks of memory and arithmetic
sanitized() {
  local name checks=(-fsanitize=address,undefined -fno-sanitize-recover=all -std=c99 -g)
  printf 'int main(void) { return 0; }\n' >"$run/nothing.c"
  if ! { cc "${checks[@]}" "$run/nothing.c" -o "$run/nothing" && "$run/nothing"; } >/dev/null 2>&1; then
    echo "        -fsanitize=address,undefined is not available: not tried"
    return
  fi
  for name in dispatcher check_log; do
    cc "${checks[@]}" "${strict[@]}" "examples/c/$name.c" "$library" -o "$run/$name"
    check $? "the C example $name is built with -fsanitize=address,undefined"
    example "$run/$name" "$name" "it prints the stored output"
  done
  reports "${checks[@]}"
  tickets "${checks[@]}"
  places "${checks[@]}"
  rebates "${checks[@]}"
  rebated 15 50000 "with these checks"
  exports "${checks[@]}"
  exported 21 4096 "with these checks"
  logs "${checks[@]}"
  judged 25 10000 "with these checks"
  cc "${checks[@]}" "${strict[@]}" tests/c/lines.c "$library" -o "$run/lines"
  check $? "the program for lines is built with -fsanitize=address,undefined"
  compare "$run/lines" 14 50000 "with these checks"
}

build
header
symbols
examples
shown
crate
reports
tickets
places
rebates
rebated 13 1000000 "over the C interface"
exports
exported 16 0 "over the C interface"
exported 17 2 "over the C interface"
exported 18 1000 "over the C interface"
exported 19 4096 "over the C interface"
exported 20 4096 "over the C interface"
unread_files
logs
judged 22 100000 "over the C interface"
verdicts no order "refused 1" "refused 14"
judged 23 10000 "of runs" --runs
verdicts order
lines "$@"
stored
sanitized
finish
