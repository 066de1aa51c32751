#!/usr/bin/env bash
# Random input, answered by the compiled program and by the second model: every byte has to agree, and every sort of
# answer has to occur. About half of the calls go to accounts drawn as places that agree in their first M bits, most of
# the others to accounts from 1000 up (model/README.md).
# compare.sh [--crowded] [SEED LINES]...: without arguments, fixed seeds of 500,000 lines in all, the first 100,000
# crowded, and each wrong machine of the model has to be told from the program by the last of them; then the program
# `judge`, on random logs and at the edges of its input. With --crowded every table has b 2 and M 0 to 2, and buckets
# that are full most of the time.
set -u
cd "$(dirname "$0")/.." || exit 2
. tests/common.sh
crowded=()
[ "${1-}" != --crowded ] || { crowded=(--crowded) && shift; }
[ $(($# % 2)) -eq 0 ] || { echo "usage: compare.sh [--crowded] [SEED LINES]..." && exit 2; }

# compare SEED LINES
compare() {
  "$model" lines "$1" "$2" "${crowded[@]}" >"$run/input" && "$model" totals <"$run/input" >"$run/model" &&
    "$totals" <"$run/input" >"$run/totals"
  local status=$?
  [ "$status" -eq 0 ] && { cmp "$run/totals" "$run/model" || status=1; }
  check "$status" "seed $1: $2 lines, $(wc -c <"$run/totals") bytes of output"
  [ "$status" -eq 0 ] || diff "$run/totals" "$run/model" | head -n 6
  cat "$run/totals" >>"$run/all"
}

# every sort of output line that documents 01 and 02 have for the program, but 7, and no other: 7 would take a worker's
# 2^64 - 1 ticket numbers, since the program's words are zeros at first; words near that end are lent to the library by
# tests/c/tickets.c, and by cases.rs, model and foreign of bindings/rust/tests
sorts='ok
refused 1
refused 2
refused 3
refused 4
refused 5
refused 8
moved [0-9]+
answered added [0-9]+
answered replaced [0-9]+
answered removed [0-9]+
answered absent [0-9]+
answered found -?[0-9]+ 2
answered none 2
answered crowded [0-9]+
answered posted -?[0-9]+ [0-9]+
answered overrun [0-9]+
unread
[0-9]+ -?[0-9]+
end [0-9]+'

occurs() {
  local sort count
  while read -r sort; do
    count=$(grep -cxE "$sort" "$run/all")
    [ "$count" -gt 0 ]
    check $? "occurs: $sort ($count times)"
  done <<<"$sorts"
  ! grep -qvxE "$sorts" "$run/all"
  check $? "nothing else occurs"
}

# the last input, on the model's wrong machines
told_apart() {
  local fault
  for fault in $("$model" faults); do
    ! "$model" totals --fault "$fault" <"$run/input" 2>/dev/null | cmp -s - "$run/totals"
    check $? "told from the wrong machine $fault"
  done
}

# judged SEED COUNT TEXT OPTION...: random logs, a run of `judge` for each; the verdicts are the model's, with the same
# orders
judged() {
  local log status seed=$1 count=$2 text=$3
  shift 3
  rm -f "$run"/log.* && : >"$run/verdicts"
  "$model" logs "$seed" "$count" "$@" >"$run/logs" &&
    csplit --quiet --suppress-matched --digits=4 --prefix="$run/log." "$run/logs" '/^$/' '{*}'
  for log in "$run"/log.*; do
    "$judge" <"$log" >>"$run/verdicts" 2>>"$run/verdicts" || echo "status $?" >>"$run/verdicts"
  done
  "$model" verdicts "$run/logs" "$run/verdicts" >"$run/model" && [ "$(wc -l <"$run/verdicts")" -eq "$count" ]
  status=$?
  [ "$status" -eq 0 ] || head -n 20 "$run/model"
  check "$status" "judge, seed $seed: $count logs $text ($(cut -d ' ' -f 1 "$run/verdicts" | sort | uniq -c |
    awk '{ printf "%s%s %s", (NR == 1 ? "" : ", "), $2, $1 }'))"
}

# verdict LINE INPUT TEXT: judge writes this line on the input, in which a backslash starts an escape, and nothing to
# standard error
verdict() {
  printf '%s\n' "$1" >"$run/expected"
  printf '%b' "$2" | "$judge" >"$run/output" 2>"$run/error" && [ ! -s "$run/error" ] &&
    cmp "$run/output" "$run/expected"
  check $? "judge: $3: $1"
}

# operations COUNT: so many lines of lookups that follow each other
operations() { awk -v n="$1" 'BEGIN { for (i = 0; i < n; i++) print 1, 3, 5, 0, "none", 0, 2 * i, 2 * i + 1 }'; }

first_lines() {
  local line
  verdict "unread 1" '' "no input"
  verdict "unread 1" '\n' "a line feed alone"
  verdict order '2 0' "settings that the end of the input ends"
  verdict order '16 8\n' "settings that a line feed ends"
  verdict "unread 2" '2 0\n\n' "an empty line behind the settings"
  verdict "unread 1" '\n2 0\n' "an empty line in front of them"
  for line in 2 '2 ' '2 0 0' '2  0' ' 2 0' '2 0 ' '2 0\r' '02 0' '2 00' '-2 0' '2 -0' '+2 0' '65536 0' '2 65536' \
    '2\t0' 'O 1 2 0' '1 3 5 0 none 0 1 2'; do
    verdict "unread 1" "$line\n$line\n" "the first line $line"
  done
  verdict "refused 1" '65535 65535\n' "the greatest numbers of settings"
  verdict "refused 1" '2 9\n1 9 5 0 none 0 1 1\n' "wrong settings and a bad log"
}

operation_lines() {
  local line end=18446744073709551615 least=-9223372036854775808 good='1 3 5 0 none 0 1 2'
  verdict "order 0" "2 0\n$good\n" "an operation that a line feed ends"
  verdict "order 0" "2 0\n$good" "an operation that the end of the input ends"
  verdict no '2 0\n1 3 5 0 added 0 1 2\n' "an answer of another kind"
  verdict "order 0" "2 0\n$end 4 4294967295 $least posted $least 0 $end\n" "numbers at the ends of their ranges"
  verdict "refused 14" "2 0\n1 $end 5 0 none 0 1 2\n" "a kind of 64 bits"
  verdict "refused 14" "2 0\n$good\n1 3 5 0 none 0 2 3\n" "a position twice"
  verdict "unread 3" "2 0\n$good\n\n1 3 5 0 none 0 3 4\n" "an empty line in the middle"
  verdict "unread 3" "2 0\n$good\n\n" "an empty line at the end"
  for line in '1 3 5 0 none 0 1' '1 3 5 0 none 0 1 2 3' '1  3 5 0 none 0 1 2' ' 1 3 5 0 none 0 1 2' \
    '1 3 5 0 none 0 1 2 ' '1 3 5 0 none 0 1 2\r' '1 3 5 -0 none 0 1 2' '1 3 5 0 none -0 1 2' '-1 3 5 0 none 0 1 2' \
    '1 3 5 0 none 0 01 2' '1 3 05 0 none 0 1 2' '01 3 5 0 none 0 1 2' '1 3 5 00 none 0 1 2' '1 3 5 0 22 0 1 2' \
    '1 3 5 0 None 0 1 2' '1 3 5 0 non 0 1 2' '1 3 5 0 nones 0 1 2' '1 lookup 5 0 none 0 1 2' '1 3 5 0 none  1 2' \
    '18446744073709551616 3 5 0 none 0 1 2' '1 18446744073709551616 5 0 none 0 1 2' '1 3 4294967296 0 none 0 1 2' \
    '1 3 5 9223372036854775808 none 0 1 2' '1 3 5 -9223372036854775809 none 0 1 2' '1 3 5 0 none 0 1 2\0' \
    '1 3 5 0 none 9223372036854775808 1 2' '1 3 5 0 none 0 18446744073709551616 2' '2 0' '\0' '\200' \
    '1 3 5 0 none 0 1 18446744073709551616' '1 3 5 0 none 0 1 99999999999999999999999999'; do
    verdict "unread 2" "2 0\n$line\n" "the line $line"
    verdict "unread 3" "1 9\n$good\n$line\n$line" "it behind a good one, with wrong settings"
  done
}

long_logs() {
  verdict "order 0 1 2 3 4 5 6 7 8 9 10 11" "2 0\n$(operations 12)\n" "12 operations"
  verdict "refused 14" "2 0\n$(operations 13)\n" "13 operations"
  verdict "refused 14" "2 0\n$(operations 1000)\n" "1000 operations"
  verdict "unread 22" "2 0\n$(operations 20)\n1 3 5 0 none 0 99  100\n" "a bad line after 20 operations"
  verdict "unread 1002" "2 0\n$(operations 1000)\nx" "a bad line after 1000 operations"
  verdict "unread 2" "2 0\n$(printf '%01000000d' 0)\n" "a line of a million zeros"
}

judging() {
  judge=target/bin/judge
  tests/built.sh judge
  check $? "judge is built"
  judged 31 300 "and spoilt ones"
  judged 32 200 "with lines that are none" --unread
  judged 33 100 "of runs" --runs
  first_lines
  operation_lines
  long_logs
}

given=$#
: >"$run/all"
if [ "$given" -eq 0 ]; then
  crowded=(--crowded)
  compare 5 100000
  crowded=()
  set -- 1 100000 2 100000 3 100000 4 100000
fi
while [ $# -gt 0 ]; do
  compare "$1" "$2"
  shift 2
done
occurs
if [ "$given" -eq 0 ]; then
  told_apart
  judging
fi
finish
