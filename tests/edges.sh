#!/usr/bin/env bash
# The program at the edges of its input and output: no input, long lines, any bytes, input in pieces, output that cannot
# be written.
set -u
cd "$(dirname "$0")/.." || exit 2
. tests/common.sh

# answers TEXT: the program on $run/input writes what $run/expected has, and nothing to standard error
answers() {
  timeout 60 "$totals" <"$run/input" >"$run/output" 2>"$run/error"
  local status=$?
  [ "$status" -eq 0 ] && [ ! -s "$run/error" ] && cmp "$run/output" "$run/expected"
  check $? "$1"
}

# repeat COUNT TEXT: the text so many times
repeat() { awk -v n="$1" -v text="$2" 'BEGIN { for (i = 0; i < n; i++) printf "%s", text }'; }

whole_inputs() {
  : >"$run/input" && : >"$run/expected"
  answers "no input, no output"
  printf '\n' >"$run/input" && printf 'unread\n' >"$run/expected"
  answers "only a line feed: one line, unread"
  repeat 1000000 x >"$run/input"
  answers "a line of a million bytes that the end of the input ends: one line, unread"
  { repeat 1000000 T && printf '\nT\n'; } >"$run/input" && printf 'unread\nrefused 8\n' >"$run/expected"
  answers "the line after a line of a million bytes"
  printf 'O 1 2 1\n\0\nT\0\n\200\nT\377\n\303\251\nO 1 2 1\0\nT\n' >"$run/input"
  printf 'ok\nunread\nunread\nunread\nunread\nunread\nunread\nend 0\n' >"$run/expected"
  answers "NUL and bytes above 127"
}

# a block of input is 65,536 bytes
blocks() {
  local before
  for before in 0 1 2; do
    { repeat "$before" $'\n' && repeat 40000 $'T\n'; } >"$run/input"
    { repeat "$before" $'unread\n' && repeat 40000 $'refused 8\n'; } >"$run/expected"
    answers "lines over the edges of blocks, $before bytes later"
  done
  repeat 32768 $'T\n' >"$run/input" && repeat 32768 $'refused 8\n' >"$run/expected"
  answers "a line feed as the last byte of the last block"
}

# the most accounts that fit the lent words: 10 in each of 256 buckets, those at the first places of each; the longest
# rows. An account is its place times 244,002,641 modulo 2^32, here in two halves of 16 bits, each product exact
listings() {
  awk 'BEGIN {
    back = 244002641
    for (p = 0; p < 256; p++) for (i = 1; i <= 10; i++) {
      account = (p * 256 * back % 65536 * 65536 + i * back) % 4294967296
      printf "%.0f -9223372036854775808\n", account
    }
  }' | sort -n >"$run/rows"
  { echo 'O 1 10 8' && sed 's/.*/I 0 &\nS 0 9999/' "$run/rows"; } >"$run/fill"
  echo 'end 2560' >>"$run/rows"
  { cat "$run/fill" && repeat 50 $'T\n' && printf 'I 0 0 1\nS 0 9999\nT'; } >"$run/input"
  "$totals" <"$run/input" >"$run/output"
  [ "$(head -n 5121 "$run/output" | tail -n +2 | awk 'NR % 2 ? $0 == "ok" : $2 == "added"' | wc -l)" -eq 5120 ]
  check $? "a table of 2,560 accounts, each added"
  for i in $(seq 50); do cat "$run/rows"; done >"$run/expected"
  { printf 'ok\nanswered crowded 13\n' && cat "$run/rows"; } >>"$run/expected"
  tail -n +5122 "$run/output" | cmp - "$run/expected"
  check $? "51 listings of it, more than the output buffer holds"
}

pieces() {
  local size
  for size in 1 3 64; do
    dd if=crates/totals/stdin bs="$size" status=none | "$totals" | cmp - crates/totals/stdout
    check $? "the stored session in pieces of $size bytes"
  done
  coproc slow { timeout 60 "$totals"; }
  local reply='' early='' pid=$slow_PID in=${slow[1]} out=${slow[0]}
  printf 'O 1 2' >&"$in"
  read -r -t 0.5 -u "$out" early
  printf ' 1\nT' >&"$in"
  read -r -t 20 -u "$out" reply
  [ "$early" = '' ] && [ "$reply" = ok ]
  check $? "a line in two pieces is answered at its line feed, before the input ends"
  exec {in}>&-
  read -r -t 20 -u "$out" reply
  [ "$reply" = 'end 0' ] && wait "$pid"
  check $? "a last line without line feed is answered at the end of the input"
}

# the kit has no exit status: a failure is told on standard error
failures() {
  printf 'O 1 2 1\nT\n' >"$run/input"
  timeout 20 "$totals" <"$run/input" 2>"$run/error" >/dev/full
  [ $? -eq 0 ] && grep -q '^write: ' "$run/error"
  check $? "a full device: ends and says so ($(cat "$run/error"))"
  timeout 20 "$totals" <"$run/input" 2>"$run/error" >&-
  [ $? -eq 0 ] && grep -q '^write: ' "$run/error"
  check $? "a closed output: ends and says so ($(cat "$run/error"))"
  timeout 20 "$totals" <&- >"$run/output" 2>"$run/error"
  [ $? -eq 0 ] && grep -q '^read: ' "$run/error" && [ ! -s "$run/output" ]
  check $? "a closed input: ends and says so ($(cat "$run/error"))"
  timeout 20 "$totals" <. >"$run/output" 2>"$run/error"
  [ $? -eq 0 ] && grep -q '^read: ' "$run/error" && [ ! -s "$run/output" ]
  check $? "a folder as input: ends and says so ($(cat "$run/error"))"
  repeat 400000 $'T\n' | { timeout 20 "$totals" 2>"$run/error"; echo $? >"$run/status"; } | head -c 1 >/dev/null
  # 141: ended by the signal of a pipe that nobody reads; where that is ignored, the write fails
  [ "$(cat "$run/status")" -eq 141 ] || grep -q '^write: ' "$run/error"
  check $? "a pipe that nobody reads: ends (status $(cat "$run/status"))"
}

whole_inputs
blocks
listings
pieces
failures
finish
