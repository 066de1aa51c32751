#!/usr/bin/env bash
# The worst single call while a table grows, beside a locked map that doubles: instructions, each call counted by itself
# (callgrind writes a dump a call). Needs rt, cargo, valgrind, a minute or two, and room for 200 MB where mktemp makes
# its folders.
set -euo pipefail
cd "$(dirname "$0")/.."
folder=$(mktemp -d)
trap 'rm -rf "$folder"' EXIT
tests/built.sh capi leaves >&2
cargo build --release --offline --quiet --manifest-path bench/Cargo.toml --bin worst

# a line a call: work, workers, the operation's place, its step, instructions
counted() {
  local options=() symbol
  for symbol in totals_call totals_step totals_run '*Map::operate*'; do
    options+=("--toggle-collect=$symbol")
  done
  valgrind --tool=callgrind --callgrind-out-file="$folder/dump" --combine-dumps=yes --dump-line=no \
    --collect-atstart=no "${options[@]}" --dump-after='*alone_*' \
    bench/target/release/worst >"$folder/calls" 2>"$folder/log" || { cat "$folder/log" >&2 && return 1; }
  # the last dump is that of the program's end
  awk '/^totals: / { print $2 }' "$folder/dump" | head -n -1 | paste -d' ' "$folder/calls" -
}

# of each work: the mean and the worst operation, and its worst call with the step that it was
table() {
  awk '
    function named(n, k) {
      if (k == 4 * n + 13 || k == 6 * n + 15 || k == 10 * n + 29 || k == 12 * n + 31) return "directory swap"
      return k == n + 6 || k == 2 * n + 9 || k == 7 * n + 22 || k == 8 * n + 25 ? "bucket swap" : "other step"
    }
    NF != 5 { print "line " NR ": a call without its dump" >"/dev/stderr"; exit 1 }
    $1 != "rest" {
      row = $1 " " $2
      if (!(row in seen)) { seen[row] = 1; rows[++count] = row }
      if (!((row, $3) in operation)) operations[row]++
      sum[row] += $5
      operation[row, $3] += $5
      if (operation[row, $3] > most[row]) most[row] = operation[row, $3]
      if ($5 > worst[row]) { worst[row] = $5; place[row] = $3 + 1; step[row] = $4 }
    }
    END {
      printf "%-12s %2s %8s %7s %7s %11s  %s\n", "work", "n", "inserts", "mean", "worst", "worst call", "which"
      for (r = 1; r <= count; r++) {
        row = rows[r]
        split(row, name, " ")
        which = name[1] ~ /run|map/ ? "whole" : "step " step[row] ", " named(name[2], step[row])
        printf "%-12s %2s %8d %7.0f %7d %11d  insert %d, %s\n", name[1], name[2], operations[row],
          sum[row] / operations[row], most[row], worst[row], place[row], which
      }
    }'
}

counted >"$folder/counts"
cat <<'TEXT'
instructions, b 8 and M 8: the mean and the worst insert, and the worst single call; by single steps in turn, but -run
growing: the first 1,000 accounts of a table; filling: 1,792, 7 in each of 256 buckets
one-bucket: each worker has announced an insert into one full bucket; worker 0 from its step 2 on
deep: the same with a full bucket for each worker, whose accounts' places agree in 8 bits; deep-16: the same at b 16
map: a HashMap behind a Mutex, the same 1,000 accounts; map-4096: 4,096; map-room: 1,000, with room from the start
TEXT
table <"$folder/counts"
