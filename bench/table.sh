#!/usr/bin/env bash
# The whole table beside the same source compiled as Rust, a hand-written twin and a locked map: instructions an
# operation, an account of a listing, of rebates and of an export, which stands beside a loop of write!, and a rebate
# alone, and time ratios. callgrind counts inside the compared functions only, so that the driver's loop is not in it.
# Needs rt, cargo and valgrind.
set -euo pipefail
cd "$(dirname "$0")/.."
folder=$(mktemp -d)
trap 'rm -rf "$folder"' EXIT
tests/built.sh capi leaves >&2
cargo build --release --offline --quiet --manifest-path bench/Cargo.toml --bin table

# a line a case: work, workers, side, instructions an operation, an account or a total
counted() {
  local options=() symbol work workers side operations i=0
  for symbol in totals_call totals_step totals_run totals_list 'totals_rebate*' totals_export '*same_totals_call*' \
    '*same_totals_step*' '*same_totals_run*' '*same_totals_list*' '*same_totals_rebate*' '*same_totals_export*' \
    '*Twin::call*' '*Twin::step*' '*Twin::run*' '*Twin::rows*' '*Twin::rebate*' '*Map::operate*' '*sort_rows*' \
    '*write_rows*'; do
    options+=("--toggle-collect=$symbol")
  done
  valgrind --tool=callgrind --callgrind-out-file="$folder/dump" --collect-atstart=no "${options[@]}" \
    --zero-before='*measured_*' --dump-before='*counted*' bench/target/release/table count \
    >"$folder/cases" 2>"$folder/log" ||
    { cat "$folder/log" >&2 && return 1; }
  while read -r work workers side operations; do
    i=$((i + 1))
    awk -v o="$operations" -v c="$work $workers $side" '/^totals: / { printf "%s %.1f\n", c, $2 / o }' "$folder/dump.$i"
  done <"$folder/cases"
}

# such lines as a table, a row for each work and number of workers, then the ratios that are asked for
table() {
  awk -v format="$1" '
    { row = $1 " " $2; value[row, $3] = $4; if (!(row in seen)) { seen[row] = 1; rows[++count] = row } }
    function ratio(row, a, b) { return sprintf("%.2f", value[row, a] / value[row, b]) }
    END {
      sides = split("steps run same same-run twin twin-run map", side)
      printf "%-9s %2s", "work", "n"
      for (i = 1; i <= sides; i++) printf " %9s", side[i]
      printf " %10s %9s %9s %9s\n", "steps:same", "steps:twin", "run:twin", "run:map"
      for (r = 1; r <= count; r++) {
        row = rows[r]
        if (!((row, "map") in value)) continue
        split(row, name, " ")
        printf "%-9s %2s", name[1], name[2]
        for (i = 1; i <= sides; i++) printf " %9" format, value[row, side[i]]
        printf " %10s %9s", ratio(row, "steps", "same"), ratio(row, "steps", "twin")
        printf " %9s %9s\n", ratio(row, "run", "twin"), ratio(row, "run", "map")
      }
    }'
}

# listings PREFIX FORMAT SIDES RATIOS: the works whose names begin so as a table, a row for each number of accounts
listings() {
  awk -v prefix="$1" -v format="$2" -v names="$3" -v asked="$4" '
    !sub("^" prefix, "", $1) { next }
    { value[$1, $3] = $4; if (!($1 in seen)) { seen[$1] = 1; rows[++count] = $1 } }
    END {
      sides = split(names, side)
      ratios = split(asked, ratio)
      printf "%-9s", "accounts"
      for (i = 1; i <= sides; i++) printf " %9s", side[i]
      for (i = 1; i <= ratios; i++) printf " %11s", ratio[i]
      print ""
      for (r = 1; r <= count; r++) {
        row = rows[r]
        printf "%-9s", row
        for (i = 1; i <= sides; i++) printf " %9" format, value[row, side[i]]
        for (i = 1; i <= ratios; i++) {
          split(ratio[i], of, ":")
          printf " %11.2f", value[row, of[1]] / value[row, of[2]]
        }
        print ""
      }
    }'
}

# of an export also what its text takes, which is all but the listing
texts() {
  awk '{ print; of[$1, $3] = $4 } /^export-/ && $3 == "list" { print $1, $2, "text", of[$1, "table"] - $4 }'
}

# nanoseconds an account of an export, after its bytes, as bytes a second, in millions
speeds() { awk '$3 == "bytes" { bytes = $4; next } sub("^export-", "speed-") { $4 = 1000 * bytes / $4; print }'; }

# what is asked for, beside what was counted
goals() {
  awk '
    { value[$1, $2, $3] = $4 }
    function goal(text, is, most) {
      printf "%-58s %8.2f  at most %7.2f  %s\n", text, is, most, is <= most ? "met" : "missed"
    }
    END {
      goal("lookup by single steps", value["lookups", 1, "steps"], 227)
      goal("insert by single steps, n 1", value["inserts", 1, "steps"], 1750)
      goal("insert by single steps, n 8", value["inserts", 8, "steps"], 3300)
      count = split("inserts deletes posts lookups mixed growing", works, " ")
      for (i = 1; i <= count; i++) for (n = 1; n <= 8; n *= 2) if (n != 4) {
        x = value[works[i], n, "steps"] / value[works[i], n, "same"]
        if (x > worst) worst = x
      }
      goal("single steps to the same source as Rust: worst ratio", worst, 1.2)
      goal("lookup by run, most: the map", value["lookups", 1, "run"], value["lookups", 1, "map"])
      goal("insert by run, n 1, most: 1.3 of the twin by single steps", \
        value["inserts", 1, "run"], 1.3 * value["inserts", 1, "twin"])
      a = value["depth-0", 1, "steps"]; b = value["depth-8", 1, "steps"]
      goal("lookup at M 8 to M 0, buckets equally full: ratio", b / a, 1.1)
      goal("listing of 4,096 accounts, an account", value["listing-4096", 1, "table"], 600)
      goal("rebates of 4,096 accounts, an account, most: listing + 100", \
        value["rebates-4096", 1, "table"], value["listing-4096", 1, "table"] + 100)
    }'
}

counted >"$folder/counts"
printf '%s' 'instructions an operation, b 8, M 8 '
echo '(inserts, deletes, posts, lookups, mixed: 1,000 accounts are there; growing: they are inserted)'
table .0f <"$folder/counts"
echo
goals <"$folder/counts"
depths=$(awk '/^depth-. 1 steps/ { printf "%s ", $4 }' "$folder/counts")
echo "lookup by single steps at M 0, 4, 8, 4 accounts in each bucket: $depths"
echo
printf '%s' 'instructions an account of a listing, n 1, b 16, M 8 '
echo '(16 and 1,000 accounts from 1000 up, 4,096 evenly spread; sort: sort_unstable of the same rows alone)'
listings listing- .0f 'table same twin sort' 'table:same table:twin' <"$folder/counts"
echo
printf '%s' 'instructions an account of the rebates, the same accounts, totals of all four bands and negative ones '
echo '(alone: one rebate a call, a total of the 4,096; table and same first zero 48 kB, an instruction a byte)'
listings rebates- .0f 'table same twin' 'table:same table:twin' <"$folder/counts"
echo
printf '%s' 'instructions an account of an export, the same accounts, totals of both signs and of up to 12 digits '
printf '%s' '(write: the listing of table, then a loop of write!; list, loop: these alone; twin: its listing, then the '
echo 'loop; text: table less list; table, same and text are with 48 kB that are first zeroed, an instruction a byte)'
columns='table same twin write list text loop'
texts <"$folder/counts" | listings export- .0f "$columns" 'table:same table:write text:loop'
bench/target/release/table time | texts >"$folder/times"
echo
printf '%s' 'bytes and nanoseconds an account of an export, one run, the least of nine rounds '
echo '(list too has 48 kB zeroed, so that text has not)'
listings export- .1f "bytes $columns" 'table:same table:write text:loop' <"$folder/times"
echo
echo "millions of bytes a second of an export, by the same times"
speeds <"$folder/times" | listings speed- .0f 'table same twin write text loop' 'table:write text:loop'
echo
echo "nanoseconds an operation, one run, the least of nine rounds"
table .1f <"$folder/times"
