#!/usr/bin/env bash
# Instructions of load, search, put, remove and half on a bucket record: the proved library beside the same source
# compiled as Rust. Counted by callgrind inside the compared function, so that the driver's loop is not in it. Needs rt,
# cargo and valgrind.
set -euo pipefail
cd "$(dirname "$0")/.."
tests/built.sh capi leaves >&2
cargo build --release --offline --quiet --manifest-path bench/Cargo.toml --bin leaves
times=1000

# the instructions of one call
count() {
  local side=$1 operation=$2 accounts=$3 workers=$4 symbol=$5
  valgrind --tool=callgrind --callgrind-out-file=/dev/null --collect-atstart=no --toggle-collect="$symbol" \
    bench/target/release/leaves "$side" "$operation" "$accounts" "$workers" "$times" 2>&1 >/dev/null |
    sed -nE 's/.*Collected : ([0-9]+).*/\1/p' | awk -v t="$times" '{ printf "%.0f", $1 / t }'
}

printf '%-8s %9s %8s %8s %8s %6s\n' operation accounts workers proved rust ratio
for operation in move search put remove half; do
  for shape in '4 1' '4 8' '12 8'; do
    read -r accounts workers <<<"$shape"
    ours=$(count proved "$operation" "$accounts" "$workers" leaf)
    theirs=$(count same "$operation" "$accounts" "$workers" '*same_leaf*')
    ratio=$(awk -v a="$ours" -v b="$theirs" 'BEGIN { printf "%.2f", a / b }')
    printf '%-8s %9s %8s %8s %8s %6s\n' "$operation" "$accounts" "$workers" "$ours" "$theirs" "$ratio"
  done
done
