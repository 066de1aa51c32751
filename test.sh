#!/usr/bin/env bash
# All tests: the layout of the Rattle files, the proofs with their must-fail edits, and the programs on their stored
# input (rt ci); then what needs none of these, the second model's tests, those of the table's source made Rust, and
# wrong definitions on a copy without code; then, two at a time, the programs and the interfaces for C and Rust against
# the model, foreign memory, and the compiled libraries against their source as Rust.
# What runs beside something else is shown when it has ended. A check takes up to 1 GB of memory.
# The last line is 'N passed, M failed'; the exit status is 0 only if M is 0.
set -u
cd "$(dirname "$0")" || exit 2
logs=$(mktemp -d) || exit 2
trap 'kill $(jobs -p) 2>/dev/null; rm -rf "$logs"' EXIT
passed=0
failed=0

# run NAME COMMAND...: keeps what the command says, and its status
run() {
  local name=$1
  shift
  "$@" >"$logs/$name" 2>&1
  echo $? >"$logs/$name.status"
}

# count NAME: adds the counts that the command printed, its own or those of cargo; a run that failed, or printed no
# count, is one failure at least
count() {
  local lines a b p=0 f=0 log=$logs/$1
  lines=$(sed -nE 's/^([0-9]+) passed, ([0-9]+) failed$/\1 \2/p' "$log")
  [ -n "$lines" ] ||
    lines=$(sed -nE 's/^test result: .* ([0-9]+) passed; ([0-9]+) failed;.*$/\1 \2/p' "$log")
  while read -r a b; do
    p=$((p + ${a:-0}))
    f=$((f + ${b:-0}))
  done <<<"$lines"
  [ "$f" -gt 0 ] || { [ "$(cat "$log.status")" -eq 0 ] && [ -n "$lines" ]; } || f=1
  passed=$((passed + p))
  failed=$((failed + f))
}

# show NAME...: what each command said, and its counts
show() {
  local name
  for name; do
    echo "== $name"
    cat "$logs/$name"
    count "$name"
  done
}

crate() { cargo test --release --offline --no-fail-fast --manifest-path "$1/Cargo.toml"; }

benchmark() { tests/built.sh capi leaves && crate bench; }

# a must-fail edit that cannot be applied or read shows nothing: rt ci tells how many there are, and passes
bad_edits() {
  local bad
  bad=$(sed -nE 's/^rt: ok.*, ([0-9]+) bad[;,].*$/\1/p' "$logs/proofs")
  [ "${bad:-0}" -eq 0 ] || { echo "$bad must-fail edits are bad" && failed=$((failed + bad)); }
}

of_models() {
  run second-model crate model
  run source-as-rust crate tests/same
}

of_program() { for script in compare edges; do run "$script" "tests/$script.sh"; done; }

echo "== proofs: rt ci"
rt ci 2>&1 | tee "$logs/proofs"
echo "${PIPESTATUS[0]}" >"$logs/proofs.status"
count proofs
bad_edits

. tests/scratch.sh
of_models &
run definitions tests/definitions.sh --gate
wait
show second-model source-as-rust definitions

run interfaces tests/interfaces.sh &
of_program
show compare edges
run benchmark benchmark
wait
show interfaces benchmark

echo "$passed passed, $failed failed"
[ "$failed" -eq 0 ]
