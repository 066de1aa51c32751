#!/usr/bin/env bash
# built.sh NAME...: builds what is missing or older than a Rattle file: of `totals` and `judge` the program,
# target/bin/NAME, and of any other name the static library target/staticlib/libNAME.a, which is that of the crate
# NAME_c. What `rt ci` has left of a program is taken as it is; else it is proved, built and run on its stored input. It
# says something only where that fails. Whoever else asks waits.
set -u
cd "$(dirname "$0")/.." || exit 2
exec 9<crates.txt
flock 9
said=$(mktemp) || exit 2
trap 'rm -f "$said"' EXIT

# fresh FILE: it is there, and no Rattle file is newer
fresh() {
  [ -e "$1" ] && [ -z "$(find crates crates.txt -path 'crates/*/out' -prune -o -newer "$1" \
    \( -name '*.rt' -o -name '*.antt' -o -name crates.txt \) -print -quit)" ]
}

# run_stored: of the program of this folder, what it writes on its stored input has to be what is stored
run_stored() { rt run <stdin 2>"$said" 9<&- | cmp - stdout && [ "${PIPESTATUS[0]}" -eq 0 ]; }

program() {
  local made=crates/$1/out/$1
  fresh "$made" || (cd "crates/$1" && run_stored) || { cat "$said" && return 1; }
  mkdir -p target/bin && cp "$made" "target/bin/$1"
}

library() {
  (cd "crates/$1_c" && rt lib) >"$said" 2>&1 9<&- || { cat "$said" && return 1; }
  mkdir -p target/staticlib && cp "crates/$1_c/out/lib$1_c.a" "target/staticlib/lib$1.a"
}

for name; do
  case $name in
  totals | judge) fresh "target/bin/$name" || program "$name" || exit 1 ;;
  *) fresh "target/staticlib/lib$name.a" || library "$name" || exit 1 ;;
  esac
done
