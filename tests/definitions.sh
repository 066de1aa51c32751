#!/usr/bin/env bash
# Wrong definitions whose code would be wrong alike. The contracts, equalities with the definitions, would hold; what is
# left to refuse them are the theorems of `simulation`. They are tried on a copy of what these theorems rest on, the
# definitions and laws that they name, directly or not: no function, no proof of one. The copy has to check as it is.
# Then each tests/definitions/NAME.edit is applied to it, and the check has to be refused, first at the lemma that the
# edit names. The format is that of must-fail edits (CONTRIBUTING.md), but `file:` is a path in the repository, of a
# definition, and a line `refused: FILE LEMMA` says which lemma that is.
# definitions.sh [--gate | NAME...]: without arguments all edits; with --gate the three of the gate. JOBS says how many
# checks run side by side: else one for each processor.
# The last line is 'N passed, M failed'; the exit status is 0 only if M is 0.
set -u
cd "$(dirname "$0")/.." || exit 2
edits=tests/definitions
gate=(directory_read_keeps_the_depth number_that_alternates taken_into_a_full_bucket)
. tests/scratch.sh
jobs=${JOBS:-$(nproc)}
. tests/counts.sh
copy=$run/copy

# ---- the copy

# cited FILE...: the files of the modules that these name, and those one name shorter, as the last may be a lemma's. One
# of a declared type is in no file: src/ declares it. Nor is one of the library.
cited() {
  grep -ohE 'Rattle\.[a-z0-9_]+\.(specs|proofs)(\.[A-Za-z0-9_]+)+' "$@" |
    sed -E '/^Rattle\.std\./d; s#^Rattle\.#crates/#; s#\.#/#g; p; s#/[^/]*$##' | sed 's#$#.antt#' | sort -u
}

# the files of `simulation`, and all that they rest on
rested_on() {
  local all new
  new=$(find crates/simulation/specs crates/simulation/proofs -name '*.antt' | sort)
  all=$new
  while [ -n "$new" ]; do
    # shellcheck disable=SC2086
    new=$(cited $new | comm -13 <(echo "$all") -)
    all=$(sort -u <(echo "$all") <(echo "$new"))
    new=$(for file in $new; do [ ! -e "$file" ] || echo "$file"; done)
  done
  echo "$all"
}

# declarations CRATE: its source, with the types that it declares and what they use, and without functions
declarations() {
  local file
  mkdir -p "$copy/crates/$1/src"
  for file in "crates/$1/src/"*.rt; do awk -f "$edits/declarations.awk" "$file" >"$copy/$file"; done
}

# index FOLDER FILE: the file names the folder's modules
index() {
  local file
  for file in "$1"/*.antt; do
    [ "$file" = "$2" ] || echo "pub mod $(basename "$file" .antt)"
  done >"$2.modules"
  mv "$2.modules" "$2"
}

# the copy, with the lines of crates.txt as far as they are about its crates
make_copy() {
  local file crate crates folder
  rested_on >"$run/files"
  crates=$(cut -d/ -f2 "$run/files" | grep -v '\.antt$' | sort -u)
  while read -r file; do
    [ ! -e "$file" ] || { mkdir -p "$copy/${file%/*}" && cp "$file" "$copy/$file"; }
  done <"$run/files"
  for crate in $crates; do declarations "$crate"; done
  find "$copy/crates" -depth -path '*/crates/*/*' -type d ! -name src ! -path "$copy/crates/simulation/*" |
    while read -r folder; do
      case $folder in
      */specs | */proofs) index "$folder" "$folder/Lib.antt" ;;
      *) index "$folder" "$folder.antt" ;;
      esac
    done
  awk -v crates="$crates" '
    BEGIN { split(crates, list); for (i in list) here[list[i] ":"] }
    $1 in here { line = $1; for (i = 2; i <= NF; i++) if ($i ":" in here) line = line " " $i; print line }
  ' crates.txt >"$copy/crates.txt"
}

# errors LOG: the first lines of it that say what is wrong
errors() { grep -E ': error|did not build|no proof' "$1" | cut -c 1-300 | head -n 5 | sed 's/^/        /'; }

# the copy as it is: `simulation` over what it rests on, from nothing. What is proved of it is kept, and a check of
# another copy begins with it, so that with an edit only what rests on the changed definition is checked again.
check_copy() {
  local began=$SECONDS
  (cd "$copy" && rt all check --jobs "$jobs") >"$run/copy.log" 2>&1
  local status=$?
  check "$status" "the copy as it is: $(wc -l <"$copy/crates.txt") crates, $((SECONDS - began)) s"
  [ "$status" -eq 0 ] || errors "$run/copy.log"
}

# ---- the edits

# apply NAME FOLDER: the edit on a copy; where it cannot be, it says why
apply() {
  local line file='' old='' text rest pairs=0
  while IFS= read -r line; do
    case $line in
    'file: '*) file=${line#file: } ;;
    'old: '*) old=${line#old: } ;;
    new:*)
      [[ $file == crates/*/specs/*.antt && -f $2/$file ]] || { echo "no definitions of the copy: $file" && return 1; }
      text=$(<"$2/$file")
      rest=${text#*"$old"}
      [[ -n $old && $rest != "$text" && $rest != *"$old"* ]] || { echo "not in $file once: $old" && return 1; }
      line=${line#new:}
      printf '%s\n' "${text%%"$old"*}${line# }$rest" >"$2/$file"
      pairs=$((pairs + 1)) old=''
      ;;
    esac
  done <"$edits/$1.edit"
  [ "$pairs" -gt 0 ] || { echo "no pair of old and new" && return 1; }
}

# refusal LOG: the file and the lemma of the first error, a fact that does not hold and no name that is missing. rt
# names a file from its crate's folder, and a crate below `simulation` where it was not built.
refusal() {
  local crate
  crate=$(sed -nE 's/^rt: the library ([a-z0-9_]+) did not build.*/\1/p' "$1" | head -n 1)
  grep -m 1 ': error' "$1" | grep -vE 'is not in scope|that can be named from here' |
    sed -nE "s#^(.*/)?(proofs/[^:]*):[0-9]+:[0-9]+: error: \`([^\`]*)\`: .*#crates/${crate:-simulation}/\2 \3#p"
}

# try NAME: leaves what became of the edit in NAME.said, and 0 in NAME.status if it is refused where it says
try() {
  local name=$1 began=$SECONDS said wanted first at=$run/$1
  echo 1 >"$at.status"
  wanted=$(sed -n 's/^refused: //p' "$edits/$name.edit")
  mkdir "$at" && tar -C "$copy" --exclude=out -cf - . | tar -C "$at" -xf -
  if ! said=$(apply "$name" "$at"); then
    echo "NOT REFUSED: $name: bad edit: $said" >"$at.said"
  elif (cd "$at/crates/simulation" && rt check) >"$at.log" 2>&1; then
    echo "NOT REFUSED: $name: the copy is still proved, $((SECONDS - began)) s" >"$at.said"
  else
    first=$(refusal "$at.log")
    if [ -n "$first" ] && [ "$first" = "$wanted" ] && grep -q '^logic=not-proved' "$at.log"; then
      echo 0 >"$at.status"
      echo "refused: $name ($first), $((SECONDS - began)) s" >"$at.said"
    else
      echo "NOT REFUSED: $name: not at ($wanted), but first at (${first:-no lemma}):" >"$at.said"
      errors "$at.log" >>"$at.said"
    fi
  fi
  rm -rf "$at"
}

# try_all NAME...: some at a time, shown in order
try_all() {
  local name started=()
  for name; do
    [ "${#started[@]}" -lt "$jobs" ] || { shown "${started[@]::1}" && started=("${started[@]:1}"); }
    try "$name" &
    started+=("$name=$!")
  done
  shown "${started[@]}"
}

# shown NAME=PID...: each, when it has ended
shown() {
  local one
  for one; do
    wait "${one#*=}"
    check "$(cat "$run/${one%%=*}.status")" "$(cat "$run/${one%%=*}.said")"
  done
}

case ${1:-} in
--gate) names=("${gate[@]}") ;;
'') mapfile -t names < <(basename -s .edit -a "$edits"/*.edit) ;;
*) names=("$@") ;;
esac
for name in "${names[@]}"; do
  [ -f "$edits/$name.edit" ] || { echo "there is no $edits/$name.edit" && exit 2; }
done
make_copy
check_copy
[ "$failed" -eq 0 ] && try_all "${names[@]}"
finish
