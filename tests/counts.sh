# What the test scripts share: a folder for the run, and the counts. Sourced at the top of the repository.
run=$(mktemp -d) || exit 2
trap 'rm -rf "$run"' EXIT
passed=0
failed=0

# check STATUS TEXT: counts a test that passed where STATUS is 0
check() {
  if [ "$1" -eq 0 ]; then
    passed=$((passed + 1))
    echo "ok      $2"
  else
    failed=$((failed + 1))
    echo "FAILED  $2"
  fi
}

# the last line, and the exit status
finish() {
  echo "$passed passed, $failed failed"
  [ "$failed" -eq 0 ]
}
