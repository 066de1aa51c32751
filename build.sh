#!/usr/bin/env bash
# Builds the static library, the C examples linked with it, and the Rust crate with its examples, and says what it
# built. It needs the Rattle toolchain (rt), a C compiler and cargo, and no network. The library is proved first, which
# takes minutes where `rt check` has not been run in crates/capi_c.
set -eu
cd "$(dirname "$0")"
for tool in rt cc cargo; do
  command -v "$tool" >/dev/null || { echo "build.sh needs $tool, which is not there" >&2 && exit 1; }
done
log=$(mktemp)
trap 'rm -f "$log"' EXIT

# quiet COMMAND...: shows what a command said only where it failed
quiet() { "$@" >"$log" 2>&1 || { cat "$log" >&2 && exit 1; }; }

quiet tests/built.sh capi
mkdir -p target/examples
for example in dispatcher check_log; do
  quiet cc -std=c99 -O2 -Wall -Wextra -pedantic -Iinclude "examples/c/$example.c" target/staticlib/libcapi.a \
    -o "target/examples/$example"
done
quiet cargo build --release --offline --manifest-path bindings/rust/Cargo.toml --target-dir bindings/rust/target \
  --lib --examples

for built in target/staticlib/libcapi.a target/examples/{dispatcher,check_log} \
  bindings/rust/target/release/{libtotals.rlib,examples/dispatcher,examples/check_log}; do
  [ -e "$built" ] && echo "built $built ($(wc -c <"$built") bytes)"
done
