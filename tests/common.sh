# What the scripts that run `totals` share: the program, the second model, and the counts.
# Sourced at the top of the repository.
totals=target/bin/totals
model=model/target/release/model
tests/built.sh totals || exit 2
cargo build --quiet --release --offline --manifest-path model/Cargo.toml || exit 2
. tests/counts.sh
