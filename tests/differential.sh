#!/bin/sh
# Compares the library's C interface with an independent implementation of documents 01 and 02, from any current directory. Makes the
# library first where it is missing or older than its sources. With the argument every-word it compares all words of code 5, and nothing
# else, with the host's own floats: that takes some minutes.
set -eu
cd "$(dirname "$0")/.."

make --silent --no-print-directory build/libaukpocket.a
CARGO_TARGET_DIR=$(pwd)/build/cargo/tests
export CARGO_TARGET_DIR
cargo test --release --offline --quiet --manifest-path tests/independent/Cargo.toml
cargo run --release --offline --quiet --manifest-path tests/differential/Cargo.toml -- "$@"
