#!/bin/sh
# Makes the command over the proved library where it is missing or older than its sources, tests its modules, tries the command and the
# examples as a user would, and holds docs/FORMAT.md to what the command does.
set -eu
cd "$(dirname "$0")/.."

make --silent --no-print-directory build/aukpocket build/check_reel
cargo test --release --offline --quiet --manifest-path cli/Cargo.toml --target-dir build/cargo/cli
python3 tests/command.py build/aukpocket
python3 tests/format.py build/aukpocket
