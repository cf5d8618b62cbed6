#!/bin/sh
# Compares two versions of the library, given as static libraries, in one process. Nothing else should run
# meanwhile.
#
#   sh bench/versions.sh OLD.a NEW.a
#   sh bench/versions.sh OLD.a NEW.a --samples 100 --mb 32 --runs 41 --codes 1,2
#   sh bench/versions.sh OLD.a NEW.a --samples 32767         long traces; with a version from before CR 8, 8000 at most
#   sh bench/versions.sh OLD.a NEW.a --small                 all calls on one small reel and its record
#
# Each becomes two shared objects. In the second all functions lie 32 bytes farther.
set -eu
here=$(dirname "$0")
old=$1 new=$2
shift 2

folder=$(mktemp -d)
trap 'rm -rf "$folder"' EXIT
printf '%s\n' '.text' '.zero 32' '.section .note.GNU-stack,"",@progbits' | cc -x assembler -c -o "$folder/moved.o" -
for version in old new; do
    eval "library=\$$version"
    cc -shared -o "$folder/$version.so" -Wl,--whole-archive "$library" -Wl,--no-whole-archive
    cc -shared -o "$folder/$version-moved.so" "$folder/moved.o" -Wl,--whole-archive "$library" -Wl,--no-whole-archive
done

root=$here/..
make --silent --no-print-directory -C "$root" build/libaukpocket.a >&2
cargo build --release --offline --quiet --manifest-path "$here/Cargo.toml" --target-dir "$root/build/cargo/bench"
"$root/build/cargo/bench/release/bench" versions "$folder/old.so" "$folder/old-moved.so" "$folder/new.so" "$folder/new-moved.so" "$@"
