#!/bin/sh
# A byte number handed over where a place is wanted must not compile. The same caller is compiled
# three times: as it should be, and with each wrong line, which has to be refused for its types.
set -eu
top=$(cd "$(dirname "$0")/.." && pwd)
room=$(mktemp -d)
trap 'rm -rf "$room"' EXIT
mkdir -p "$room/crates/caller/src"
for crate in numbers places; do
    mkdir "$room/crates/$crate"
    for part in src specs proofs; do
        [ ! -d "$top/crates/$crate/$part" ] || cp -R "$top/crates/$crate/$part" "$room/crates/$crate/"
    done
done
printf 'numbers:\nplaces: numbers\ncaller: places numbers\n' >"$room/crates.txt"

compile() { # LINE
    cat >"$room/crates/caller/src/lib.rt" <<CALLER
use numbers::ByteNo;
use numbers::Place;

pub fn count_field(header: Place, count: ByteNo) -> Option<Place> {
    $1
}
CALLER
    (cd "$room/crates/caller" && rt check) >"$room/log" 2>&1
}

compile 'places::place_of(header, count)' || {
    echo 'byte_number_for_place: the right line was refused:'
    cat "$room/log"
    exit 1
}
for wrong in 'places::place_of(count, count)' 'Some(count)'; do
    if compile "$wrong"; then
        echo "byte_number_for_place: compiled: $wrong"
        exit 1
    fi
    grep -q 'error\[mismatched-types\]: expected `Place`, found `ByteNo`' "$room/log" || {
        echo "byte_number_for_place: refused, but not for its types: $wrong"
        cat "$room/log"
        exit 1
    }
done
echo 'byte_number_for_place: a byte number for a place does not compile'
