#!/bin/sh
# Builds the benchmark and prints the tables of docs/BENCHMARKS.md, from any current directory. The
# library is made first where it is missing or older than its sources. Nothing else should run meanwhile.
#
#   sh bench/run.sh                         the whole
#   sh bench/run.sh --mb 16 --runs 3        on reels of 16 MB and less, to try it
#   sh bench/run.sh eagle                   the table of one part: nearest, growth, cards, eagle, long or
#                                           order
set -eu
cd "$(dirname "$0")/.."

make --silent --no-print-directory build/libaukpocket.a >&2
cargo build --release --offline --quiet --manifest-path bench/Cargo.toml --target-dir build/cargo/bench

# segyio is a Debian package, python3-segyio, of the system's own Python.
reader=''
for python in python3 /usr/bin/python3; do
    if [ -z "$reader" ] && "$python" -c 'import segyio' 2>/dev/null; then reader=$python; fi
done

model=$(sed -n 's/^model name[^:]*: *//p' /proc/cpuinfo | head -n 1)
memory=$(awk '/^MemTotal/ { printf "%.0f", $2 / 1e6 }' /proc/meminfo)
echo "Processor: $model, $(nproc) cores; memory: $memory GB; $(rustc --version | cut -d ' ' -f 1-2)."
case ${1:-} in
    nearest | growth | cards | eagle | long | order)
        build/cargo/bench/release/bench "$@"
        exit
        ;;
esac
build/cargo/bench/release/bench ${reader:+--segyio "$reader"} "$@"
build/cargo/bench/release/bench nearest "$@"
build/cargo/bench/release/bench growth "$@"
build/cargo/bench/release/bench cards "$@"
build/cargo/bench/release/bench eagle "$@"
build/cargo/bench/release/bench long "$@"
build/cargo/bench/release/bench order "$@"
