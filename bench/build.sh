#!/bin/sh
# Builds a program that times calls of this repository's crates, in a repository of its own, and prints where it is.
#
#   bench/build.sh DIR MAIN CRATE..
#
# DIR is an empty directory to build in, MAIN the text of the program, and each CRATE one that it names.
set -eu

folder=$1 main=$2
shift 2
top=$(cd "$(dirname "$0")/.." && pwd)

mkdir -p "$folder/crates/timed/src"
cp "$main" "$folder/crates/timed/src/main.rt"
cp "$top/crates.txt" "$folder/crates.txt"
echo "timed: $*" >> "$folder/crates.txt"
for crate in "$top"/crates/*/; do
    mkdir "$folder/crates/$(basename "$crate")"
    for part in src specs proofs; do
        [ ! -d "$crate$part" ] || cp -r "$crate$part" "$folder/crates/$(basename "$crate")"
    done
done
echo 'build.sh: proving and building the program; the first time takes minutes' >&2
# Without its arguments the program may fail: only that it is there counts.
(cd "$folder/crates/timed" && rt run) > "$folder/log" 2>&1 < /dev/null || true
[ -x "$folder/crates/timed/out/timed" ] || { tail -n 40 "$folder/log" >&2; echo 'build.sh: the program could not be built' >&2; exit 1; }
echo "$folder/crates/timed/out/timed"
