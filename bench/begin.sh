# How every script here begins that measures: it ends at the first failure. `bench` is the directory of the scripts, and `work` a new one,
# which goes when the script ends.
set -eu

bench=$(cd "$(dirname "$0")" && pwd)
work=$(mktemp -d)
trap 'rm -rf "$work"' EXIT
trap 'exit 1' HUP INT TERM
