#!/bin/sh
# Prints how long a head of 5, 50 and 5,000 fields takes to be judged. See docs/PERFORMANCE.md.
#
#   bench/heads.sh
. "$(dirname "$0")/begin.sh"

"$("$bench/build.sh" "$work" "$bench/heads_main.txt" lc_model http_text anyhow)"
