#!/usr/bin/env bash
# web/test-pages.sh: the pages in a browser. It prints a line for each check, and `N passed, M failed, K skipped` at the end.
#
# LC is the program, `crates/lc/out/lc` of this repository if it is not set. The Debian packages chromium, chromium-driver and python3-selenium have to
# be here, and nginx-light and curl for web/demo.sh; what lacks one is skipped.
set -u
cd "$(dirname "${BASH_SOURCE[0]}")/.." || exit 1
if [ ! -x /usr/bin/python3 ]; then
  echo "skipped: pages, since /usr/bin/python3 is not here"
  echo "0 passed, 0 failed, 1 skipped"
  exit 0
fi
exec /usr/bin/python3 -B web/tests/pages_test.py "$@"
