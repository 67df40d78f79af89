#!/bin/sh
# The limits that rt fmt does not set: no file of code or proof over 300 lines, no line over 120 columns.
set -eu
cd "$(dirname "$0")/.."
find crates examples include reference tests tools -path 'crates/*/out' -prune -o -type f \
    '(' -name '*.rt' -o -name '*.antt' -o -name '*.rs' -o -name '*.[ch]' -o -name '*.sh' -o -name '*.py' ')' -print |
    LC_ALL=C.UTF-8 xargs wc -l -L | awk '
    $3 != "total" && $1 > 300 { print $3 ": " $1 " lines"; bad = 1 }
    $3 != "total" && $2 > 120 { print $3 ": a line of " $2 " columns"; bad = 1 }
    END { exit bad }'
