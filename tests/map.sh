#!/bin/sh
# README's table of layers names every crate of crates.txt, and no other.
set -eu
cd "$(dirname "$0")/.."
lists=$(mktemp -d)
trap 'rm -rf "$lists"' EXIT
sed -n 's/^\([a-z0-9_]*\)\( staticlib\)\{0,1\}:.*/\1/p' crates.txt | sort > "$lists/crates"
sed -n '/^| layer |/,/^$/p' README.md | cut -d '|' -f 3 | grep -o '`[a-z0-9_]*`' | tr -d '`' | sort > "$lists/map"
diff "$lists/crates" "$lists/map" || { echo "README's table of layers and crates.txt differ"; exit 1; }
