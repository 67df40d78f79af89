# The static library for C, proved and built: target/staticlib/liblanes.a.
set -eu
cd "$(dirname "$0")/.."
python3 -B tools/kit.py lanes_c
mkdir -p target/staticlib
cp crates/lanes_c/out/liblanes_c.a target/staticlib/liblanes.a
