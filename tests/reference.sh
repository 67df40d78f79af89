# The reference on its own. Every case depends on its seed alone.
set -eu
cd "$(dirname "$0")/../reference"
made=$(mktemp -d)
trap 'rm -rf "$made"' EXIT

cargo test --release --offline --quiet
cargo run --release --offline --quiet --bin agree -- 5000 1
mkdir -p "$made/vectors/data"
cargo run --release --offline --quiet --bin vectors -- "$made/vectors"
for part in data args stdout; do
    diff -r "$made/vectors/$part" "../crates/vectors/$part"
done
mkdir "$made/examples"
cargo run --release --offline --quiet --bin kernels -- "$made/examples" listing
for file in "$made"/examples/*; do
    cmp "$file" "../examples/${file##*/}"
done
cargo build --release --offline --quiet --bin translated
(cd .. && target/reference/release/translated examples/*.kernel) | cmp - ../examples/translate.expected
echo "vectors and examples: kernels, schedules and expected output as the reference has them"
