# The library against the reference, through its C interface. Every case depends on its seed alone.
set -eu
cd "$(dirname "$0")/../reference"
made=$(mktemp -d)
trap 'rm -rf "$made"' EXIT

# more than 2^32 moves take about ten seconds, beside the rest
cargo build --release --offline --quiet --features runs --bin counts --bin differ --bin litmus
cargo run --release --offline --quiet --features runs --bin counts > "$made/counts" &
counts=$!
cargo run --release --offline --quiet --features runs --bin differ -- 10000 1
cargo run --release --offline --quiet --features runs --bin litmus > "$made/table"
sed -n '/^| test /,$p' ../docs/LITMUS.md | cmp - "$made/table"
echo "litmus: $(grep -c '^| ' "$made/table") lines as in docs/LITMUS.md"
wait "$counts" || { cat "$made/counts"; exit 1; }
cat "$made/counts"
