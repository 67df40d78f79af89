# The programs and the C example on the shipped kernels, held to the listings, pages and counts of the reference.
set -eu
cd "$(dirname "$0")/.."
built=$(mktemp -d)
trap 'rm -rf "$built"' EXIT

for kernel in examples/*.kernel; do
    crates/lanetext/out/lanetext < "$kernel" > "$built/listing"
    cmp "$built/listing" "${kernel%.kernel}.listing"
    crates/lanepage/out/lanepage < "$kernel" > "$built/page"
    cmp "$built/page" "${kernel%.kernel}.page"
done

# the end of the schedule for four lanes, on the three machines
for machine in source tso pso; do
    crates/lanerun/out/lanerun examples/four-lanes.kernel $machine examples/four-lanes.moves > "$built/told"
    sed -n '/^done /,$p' "$built/told" > "$built/end"
    { sed "1,/^four-lanes.moves $machine\$/d; /^four-lanes.moves /,\$d" crates/vectors/stdout; echo ran; } |
        cmp "$built/end" -
done

listings() {
    (cd reference && cargo run --release --offline --quiet --bin listings -- "$@")
}
listings ../crates/lanetext/out/lanetext listing 1000 1
listings ../crates/lanepage/out/lanepage page 1000 1

sh tools/liblanes.sh > "$built/log" 2>&1 || { cat "$built/log"; exit 1; }
cc -std=c99 -Wall -Wextra -Wpedantic -Werror -O2 examples/translate.c target/staticlib/liblanes.a -o "$built/translate"
"$built/translate" examples/*.kernel > "$built/translated"
cmp "$built/translated" examples/translate.expected

# the stack of each call, on the longest kernel
cc -std=c11 -Wall -Wextra -Werror -O2 tests/stack.c target/staticlib/liblanes.a -lpthread -o "$built/stack"
"$built/stack" > "$built/bytes" || { cat "$built/bytes"; exit 1; }

# input that no kernel can be: nothing at all, and more than any kernel has
printf 'refused 1 record 0\n' > "$built/truncated"
printf 'refused 3 record 0\n' > "$built/long"
for program in lanetext lanepage; do
    crates/$program/out/$program < /dev/null | cmp - "$built/truncated"
    { cat examples/store-buffering-mask-3.kernel; head -c 100000 /dev/zero; } |
        crates/$program/out/$program | cmp - "$built/long"
done
# schedules by hand: a move that no machine has, a line that is no move, refused kernels, a file that is not there
last_line() {
    crates/lanerun/out/lanerun "$1" "$2" "$3" | tail -n 1 | grep -Fxq "$4" ||
        { echo "lanerun $1 $2 $3: not '$4'"; exit 1; }
}
kernel=examples/store-buffering-mask-3.kernel
printf '0 0\n2 0\n' > "$built/third-lane.moves"
printf '# a move, then half of one\n0 0\n1\n' > "$built/half.moves"
last_line $kernel source examples/store-buffering.moves ran
last_line $kernel tso "$built/third-lane.moves" 'refused 10 record 0'
last_line $kernel tso "$built/half.moves" 'schedule line 3 is not a move'
last_line examples/damaged.kernel tso examples/store-buffering.moves 'refused 5 record 3'
last_line examples/crossed-locks.kernel pso "$built/third-lane.moves" 'refused 12 record 10'
last_line examples/nested-locks.kernel pso examples/store-buffering.moves ran
last_line $kernel tso "$built/none.moves" "cannot read $built/none.moves"
last_line $kernel both examples/store-buffering.moves 'usage: lanerun KERNEL source|tso|pso SCHEDULE'
echo "examples: $(ls examples/*.kernel | wc -l) kernels listed, paged, lowered and run as the reference has them"
