#!/bin/sh
# Times reads and writes of one code entry, on one thread and on four, next to the same steps in Rust.
# It proves and builds `code_times` in a copy of the crates: its files end in `.in` here, since the gate reads every file of
# code and takes none outside of crates/. Nothing of this is part of the gate.
top=$(dirname -- "$(readlink -f -- "$0")")/..
command -v rustc >/dev/null || { echo "bench: no rustc"; exit 0; }
command -v rt >/dev/null || { echo "bench: no rt"; exit 0; }
work=$(mktemp -d) || exit 1
trap 'rm -rf "$work"' EXIT
mkdir -p "$work/crates/code_steps" "$work/crates/code_times"
cp "$top/HANDLES" "$work"
grep '^code_steps:' "$top/crates.txt" > "$work/crates.txt"
echo 'code_times: code_steps' >> "$work/crates.txt"
(cd "$top/crates/code_steps" && cp -r src specs proofs "$work/crates/code_steps")
cp -r "$top/bench/code_times/." "$work/crates/code_times"
find "$work/crates/code_times" -name '*.in' | while read -r file; do mv "$file" "${file%.in}"; done
(cd "$work/crates/code_times" && rt run -- read 1 > "$work/log" 2>&1) || { cat "$work/log"; exit 1; }
rustc -O -o "$work/sequence_lock" "$top/bench/sequence_lock.rs" || exit 1

# the least time of five runs, in milliseconds
least() {
    best=
    for _ in 1 2 3 4 5; do
        begin=$(date +%s%N)
        "$@" || exit 1
        spent=$((($(date +%s%N) - begin) / 1000000))
        if [ -z "$best" ] || [ "$spent" -lt "$best" ]; then best=$spent; fi
    done
    echo "$best"
}
for calls in 'read 400000000' 'write 40000000'; do
    # shellcheck disable=SC2086
    ours=$(least "$work/crates/code_times/out/code_times" $calls)
    # shellcheck disable=SC2086
    theirs=$(least "$work/sequence_lock" $calls)
    echo "$calls: $ours ms, in Rust $theirs ms, ratio $((ours * 100 / theirs))/100"
done

# Four threads at one entry. The time of all calls would say little: most of them may find the entry held, and it swings with where
# the table lies. So the calls that were finished are counted, by the millisecond: writes that were done, and reads that gave a pair,
# of an entry that changes all the time.
finished() {
    for _ in 1 2 3 4 5; do
        begin=$(date +%s%N)
        counts=$("$@" four 10000000) || exit 1
        spent=$((($(date +%s%N) - begin) / 1000000 + 1))
        echo "  $((${counts% *} / spent)) writes and $((${counts#* } / spent)) pairs a millisecond"
    done
}
echo 'four threads:'
finished "$work/crates/code_times/out/code_times"
echo 'four threads, in Rust:'
finished "$work/sequence_lock"
