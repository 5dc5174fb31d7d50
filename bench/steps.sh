#!/bin/sh
# Times single steps of sessions on a shared table (a load, a swap, an exchange that misses), on one thread and on four, with a plain
# C++ program of the same sequentially consistent steps (plain_steps.cpp): nanoseconds a step of one thread.
# It proves and builds `step_times` in a copy of the crates: its files end in `.in` here, since the gate reads every file of
# code and takes none outside of crates/. Nothing of this is part of the gate.
top=$(dirname -- "$(readlink -f -- "$0")")/..
for tool in c++ rt; do
    command -v "$tool" > /dev/null || { echo "bench: no $tool"; exit 0; }
done
work=$(mktemp -d) || exit 1
trap 'rm -rf "$work"' EXIT
cp "$top/HANDLES" "$work"
mkdir "$work/crates"
for crate in tag_set plain_table free_chain table_laws word_laws entry_word entry_base freelist_rule object_rule; do
    grep "^$crate:" "$top/crates.txt" >> "$work/crates.txt"
    cp -r "$top/crates/$crate" "$work/crates"
done
echo 'step_times: freelist_rule object_rule entry_base entry_word plain_table word_laws table_laws free_chain tag_set atomic_table' >> "$work/crates.txt"
cp -r "$top/bench/step_times" "$work/crates"
find "$work/crates/step_times" -name '*.in' | while read -r file; do mv "$file" "${file%.in}"; done
(cd "$work/crates/step_times" && rt run -- load 1 1 > "$work/log" 2>&1) || { cat "$work/log"; exit 1; }
c++ -O2 -std=c++17 -pthread -o "$work/plain_steps" "$top/bench/plain_steps.cpp" || exit 1

# the least time of five runs, in nanoseconds
least() {
    best=
    for _ in 1 2 3 4 5; do
        begin=$(date +%s%N)
        "$@" || exit 1
        spent=$(($(date +%s%N) - begin))
        if [ -z "$best" ] || [ "$spent" -lt "$best" ]; then best=$spent; fi
    done
    echo "$best"
}
echo '| Step | Threads | on the shared table | in C++ | ratio |'
echo '|---|---|---|---|---|'
for row in 'load 400000000 1' 'load 400000000 4' 'swap 40000000 1' 'swap 10000000 4' 'exchange 40000000 1' 'exchange 10000000 4'; do
    # shellcheck disable=SC2086
    ours=$(least "$work/crates/step_times/out/step_times" $row)
    # shellcheck disable=SC2086
    theirs=$(least "$work/plain_steps" $row)
    echo "$row $ours $theirs" | awk '{ printf "| %s | %d | %.2f ns | %.2f ns | %.2f |\n", $1, $3, $4 / $2, $5 / $2, $4 / $5 }'
done
