#!/bin/sh
# Times the parts of a collection cycle, each by itself, by a monotonic clock: the clearing of marks (`clear_marks`), late marking
# (`late_mark`) and the sweep (`sweep`) of `sweeper`, with the same part in plain C++ over the same words (plain_sweep.cpp). A
# figure is the least of five runs, each on new tables, in nanoseconds a word, an object or an entry of the external space. A run
# has as many turns as take about a second, and both programs have to say that they did the same.
# It proves and builds `sweep_times` in a copy of the crates: its files end in `.in` here, since the gate reads every file of
# code and takes none outside of crates/. Nothing of this is part of the gate.
top=$(dirname -- "$(readlink -f -- "$0")")/..
for tool in c++ rt; do
    command -v "$tool" > /dev/null || { echo "bench: no $tool"; exit 0; }
done
work=$(mktemp -d) || exit 1
trap 'rm -rf "$work"' EXIT
cp "$top/HANDLES" "$work"
mkdir "$work/crates"
for crate in tag_set plain_table free_chain evac_area table_laws word_laws entry_word sweeper mutator_calls; do
    grep "^$crate:" "$top/crates.txt" >> "$work/crates.txt"
    cp -r "$top/crates/$crate" "$work/crates"
done
echo 'sweep_times: sweeper mutator_calls entry_word plain_table tag_set' >> "$work/crates.txt"
cp -r "$top/bench/sweep_times" "$work/crates"
find "$work/crates/sweep_times" -name '*.in' | while read -r file; do mv "$file" "${file%.in}"; done
(cd "$work/crates/sweep_times" && rt run -- empty 1 1 > "$work/log" 2>&1) || { cat "$work/log"; exit 1; }
c++ -O3 -std=c++17 -o "$work/plain_sweep" "$top/bench/plain_sweep.cpp" || exit 1

# least PROGRAM KIND SEGMENTS TURNS: the least time of five runs in nanoseconds, and how much was done, or one word where a run fails
least() {
    for _ in 1 2 3 4 5; do
        "$@" || echo failed
    done | sort -n | head -n 1
}
# row NAME UNITS KIND SEGMENTS TURNS: nanoseconds a unit, of which a turn has so many, in both programs
row() {
    ours=$(least "$work/crates/sweep_times/out/sweep_times" "$3" "$4" "$5")
    theirs=$(least "$work/plain_sweep" "$3" "$4" "$5")
    echo "$ours $theirs" | awk -v name="$1" -v units=$(($2 * $5)) '
        NF != 4 || $2 != $4 { print "bench: the programs did not do the same for " name; exit 1 }
        { sub(/[0-9][0-9][0-9]$/, ",&", name)
          printf "| %s | %.2f ns | %.2f ns | %.1f |\n", name, $1 / units, $3 / units, $1 / $3 }' || exit 1
}
echo '| Part | sweeper | in C++ | ratio |'
echo '|---|---|---|---|'
for segments in 16 64 256; do
    words=$((segments * 256))
    row "clearing of marks, a word of $words" $words clear $segments $((4000000 / segments))
done
row 'late marking, a chain of 16,384 objects, an object' 16384 chain 256 1000
row 'late marking, 16 chains, an object' 16384 wide 256 1000
row 'late marking, three trees of four branches, an object' 16383 tree 256 1000
row 'late marking, four references each, an object' 16384 heap 256 1000
# sweeps NAME KIND TURNS: of three sizes, where the greatest one is swept in so many turns
sweeps() {
    for segments in 16 64 256; do
        entries=$((segments * 256))
        row "sweep, $1, an entry of $entries" $entries "$2" $segments $(($3 * 256 / segments))
    done
}
sweeps 'no cell' empty 1000
sweeps 'cells in half of the entries' cells 1000
sweeps 'moves of a quarter of the entries' moves 250
