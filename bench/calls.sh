#!/bin/sh
# Times the calls of sessions on a shared table of 65,536 external entries and 16,384 objects, on one thread and on four, next to
# V8's figures as they are known, each of a machine like this one: nanoseconds a call of one thread. Each figure is the least
# time of five rounds, each on a new table, from the first thread's begin to the last one's end. The last column says in how much of
# that time all threads were at work: where it is far below 100 %, the machine had no processor for each thread, and the figure says
# little of calls at once.
# A second table is of takes from one space by one to four threads, until it is full, next to a plain C++ program of the same steps
# (plain_takes.cpp): millions of takes a second of all threads, the median of those of 30 rounds in which all threads were at work for
# at least 80 % of the time, and how many these were.
# It proves and builds `call_times` in a copy of the crates: its files end in `.in` here, since the gate reads every file of
# code and takes none outside of crates/. Nothing of this is part of the gate.
top=$(dirname -- "$(readlink -f -- "$0")")/..
for tool in c++ rt; do
    command -v "$tool" > /dev/null || { echo "bench: no $tool"; exit 0; }
done
work=$(mktemp -d) || exit 1
trap 'rm -rf "$work"' EXIT
cp "$top/HANDLES" "$work"
mkdir "$work/crates"
below='tag_set plain_table free_chain evac_area table_laws word_laws entry_word sweeper entry_base freelist_rule entry_rule
    object_rule mark_rule call_base space_steps access_steps graph_steps mark_steps worked_tables'
for crate in $below; do
    grep "^$crate:" "$top/crates.txt" >> "$work/crates.txt"
    cp -r "$top/crates/$crate" "$work/crates"
done
# shellcheck disable=SC2086
echo call_times: $below atomic_table >> "$work/crates.txt"
cp -r "$top/bench/call_times" "$work/crates"
find "$work/crates/call_times" -name '*.in' | while read -r file; do mv "$file" "${file%.in}"; done
(cd "$work/crates/call_times" && rt run -- load 1 1 1 > "$work/log" 2>&1) || { cat "$work/log"; exit 1; }
call_times=$work/crates/call_times/out/call_times
plain_takes=$work/plain_takes
c++ -O2 -std=c++17 -pthread -o "$plain_takes" "$top/bench/plain_takes.cpp" || exit 1

# calls KIND STEPS THREADS: that time in nanoseconds, how many calls were made in it, and the part in which all threads were at work
calls() {
    "$call_times" "$@" 5 > "$work/rounds" || exit 1
    sort -n "$work/rounds" | head -n 1
}
# row NAME KNOWN KIND STEPS THREADS [WITHOUT]: nanoseconds a call of one thread, less the time of the kind WITHOUT, which makes the
# other calls of the turn alone; KNOWN is V8's figure on one thread
row() {
    spent=$(calls "$3" "$4" "$5") || exit 1
    around='0 0 0'
    if [ -n "$6" ]; then around=$(calls "$6" "$4" "$5") || exit 1; fi
    known=
    if [ "$5" = 1 ]; then known=$2; fi
    echo "$spent $around" | awk -v name="$1" -v known="$known" -v threads="$5" '
        $2 == 0 { print "bench: no call of " name " had its answer"; exit 1 }
        { printf "| %s | %d | %.2f ns | %s | %d %% |\n", name, threads, ($1 - $4) * threads / $2, known, $3 * 100 / $1 }' || exit 1
}
echo '| Calls | Threads | on the shared table | in V8 | all at work |'
echo '|---|---|---|---|---|'
for threads in 1 4; do
    # the objects of one thread, of all 16,384
    part=$((16384 / threads))
    row 'load, one field' '1.1 to 2 ns' load 50000000 $threads
    row 'load, fields of objects in a random order' '' walk_load 10000000 $threads walk
    row 'raw load, random words' '' raw_load 20000000 $threads
    row 'store, one field' '8 to 10 ns' store 20000000 $threads
    row 'store, fields of objects in a random order' '' walk_store 10000000 $threads walk
    row 'raw store, random words' '' raw_store 20000000 $threads
    row 'init, segments committed before' '20 to 31 ns' init $part $threads fetch
    row 'init, segments committed by the inits' '20 to 31 ns' init_fresh $part $threads fetch
    row 'mark, cells without a mark' '9 to 12 ns' mark $part $threads shade
    row 'mark, a marked cell' '4 to 7 ns' marked 10000000 $threads
    row 'fetch, the next object' '' fetch 10000000 $threads
    row 'fetch, objects in a random order' '' walk 10000000 $threads
done

# with a processor for each thread even where others are at work, if the system grants it
ahead=
if chrt -r 1 true 2> /dev/null; then ahead='chrt -r 1'; fi
# rate PROGRAM KIND THREADS: the median, and of how many rounds it is
rate() {
    # shellcheck disable=SC2086
    $ahead "$1" "$2" 65535 "$3" 30 > "$work/rounds" || exit 1
    awk '$2 != 65535 { print "bench: a round of " $2 " takes" > "/dev/stderr"; exit 1 }' "$work/rounds" || exit 1
    awk '$3 >= $1 * 0.8 { print $2 * 1000 / $1 }' "$work/rounds" | sort -n | awk '
        { rates[NR] = $1 }
        END {
            if (NR == 0) print "no round"
            else printf "%.1f M/s (%d)\n", (rates[int((NR + 1) / 2)] + rates[int(NR / 2) + 1]) / 2, NR
        }'
}
# takes NAME KIND THREADS KNOWN: of one space, all of its 65,535 indexes
takes() {
    ours=$(rate "$call_times" "$2" "$3") || exit 1
    plain=$(rate "$plain_takes" "$2" "$3") || exit 1
    echo "| $1 | $3 | $ours | $plain | $4 |"
}
echo
echo '| Takes and puts | Threads | on the shared table (rounds of 30) | in C++ (rounds of 30) | in V8 |'
echo '|---|---|---|---|---|'
for kind in put put_fresh; do
    name='segments committed before'
    if [ "$kind" = put_fresh ]; then name='segments committed by the takes'; fi
    takes "$name" "$kind" 1 '50 M/s'
    takes "$name" "$kind" 2 '10 M/s'
    takes "$name" "$kind" 3 '7 M/s'
    takes "$name" "$kind" 4 ''
done
