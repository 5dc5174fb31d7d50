#!/bin/sh
# Times `eptrun` on large scripts, next to a plain C++ program of the same job (plain.cpp): bench/scripts.sh [EPTRUN]
# It takes the program that ./gate kept, or another that is named. For each kind of script and number of operations it prints
# a row: milliseconds of `check` in eptrun and in C++, and their ratio, the same of `run`, and the most memory of `run` in
# eptrun and in C++. A time is the least processor time of 15 runs of the whole process. Both programs must write the same
# bytes. After them come the scripts with collection cycles (cycles.sh). Nothing of this is part of the gate.
top=$(dirname -- "$(readlink -f -- "$0")")/..
program=${1:-$top/proved/$("$top/tools/checksum" eptrun)/eptrun}
[ -x "$program" ] || { echo "bench: no program at $program; run ./gate first"; exit 0; }
for tool in c++ python3 /usr/bin/time; do
    command -v "$tool" > /dev/null || { echo "bench: no $tool"; exit 0; }
done
work=$(mktemp -d) || exit 1
trap 'rm -rf "$work"' EXIT
plain=$work/plain
c++ -O2 -std=c++17 -o "$plain" "$top/bench/plain.cpp" || exit 1
runs=15
most_bytes=4194304

# A script of so many operations, of one kind, in a table of 256 segments of 256 entries.
#   loads   of one cell
#   inits   two for each new object; past 16,384 objects the fields are taken, and past 65,535 cells the table is full
#   stores  into one cell, of another value each
#   raw     stores and loads by the word of each index in turn, a third of which have a cell
#   comment no operation, and one comment that makes up the most bytes that a script may have
script() {
    if [ "$1" = comment ]; then
        header='ept 1 seg=256 ext=256 tru=1 objects=16384 mutators=1 markers=0'
        printf '%s\n#' "$header"
        head -c "$((most_bytes - ${#header} - 7))" /dev/zero | tr '\0' x
        printf '\nend\n'
        return
    fi
    awk -v kind="$1" -v count="$2" 'BEGIN {
        print "ept 1 seg=256 ext=256 tru=1 objects=16384 mutators=1 markers=0"
        made = 0
        if (kind == "loads" || kind == "stores") { print "m0 new a"; print "m0 init a 0 0f 0000000000c0"; made = 2 }
        if (kind == "raw") {
            for (; made < count / 4; made += 2) { print "m0 new a"; print "m0 init a 0 0f 0000000000c0" }
        }
        for (i = 0; made < count; i++) {
            if (kind == "loads") line = "load a 0 0f"
            if (kind == "stores") line = sprintf("store a 0 0f %012x", i)
            if (kind == "inits") line = i % 3 ? sprintf("init a %d 0f %012x", i % 3 - 1, i) : "new a"
            if (kind == "raw") {
                word = sprintf("%04x0000", int(i / 2) % 65536)
                line = i % 2 ? "raw " word " 0f" : sprintf("rawset %s 0f %012x", word, i)
            }
            print "m0 " line
            made++
        }
        print "end"
    }'
}
# The most memory of a run of the program, in MiB.
memory() {
    /usr/bin/time -o "$work/memory" -f %M "$1" run < "$work/script" > /dev/null
    awk '{ printf "%.1f", $1 / 1024 }' "$work/memory"
}
# shellcheck disable=SC2016
echo '| Script | Operations | `check` | in C++ | ratio | `run` | in C++ | ratio | Memory | in C++ |'
echo '|---|---|---|---|---|---|---|---|---|---|'
for kind in loads inits stores raw comment; do
    counts='25000 50000 100000 200000'
    [ "$kind" != comment ] || counts=0
    for count in $counts; do
        script "$kind" "$count" > "$work/script"
        # Fewer operations, where so many have more bytes than a script may have.
        while [ "$(wc -c < "$work/script")" -gt "$most_bytes" ]; do
            count=$((count - 10000))
            script "$kind" "$count" > "$work/script"
        done
        row="| $kind | $count |"
        for form in check run; do
            if ! { "$program" "$form" < "$work/script" > "$work/ours" && "$plain" "$form" < "$work/script" > "$work/theirs" &&
                cmp "$work/ours" "$work/theirs"; }; then
                echo "bench: the two programs differ at $form of $count $kind"
                exit 1
            fi
            times=$(python3 "$top/bench/least.py" "$runs" "$work/script" "$form" "$program" "$plain") || exit 1
            row="$row $(echo "$times" | awk '{ printf "%s ms | %s ms | %.1f", $1, $2, $1 / $2 }') |"
        done
        echo "$row $(memory "$program") MiB | $(memory "$plain") MiB |"
    done
done
# Scripts with collection cycles, which plain.cpp does not run.
"$top/bench/cycles.sh" "$program"
