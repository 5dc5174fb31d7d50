#!/bin/sh
# Times `eptrun` on scripts with threads: bench/phases.sh [EPTRUN]
# It takes the program that ./gate kept, or another that is named. The first table is of whole runs: the generated script of seed 1,
# and scripts of a mix (crowd.py) by several mutators and markers; a time is the least wall time of 5 runs of the whole process, and
# memory the most of the last. The second is of 1,000 phases without operations, in a small and in a large table: the cost of opening
# and closing the table and of the threads, a phase. Nothing of this is part of the gate.
top=$(dirname -- "$(readlink -f -- "$0")")/..
program=${1:-$top/proved/$("$top/tools/checksum" eptrun)/eptrun}
[ -x "$program" ] || { echo "bench: no program at $program; run ./gate first"; exit 0; }
for tool in python3 /usr/bin/time; do
    command -v "$tool" > /dev/null || { echo "bench: no $tool"; exit 0; }
done
work=$(mktemp -d) || exit 1
trap 'rm -rf "$work"' EXIT

# The least wall time, in seconds, and the most memory, in KiB, of 5 runs with these words, over the script.
least() {
    for _ in 1 2 3 4 5; do
        /usr/bin/time -a -o "$work/times" -f '%e %M' "$program" "$@" < "$work/script" > /dev/null || exit 1
    done
    sort -n "$work/times" | awk 'NR == 1 { time = $1 } $2 > most { most = $2 } END { printf "%.2f s | %.1f MiB", time, most / 1024 }'
    rm "$work/times"
}

echo '| Script | Time | Memory |'
echo '|---|---|---|'
: > "$work/script"
echo "| \`soak 1\` | $(least soak 1) |"
for crowd in '1 0 0' '2 0 0' '4 0 0' '8 0 0' '1 4 8' '8 4 8'; do
    set -- $crowd
    python3 "$top/bench/crowd.py" 200000 "$1" "$2" "$3" > "$work/script" || exit 1
    echo "| 200,000 operations, $1 mutators, $2 markers, $3 cycles | $(least run) |"
done
echo
echo '| 1,000 empty phases | Time | Memory |'
echo '|---|---|---|'
for table in 'seg=4 ext=1 tru=1 objects=1' 'seg=256 ext=64 tru=1 objects=16384'; do
    for mutators in 1 8; do
        {
            echo "ept 1 $table mutators=$mutators markers=0"
            yes meet | head -n 1000
            echo end
        } > "$work/script"
        echo "| $table, $mutators mutators | $(least run) |"
    done
done
