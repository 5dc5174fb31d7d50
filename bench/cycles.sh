#!/bin/sh
# Times `eptrun run` on scripts with collection cycles: bench/cycles.sh [EPTRUN]
# It takes the program that ./gate kept, or another that is named. A row is a number of operations of a mix (mix.py) over 16,384
# objects and 16,384 external entries, with 1,000 meets or fewer: milliseconds where all of these are plain, where they are
# starts and finishes of cycles with no evacuation area, and where each cycle has one; and the most memory of the last. So the
# second column without the first one is the cost of the starts, marks and sweeps, and the third one adds that of the moves. A
# time is the least processor time of 15 runs of the whole process. Nothing of this is part of the gate.
top=$(dirname -- "$(readlink -f -- "$0")")/..
program=${1:-$top/proved/$("$top/tools/checksum" eptrun)/eptrun}
[ -x "$program" ] || { echo "bench: no program at $program; run ./gate first"; exit 0; }
for tool in python3 /usr/bin/time; do
    command -v "$tool" > /dev/null || { echo "bench: no $tool"; exit 0; }
done
work=$(mktemp -d) || exit 1
trap 'rm -rf "$work"' EXIT
echo '| Operations | Meets | plain | cycles | cycles with an area | Memory |'
echo '|---|---|---|---|---|---|'
for size in '25000 126' '50000 250' '100000 500' '200000 1000'; do
    operations=${size% *}
    meets=${size#* }
    row="| $operations | $meets |"
    for policy in PLAIN never always; do
        python3 "$top/bench/mix.py" "$operations" "$meets" "$policy" > "$work/script" || exit 1
        time=$(python3 "$top/bench/least.py" 15 "$work/script" run "$program") || exit 1
        row="$row $time ms |"
    done
    /usr/bin/time -o "$work/memory" -f %M "$program" run < "$work/script" > /dev/null
    echo "$row $(awk '{ printf "%.1f", $1 / 1024 }' "$work/memory") MiB |"
done
