#!/usr/bin/env bash
# How long the program reads a script, beside how long it replays it.
#
#     bench/reading.sh PROGRAM
#
# PROGRAM is the built program. A script whose last line has a fault is read whole and not replayed, so that its time is
# that of reading alone. Each figure is the least of five runs, in milliseconds.
set -eu
program=$1
folder=$(mktemp -d)
trap 'rm -rf "$folder"' EXIT

# The least time of five runs on the script.
least() {
    local best=
    for _ in 1 2 3 4 5; do
        local start end
        start=$(date +%s%N)
        "$program" replay < "$1" > /dev/null 2>&1 || true
        end=$(date +%s%N)
        local took=$(((end - start) / 1000000))
        if [ -z "$best" ] || [ "$took" -lt "$best" ]; then best=$took; fi
    done
    echo "$best"
}

# A script of so many look-ups and of so many turns, a hundred on a line.
script() {
    echo "places 1 1"
    for _ in $(seq "$1"); do echo "client 1 lookup /some/name"; done
    for _ in $(seq $(($2 / 100))); do echo "turns$(printf ' 1%.0s' $(seq 100))"; done
}

echo "commands turns read replayed"
for commands in 15000 30000 60000; do
    turns=$((commands * 50 / 3))
    script "$commands" "$turns" > "$folder/good"
    { cat "$folder/good"; echo "turns 2"; } > "$folder/bad"
    echo "$commands $turns $(least "$folder/bad") $(least "$folder/good")"
done

echo "bytes of spaces read"
for bytes in 1000000 2000000 4000000; do
    { echo "places 1 1"; head -c "$bytes" /dev/zero | tr '\0' ' ' | fold -w 4000; echo; echo "frob"; } > "$folder/spaces"
    echo "$bytes $(least "$folder/spaces")"
done

echo "words 1*1000000 read"
for words in 250 500; do
    { echo "places 1 1"; echo "client 1 lookup /a"; echo "turns$(printf ' 1*1000000%.0s' $(seq "$words"))"; } > "$folder/repeats"
    echo "$words $(least "$folder/repeats")"
done
