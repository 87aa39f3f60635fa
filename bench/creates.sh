#!/bin/sh
# How long a replay of N creates takes, and one of creates and mkdirs over several places, beside a C program that makes
# as many files and directories in a folder of memory.
# Prints, for each N, the medians of five runs in milliseconds, and their ratio.
set -eu
here=$(cd "$(dirname "$0")/.." && pwd)
program=$here/crates/cfs/out/cfs
work=$(mktemp -d /dev/shm/cfs-bench.XXXXXX)
trap 'rm -rf "$work"' EXIT

# Builds the program where it is missing.
"$here/cfs" replay <"$here/examples/two-creates.cfs" >/dev/null
${CC:-cc} -O2 -o "$work/yardstick" "$here/bench/yardstick.c"

# N calls by one client in the root, each EVERY-th a mkdir and the others creates (0: no mkdir), and the 3N + 1 turns,
# 2,000 of them in a line.
write_script() {
    awk -v places="$1" -v n="$2" -v every="$3" 'BEGIN {
        print "places " places
        for (i = 0; i < n; i++) print "client 1 " (every && i % every == every - 1 ? "mkdir" : "create") " /f" i
        left = 3 * n + 1
        while (left > 0) {
            line = "turns"
            for (k = 0; k < 2000 && left > 0; k++) { line = line " 1"; left-- }
            print line
        }
    }'
}

# The median of five runs of a command that prints its time.
median() {
    for run in 1 2 3 4 5; do "$@"; done | sort -n | sed -n 3p
}

# One table: the places, and which of the calls are mkdirs.
compare() {
    printf '%8s %12s %14s %8s\n' N 'cfs, ms' 'yardstick, ms' ratio
    for n in 1000 10000 60000; do
        write_script "$1" "$n" "$2" >"$work/script"
        cfs=$(median "$work/yardstick" replay "$program" "$work/script")
        files=$(median "$work/yardstick" create "$n" "$2" "$work")
        awk -v n="$n" -v cfs="$cfs" -v files="$files" 'BEGIN {
            printf "%8d %12.2f %14.2f %8.2f\n", n, cfs / 1e6, files / 1e6, cfs / files
        }'
    done
}

echo 'places 1 1, creates alone'
compare '1 1' 0
echo 'places 4 2, each fourth call a mkdir'
compare '4 2' 4
