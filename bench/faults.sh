#!/bin/sh
# What the program does where the outside fails. Not a part of the gate: it needs /dev/full, glibc and a C compiler.
# Ends with status 1 where something was not as it should be.
here=$(cd "$(dirname "$0")/.." && pwd)
program=$here/crates/cfs/out/cfs
example=$here/examples/two-creates
work=$(mktemp -d)
trap 'rm -rf "$work"' EXIT
failed=0

# Builds the program where it is missing.
"$here/cfs" replay <"$example.cfs" >/dev/null || exit 1

wrong() {
    echo "NOT AS WANTED: $1"
    failed=1
}

# Compares the status and the line on standard error of a run with those wanted.
expect() {
    if [ "$2" = "$4" ] && [ "$3" = "$5" ]; then
        echo "ok: $1"
    else
        wrong "$1: status $2, '$3'"
    fi
}

"$program" replay <"$example.cfs" >/dev/full 2>"$work/line"
expect 'output into a full device' $? "$(cat "$work/line")" 5 'cfs: writing failed'

# The reader is gone before the program starts.
{
    sleep 1
    "$program" replay <"$example.cfs" 2>"$work/line"
    echo $? >"$work/status"
} | true
while [ ! -s "$work/status" ]; do sleep 0.1; done
expect 'output into a closed pipe' "$(cat "$work/status")" "$(cat "$work/line")" 5 'cfs: writing failed'

"$program" replay <"$here" >"$work/out" 2>"$work/line"
expect 'input that is a folder' $? "$(cat "$work/line")" 4 'cfs: reading failed'
[ ! -s "$work/out" ] || wrong 'input that is a folder: something was written'

# Words that are not expected: none at all, another first word, and one behind `replay`.
"$program" <"$example.cfs" >"$work/out" 2>"$work/line"
expect 'no words' $? "$(cat "$work/line")" 2 'cfs: word 0 is not expected'
"$program" reply <"$example.cfs" >>"$work/out" 2>"$work/line"
expect 'another first word' $? "$(cat "$work/line")" 2 'cfs: word 0 is not expected'
"$program" replay again <"$example.cfs" >>"$work/out" 2>"$work/line"
expect 'a word too many' $? "$(cat "$work/line")" 2 'cfs: word 1 is not expected'
[ ! -s "$work/out" ] || wrong 'words that are not expected: something was written'

# Each allocation fails once, in a run of its own: there is no memory and no text, or the text is as ever.
# (rt try --fail-alloc takes one number and compiles anew for each, so a preloaded library does it here.)
${CC:-cc} -O2 -shared -fPIC -o "$work/fail_malloc.so" "$here/bench/fail_malloc.c" || exit 1
n=1
while :; do
    : >"$work/reached"
    LD_PRELOAD=$work/fail_malloc.so CFS_FAIL_ALLOC=$n \
        "$program" replay <"$example.cfs" >"$work/out" 2>"$work/line" 9>"$work/reached"
    status=$?
    line=$(cat "$work/line")
    [ -s "$work/reached" ] || break
    if [ "$status" -eq 6 ]; then
        [ "$line" = 'cfs: no memory' ] || wrong "allocation $n: '$line'"
        [ ! -s "$work/out" ] || wrong "allocation $n: something was written"
    elif [ "$status" -ne 0 ] || ! cmp -s "$work/out" "$example.out"; then
        wrong "allocation $n: status $status, '$line'"
    fi
    n=$((n + 1))
done
echo "allocations that failed, one in each run: $((n - 1))"
exit $failed
