#!/usr/bin/env bash
# Usage: bench.sh PROGRAM. Instruction counts (callgrind) of PROGRAM, which must be the binary itself and not a
# shell script that starts it, beside those of station.c at gcc -O2.
set -eu
[ $# -eq 1 ] || { sed -n '2,3s/^# //p' "$0" >&2; exit 2; }
program=$(realpath "$1")
here=$(cd "$(dirname "$0")" && pwd)
work=$(mktemp -d)
trap 'rm -rf "$work"' EXIT
gcc -O2 -o "$work/plain" "$here/station.c"
python3 "$here/inputs.py" "$work"

# count PROGRAM NAME KIND: leaves what it prints in NAME.KIND and answers the instructions.
count() {
    valgrind --tool=callgrind --callgrind-out-file="$work/calls" --log-file="$work/log" \
        "$1" <"$work/$2.bin" >"$work/$2.$3" || { cat "$work/log" >&2; return 1; }
    awk '/^(summary|totals):/ { print $2; exit }' "$work/calls"
}

row='%-14s %14s %14s %14s %14s %8s  %s\n'
# shellcheck disable=SC2059
printf "$row" input program plain program-diff plain-diff ratio output
for name in opening figures-50 tallies-20 signatures-20 cuts-5; do
    theirs=$(count "$program" "$name" program)
    plain=$(count "$work/plain" "$name" plain)
    if cmp -s "$work/$name.program" "$work/$name.plain"; then output=same; else output=DIFFERENT; fi
    if [ "$name" = opening ]; then
        their_opening=$theirs plain_opening=$plain
        # The opening itself is compared whole; what follows it, by the difference.
        ratio=$(awk "BEGIN { printf \"%.2f\", $theirs / $plain }")
        # shellcheck disable=SC2059
        printf "$row" "$name" "$theirs" "$plain" - - "$ratio" "$output"
    else
        their_more=$((theirs - their_opening)) plain_more=$((plain - plain_opening))
        ratio=$(awk "BEGIN { printf \"%.2f\", $their_more / $plain_more }")
        # shellcheck disable=SC2059
        printf "$row" "$name" "$theirs" "$plain" "$their_more" "$plain_more" "$ratio" "$output"
    fi
done
