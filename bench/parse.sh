#!/usr/bin/env bash
# Times the reading of a script of some 4 MiB of `rep` statements, by the proved program script_bench, and `wc -w` on the same file, in one
# run, and prints the seconds and their ratio.
set -eu
cd "$(dirname "$0")/.."
(cd crates/script_bench && rt run < stdin > /dev/null 2>&1)
program=crates/script_bench/out/script_bench
script=$(mktemp)
{
    printf 'field 5\nvertex v\nvertex w\narrow a v w\narrow b v w\nbound 3\nbasis\n'
    awk 'BEGIN { while (size < 4190000) { line = "rep M" n++ " 3 2\nat a 1 0 / 2 3 / 0 4\nat b 0 1 / 1 1 / 4 2\nend\n"; size += length(line); printf "%s", line } }'
} > "$script"
seconds() { # the least of five runs
    for _ in 1 2 3 4 5; do
        /usr/bin/time -f '%e' "$@" 2>&1 > /dev/null < "$script"
    done | sort -n | head -1
}
printf 'bytes %s, statements %s\n' "$(stat -c %s "$script")" "$("$program" < "$script")"
a=$(seconds "$program")
b=$(seconds wc -w)
printf 'read %s s, wc -w %s s, ratio %s\n' "$a" "$b" "$(awk "BEGIN { if ($b > 0) printf \"%.1f\", $a / $b; else print \"-\" }")"
rm -f "$script"
