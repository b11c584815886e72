#!/usr/bin/env bash
# Times the reading of a report of some 62 MiB of Hom claims by the built program, and `wc -w` on the same file, in one run, and prints the seconds and
# their ratio. Claim 1 of the report fails, so that `check` answers as soon as it has read the whole, and judges none of the others.
#
# bench/report.sh [CLAIMS]: so many Hom claims of 1,024 rows of 1,024 entries each; 31 of them where no number is given, which is near the limit.
set -eu
cd "$(dirname "$0")/.."
claims=${1:-31}
./quiv run < examples/point.quiv > /dev/null    # builds the program where it is missing
program=crates/quiv/out/quiv                    # the program itself, without the look at its sources
report=$(mktemp)
trap 'rm -f "$report"' EXIT
awk -v claims="$claims" 'BEGIN {
    srand(1)
    print "report 1\nfield 5\nvertex v\nbound 2\nclaim 1 line 4 basis\nwords 0\nsteps 0\nrules 0\nmodule 1 right 32"
    for (i = 0; i < 64; i++) {
        row[i] = "row"
        for (j = 0; j < 1024; j++) row[i] = row[i] " " int(5 * rand())
    }
    for (k = 2; k <= claims + 1; k++) {
        print "claim " k " line 5 hom 1 1 1024"
        for (i = 0; i < 1024; i++) print row[(k + i) % 64]
    }
    print "end " claims + 1
}' > "$report"
answer=$("$program" check < "$report" || true)
if [ "$answer" != "rejected 1 words" ]; then
    echo "check answers $answer" >&2
    exit 1
fi
seconds() { # the least of five runs
    for _ in 1 2 3 4 5; do
        /usr/bin/time -q -f '%e' "$@" 2>&1 > /dev/null < "$report" | tail -1
    done | sort -n | head -1
}
printf 'bytes %s, lines %s\n' "$(stat -c %s "$report")" "$(wc -l < "$report")"
a=$(seconds "$program" check)
b=$(seconds wc -w)
printf 'read %s s, wc -w %s s, ratio %s\n' "$a" "$b" "$(awk "BEGIN { if ($b > 0) printf \"%.1f\", $a / $b; else print \"-\" }")"
