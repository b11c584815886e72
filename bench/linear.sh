#!/usr/bin/env bash
# Times rank, kernel, product and solve on square matrices of pseudo-random entries, by the proved program linear_bench and by plain Rust
# (bench/plain, with cargo), in one run, and prints the seconds of processor time and their ratio. Takes sizes as arguments (256 512 1024); 8x200000 is 200,000 times size 8.
set -eu
cd "$(dirname "$0")/.."
(cd crates/linear_bench && rt run -- rank 2 16 >/dev/null 2>&1)
(cd bench/plain && cargo build --release >/dev/null 2>&1)
ours=crates/linear_bench/out/linear_bench
plain=bench/plain/target/release/plain
seconds() { # the least of three runs
    for _ in 1 2 3; do
        /usr/bin/time -f '%U' "$@" 2>&1 >/dev/null
    done | sort -n | head -1
}
printf '%-6s %-5s %-8s %8s %8s %6s\n' size field task proved plain ratio
for size in "${@:-256 512 1024}"; do
    for word in $size; do
        n=${word%x*}
        times=1
        if [ "$n" != "$word" ]; then times=${word#*x}; fi
        for field in 2 4 5 27; do
            for task in rank kernel product solve; do
                [ "$("$ours" "$task" "$field" "$n" "$times")" = "$("$plain" "$task" "$field" "$n" "$times")" ] || echo "answers differ: $task $field $n"
                a=$(seconds "$ours" "$task" "$field" "$n" "$times")
                b=$(seconds "$plain" "$task" "$field" "$n" "$times")
                printf '%-6s %-5s %-8s %8s %8s %6s\n' "$n" "$field" "$task" "$a" "$b" "$(awk "BEGIN { if ($b > 0) printf \"%.2f\", $a / $b; else print \"-\" }")"
            done
        done
    done
done
