#!/usr/bin/env bash
# Times `check` of the built program in one run, and prints seconds, the greatest memory in use, and ratios:
# - one claim on homomorphisms with 1,024 unknowns over 2 elements;
# - 100 claims on modules of dimension 30 over six vertices, 60 of them on homomorphisms;
# - many claims of even cost, by one worker and by four;
# - a report whose one claim is the basis.
set -eu
cd "$(dirname "$0")/.."
./quiv run < examples/point.quiv > /dev/null    # builds the program where it is missing
program=crates/quiv/out/quiv                    # the program itself, without the look at its sources
scratch=$(mktemp -d)
trap 'rm -rf "$scratch"' EXIT

reports() { # writes the reports: the basis of an algebra, modules, and homomorphisms between them
    python3 - "$scratch" <<'P'
import random, sys

random.seed(1)
LOOP = "report 1\nfield 2\nvertex v\narrow x v v\nbound 3\nclaim 1 line 5 basis\nwords 3\nword @v\nword x\nword x.x\nsteps 0\nrules 0\n"
LINE = ("report 1\nfield 2\n" + "".join(f"vertex {v}\n" for v in range(1, 7)) + "".join(f"arrow a{v} {v} {v + 1}\n" for v in range(1, 6))
        + "bound 6\nclaim 1 line 12 basis\nwords 21\n" + "".join(f"word @{v}\n" for v in range(1, 7))
        + "".join("word " + ".".join(f"a{v}" for v in range(u, u + n)) + "\n" for n in range(1, 6) for u in range(1, 7 - n)) + "steps 0\nrules 0\n")


def reduced(rows):
    """The reduced row form over 2 elements of rows that are numbers, the first entry the highest bit."""
    by_lead = {}
    for row in rows:
        for lead, other in by_lead.items():
            if row >> lead & 1:
                row ^= other
        if row:
            lead = row.bit_length() - 1
            for at in by_lead:
                if by_lead[at] >> lead & 1:
                    by_lead[at] ^= row
            by_lead[lead] = row
    return by_lead


def solutions(equations, unknowns):
    form = reduced(equations)
    basis = []
    for free in range(unknowns):
        if free not in form:
            basis.append((1 << free) | sum(1 << lead for lead, row in form.items() if row >> free & 1))
    return [row for _, row in sorted(reduced(basis).items(), reverse=True)]


def nilpotent(n):
    """A module over one loop, by dimensions and matrices; three steps along the loop are zero: three blocks, with entries above the diagonal blocks alone."""
    block = [3 * i // n for i in range(n)]
    return [n], [[[int(block[i] < block[j]) * random.randrange(2) for j in range(n)] for i in range(n)]]


def along_line(n):
    """A module over six vertices in a line, of dimension n at each."""
    return [n] * 6, [[[random.randrange(2) for _ in range(n)] for _ in range(n)] for _ in range(5)]


def homomorphisms(a, b, arrows):
    """Their basis as numbers, and how many entries a row has."""
    starts = [sum(x * y for x, y in zip(a[0][:v], b[0][:v])) for v in range(len(a[0]) + 1)]
    bit = lambda v, i, j: 1 << (starts[-1] - 1 - (starts[v] + i * b[0][v] + j))
    equations = []
    for (u, v), A, B in zip(arrows, a[1], b[1]):
        for i in range(a[0][u]):
            for j in range(b[0][v]):
                row = 0
                for k in range(a[0][v]):
                    row ^= bit(v, k, j) * A[i][k]
                for k in range(b[0][u]):
                    row ^= bit(u, i, k) * B[k][j]
                equations.append(row)
    return solutions(equations, starts[-1]), starts[-1]


def report(name, head, arrows, names, modules, pairs):
    with open(f"{sys.argv[1]}/{name}", "w") as out:
        out.write(head)
        claim = 1
        for k, (dims, matrices) in enumerate(modules):
            claim += 1
            out.write(f"module {k + 1} right {' '.join(map(str, dims))}\n")
            for arrow, m in zip(names, matrices):
                out.write(f"at {arrow} " + " / ".join(" ".join(map(str, row)) for row in m) + "\n")
            out.write(f"claim {claim} line 6 module {k + 1}\n")
        for i, j in pairs:
            rows, unknowns = homomorphisms(modules[i], modules[j], arrows)
            claim += 1
            out.write(f"claim {claim} line 7 hom {i + 1} {j + 1} {len(rows)}\n")
            for row in rows:
                out.write("row " + " ".join(format(row, f"0{unknowns}b")) + "\n")
        out.write(f"end {claim}\n")


line = [(v, v + 1) for v in range(5)], [f"a{v}" for v in range(1, 6)]
loop = [(0, 0)], ["x"]
report("one", LOOP, *loop, [nilpotent(32)], [(0, 0)])
report("hundred", LINE, *line, [along_line(5) for _ in range(39)], [(i, (7 * i + 1) % 39) for i in range(39)] + [(i, (5 * i + 2) % 39) for i in range(21)])
report("even", LOOP, *loop, [nilpotent(20), nilpotent(20)], [(i % 2, i // 2 % 2) for i in range(64)])
report("basis", LOOP, *loop, [], [])
P
}

seconds() { # report, words: the least of three runs; the answer has to be `holds`
    local report=$1
    shift
    for _ in 1 2 3; do
        "$program" "$@" < "$scratch/$report" | grep -q '^holds ' || { echo "$report is not accepted" >&2; exit 1; }
        /usr/bin/time -q -f '%e %M' "$program" "$@" 2>&1 > /dev/null < "$scratch/$report" | tail -1
    done | sort -n | head -1
}
ratio() {
    awk "BEGIN { if ($2 > 0) printf \"%.1f\", $1 / $2; else print \"-\" }"
}

reports
read -r one memory < <(seconds one check)
printf 'one claim on homomorphisms, 1,024 unknowns: %s s, %s KiB\n' "$one" "$memory"
read -r hundred memory < <(seconds hundred check)
printf '100 claims on modules of dimension 30: %s s, %s KiB\n' "$hundred" "$memory"
read -r alone memory < <(seconds even check)
read -r four more < <(seconds even check --workers 4)
printf '64 claims of even cost: one worker %s s, %s KiB; four workers %s s, %s KiB; ratio %s on %s processors\n' "$alone" "$memory" "$four" "$more" "$(ratio "$alone" "$four")" "$(nproc)"
read -r basis memory < <(seconds basis check)
printf 'a basis alone: %s s, %s KiB\n' "$basis" "$memory"
