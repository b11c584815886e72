#!/usr/bin/env bash
# Times `run` and `check` of the built program on headers whose bases are large or hard to find. Prints seconds and the greatest memory in use, of
# one run each, and the numbers of words, steps and rules.
set -eu
cd "$(dirname "$0")/.."
program=./quiv
"$program" run < examples/point.quiv > /dev/null    # builds it where it is missing
program=crates/quiv/out/quiv                        # the program itself, without the look at its sources
scratch=$(mktemp -d)
trap 'rm -rf "$scratch"' EXIT

measure() { # name, with the script on standard input
    local name=$1
    cat > "$scratch/script"
    /usr/bin/env time -f "$name: run %e s, %M KiB" "$program" run < "$scratch/script" > "$scratch/report" || true
    /usr/bin/env time -f "$name: check %e s, %M KiB" "$program" check < "$scratch/report" || true
    printf '%s: %s\n' "$name" "$(sed -n '/^words /p; /^steps /p; /^rules /p; /^refused/p' "$scratch/report" | tr '\n' ' ')"
}

two_loops() { # field, bound
    printf 'field %s\nvertex v\narrow x v v\narrow y v v\nbound %s\n' "$1" "$2"
}

preprojective() { # bound, vertices, edges `a b`: an arrow each way, and at each vertex the sum of the ways out and back, with signs
    local bound=$1 count=$2
    shift 2
    python3 - "$bound" "$count" "$@" <<'P'
import sys
bound, count, edges = sys.argv[1], int(sys.argv[2]), [e.split("-") for e in sys.argv[3:]]
print("field 3")
for v in range(1, count + 1):
    print(f"vertex {v}")
for i, (a, b) in enumerate(edges):
    print(f"arrow a{i} {a} {b}")
    print(f"arrow b{i} {b} {a}")
print(f"bound {bound}")
for v in range(1, count + 1):
    terms = []
    for i, (a, b) in enumerate(edges):
        if int(a) == v:
            terms.append(("+", f"a{i}.b{i}"))
        if int(b) == v:
            terms.append(("-", f"b{i}.a{i}"))
    text = " ".join(f"{sign} {path}" for sign, path in terms)
    print("relation " + (text[2:] if text.startswith("+ ") else text))
print("basis")
P
}

long_relations() { # two loops, bound 12, so many relations, each one path of 11 arrows
    two_loops 2 12
    python3 - "$1" <<'P'
import sys
for i in range(int(sys.argv[1])):
    print("relation", ".".join("xy"[i * 16 + 5 >> k & 1] for k in range(11)))
print("basis")
P
}

dense() { # two loops over 3 elements, this bound, two relations of 11 terms of lengths 3 to 8
    two_loops 3 "$1"
    cat <<'P'
relation 1*x.x.x.x.y + 1*x.x.y.x.y.y + 1*x.y.x.x.y.y.x.y + 1*x.y.x.y + 1*x.y.x.y.y.x + 2*x.y.y.x + 2*x.y.y.y.y.x.y + 2*y.x.y.x.x.y.y + 2*y.x.y.y.x.x + 2*y.y.x.x.y.x + 1*y.y.x.y
relation 1*x.x.x.y.x + 2*x.x.y + 1*x.x.y.x.y.y + 1*x.x.y.y + 2*x.y.x.x.y + 2*x.y.y.y.y.y.x + 2*y.x.x.x.x.y.x + 1*y.x.y + 2*y.y.x.x.x.x.x + 1*y.y.y.x.y + 1*y.y.y.y.y.y.x.x
basis
P
}

{ two_loops 2 12; echo basis; } | measure "two loops, bound 12, no relation"
{ two_loops 3 10; printf 'relation y.y - x.x\nrelation x.y.x\nbasis\n'; } | measure "two loops, bound 10, y.y - x.x, x.y.x"
{ two_loops 3 12; printf 'relation x.x + y.y\nrelation x.y.x\nrelation y.y.x.y + 2*x.y.y.y\nbasis\n'; } | measure "two loops, bound 12, three relations"
preprojective 9 8 1-2 2-3 3-4 4-5 5-6 6-7 7-8 | measure "preprojective algebra of type A8, bound 9"
preprojective 9 8 1-2 2-3 3-4 4-5 5-6 6-7 6-8 | measure "preprojective algebra of type D8, bound 9"
long_relations 4 | measure "two loops, bound 12, 4 relations of length 11"
long_relations 128 | measure "two loops, bound 12, 128 relations of length 11"
dense 9 | measure "two dense relations, bound 9"
dense 10 | measure "two dense relations, bound 10"
dense 12 | measure "two dense relations, bound 12"
