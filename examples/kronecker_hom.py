"""Computes the homomorphisms between two modules over the Kronecker algebra over 2 elements, and prints a report on them for `quiv check`.

    python3 examples/kronecker_hom.py | ./quiv check

Vectors are rows: a right module has at an arrow from U to W a matrix with a row for each dimension at U and a column for each at W.
"""

VERTICES = ["1", "2"]
ARROWS = [("a", 0, 1), ("b", 0, 1)]

# The regular module of dimension (1, 1) where b acts as zero, and the one of length 2 in the same tube: dimensions, then the matrices of a and b.
SMALL = ([1, 1], [[[1]], [[0]]])
LARGE = ([2, 2], [[[1, 0], [0, 1]], [[0, 1], [0, 0]]])


def reduced(rows):
    """The reduced row form over 2 elements, without rows of zeros."""
    rows = [row[:] for row in rows]
    done = 0
    for column in range(len(rows[0]) if rows else 0):
        at = next((i for i in range(done, len(rows)) if rows[i][column]), None)
        if at is None:
            continue
        rows[done], rows[at] = rows[at], rows[done]
        for i, row in enumerate(rows):
            if i != done and row[column]:
                rows[i] = [x ^ y for x, y in zip(row, rows[done])]
        done += 1
    return rows[:done]


def solutions(equations, unknowns):
    """The vectors that all equations take to zero, as rows in reduced row form."""
    form = reduced(equations)
    pivots = [row.index(1) for row in form]
    basis = []
    for free in range(unknowns):
        if free not in pivots:
            vector = [0] * unknowns
            vector[free] = 1
            for row, pivot in zip(form, pivots):
                vector[pivot] = row[free]
            basis.append(vector)
    return reduced(basis)


def homomorphisms(a, b):
    """A basis of Hom(a, b). A map is one row: its matrices vertex by vertex, each row by row."""
    (a_dims, a_matrices), (b_dims, b_matrices) = a, b
    starts = [sum(a_dims[u] * b_dims[u] for u in range(v)) for v in range(len(VERTICES) + 1)]

    def place(v, i, j):
        return starts[v] + i * b_dims[v] + j

    equations = []
    for (_, source, target), A, B in zip(ARROWS, a_matrices, b_matrices):
        for i in range(a_dims[source]):  # A, then the map at the target, is the map at the source, then B
            for j in range(b_dims[target]):
                row = [0] * starts[-1]
                for k in range(a_dims[target]):
                    row[place(target, k, j)] ^= A[i][k]
                for k in range(b_dims[source]):
                    row[place(source, i, k)] ^= B[k][j]
                equations.append(row)
    return solutions(equations, starts[-1])


def matrix(rows):
    return " / ".join(" ".join(map(str, row)) for row in rows)


def module(number, m):
    dims, matrices = m
    print("module", number, "right", *dims)
    for (name, source, target), rows in zip(ARROWS, matrices):
        if dims[source] and dims[target]:  # a matrix without entries has no line
            print("at", name, matrix(rows))


def main():
    print("report 1\nfield 2")
    for v in VERTICES:
        print("vertex", v)
    for name, source, target in ARROWS:
        print("arrow", name, VERTICES[source], VERTICES[target])
    print("bound 2")
    # All paths shorter than 2 are normal, and there is none of length 2: no step and no rule is needed.
    words = ["@" + v for v in VERTICES] + [name for name, _, _ in ARROWS]
    print("claim 1 line 1 basis\nwords", len(words))
    for word in words:
        print("word", word)
    print("steps 0\nrules 0")
    module(1, SMALL)
    module(2, LARGE)
    rows = homomorphisms(SMALL, LARGE)
    print("claim 2 line 2 hom 1 2", len(rows))
    for row in rows:
        print("row", *row)
    rows = homomorphisms(LARGE, LARGE)
    print("claim 3 line 3 hom 2 2", len(rows))
    for row in rows:
        print("row", *row)
    print("end 3")


main()
