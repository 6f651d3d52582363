#!/usr/bin/env python3
"""Times queries of a long frame beside the masks that they stand for, and beside pandas.

    python3 bench/query.py PROGRAM [--rows N] [--runs N] [--only WORD]

PROGRAM is the built `pdscript`. A file of 1,000,000 rows has four columns of whole numbers and one of texts; one in eight cells
of two columns is missing. A script reads the file and does a query, once and then several times, and another script does the
same with the mask written out. A line for each query gives in milliseconds what it takes, with the reading of the file
subtracted, what the mask written out takes, the query's time as a part of that, and the most memory that the script of the
query held in MiB; where the Python that runs this has pandas, what `query` of pandas takes with nullable kinds, by its Python
engine, since the other one doesn't take them, and the program's time as a part of it. Times are those of the processor, of the user and the system, and the least of the runs counts.

A query should take no longer than its mask, and at most a fifth of what pandas takes. At the end stand queries of one row, as
many as a script may have: what is left there is the text that is read.
"""
import os
import sys
import tempfile

from selections import KINDS, MOST_STATEMENTS, Pandas, Program, option, pandas, told, write_table

# A name for each query, its text, and the mask that is written out.
QUERIES = (
    ("two comparisons", "a > 500 and b < 5000", "(f['a'] > 500) & (f['b'] < 5000)"),
    ("a limit by its name", "a > @n and b < @m", "(f['a'] > n) & (f['b'] < m)"),
    ("one comparison", "d == 77", "f['d'] == 77"),
    ("few rows", "k == 7 and w == 'w7'", "(f['k'] == 7) & (f['w'] == 'w7')"),
    ("sums and products", "a * 2 + b > 9000", "f['a'] * 2 + f['b'] > 9000"),
    ("a list", "w in ['w1', 'w22', 'w333'] or not k in [1, 2, 3]", "f['w'].isin(['w1', 'w22', 'w333']) | ~f['k'].isin([1, 2, 3])"),
)
HEAD = "n = 500\nm = 5000\n"
SMALL = "s = f.head(1)\n"


def header():
    there = "%10s %6s" % ("pandas", "ratio") if pandas else ""
    return "%10s %10s %6s %8s %s" % ("ms", "mask", "ratio", "MiB", there)


def in_pandas(other, text):
    """What `query` of pandas takes, or None where its release doesn't take the kinds."""
    try:
        return other.form(HEAD + 'x = f.query("%s", engine="python")' % text, 1, False)[0]
    except (TypeError, ValueError):
        return None


def queries(program, path, head, rows, runs):
    """A line for each query."""
    other = Pandas(path, KINDS, runs) if pandas else None
    print("%-26s %s" % ("query, %d rows" % rows, header()))
    for name, text, mask in QUERIES:
        if option("--only", "") not in name:
            continue
        query = 'x = f.query("%s")' % text
        alone, _, held = program.form(head, query, 10, path)
        written, _, _ = program.form(head, "x = f[%s]" % mask, 10, path)
        beside = in_pandas(other, text) if other else None
        there = told(alone, beside) if beside else ""
        print("%-26s %10.2f %10.2f %6.2f %8.0f %s" % (name, alone, written, alone / written if written else 0, held, there), flush=True)


def small(program, path, head):
    """Queries of a frame of one row, one after the other."""
    count = MOST_STATEMENTS - 10
    _, text, mask = QUERIES[0]
    took = {}
    for name, line in (("query", 'x = s.query("%s")\n' % text), ("mask", "x = s[%s]\n" % mask.replace("f[", "s["))):
        took[name], _, _ = program.form(head + SMALL, line * count, 1, path)
    print("\n%-26s %10.2f %10.2f %6.2f" % ("%d queries of one row" % count, took["query"], took["mask"], took["query"] / took["mask"] if took["mask"] else 0))


def main():
    rows, runs = int(option("--rows", 1000000)), int(option("--runs", 5))
    head = "f = pd.read_csv('t', dtype={%s})\n%s" % (", ".join("'%s': '%s'" % pair for pair in KINDS.items()), HEAD)
    with tempfile.TemporaryDirectory() as folder:
        program = Program(os.path.abspath(sys.argv[1]), folder, runs)
        path = os.path.join(folder, "t.csv")
        write_table(path, rows)
        queries(program, path, head, rows, runs)
        if not option("--only", ""):
            small(program, path, head)


if __name__ == "__main__":
    main()
