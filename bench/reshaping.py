#!/usr/bin/env python3
"""Times tables of another shape and windows of long tables beside pandas and data.table, start included: see beside.py.

    python3 bench/reshaping.py PROGRAM [--rows N] [--runs N] [--only WORD] [--growth]

PROGRAM is the built `pdscript`. A file has 1,000,000 rows: a text among 50, a whole number among 20, two numbers that name the
row, each of them once for each other one, and a value. A script reads it, does one form and prints a length and a sum. pandas
answers windows with fractions, which are made whole numbers before they are printed. `--growth` times the program on ten times
the rows as well; ten times 1,000,000 are more than a file may have.
"""
import math
import os
import sys
import tempfile

from beside import commands, form, grown, head, option, read_line

KINDS = {"c": "string", "k": "Int64", "r": "Int64", "s": "Int64", "v": "Int64"}

R = "t <- fread(f[1]); %s; cat(sprintf('%%d\\n%%.0f\\n', %s, sum(as.numeric(%s), na.rm = TRUE)))"
TOLD = "print(len(z))\nprint(%s.sum())\n"
WINDOW = "z = t['v'].%s\n" + TOLD % "z"
# A wrapped sum isn't asked: what is summed stays below 2^53, so that a fraction tells it.
WHOLE = "z = t['v'].%s.fillna(0).astype('int64')\n" + TOLD % "z"


def window(name, call, asked):
    return name, WINDOW % call, asked, WHOLE % call


# The name of the form, its script behind the reading, what is asked of the others, and the script of pandas.
FORMS = [
    ("reading alone", "z = t['v']\n" + TOLD % "z", {"data.table": R % ("g <- t", "nrow(g)", "g$v")}, None),
    (
        "pivot_table, 50 by 20",
        "z = t.pivot_table(index='c', columns='k', values='v', aggfunc='sum')\n" + TOLD % "z[7]",
        {"data.table": R % ("g <- dcast(t, c ~ k, value.var = 'v', fun.aggregate = sum)", "nrow(g)", "g[['7']]")},
        None,
    ),
    (
        "melt of four columns",
        "z = t.melt(id_vars='c', value_vars=['k', 'r', 's', 'v'])\n" + TOLD % "z['value']",
        {"data.table": R % ("g <- melt(t, id.vars = 'c', measure.vars = c('k', 'r', 's', 'v'))", "nrow(g)", "g$value")},
        None,
    ),
    (
        "unstack, square",
        "z = t.set_index(['r', 's'])['v'].unstack()\n" + TOLD % "z[7]",
        {"data.table": R % ("g <- dcast(t, r ~ s, value.var = 'v')", "nrow(g)", "g[['7']]")},
        None,
    ),
    window("rolling(3).sum()", "rolling(3).sum()", {"data.table": R % ("g <- frollsum(t$v, 3)", "length(g)", "g")}),
    window("rolling(50).sum()", "rolling(50).sum()", {"data.table": R % ("g <- frollsum(t$v, 50)", "length(g)", "g")}),
    window("rolling(3).max()", "rolling(3).max()", {}),
    window("rolling(50).max()", "rolling(50).max()", {}),
    window("expanding().max()", "expanding().max()", {}),
    window("expanding().sum()", "expanding().sum()", {}),
]


def write_table(path, rows):
    """Rows whose two numbers, each below the root of the rows, meet once each, in an order that is none."""
    side = math.isqrt(rows)
    with open(path, "w") as out:
        out.write(",".join(KINDS) + "\n")
        for row in range(side * side):
            place = 7919 * row % (side * side)
            out.write("city-%02d,%d,%d,%d,%d\n" % (13 * row % 50, row // 50 % 20, place // side, place % side, 30011 * row % 65536))


def asked_of(program, folder, files, text, asked, of_pandas):
    """The command of each that does the form."""
    start = read_line("t", KINDS)
    return commands(program, folder, files, start + text, asked, of_pandas and start + of_pandas)


def main():
    program, rows, runs = os.path.abspath(sys.argv[1]), int(option("--rows", 1000000)), int(option("--runs", 3))
    forms = [each for each in FORMS if each is FORMS[0] or option("--only", "") in each[0]]
    with tempfile.TemporaryDirectory() as folder:
        files, starts = {"t": os.path.join(folder, "t.csv")}, {}
        write_table(files["t"], rows)
        head(rows)
        for name, text, asked, of_pandas in forms:
            form(name, asked_of(program, folder, files, text, asked, of_pandas), runs, starts)
        if "--growth" in sys.argv:
            write_table(files["t"], 10 * rows)
            for name, text, _, _ in forms:
                grown(name, asked_of(program, folder, files, text, {}, None)["pdscript"], runs)


if __name__ == "__main__":
    main()
