#!/usr/bin/env python3
"""Times groups of long tables beside pandas, data.table, sqlite and gawk, start included: see beside.py.

    python3 bench/groups.py PROGRAM [--rows N] [--runs N] [--only WORD] [--growth]

PROGRAM is the built `pdscript`. A file has 1,000,000 rows: a text among 50, one among 100,000, a whole number among 20, one of
its own for each row, and a whole number as value. A script reads it, does one form and prints a length and a sum. `--growth`
times the program on ten times the rows as well; ten times 1,000,000 are more than a file may have.
"""
import os
import sys
import tempfile

from beside import TOLD, commands, form, grown, head, option, read_line

KINDS = {"c": "string", "w": "string", "k": "Int64", "i": "Int64", "v": "Int64"}

R = "t <- fread(f[1]); %s; cat(sprintf('%%d\\n%%.0f\\n', %s, sum(as.numeric(%s))))"
SQL = "SELECT count(*) || char(10) || sum(s) FROM (%s)"
GAWK = "NR > 1 { s[$%d] += $5 } END { for (k in s) { n++; z += s[k] } printf \"%%d\\n%%d\\n\", n, z }"


def sums(by):
    """What is asked of the others for the sums by a column."""
    asked = {"data.table": R % ("g <- t[, .(s = sum(v)), keyby = .(%s)]" % by, "nrow(g)", "g$s")}
    asked["sqlite"] = SQL % ("SELECT sum(v) AS s FROM t GROUP BY %s" % by)
    if by in KINDS:
        asked["gawk"] = GAWK % (list(KINDS).index(by) + 1)
    return asked


DIFFERENT = {"data.table": R % ("g <- t[, .(s = uniqueN(w)), keyby = c]", "nrow(g)", "g$s")}
DIFFERENT["sqlite"] = SQL % "SELECT count(DISTINCT w) AS s FROM t GROUP BY c"
SPREAD = {"data.table": R % ("t[, s := sum(v), by = w]", "nrow(t)", "t$s")}
ALONE = {"data.table": R % ("g <- t", "nrow(g)", "g$v")}

# The name of the form, its script behind the reading, and what is asked of the others.
FORMS = [
    ("reading alone", "z = t['v']\n" + TOLD, ALONE),
    ("50 text keys", "z = t.groupby('c')['v'].sum()\n" + TOLD, sums("c")),
    ("100,000 text keys", "z = t.groupby('w')['v'].sum()\n" + TOLD, sums("w")),
    ("two keys", "z = t.groupby(['c', 'k'])['v'].sum()\n" + TOLD, sums("c, k")),
    ("a key for each row", "z = t.groupby('i')['v'].sum()\n" + TOLD, sums("i")),
    ("transform", "z = t.groupby('w')['v'].transform('sum')\n" + TOLD, SPREAD),
    ("nunique", "z = t.groupby('c')['w'].nunique()\n" + TOLD, DIFFERENT),
]


def write_table(path, rows):
    with open(path, "w") as out:
        out.write(",".join(KINDS) + "\n")
        for row in range(rows):
            group, text, number = 7919 * row % 50, 40503 * row % 100000, 104729 * row % 20
            out.write("city-%02d,cust-%06d,%d,%d,%d\n" % (group, text, number, 2654435761 * row % 2147483647, 30011 * row % 65536))


def main():
    program, rows, runs = os.path.abspath(sys.argv[1]), int(option("--rows", 1000000)), int(option("--runs", 3))
    forms = [each for each in FORMS if each is FORMS[0] or option("--only", "") in each[0]]
    with tempfile.TemporaryDirectory() as folder:
        files, starts = {"t": os.path.join(folder, "t.csv")}, {}
        write_table(files["t"], rows)
        head(rows)
        for name, text, asked in forms:
            form(name, commands(program, folder, files, read_line("t", KINDS) + text, asked), runs, starts)
        if "--growth" in sys.argv:
            write_table(files["t"], 10 * rows)
            for name, text, _ in forms:
                grown(name, commands(program, folder, files, read_line("t", KINDS) + text, {})["pdscript"], runs)


if __name__ == "__main__":
    main()
