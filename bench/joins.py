#!/usr/bin/env python3
"""Times merges and concatenations of long tables beside pandas, data.table and sqlite, start included: see beside.py.

    python3 bench/joins.py PROGRAM [--rows N] [--runs N] [--only WORD] [--growth]

PROGRAM is the built `pdscript`. A file of 1,000,000 rows has a text among 1,000, a whole number of its own for each row and a
value; one of 1,000 rows has these texts, each with one of 20 names; one of 1,000,000 rows has the same whole numbers in another
order for half of its rows, others for the rest, and a value; ten have a tenth of the first each. A script reads the files that it needs,
does one form and prints a length and a number. `--growth` times the program on ten times the rows as well.
"""
import os
import sys
import tempfile

from beside import TOLD, commands, form, grown, head, option, read_line

KINDS = {
    "t": {"w": "string", "k": "Int64", "a": "Int64"},
    "d": {"w": "string", "g": "string"},
    "u": {"k": "Int64", "b": "Int64"},
}
PARTS = ["p%d" % part for part in range(10)]
COUNTED = "print(len(m))\nprint(m['b'].count())\n"

R = "t <- fread(f[1]); %s; cat(sprintf('%%d\\n%%.0f\\n', %s, %s))"
SQL = "SELECT count(*) || char(10) || %s FROM (%s)"
MATCHED = {
    "data.table": R % ("d <- fread(f[2]); m <- merge(t, d, by = 'w'); g <- m[, .(s = sum(a)), keyby = g]", "nrow(g)", "sum(as.numeric(g$s))"),
    "sqlite": SQL % ("sum(s)", "SELECT sum(a) AS s FROM t JOIN d USING (w) GROUP BY g"),
}


def counted(how, kept):
    """What is asked of the others for a join by whole numbers."""
    r = R % ("u <- fread(f[2]); m <- merge(t, u, by = 'k'%s)" % kept, "nrow(m)", "sum(!is.na(m$b))")
    return {"data.table": r, "sqlite": SQL % ("count(b)", "SELECT b FROM t %s JOIN u USING (k)" % how)}


# The name of the form, the files that it reads, its script behind the reading, and what is asked of the others. A full join
# of sqlite looks at each pair of rows, and isn't asked for.
FORMS = [
    ("reading alone", "tu", "z = t['a']\n" + TOLD, {"data.table": R % ("u <- fread(f[2])", "nrow(t)", "sum(as.numeric(t$a))")}),
    ("1,000 text keys", "td", "z = t.merge(d, on='w').groupby('g')['a'].sum()\n" + TOLD, MATCHED),
    ("inner", "tu", "m = t.merge(u, on='k')\n" + COUNTED, counted("", "")),
    ("left", "tu", "m = t.merge(u, how='left', on='k')\n" + COUNTED, counted("LEFT", ", all.x = TRUE")),
    ("outer", "tu", "m = t.merge(u, how='outer', on='k')\n" + COUNTED, {"data.table": counted("FULL", ", all = TRUE")["data.table"]}),
    ("ten parts", PARTS, "z = pd.concat([%s])['a']\n" % ", ".join(PARTS) + TOLD, {}),
]


def key(row):
    return 2654435761 * row % 2147483647


def line(row):
    return "cust-%03d,%d,%d\n" % (7919 * row % 1000, key(row), 30011 * row % 65536)


def write(path, columns, lines):
    with open(path, "w") as out:
        out.write(",".join(columns) + "\n")
        out.writelines(lines)


def write_tables(folder, rows):
    """Writes all files, and answers their paths by name."""
    paths = {name: os.path.join(folder, name + ".csv") for name in [*KINDS, *PARTS]}
    write(paths["t"], KINDS["t"], map(line, range(rows)))
    write(paths["d"], KINDS["d"], ("cust-%03d,name-%02d\n" % (row, row % 20) for row in range(1000)))
    write(paths["u"], KINDS["u"], ("%d,%d\n" % (key(7919 * row % rows + row % 2 * rows), row) for row in range(rows)))
    for place, part in enumerate(PARTS):
        write(paths[part], KINDS["t"], map(line, range(place * rows // 10, (place + 1) * rows // 10)))
    return paths


def asked_of(program, folder, paths, names, text, asked):
    lines = "".join(read_line(name, KINDS.get(name, KINDS["t"])) for name in names)
    return commands(program, folder, {name: paths[name] for name in names}, lines + text, asked)


def main():
    program, rows, runs = os.path.abspath(sys.argv[1]), int(option("--rows", 1000000)), int(option("--runs", 3))
    forms = [each for each in FORMS if each is FORMS[0] or option("--only", "") in each[0]]
    with tempfile.TemporaryDirectory() as folder:
        paths, starts = write_tables(folder, rows), {}
        head(rows)
        for name, names, text, asked in forms:
            form(name, asked_of(program, folder, paths, names, text, asked), runs, starts)
        if "--growth" in sys.argv:
            paths = write_tables(folder, 10 * rows)
            for name, names, text, _ in forms:
                grown(name, asked_of(program, folder, paths, names, text, {})["pdscript"], runs)


if __name__ == "__main__":
    main()
