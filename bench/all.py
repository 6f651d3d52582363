#!/usr/bin/env python3
"""Times whole jobs beside pandas, data.table of R, sqlite and gawk, start included, and writes one table in Markdown.

    /usr/bin/python3 bench/all.py PROGRAM [--rows N ..] [--runs N] [--only WORD] [--processor]

PROGRAM is the built `pdscript`. A file has 100,000 and then 1,000,000 rows, or those that are told: a text among 50, one among
100,000, a whole number among 20, one of its own for each row, a value, and a number of which one in eleven is missing; another
file has the same numbers in another order for half of its rows, others for the rest, and a value; a third one has a text of 40
characters of its own for each row, a text that ten rows share, and a value. A script reads the files that it needs, does one
job, and prints its answer. pandas is that of the Python that runs this, with Copy-on-Write, once with
nullable kinds that are named for all columns and once with the kinds that it finds (numpy's); a fraction that it answers is
printed as a whole number. A program that isn't installed is told in the table, and `-` stands where it isn't asked.

Times are seconds by the clock, the least of the runs; a program with several threads, such as data.table, takes more of the
processor. With `--processor` they are seconds of the processor, of all threads, which other work on the machine changes less.
Memory is the most that a process held, in MiB; less than this script holds itself, about 12 MiB, can't be told. A ratio is the
program's figure as a part of the other's: below 1 it is less. `differs` or `failed` stand in place of a time where the answer
isn't the program's, and the exit status is 1 then.
"""
import argparse
import filecmp
import os
import sys
import tempfile

from beside import by_clock, commands, installed, read_line

KINDS = {
    "t": {"c": "string", "w": "string", "k": "Int64", "i": "Int64", "v": "Int64", "m": "Int64"},
    "u": {"i": "Int64", "b": "Int64"},
    "n": {"note": "string", "w": "string", "v": "Int64"},
}
OTHERS = ("pandas, nullable", "pandas, numpy", "data.table", "sqlite", "gawk")

# What stands before a script for pandas.
FOR_PANDAS = """pd.options.mode.copy_on_write = True
pd.set_option('display.max_rows', None)
show = print
print = lambda x, end='\\n': show(int(x) if isinstance(x, float) else x, end=end)
"""
CHAIN = """f = t[t['v'] > 30000]
g = f.copy()
g['x'] = g['v'] * 3 - g['k']
g.loc[g['x'] > 90000, 'x'] = 0
h = g[['k', 'x']]
h['y'] = h['x'].shift(1).fillna(0)
h = h.rename(columns={'y': 'before'})
print(h['x'].sum())
print(h['before'].sum())
print(t['v'].sum())
"""
PIVOT = """z = t.pivot_table(index='c', columns='k', values='v', aggfunc='sum')
print(len(z))
print(z[7].sum())
"""
R = "t <- fread(f[1]); %s; cat(sprintf('%%.0f\\n', c(%s)), sep = '')"
R_BOTH = (
    "t <- fread(f[1]); u <- fread(f[2]); m <- merge(t, u, by = 'i'%s); "
    "cat(sprintf('%%.0f\\n', c(nrow(m), sum(as.numeric(%s), na.rm = TRUE))), sep = '')"
)
SQL = "SELECT count(*) || char(10) || CAST(sum(%s) AS INT) FROM %s"


def sums(name, by, in_gawk):
    """The sums of the values by columns."""
    text = "z = t.groupby([%s])['v'].sum()\nprint(len(z))\nprint(z.max())\n" % ", ".join("'%s'" % each for each in by)
    asked = {"data.table": R % ("g <- t[, .(s = sum(v)), keyby = .(%s)]" % ", ".join(by), "nrow(g), max(g$s)")}
    asked["sqlite"] = "SELECT count(*) || char(10) || max(s) FROM (SELECT sum(v) AS s FROM t GROUP BY %s)" % ", ".join(by)
    asked["gawk"] = (
        "NR > 1 { s[%s] += $5 } END { for (k in s) { n++; if (s[k] > z) z = s[k] } printf \"%%d\\n%%d\\n\", n, z }" % in_gawk
    )
    return name, "t", text, asked


# The name of the job, the files that it reads, its script behind the reading, and what is asked of the others, with HALF for
# half of the number of rows. A full join of sqlite looks at each pair of rows, and isn't asked for.
JOBS = [
    ("start", "", "print(1)\n", {"data.table": "cat('1\\n')", "sqlite": "SELECT 1", "gawk": "BEGIN { print 1 }"}),
    ("load", "t", "print(len(t))\nprint(t['m'].sum())\n", {
        "data.table": R % ("s <- sum(as.numeric(t$m), na.rm = TRUE)", "nrow(t), s"),
        "sqlite": SQL % ("m", "t"),
        "gawk": "NR > 1 { n++; z += $6 } END { printf \"%d\\n%d\\n\", n, z }",
    }),
    sums("groups by two keys", ["c", "k"], "$1 SUBSEP $3"),
    sums("groups by 100,000 texts", ["w"], "$2"),
    ("groups beside texts of their own", "n", "z = n.groupby('w')['v'].sum()\nprint(len(z))\nprint(z.max())\n", {
        "data.table": R % ("g <- t[, .(s = sum(v)), keyby = w]", "nrow(g), max(g$s)"),
        "sqlite": "SELECT count(*) || char(10) || max(s) FROM (SELECT sum(v) AS s FROM n GROUP BY w)",
        "gawk": "NR > 1 { s[$2] += $3 } END { for (k in s) { n++; if (s[k] > z) z = s[k] } printf \"%d\\n%d\\n\", n, z }",
    }),
    ("merge", "tu", "m = t.merge(u, on='i')\nprint(len(m))\nprint(m['b'].sum())\n", {
        "data.table": R_BOTH % ("", "m$b"),
        "sqlite": SQL % ("b", "t JOIN u USING (i)"),
        "gawk": "FNR == 1 { next } NR == FNR { seen[$4]; next } $1 in seen { n++; z += $2 } "
        "END { printf \"%d\\n%d\\n\", n, z }",
    }),
    ("pivot table", "t", PIVOT, {
        "data.table": R % ("g <- dcast(t, c ~ k, value.var = 'v', fun.aggregate = sum)", "nrow(g), sum(as.numeric(g[['7']]))"),
    }),
    ("sort by three keys", "t", "z = t.sort_values(['k', 'w', 'v'])\nprint(z['i'].iloc[7])\nprint(z['i'].iloc[HALF])\n", {
        "data.table": R % ("setorder(t, k, w, v)", "t$i[8], t$i[HALF + 1]"),
        "sqlite": "SELECT i FROM (SELECT i, row_number() OVER (ORDER BY CAST(k AS INT), w, CAST(v AS INT)) AS n FROM t) "
        "WHERE n IN (8, HALF + 1) ORDER BY n",
    }),
    ("windows of 50 rows", "t", "z = t['v'].rolling(50).sum()\nprint(len(z))\nprint(z.sum())\n", {
        "data.table": R % ("z <- frollsum(t$v, 50)", "length(z), sum(z, na.rm = TRUE)"),
        "sqlite": SQL % (
            "s",
            "(SELECT CASE WHEN count(*) OVER w = 50 THEN sum(v) OVER w END AS s FROM t "
            "WINDOW w AS (ORDER BY rowid ROWS 49 PRECEDING))",
        ),
    }),
    ("sums by label", "tu", "z = t.set_index('i')['v'] + u.set_index('i')['b']\nprint(len(z))\nprint(z.sum())\n", {
        "data.table": R_BOTH % (", all = TRUE", "m$v + m$b"),
    }),
    ("a chain of tables", "t", CHAIN, {
        "data.table": R % (
            "g <- t[v > 30000]; g[, x := v * 3L - k]; g[x > 90000, x := 0L]; h <- g[, .(k, x)]; h[, y := shift(x, fill = 0L)]",
            "sum(as.numeric(h$x)), sum(as.numeric(h$y)), sum(as.numeric(t$v))",
        ),
        "sqlite": "WITH g AS (SELECT 3 * v - k AS x FROM t WHERE v + 0 > 30000), "
        "h AS (SELECT CASE WHEN x > 90000 THEN 0 ELSE x END AS x FROM g) "
        "SELECT sum(x) || char(10) || sum(y) || char(10) || (SELECT sum(v) FROM t) "
        "FROM (SELECT x, lag(x, 1, 0) OVER () AS y FROM h)",
        "gawk": "NR > 1 { all += $5 } NR > 1 && $5 > 30000 { x = 3 * $5 - $3; if (x > 90000) x = 0; s += x; b += p; p = x } "
        "END { printf \"%d\\n%d\\n%d\\n\", s, b, all }",
    }),
    ("a printed table", "t", "print(t[['k', 'v']])\n", {}),
    ("CSV text", "t", "print(t[['c', 'w', 'k', 'i', 'v']].to_csv(index=False), end='')\n", {
        "data.table": "t <- fread(f[1]); fwrite(t[, .(c, w, k, i, v)], '/dev/stdout')",
        "sqlite": "SELECT 'c,w,k,i,v' UNION ALL SELECT c || ',' || w || ',' || k || ',' || i || ',' || v FROM t",
        "gawk": "BEGIN { OFS = \",\" } { print $1, $2, $3, $4, $5 }",
    }),
]


def own(row):
    return 2654435761 * row % 2147483647


def note(row):
    """A text of 40 characters that no other row has."""
    return "%016x" % (row * 11400714819323198485 % 2**64) * 2 + "%08d" % row


def write_tables(folder, rows):
    """Writes all files, and answers their paths by name."""
    paths = {name: os.path.join(folder, name + ".csv") for name in KINDS}
    with open(paths["t"], "w") as out:
        out.write(",".join(KINDS["t"]) + "\n")
        for row in range(rows):
            text, missing = 40503 * row % 100000, "" if row % 11 == 3 else str(91 * row % 9000)
            numbers = 104729 * row // 50 % 20, own(row), 30011 * row % 65536
            out.write("city-%02d,cust-%06d,%d,%d,%d,%s\n" % (7919 * row % 50, text, *numbers, missing))
    with open(paths["u"], "w") as out:
        out.write(",".join(KINDS["u"]) + "\n")
        out.writelines("%d,%d\n" % (own(7919 * row % rows + row % 2 * rows), row) for row in range(rows))
    with open(paths["n"], "w") as out:
        out.write(",".join(KINDS["n"]) + "\n")
        out.writelines(
            "%s,cust-%06d,%d\n" % (note(row), 7919 * row % (rows // 10), 30011 * row % 65536) for row in range(rows)
        )
    return paths


def best(command, path, asked):
    """The least time of the runs and the most memory, or that a run failed."""
    done = [by_clock(command, path) for _ in range(asked.runs)]
    if any(status for status, *_ in done):
        return "failed"
    return min(each[2 if asked.processor else 1] for each in done), max(each[3] for each in done)


def ratio(ours, theirs):
    part = ours / max(theirs, 0.0001)
    return "%.*f" % (2 if part >= 0.1 else 3, part)


def cells(by, found, ours, folder):
    """The cells of another program: its seconds and the ratio, and its memory and the ratio where it is pandas with nullable
    kinds."""
    width = 4 if by == OTHERS[0] else 2
    if found is None:
        found = "-" if installed(by) else "not installed"
    elif found != "failed" and not filecmp.cmp(os.path.join(folder, "ours"), os.path.join(folder, by), False):
        found = "differs"
    if isinstance(found, str):
        return [found] + [""] * (width - 1)
    return ["%.3f" % found[0], ratio(ours[0], found[0]), "%.0f" % found[1], ratio(ours[1], found[1])][:width]


def line(asked, folder, paths, job, rows):
    """The line of a job, by cells."""
    name, names, text, of_others = job
    half = str(rows // 2)
    script = "".join(read_line(each, KINDS[each]) for each in names) + text.replace("HALF", half)
    others = {by: part.replace("HALF", half) for by, part in of_others.items()}
    files = {each: paths[each] for each in names}
    found = commands(os.path.abspath(asked.program), folder, files, script, others, FOR_PANDAS + script)
    ours = best(found["pdscript"], os.path.join(folder, "ours"), asked)
    if ours == "failed":
        sys.exit("%s: the program failed" % name)
    done = [name, "{:,}".format(rows), "%.3f" % ours[0], "%.0f" % ours[1]]
    for by in OTHERS:
        there = best(found[by], os.path.join(folder, by), asked) if by in found and installed(by) else None
        done += cells(by, there, ours, folder)
    return done


def main():
    parser = argparse.ArgumentParser()
    parser.add_argument("program")
    parser.add_argument("--rows", type=int, nargs="+", default=[100000, 1000000])
    parser.add_argument("--runs", type=int, default=3)
    parser.add_argument("--only", default="")
    parser.add_argument("--processor", action="store_true")
    asked = parser.parse_args()
    heads = ["Job", "Rows", "`pdscript`", "MiB", "nullable", "Ratio", "MiB", "Ratio", "numpy", "Ratio"]
    heads += [part for name in ("`data.table`", "`sqlite3`", "`gawk`") for part in (name, "Ratio")]
    print("| %s |\n%s|" % (" | ".join(heads), "|---" * len(heads)), flush=True)
    bad = False
    with tempfile.TemporaryDirectory() as folder:
        for rows in asked.rows:
            paths = write_tables(folder, rows)
            for job in JOBS:
                if asked.only in job[0]:
                    done = line(asked, folder, paths, job, rows)
                    bad = bad or "differs" in done or "failed" in done
                    print("| %s |" % " | ".join(done), flush=True)
    return 1 if bad else 0


if __name__ == "__main__":
    sys.exit(main())
