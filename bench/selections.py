#!/usr/bin/env python3
"""Times selections, settings and sorts on long tables beside pandas with nullable and with numpy kinds.

    python3 bench/selections.py PROGRAM [--rows N] [--runs N] [--only WORD] [--growth]

PROGRAM is the built `pdscript`. A file of 1,000,000 rows has four columns of whole numbers and one of texts; one in eight
cells of two columns is missing. A script reads it and does one form, once and then several times. A line for each form gives
in milliseconds what a form takes, with the reading of the file subtracted, then the script with the reading and the form
once, and the most memory that it held in MiB. The Python that runs this does the same where it has pandas, with nullable
kinds named for all columns and with the kinds that pandas takes by itself; each of these is given with the program's time as
a part of it. Times are those of the processor, of the user and the system, and the least of the runs counts.

A form with a long list has it read too, by the program and by Python. `--growth` times the program's forms on 10 times the
rows as well, beside 10 times what they take on the rows. At the end come lists of 32,768 and 65,536 columns, and settings of
one cell, as many as a script may have.
"""
import os
import subprocess
import sys
import tempfile
import time

try:
    import pandas
except ImportError:
    pandas = None

KINDS = {"a": "Int64", "b": "Int64", "k": "Int64", "d": "Int64", "w": "string"}
# A process keeps the peak of memory of the one that began it. So a small Python begins the program, and not this one, which
# has read tables.
MEASURED = """
import os, subprocess, sys
begun = subprocess.Popen(sys.argv[1:], stdout=subprocess.DEVNULL)
_, status, used = os.wait4(begun.pid, 0)
print(os.waitstatus_to_exitcode(status), 1000 * (used.ru_utime + used.ru_stime), used.ru_maxrss / 1024)
"""
LABELS, MOST_COLUMNS, MOST_STATEMENTS = 100000, 65536, 10000


def option(name, default):
    return sys.argv[sys.argv.index(name) + 1] if name in sys.argv else default


def forms(rows):
    """A name for each form, the form, how often it stands in a script, and whether the script's text is long."""
    labels = ", ".join(str((7919 * i) % rows) for i in range(LABELS))
    return [
        ("a mask", "x = f[f['a'] > 500]", 10, False),
        ("a mask and the sum", "x = f.loc[f['a'] > 500, 'b'].sum()", 10, False),
        ("a slice with a step", "x = f.iloc[::7]", 50, False),
        ("a slice and the sum", "x = f.iloc[::7, 1].sum()", 50, False),
        ("rows backwards", "x = f.iloc[::-1]", 10, False),
        ("a slice by labels", "x = f.loc[1000:%d]" % (rows // 2), 10, False),
        ("a list of %d labels" % LABELS, "x = f.loc[[%s]]" % labels, 1, True),
        ("head", "x = f.head(1000)", 100, False),
        ("two columns", "x = f[['a', 'b']]", 100, False),
        ("copy", "x = f.copy()", 100, False),
        ("rename", "x = f.rename(columns={'a': 'z'})", 100, False),
        ("set_index", "x = f.set_index('k')", 10, False),
        ("dropna", "x = f.dropna()", 5, False),
        ("duplicated", "x = f.duplicated(['k', 'w'])", 3, False),
        ("sort by three keys", "x = f.sort_values(['k', 'w', 'd'])", 1, False),
        ("sort by numbers", "x = f.sort_values('d')", 2, False),
        ("sort by texts", "x = f['w'].sort_values()", 2, False),
        ("a setting by a mask", "f.loc[f['a'] > 500, 'b'] = 0", 10, False),
        ("a setting by a slice", "f.iloc[::7, 1] = 1", 20, False),
        ("a row that is added", "f.loc[-1] = [1, 2, 3, 4, 'w']", 1, False),
    ]


def write_table(path, rows):
    with open(path, "w") as out:
        out.write(",".join(KINDS) + "\n")
        for k in range(1, rows + 1):
            jump = 40503 * k % 65536
            a = "" if jump < 8192 else str(jump % 1000)
            b = "" if 57344 <= jump else str(30011 * k % 10000)
            out.write("%s,%s,%d,%d,w%d\n" % (a, b, jump % 100, 2654435761 * k % 10000019, 30011 * k % 1000))


class Program:
    """The program, whose scripts are run from start to end."""

    def __init__(self, program, folder, runs):
        self.program, self.folder, self.runs = program, folder, runs

    def once(self, text, table):
        script = os.path.join(self.folder, "s.pds")
        with open(script, "w") as out:
            out.write(text)
        told = subprocess.check_output([sys.executable, "-c", MEASURED, self.program, script, "t=" + table], text=True)
        status, took, held = told.split()
        if int(status):
            sys.exit("%s ended with %s at\n%s" % (self.program, status, text[:300]))
        return float(took), float(held)

    def least(self, head, rest, table):
        """The script with the rest, less the same without it; and the script with it, with its memory."""
        # The script without the rest is run anew beside each run with it, since a machine's speed changes.
        without = with_it = held = float("inf")
        for _ in range(self.runs):
            without = min(without, self.once(head, table)[0])
            took, most = self.once(head + rest, table)
            with_it, held = min(with_it, took), min(held, most)
        return max(0.0, with_it - without), with_it, held

    def form(self, head, form, repeats, table):
        """A form without the reading, a script with the reading and the form once, and its memory."""
        alone, _, _ = self.least(head, (form + "\n") * repeats, table)
        _, whole, held = self.least(head, form + "\n", table)
        return alone / repeats, whole, held


class Pandas:
    """pandas with some kinds, in a process that has read the file."""

    def __init__(self, table, kinds, runs):
        self.runs = runs
        self.reading, (self.read,) = self.least([lambda: pandas.read_csv(table, dtype=kinds)])
        self.names = {}

    def least(self, works):
        """The least time of the works together, and what they gave the last time."""
        least = float("inf")
        for _ in range(self.runs):
            begun = time.process_time()
            made = [work() for work in works]
            least = min(least, 1000 * (time.process_time() - begun))
        return least, made

    def form(self, form, repeats, is_long):
        code = form if is_long else compile(form, form[:20], "exec")
        least = float("inf")
        for _ in range(self.runs):
            self.names = {"pd": pandas, "f": self.read.copy(deep=True)}
            begun = time.process_time()
            for _ in range(repeats):
                exec(code, self.names)
            least = min(least, 1000 * (time.process_time() - begun) / repeats)
        return least, self.reading + least


def told(ours, theirs):
    return "%10.2f %6.2f" % (theirs, ours / theirs)


def tables(program, path, head, rows, runs):
    """A line for each form, and what the program takes for each."""
    others = [Pandas(path, KINDS, runs), Pandas(path, None, runs)] if pandas else []
    print("%-26s %10s %s %s | %10s %s %s %8s" % (
        "form, %d rows" % rows, "ms", "  nullable  ratio", "     numpy  ratio", "with file", "  nullable  ratio", "     numpy  ratio", "MiB"))
    took = {}
    for name, form, repeats, is_long in forms(rows):
        if option("--only", "") not in name:
            continue
        alone, whole, held = program.form(head, form, repeats, path)
        took[name] = alone
        theirs = [other.form(form, repeats, is_long) for other in others]
        print("%-26s %10.2f %s | %10.2f %s %8.0f" % (
            name, alone, " ".join(told(alone, a) for a, _ in theirs), whole, " ".join(told(whole, w) for _, w in theirs), held), flush=True)
    return took


def grown(program, path, head, rows, took):
    """A line for each form on ten times the rows."""
    print("\n%-26s %10s %10s %8s" % ("form, %d rows" % (10 * rows), "ms", "to a tenth", "MiB"))
    for name, form, repeats, _ in forms(10 * rows):
        if name in took:
            alone, _, held = program.form(head, form, max(1, repeats // 10), path)
            print("%-26s %10.2f %10s %8.0f" % (name, alone, "%.2f" % (alone / took[name]) if took[name] else "", held), flush=True)


def columns(program, folder, runs):
    """Lists of many columns."""
    print("\n%-26s %10s %s %8s" % ("a list of columns", "ms", "    pandas  ratio", "MiB"))
    for count in (MOST_COLUMNS // 2, MOST_COLUMNS):
        path = os.path.join(folder, "wide.csv")
        names = ["c%d" % k for k in range(count)]
        with open(path, "w") as out:
            out.write(",".join(names) + "\n" + ",".join("1" for _ in names) + "\n")
        form = "x = f[[%s]]" % ",".join("'%s'" % name for name in reversed(names))
        alone, _, held = program.form("f = pd.read_csv('t')\n", form, 1, path)
        there = told(alone, Pandas(path, None, runs).form(form, 1, True)[0]) if pandas else ""
        print("%-26d %10.2f %s %8.0f" % (count, alone, there, held), flush=True)


def cells(program, path, head, rows):
    """Settings of one cell, one after the other."""
    count = MOST_STATEMENTS - 10
    print("\n%-26s %10s %s %8s" % ("%d settings of a cell" % count, "ms", "    pandas  ratio", "MiB"))
    for name, line in (("iat", "f.iat[%d, 0] = 7\n"), ("loc", "f.loc[%d, 'b'] = 7\n"), ("at", "f.at[%d, 'w'] = 'w7'\n")):
        text = "".join(line % (7919 * k % rows) for k in range(count))
        alone, _, held = program.form(head, text, 1, path)
        there = told(alone, Pandas(path, KINDS, 1).form(text, 1, True)[0]) if pandas else ""
        print("%-26s %10.2f %s %8.0f" % (name, alone, there, held), flush=True)


def main():
    rows, runs = int(option("--rows", 1000000)), int(option("--runs", 5))
    head = "f = pd.read_csv('t', dtype={%s})\n" % ", ".join("'%s': '%s'" % pair for pair in KINDS.items())
    with tempfile.TemporaryDirectory() as folder:
        program = Program(os.path.abspath(sys.argv[1]), folder, runs)
        path = os.path.join(folder, "t.csv")
        write_table(path, rows)
        took = tables(program, path, head, rows, runs)
        if "--growth" in sys.argv:
            longer = os.path.join(folder, "longer.csv")
            write_table(longer, 10 * rows)
            grown(program, longer, head, rows, took)
            os.remove(longer)
        if not option("--only", ""):
            columns(program, folder, runs)
            cells(program, path, head, rows)


if __name__ == "__main__":
    main()
