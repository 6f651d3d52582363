#!/usr/bin/env python3
"""Times each form that is built on long columns, reading subtracted, beside pandas with nullable kinds.

    python3 bench/operations.py PROGRAM [--rows N] [--runs N] [--repeats N] [--only WORD]

PROGRAM is the built `pdscript`. A file of 1,000,000 rows has three columns of whole numbers, one of different ones,
two of truth values, a column of few texts and one of different ones; one in eight cells is missing in all but the
different ones. A script reads it, names the columns and runs one form ten times, or as often as it is told, and more
often where the forms together take less than a part of the reading. Its least time of the runs, less that of the script
without the form, is divided by that number. The Python that runs this does the same where it has pandas: it reads the
file once, with nullable kinds named for all columns, and takes the least time of as many forms in as many runs. Times
are those of the processor, of the user and the system, since a busy machine's clock tells the work of others too. A line
for each form gives both in milliseconds and the time of the program as a part of pandas'; the last line gives the forms
that take longer.
"""
import os
import subprocess
import sys
import tempfile
import time

try:
    import pandas
except ImportError:
    pandas = None

KINDS = {"a": "Int64", "b": "Int64", "z": "Int64", "d": "Int64", "t": "boolean", "u": "boolean", "w": "string", "v": "string"}


def option(name, default):
    return sys.argv[sys.argv.index(name) + 1] if name in sys.argv else default


REPEATS = int(option("--repeats", 10))
# The forms of a script are to take this part of the reading at least; a script has fewer forms than this.
LEAST_PART, MOST_REPEATS = 0.3, 5000

NAMES = "".join("%s = f['%s']\n" % (name, name) for name in KINDS) + "g = f[['a', 'b']]\nh = f[['t', 'u']]\n"

FORMS = [
    "a + b", "a - b", "a * b", "a // z", "a % z", "a + 3", "a // 7", "a % 7", "-a", "w + w", "v + 'x'",
    "a == b", "a != b", "a < b", "a <= b", "a > 7", "w == 'w7'", "w < v", "t == u",
    "t & u", "t | u", "t ^ u", "~t", "t & True",
    "g + g", "g * 2", "g < g",
    "a.copy()", "f.copy()", "a.isna()", "a.notna()", "w.isna()", "g.isna()",
    "a.fillna(0)", "a.fillna(0) * 2", "t.fillna(False)", "w.fillna('w')", "g.fillna(1)",
    "a.isin([1, 2, 3])", "a.isin([%s])" % ", ".join(str(7 * k) for k in range(100)), "t.isin([True])", "w.isin(['w1', 'w2'])", "g.isin([1, 2, 3])",
    "a.astype('Int64')", "t.astype('Int64')", "d.astype('string')",
    "a.shift()", "a.shift(-3)", "t.shift(1)", "w.shift(1)", "g.shift(1)",
    "a.cumsum()", "a.cummin()", "a.cummax()",
    "a.sum()", "a.min()", "a.max()", "a.count()", "t.any()", "t.all()", "t.sum()", "w.min()",
    "a.nunique()", "d.nunique()", "t.nunique()", "w.nunique()", "v.nunique()",
    "g.sum()", "g.max()", "g.count()",
    "f['a']", "f[['a', 'b']]", "f[['a', 'b']].sum()", "f[['a', 'b']].max()",
    "a.rename('c')", "g.rename(columns={'b': 'c'})", "a.to_frame()",
]

SETTINGS = ["f['x'] = a", "f['x'] = a + b", "f['x'] = 5", "f['x'] = 'text'"]


def cell(name, k):
    """The text of a cell."""
    jump = 40503 * k % 65536
    if name == "d":
        return str(2654435761 * k % 4294967296)
    if name == "v":
        return "text-%d" % k
    if jump < 8192:
        return ""
    return {
        "a": str(jump - 32768), "b": str(30011 * k % 65536 - 32768), "z": str(jump % 1000 + 1),
        "t": str(jump % 4096 < 2048), "u": str(30011 * k % 65536 % 4096 < 2048), "w": "w%d" % (jump % 1000),
    }[name]


def write_table(path, rows):
    with open(path, "w") as out:
        out.write(",".join(KINDS) + "\n")
        out.writelines(",".join(cell(name, k) for name in KINDS) + "\n" for k in range(1, rows + 1))


def repeated(form):
    return (form if form in SETTINGS else "x = " + form) + "\n"


class Program:
    """The program, whose scripts are run from start to end."""

    def __init__(self, program, folder, table, runs):
        self.program, self.script, self.table, self.runs = program, os.path.join(folder, "s.pds"), table, runs
        self.head = "f = pd.read_csv('t', dtype={%s})\n" % ", ".join("'%s': '%s'" % pair for pair in KINDS.items()) + NAMES

    def time(self, text):
        with open(self.script, "w") as out:
            out.write(text)
        begun = subprocess.Popen([self.program, self.script, "t=" + self.table], stdout=subprocess.DEVNULL)
        _, status, used = os.wait4(begun.pid, 0)
        if status:
            sys.exit("%s ended with %d at\n%s" % (self.program, os.waitstatus_to_exitcode(status), text[len(self.head):][:200]))
        return used.ru_utime + used.ru_stime

    def form(self, form):
        # The script without the form is run anew beside each run with it, since a machine's speed changes.
        repeats = REPEATS
        while True:
            with_it, without = [], []
            for _ in range(self.runs):
                without.append(self.time(self.head))
                with_it.append(self.time(self.head + repeated(form) * repeats))
            took = max(0.0, min(with_it) - min(without))
            if took >= LEAST_PART * min(without) or repeats >= MOST_REPEATS:
                return 1000 * took / repeats
            repeats = min(10 * repeats, MOST_REPEATS)


class Pandas:
    """pandas, which has read the file."""

    def __init__(self, table, runs):
        self.runs = runs
        self.names = {"pd": pandas, "f": pandas.read_csv(table, dtype=KINDS)}
        exec(NAMES, self.names)

    def form(self, form):
        code, times = compile(repeated(form) * REPEATS, form, "exec"), []
        for _ in range(self.runs):
            begun = time.process_time()
            exec(code, self.names)
            times.append(time.process_time() - begun)
        self.names["f"] = self.names["f"][list(KINDS)]
        return 1000 * min(times) / REPEATS


def main():
    program, rows, runs = os.path.abspath(sys.argv[1]), int(option("--rows", 1000000)), int(option("--runs", 5))
    slow = []
    with tempfile.TemporaryDirectory() as folder:
        table = os.path.join(folder, "t.csv")
        write_table(table, rows)
        ours = Program(program, folder, table, runs)
        theirs = Pandas(table, runs) if pandas else None
        print("%-34s %10s %10s %8s" % ("form, %d rows" % rows, "ms", "pandas", "ratio"))
        for form in FORMS + SETTINGS:
            if option("--only", "") not in form:
                continue
            took = ours.form(form)
            other = theirs.form(form) if theirs else None
            short = form if len(form) < 34 else form[:28] + " ..)"
            print("%-34s %10.3f %10s %8s" % (short, took, "%.3f" % other if theirs else "", "%.2f" % (took / other) if theirs else ""), flush=True)
            if theirs and other < took:
                slow.append(short)
    if theirs:
        print("longer than pandas: " + (", ".join(slow) or "none"))


if __name__ == "__main__":
    main()
