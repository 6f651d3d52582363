#!/usr/bin/env python3
"""Times what is done with frames of few and of many columns, beside pandas.

    python3 bench/wide.py PROGRAM [--runs N]

PROGRAM is the built `pdscript`. Files of 10, 1,000 and 60,000 columns of whole numbers have a row each. A script reads one
and does a form, once and then several times, or a row of statements that change one column after the other. A line for each
gives in milliseconds what it takes, with the reading subtracted, and the most memory that the script held in MiB; where the
Python that runs this has pandas, what pandas takes with the kinds that it finds, and the program's time as a part of it.
Times are those of the processor, of the user and the system, and the least of the runs counts.
"""
import os
import sys
import tempfile

from selections import Pandas, Program, option, pandas, told

HEAD = "f = pd.read_csv('t')\n"
COLUMNS = (10, 1000, 60000)


def forms(count):
    """A name for each form, its statements, and how often they stand in a script."""
    middle, few = count // 2, min(count, 1000)
    half = ",".join("'c%d'" % k for k in range(0, count, 2))
    return [
        ("copied", "x = f.copy()", 20),
        ("rows sliced", "x = f.iloc[1:]", 20),
        ("columns sliced", "x = f.iloc[:, 2:-2]", 20),
        ("every second column", "x = f.iloc[:, ::2]", 20),
        ("half of them by a list", "x = f[[%s]]" % half, 1),
        ("a copy, and a cell of it", "x = f.copy()\nx.iloc[0, %d] = 7" % middle, 20),
        ("a copy, and a column of it", "x = f.copy()\nx['c%d'] = 7" % middle, 20),
        ("a copy, and one removed", "x = f.copy()\ndel x['c%d']" % middle, 20),
        ("printed", "print(f)", 1),
        ("%d cells, one by one" % few, "\n".join("f.iloc[0, %d] = 7" % (k * count // few) for k in range(few)), 1),
        ("%d columns, one by one" % few, "\n".join("f['c%d'] = 7" % (k * count // few) for k in range(few)), 1),
        ("%d removed, one by one" % (few - 1), "\n".join("del f['c%d']" % (k * count // few) for k in range(few - 1)), 1),
    ]


def write_table(path, count):
    with open(path, "w") as out:
        out.write(",".join("c%d" % k for k in range(count)) + "\n" + ",".join(str(k % 1000) for k in range(count)) + "\n")


def main():
    runs = int(option("--runs", 3))
    with tempfile.TemporaryDirectory() as folder:
        path = os.path.join(folder, "t.csv")
        program = Program(os.path.abspath(sys.argv[1]), folder, runs)
        for count in COLUMNS:
            write_table(path, count)
            read, _, held = program.least("", HEAD, path)
            print("%-28s %10s %8s %s" % ("%d columns" % count, "ms", "MiB", "    pandas  ratio" if pandas else ""))
            print("%-28s %10.2f %8.0f" % ("read", read, held), flush=True)
            for name, form, repeats in forms(count):
                alone, _, held = program.form(HEAD, form, repeats, path)
                there = told(alone, Pandas(path, None, runs).form(form, repeats, True)[0]) if pandas else ""
                print("%-28s %10.2f %8.0f %s" % (name, alone, held, there), flush=True)


if __name__ == "__main__":
    main()
