#!/usr/bin/env python3
"""Times methods of texts on long columns beside pandas with nullable kinds.

    python3 bench/texts.py PROGRAM [--rows N] [--runs N]

PROGRAM is the built `pdscript`. Files of 1,000,000 rows have a column of texts, of which 1,000 or all are different; one in
eight is missing. A script reads a file and does a form, once and then several times. A line for each gives in milliseconds
what it takes, with the reading subtracted, and the most memory that the script held in MiB; where the Python that runs this
has pandas, what pandas takes, and the program's time as a part of it. Times are those of the processor, of the user and the
system, and the least of the runs counts.
"""
import os
import sys
import tempfile

from selections import Pandas, Program, option, pandas, told

HEAD = "f = pd.read_csv('t', dtype={'w': 'string', 'k': 'Int64'})\n"
FORMS = (
    "f['w'].str.len()",
    "f['w'].str.strip()",
    "f['w'].str.startswith('code 12')",
    "f['w'].str.endswith('7')",
    "f['w'].str.contains('e 1', regex=False)",
    "f['w'].str.slice(5, None)",
    "f['w'].str.slice(None, None, -1)",
    "f['w'].str.zfill(16)",
)


def write_table(path, rows, different):
    with open(path, "w") as out:
        out.write("w,k\n")
        for k in range(rows):
            text = "" if 40503 * k % 65536 < 8192 else "code %d " % (2654435761 * k % 10000019 % different)
            out.write("%s,1\n" % text)


def main():
    rows, runs = int(option("--rows", 1000000)), int(option("--runs", 3))
    with tempfile.TemporaryDirectory() as folder:
        path = os.path.join(folder, "t.csv")
        program = Program(os.path.abspath(sys.argv[1]), folder, runs)
        for different in (1000, 10000019):
            write_table(path, rows, different)
            other = Pandas(path, {"w": "string", "k": "Int64"}, runs) if pandas else None
            print("%-42s %10s %8s %s" % ("%d rows of %s texts" % (rows, "1,000" if different == 1000 else "different"), "ms", "MiB", "    pandas  ratio" if pandas else ""))
            for form in FORMS:
                alone, _, held = program.form(HEAD, "x = " + form, 5, path)
                there = told(alone, other.form("x = " + form, 1, False)[0]) if other else ""
                print("%-42s %10.2f %8.0f %s" % (form, alone, held, there), flush=True)


if __name__ == "__main__":
    main()
