#!/usr/bin/env python3
"""Times the printing of a frame beside pandas with nullable kinds on the same script, start included.

    python3 bench/printing.py PROGRAM [--runs N]

PROGRAM is the built `pdscript`. The script makes a frame of two columns of 100,000 whole numbers, written out, and
prints it. The same text is run by the Python that runs this, told to cut no table, and with the kind that the program
infers given to the constructor. A second script has half the rows, and each is also run without its last line, so that
the time of the printing alone is known. A line for each gives times of the processor in milliseconds, the least of the
runs: of the whole runs and of the printing, with the ratio to pandas and to half the rows.
"""
import os
import resource
import subprocess
import sys
import tempfile

ROWS = 100000


def frame(rows):
    columns = ["'%s': [%s]" % (name, ",".join(str(1000 + k * step % 9000) for k in range(rows))) for name, step in (("a", 37), ("b", 91))]
    return "f = pd.DataFrame({%s})\n" % ", ".join(columns)


def for_pandas(text):
    head, rest = text.split("})\n", 1)
    return "import pandas as pd\npd.set_option('display.max_rows', None)\n" + head + "}, dtype='Int64')\n" + rest


def spent():
    """The processor time of all processes that have ended, in milliseconds."""
    used = resource.getrusage(resource.RUSAGE_CHILDREN)
    return 1000 * (used.ru_utime + used.ru_stime)


def least(command, runs):
    times = []
    for _ in range(runs):
        before = spent()
        done = subprocess.run(command, stdout=subprocess.PIPE, check=True)
        times.append(spent() - before)
    return min(times), done.stdout.count(b"\n")


def main():
    program = os.path.abspath(sys.argv[1])
    runs = int(sys.argv[sys.argv.index("--runs") + 1]) if "--runs" in sys.argv else 5
    print("%-10s %10s %10s %8s %10s %10s %8s %8s" % ("rows", "pdscript", "pandas", "ratio", "printing", "pandas", "ratio", "to half"))
    before = None
    with tempfile.TemporaryDirectory() as folder:
        path, other = os.path.join(folder, "s.pds"), os.path.join(folder, "s.py")
        for rows in (ROWS // 2, ROWS):
            took = []
            for text in (frame(rows), frame(rows) + "print(f)\n"):
                with open(path, "w") as out:
                    out.write(text)
                with open(other, "w") as out:
                    out.write(for_pandas(text))
                took.append((least([program, path], runs), least([sys.executable, other], runs)))
            (ours, lines), (theirs, wanted) = took[1]
            if lines != wanted:
                sys.exit("the two print different lines")
            printing, there = ours - took[0][0][0], theirs - took[0][1][0]
            growth = "" if before is None else "%.2f" % (printing / before)
            print("%-10d %10.2f %10.2f %8.2f %10.2f %10.2f %8.3f %8s" % (rows, ours, theirs, ours / theirs, printing, there, printing / there, growth))
            before = printing


if __name__ == "__main__":
    main()
