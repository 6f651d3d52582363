#!/usr/bin/env python3
"""Times a report over a frame of literals beside pandas with nullable kinds on the same script, start included.

    python3 bench/forms.py PROGRAM [--runs N]

PROGRAM is the built `pdscript`. The script makes a frame of two columns of whole numbers, as many as fit into the
2^20 bytes that a script may have, runs 200 operators and methods on it, and prints a cell of each fifth answer. The
same text is run by the Python that runs this, behind `import pandas as pd`, and with the kind that the program
infers given to the constructor, since pandas would take numpy's. A second script has half the rows. Both runs must
print the same. A line for each script gives the time of the processor in milliseconds, the least of the runs, then the
ratio to pandas, the same ratio where the start of both is left out, and the ratio to half the rows; the last line
gives the most memory that each held.
"""
import os
import subprocess
import sys
import tempfile

MOST_BYTES = 1 << 20
CALLS = 200
FORMS = [
    "f + f",
    "f * 3",
    "f - 7",
    "f // 7",
    "f % 11",
    "f < 5000",
    "f == g",
    "f.copy()",
    "f.isna()",
    "f.fillna(1)",
    "f.shift(1)",
    "f.notna()",
    "f.isin([1, 2, 3])",
    "f.sum()",
    "f.max()",
    "f.count()",
    "-f",
    "f['a'] + f['b']",
    "f['b'].fillna(0) * 2",
    "f.rename(columns={'b': 'c'})",
]


def script(rows):
    """The frame of so many rows, and the calls on it."""
    columns = ["'%s': [%s]" % (name, ",".join(str(1000 + k * step % 9000) for k in range(rows))) for name, step in (("a", 37), ("b", 91))]
    lines = ["f = pd.DataFrame({%s})" % ", ".join(columns), "g = f.copy()"]
    for k in range(CALLS):
        lines.append("x = " + FORMS[k % len(FORMS)])
        if k % 5 == 4:
            lines.append("print(f['a'].iloc[%d])" % k)
    lines.append("print(x['c'].sum())")
    return "\n".join(lines) + "\n"


def for_pandas(text):
    head, rest = text.split("})\n", 1)
    return "import pandas as pd\n" + head + "}, dtype='Int64')\n" + rest


def least(command, runs):
    times, printed, most = [], None, 0
    for _ in range(runs):
        done = subprocess.Popen(command, stdout=subprocess.PIPE)
        printed = done.stdout.read()
        _, status, used = os.wait4(done.pid, 0)
        done.returncode = os.waitstatus_to_exitcode(status)
        times.append(used.ru_utime + used.ru_stime)
        most = max(most, used.ru_maxrss)
        if done.returncode != 0:
            sys.exit("%s ended with %d" % (" ".join(command), done.returncode))
    return 1000 * min(times), printed, most / 1024


def main():
    program = os.path.abspath(sys.argv[1])
    runs = int(sys.argv[sys.argv.index("--runs") + 1]) if "--runs" in sys.argv else 7
    rows = (MOST_BYTES - len(script(0)) - 2) // 10
    print("%-12s %10s %10s %10s %8s %8s %8s" % ("cells", "bytes", "pdscript", "pandas", "ratio", "started", "to half"))
    before = None
    with tempfile.TemporaryDirectory() as folder:
        path = os.path.join(folder, "empty.pds")
        open(path, "w").close()
        start, start_there = least([program, path], runs)[0], least([sys.executable, "-c", "import pandas"], runs)[0]
        for count in (rows // 2, rows):
            text = script(count)
            path = os.path.join(folder, "report.pds")
            other = os.path.join(folder, "report.py")
            with open(path, "w") as out:
                out.write(text)
            with open(other, "w") as out:
                out.write(for_pandas(text))
            ours, printed, held = least([program, path], runs)
            theirs, wanted, held_there = least([sys.executable, other], runs)
            if printed != wanted:
                sys.exit("the two print different texts")
            growth = "" if before is None else "%.2f" % (ours / before)
            started = (ours - start) / (theirs - start_there)
            print("%-12d %10d %10.2f %10.2f %8.2f %8.2f %8s" % (2 * count, len(text), ours, theirs, ours / theirs, started, growth))
            before = ours
    print("memory: %.0f MiB, pandas %.0f MiB" % (held, held_there))


if __name__ == "__main__":
    main()
