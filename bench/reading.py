#!/usr/bin/env python3
"""Times the reading of a file of comma-separated values beside pandas, data.table and gawk, start included.

    python3 bench/reading.py PROGRAM [--runs N]

PROGRAM is the built `pdscript`. The file has five columns: the number of the row, a short text and three of whole
numbers; one in eleven cells is missing in each column but the first. The script reads it and prints how many rows
there are and the sum of the last column. The same is done by the Python that runs this, which needs pandas, with
nullable kinds that are named for all columns and with the kinds that pandas finds, by data.table of R where it is
installed, and by gawk, which splits lines at commas and keeps the sum alone. All must print the same. A file of ten
rows shows the start without much to read. A line for each gives the time of the processor in milliseconds, the least of
the runs, the most memory that a process held, the time of the program as a part of this one, and the same where the
start is left out. The time of each thread counts, of which data.table has several. Less memory than this script holds
itself, about 11 MiB, can't be told.
"""
import os
import shutil
import subprocess
import sys
import tempfile

ROWS = (10, 100000, 1000000)

SCRIPT = 't = pd.read_csv("t")\nprint(len(t))\nprint(t["weight"].sum())\n'

PANDAS = "import sys\nimport pandas as pd\nt = pd.read_csv(sys.argv[1]%s)\nprint(len(t))\nprint(int(t['weight'].sum()))\n"

NULLABLE = ", dtype={'id': 'Int64', 'customer': 'string', 'count': 'Int64', 'price': 'Int64', 'weight': 'Int64'}"

DATA_TABLE = "t <- data.table::fread(commandArgs(TRUE)); cat(sprintf('%d\\n%.0f\\n', nrow(t), sum(as.numeric(t$weight), na.rm = TRUE)))"

GAWK = 'NR > 1 { sum += $5 } END { print NR - 1; printf "%d\\n", sum }'


def row(k):
    """A row; the cell at a place is missing where 11 divides the row's number and the place together."""
    cells = [k, "cust-%03d" % (7 * k % 1000), 1 + 13 * k % 9, 100 + 37 * k % 500, 10000 + 91 * k % 900000]
    return ",".join("" if place and (k + place) % 11 == 0 else str(cell) for place, cell in enumerate(cells))


def write_table(path, rows):
    """Writes a file of so many rows, and answers how many bytes it has."""
    with open(path, "w") as out:
        out.write("id,customer,count,price,weight\n")
        out.writelines(row(k) + "\n" for k in range(1, rows + 1))
    return os.path.getsize(path)


def has_data_table():
    """Whether R and data.table are installed."""
    if not shutil.which("Rscript"):
        return False
    asked = ["Rscript", "-e", "quit(status = !requireNamespace('data.table', quietly = TRUE))"]
    return subprocess.run(asked, capture_output=True).returncode == 0


def once(command):
    """The time of the processor in milliseconds, the most memory that it held in MiB, and what it printed."""
    with subprocess.Popen(command, stdout=subprocess.PIPE) as child:
        printed = child.stdout.read()
        _, status, used = os.wait4(child.pid, 0)
        child.returncode = os.waitstatus_to_exitcode(status)
    if child.returncode:
        sys.exit("%s ended with %d" % (command[0], child.returncode))
    return 1000 * (used.ru_utime + used.ru_stime), used.ru_maxrss / 1024, printed


def least(command, runs):
    """The least time, the most memory, and what the last run printed."""
    done = [once(command) for _ in range(runs)]
    return min(took for took, _, _ in done), max(held for _, held, _ in done), done[-1][2]


def main():
    program = os.path.abspath(sys.argv[1])
    runs = int(sys.argv[sys.argv.index("--runs") + 1]) if "--runs" in sys.argv else 5
    print("%-10s %12s %-16s %10s %8s %8s %8s" % ("rows", "bytes", "by", "ms", "MiB", "ratio", "started"))
    starts = {}
    with tempfile.TemporaryDirectory() as folder:
        table, script = os.path.join(folder, "t.csv"), os.path.join(folder, "s.pds")
        with open(script, "w") as out:
            out.write(SCRIPT)
        commands = {
            "pdscript": [program, script, "t=" + table],
            "pandas, nullable": [sys.executable, "-c", PANDAS % NULLABLE, table],
            "pandas, numpy": [sys.executable, "-c", PANDAS % "", table],
            "data.table": ["Rscript", "-e", DATA_TABLE, table],
            "gawk": ["gawk", "-F,", GAWK, table],
        }
        if not has_data_table():
            del commands["data.table"]
        for rows in ROWS:
            size, ours, wanted = write_table(table, rows), None, None
            for name, command in commands.items():
                took, held, printed = least(command, runs)
                work = took - starts.setdefault(name, took)
                ours, wanted = ours or (took, work), wanted or printed
                if printed != wanted:
                    sys.exit("%s prints %r in place of %r" % (name, printed, wanted))
                started = "%.3f" % (ours[1] / work) if work > 0 else ""
                print("%-10d %12d %-16s %10.2f %8.1f %8.3f %8s" % (rows, size, name, took, held, ours[0] / took, started))


if __name__ == "__main__":
    main()
