#!/usr/bin/env python3
"""Times the operations on columns beside the same loops in Rust and pandas' nullable arrays.

    python3 bench/columns.py PROGRAM [--cells N] [--rounds N] [--huge]

PROGRAM is the built `column_bench`. `columns.rs` is compiled here, by `rustc`, for the same processor as
PROGRAM, and `columns_pandas.py` is run by the Python that runs this. Each operation is done by the three in
turn, so many rounds, each of several runs, and the least time of each is taken. The three must agree on a
number of the answer's cells. A line for each operation gives the least times in milliseconds and the ratios
of the program's time to the others'. With `--huge` glibc is told to ask for huge pages for the program and
the Rust loops, as numpy does by itself. The last lines give the memory that a process holds at most, in bytes
a cell, when it has one column of whole numbers, and when it has two and their sum.
"""
import os
import subprocess
import sys
import tempfile

OPERATIONS = ["add", "floor_div", "lt", "and", "sum", "cumsum", "shift", "take", "cast"]
# The cumsum of pandas 1.5 is NA from the first NA on, so that its answer is another.
UNLIKE = "cumsum"
HERE = os.path.dirname(os.path.abspath(__file__))


def option(word, default):
    return int(sys.argv[sys.argv.index(word) + 1]) if word in sys.argv else default


def run(command, huge=False):
    """The least time in milliseconds, the number of the answer, and the most memory that was held."""
    words = dict(os.environ, GLIBC_TUNABLES="glibc.malloc.hugetlb=1") if huge else None
    begun = subprocess.Popen(command, stdout=subprocess.PIPE, text=True, env=words)
    lines = begun.stdout.read().splitlines()
    _, status, used = os.wait4(begun.pid, 0)
    begun.returncode = os.waitstatus_to_exitcode(status)
    if begun.returncode != 0:
        sys.exit("%s ended with %d" % (" ".join(command), begun.returncode))
    times = [int(line.split()[2]) / 1000 for line in lines if " took " in line]
    return min(times, default=0.0), lines[-1], used.ru_maxrss * 1024


def main():
    program = os.path.abspath(sys.argv[1])
    cells, rounds, huge = option("--cells", 10000000), option("--rounds", 5), "--huge" in sys.argv
    with tempfile.TemporaryDirectory() as folder:
        loops = os.path.join(folder, "columns")
        subprocess.run(["rustc", "-O", "-C", "target-cpu=x86-64-v2", "-o", loops, os.path.join(HERE, "columns.rs")], check=True)
        print("%-10s %9s %9s %9s %8s %9s" % ("operation", "program", "Rust", "pandas", "to Rust", "to pandas"))
        for name in OPERATIONS:
            commands = [
                [program, name, str(cells), "time"],
                [loops, name, str(cells)],
                [sys.executable, os.path.join(HERE, "columns_pandas.py"), name, str(cells)],
            ]
            least, numbers = [float("inf")] * 3, set()
            for _ in range(rounds):
                for k, command in enumerate(commands):
                    took, number, _ = run(command, huge and k < 2)
                    least[k] = min(least[k], took)
                    if k < 2 or name != UNLIKE:
                        numbers.add(number)
            if len(numbers) != 1:
                sys.exit("%s: the answers differ: %s" % (name, sorted(numbers)))
            ours, rust, pandas = least
            print("%-10s %9.2f %9.2f %9.2f %8.2f %9.2f" % (name, ours, rust, pandas, ours / rust, ours / pandas), flush=True)
    for name, what in [("sum", "one column"), ("add", "two columns and their sum")]:
        print("%s: %.2f bytes a cell" % (what, run([program, name, str(cells)])[2] / cells))


if __name__ == "__main__":
    main()
