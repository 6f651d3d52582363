#!/usr/bin/env python3
"""Runs the report of examples/parts over parts of its file, under GNU parallel, and tests that it prints what the undivided one does.

    python3 bench/parts.py PROGRAM [--rows N] [--jobs N]

PROGRAM is the built `pdscript`. `parallel` has to be GNU's, which is the package `parallel` of most systems; without it nothing
is run. The parts are the three files of the folder and then pieces of the undivided one. What the parts print has to be
`sums.csv` there, but for pieces, and what is made of it has to be what `whole.pds` prints.

With `--rows` a file of so many rows is made and divided into as many pieces as there are jobs. A line for the undivided report
and one for the pieces give the seconds by the clock, and the most memory in MiB that one process held.
"""
import argparse
import filecmp
import os
import shlex
import shutil
import subprocess
import sys
import tempfile

from beside import by_clock

FOLDER = os.path.join(os.path.dirname(os.path.dirname(os.path.abspath(__file__))), "examples", "parts")
PARTS = ("april.csv", "may.csv", "june.csv")

# The header that each part prints is kept once.
ONE_HEADER = " | awk 'NR == 1 {{ head = $0 }} NR == 1 || $0 != head' > {sums}"
FILES = "parallel --quote --keep-order {program} {folder}/part.pds sales.csv={{}} ::: {files}" + ONE_HEADER
PIECES = "parallel --quote --keep-order --jobs {jobs} --pipepart --header : --block {block} -a {file} "
PIECES += "{program} {folder}/part.pds sales.csv=/dev/stdin" + ONE_HEADER
TOGETHER = "; {program} {folder}/together.pds sums.csv={sums}"


def is_gnu():
    """Whether the command `parallel` is that of GNU; another one has this name too."""
    if not shutil.which("parallel"):
        return False
    return b"GNU parallel" in subprocess.run(["parallel", "--version"], capture_output=True).stdout


def run(command, path):
    """Runs a command, or several with `;` between them, and answers its seconds and memory."""
    status, took, _, held = by_clock(["bash", "-euo", "pipefail", "-c", command], path)
    if status:
        sys.exit("%s\nended with %d" % (command, status))
    return took, held


def same(one, other):
    if not filecmp.cmp(one, other, False):
        sys.exit("%s and %s differ" % (one, other))


def write_sales(path, rows):
    with open(path, "w") as out:
        out.write("town,item,pieces,price\n")
        out.writelines(
            "town-%02d,item-%03d,%s,%d\n" % (7919 * row % 50, 40503 * row // 50 % 200, "" if row % 11 == 3 else row % 90 + 1, 30011 * row % 65536)
            for row in range(rows)
        )


def main():
    parser = argparse.ArgumentParser()
    parser.add_argument("program")
    parser.add_argument("--rows", type=int)
    parser.add_argument("--jobs", type=int, default=4)
    asked = parser.parse_args()
    if not is_gnu():
        print("GNU parallel isn't installed: it is the package `parallel` of most systems", file=sys.stderr)
        return 2
    with tempfile.TemporaryDirectory() as made:
        at = lambda name: os.path.join(made, name)
        words = {"program": shlex.quote(os.path.abspath(asked.program)), "folder": shlex.quote(FOLDER), "sums": at("sums.csv"), "jobs": asked.jobs}
        stored = {name: os.path.join(FOLDER, name) for name in (*PARTS, "sales.csv", "sums.csv", "whole.out")}
        files = " ".join(shlex.quote(stored[name]) for name in PARTS)
        whole = "{program} {folder}/whole.pds sales.csv={file}"

        run(whole.format(**words, file=shlex.quote(stored["sales.csv"])), at("whole"))
        same(at("whole"), stored["whole.out"])
        run((FILES + TOGETHER).format(**words, files=files), at("files"))
        same(at("sums.csv"), stored["sums.csv"])
        same(at("files"), at("whole"))
        run((PIECES + TOGETHER).format(**words, file=shlex.quote(stored["sales.csv"]), block=120), at("pieces"))
        same(at("pieces"), at("whole"))
        print("The parts print what the undivided report prints.")

        if asked.rows:
            write_sales(at("sales.csv"), asked.rows)
            print("%d rows, %d bytes" % (asked.rows, os.path.getsize(at("sales.csv"))))
            took, held = run(whole.format(**words, file=at("sales.csv")), at("whole"))
            print("%-12s %8.2f s %8.0f MiB" % ("undivided", took, held), flush=True)
            took, held = run((PIECES + TOGETHER).format(**words, file=at("sales.csv"), block=-1), at("pieces"))
            print("%-12s %8.2f s %8.0f MiB" % ("%d pieces" % asked.jobs, took, held))
            same(at("pieces"), at("whole"))
    return 0


if __name__ == "__main__":
    sys.exit(main())
