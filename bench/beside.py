"""Times scripts of the program beside pandas, data.table of R, sqlite and gawk, start included. The programs of this folder that
compare whole scripts use it.

pandas is that of the Python that runs this, with nullable kinds that are named for all columns and with the kinds that pandas
finds. The others take part where they are installed and have the form. All must print the same. A line for each gives the time
of the processor in milliseconds, the least of the runs, the most memory that a process held, the time of the program as a part
of this one, and the same where what the first form takes, which only reads the files, is left out. The time of each thread counts.
"""
import functools
import importlib.util
import os
import shutil
import subprocess
import sys
import time

from reading import has_data_table, least

# The files of the command line take the place of the names in a script.
PANDAS = "import pandas as pd, sys\nfiles = dict(a.split('=', 1) for a in sys.argv[1:])\nread = pd.read_csv\n"
PANDAS += "pd.read_csv = lambda name, dtype: read(files[name]%s)\n"
FOUND = (("nullable", ", dtype=dtype"), ("numpy", ""))
DATA_TABLE = "library(data.table); f <- commandArgs(TRUE); %s"
TOLD = "print(len(z))\nprint(z.sum())\n"


def option(name, default):
    return sys.argv[sys.argv.index(name) + 1] if name in sys.argv else default


def read_line(name, kinds):
    """A line of a script that reads a file into the name of the file."""
    return "%s = pd.read_csv('%s', dtype={%s})\n" % (name, name, ", ".join("'%s': '%s'" % each for each in kinds.items()))


@functools.cache
def installed(by):
    """Whether a program of another name than this one is there."""
    if by.startswith("pandas"):
        return importlib.util.find_spec("pandas") is not None
    return has_data_table() if by == "data.table" else shutil.which({"sqlite": "sqlite3"}.get(by, by)) is not None


def peers(files, asked):
    """The commands of the other programs: what is asked of each, by its name."""
    paths = list(files.values())
    if "data.table" in asked and installed("data.table"):
        yield "data.table", ["Rscript", "-e", DATA_TABLE % asked["data.table"], *paths]
    if "sqlite" in asked and installed("sqlite"):
        load = ["-cmd", ".mode csv"] + [part for name, path in files.items() for part in ("-cmd", ".import %s %s" % (path, name))]
        yield "sqlite", ["sqlite3", ":memory:", *load, "-cmd", ".mode list", asked["sqlite"]]
    if "gawk" in asked and installed("gawk"):
        yield "gawk", ["gawk", "-F,", asked["gawk"], *paths]


def commands(program, folder, files, text, asked, of_pandas=None):
    """The command of each that does the form: the program, pandas twice, maybe by a script of its own, and the others that are asked."""
    script = os.path.join(folder, "s.pds")
    with open(script, "w") as out:
        out.write(text)
    named = ["%s=%s" % each for each in files.items()]
    done = {"pdscript": [program, script, *named]}
    for name, found in FOUND:
        done["pandas, " + name] = [sys.executable, "-c", PANDAS % found + (of_pandas or text), *named]
    done.update(peers(files, asked))
    return done


def head(rows):
    print("%-22s %-16s %10s %8s %8s %8s" % ("%d rows" % rows, "by", "ms", "MiB", "ratio", "left out"))


def form(name, asked, runs, starts):
    """A line for each that does the form."""
    ours, wanted = None, None
    for by, command in asked.items():
        took, held, printed = least(command, runs)
        work = took - starts.get(by, took)
        ours, wanted = ours or (took, work), wanted or printed
        if printed != wanted:
            sys.exit("%s prints %r in place of %r" % (by, printed, wanted))
        left_out = "%.2f" % (ours[1] / work) if work > 0 else ""
        print("%-22s %-16s %10.1f %8.0f %8.2f %8s" % (name, by, took, held, ours[0] / took, left_out), flush=True)
        starts.setdefault(by, took)


def grown(name, command, runs):
    """A line for a form of the program on ten times the rows."""
    took, held, _ = least(command, runs)
    print("%-22s %-16s %10.1f %8.0f" % (name, "ten times", took, held), flush=True)


def by_clock(command, path):
    """The exit status, the seconds by the clock and those of the processor, and the most memory in MiB that a process of the command
    held. What it prints goes into a file, so that this process stays small: each counts the memory of the one that began it."""
    begun = time.monotonic()
    with open(path, "wb") as printed, subprocess.Popen(command, stdout=printed) as child:
        _, status, used = os.wait4(child.pid, 0)
        child.returncode = os.waitstatus_to_exitcode(status)
    return child.returncode, time.monotonic() - begun, used.ru_utime + used.ru_stime, used.ru_maxrss / 1024
