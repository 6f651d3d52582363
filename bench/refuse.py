#!/usr/bin/env python3
"""Refuses each request for memory of a run in turn, and looks at how the run ends.

    python3 bench/refuse.py PROGRAM [--every K] [SCRIPT ..]

PROGRAM is the built `pdscript`. Without a SCRIPT it tries four small scripts of its own, of views, a setting, joins and a
report, and each script of examples/ with the files beside it. Each is run as it is, and then once for each request for
memory that this run made, which is refused by tools/refuse.c (the C compiler `cc` makes it a library that is loaded before
the C library). With `--every K` only each K-th request is refused. A run that is refused one has to end with status 6, and
what it wrote on each stream has to be the beginning of what the script writes; or it ends as the script does, where it could
do without. A line for each script says how many requests there are, and how the runs ended. Ends with 1 where a run ended
otherwise; each of them has a line of its own.
"""
import argparse
import concurrent.futures
import glob
import os
import subprocess
import sys
import tempfile

TOP = os.path.dirname(os.path.dirname(os.path.abspath(__file__)))
MEMORY = 6
SECONDS = 120
ORDERS = b"id,customer,item,qty,price\n1,C1,pen,2,150\n2,C2,pad,1,400\n3,C1,pad,,400\n4,C3,pen,5,150\n5,C2,pen,4,150\n"
CUSTOMERS = b"customer,city\nC1,Oslo\nC2,Rome\nC3,Oslo\n"
OWN = {
    "views": (
        "s = pd.Series([10, 20, 30, 40, 50])\nr = s.iloc[::-1]\nt = r.iloc[1:4:2]\ns.iloc[3] = 0\nt.iloc[1] = 7\nprint(t)\nprint(s)\n",
        {},
    ),
    "a setting by rows of its own frame": (
        'df = pd.DataFrame({"a": [1, 2, 3, 4]})\ndf.loc[1:, "a"] = df["a"].iloc[::-1]\nprint(df)\n'
        'df.loc[2:, "a"] = df["a"].iloc[0:3]\nprint(df)\n',
        {},
    ),
    "an outer join": (
        'l = pd.DataFrame({"k": ["b", pd.NA, "a"], "v": [1, 2, 3]})\n'
        'r = pd.DataFrame({"k": [pd.NA, "a", "c"], "v": [10, 20, 30]})\nprint(l.merge(r, how="outer", on="k"))\n',
        {},
    ),
    "a report of two files": (
        'import pandas as pd\no = pd.read_csv("orders", dtype_backend="numpy_nullable")\nprint(len(o))\n'
        'c = pd.read_csv("customers")\no["total"] = o["qty"] * o["price"]\nj = o.merge(c, how="left", on="customer")\n'
        'print(j.groupby("city")["total"].sum())\n'
        'print(j.pivot_table(index="city", columns="item", values="total", aggfunc="sum"))\n',
        {"orders": ORDERS, "customers": CUSTOMERS},
    ),
}


def words_of(folder, script, files):
    """The words of a script and its files, which are written into the folder."""
    for name, body in {**files, "script.pds": script.encode()}.items():
        with open(os.path.join(folder, name), "wb") as out:
            out.write(body)
    return ["script.pds", *("%s=%s" % (name, name) for name in files)]


def scripts_of(names, folder):
    """The title of each script, the folder in which it runs, and its words."""
    if not names:
        for title, (script, files) in OWN.items():
            own = tempfile.mkdtemp(dir=folder)
            yield title, own, words_of(own, script, files)
        names = sorted(glob.glob(TOP + "/examples/*.pds") + glob.glob(TOP + "/examples/*/*.pds"))
    for name in names:
        beside = os.path.dirname(os.path.abspath(name))
        files = sorted(os.path.basename(path) for path in glob.glob(beside + "/*.csv"))
        yield os.path.relpath(name), beside, [os.path.basename(name), *("%s=%s" % (file, file) for file in files)]


class Trial:
    """A script, with what it writes, its status, and how many requests for memory its run makes."""

    def __init__(self, program, library, folder, words, count):
        self.command, self.folder, self.library = [program, *words], folder, library
        self.ended = self.run({"REFUSE_COUNT": count})
        with open(count) as file:
            self.requests = int(file.read())

    def run(self, environment):
        """The status and what is written on the two streams."""
        loaded = {**os.environ, "LD_PRELOAD": self.library, **environment}
        ran = subprocess.run(self.command, cwd=self.folder, env=loaded, capture_output=True, timeout=SECONDS)
        return ran.returncode, ran.stdout, ran.stderr

    def refused(self, number):
        """How the run ends that is refused this request."""
        return self.run({"REFUSE": str(number)})

    def allows(self, ended):
        """Whether a run that is refused a request may end so."""
        if ended[0] != MEMORY:
            return ended == self.ended
        return all(whole.startswith(written) for whole, written in zip(self.ended[1:], ended[1:]))


def main():
    parser = argparse.ArgumentParser(usage=__doc__.split("\n\n")[1].strip())
    parser.add_argument("program")
    parser.add_argument("--every", type=int, default=1)
    parser.add_argument("scripts", nargs="*")
    asked = parser.parse_args()
    failed = False
    with tempfile.TemporaryDirectory() as folder, concurrent.futures.ThreadPoolExecutor(os.cpu_count()) as pool:
        library = os.path.join(folder, "refuse.so")
        subprocess.run(["cc", "-shared", "-fPIC", "-O2", "-o", library, TOP + "/tools/refuse.c"], check=True)
        for title, beside, words in scripts_of(asked.scripts, folder):
            trial = Trial(os.path.abspath(asked.program), library, beside, words, os.path.join(folder, "count"))
            numbers = range(0, trial.requests, asked.every)
            ends = list(pool.map(trial.refused, numbers))
            wrong = [(number, ended) for number, ended in zip(numbers, ends) if not trial.allows(ended)]
            whole = sum(ended == trial.ended for ended in ends)
            print("%s: %d requests, %d refused: %d ended with 6, %d as the script does, %d otherwise" % (
                title, trial.requests, len(ends), len(ends) - whole - len(wrong), whole, len(wrong)), flush=True)
            for number, (status, output, errors) in wrong:
                print("  request %d: status %d, output %.200r, errors %.200r" % (number, status, output, errors))
            failed = failed or bool(wrong)
    return 1 if failed else 0


if __name__ == "__main__":
    sys.exit(main())
