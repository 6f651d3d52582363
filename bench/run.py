#!/usr/bin/env python3
"""Times the built program beside python3 on the same work, in one run.

    python3 bench/run.py PROGRAM [--runs N]

PROGRAM is the built `pdscript`. Each script is made here and written into a folder of its own. The
scripts of the first part are run by both, by the program as they stand and by python3 as the same
statements on lists. Those of the second part are only read: their first statement is refused, or they are
no scripts, so the program reads them whole and does nothing; beside it `compile` of python3 reads the same
text. A line for each script gives the time of the processor in milliseconds, the least of the runs, then the ratio to
python3, the same ratio where the start of both is left out, unless python3 does little else than start, and the ratio to
the same kind of script of half its size. Times vary with the machine; the ratios of one run are what
docs/PERFORMANCE.md quotes.
"""
import os
import resource
import subprocess
import sys
import tempfile

MOST_BYTES = 1 << 20


def one_list(most):
    """One statement with a list of as many numbers as fit."""
    head, tail = "s = pd.Series([", "])\nprint(s.iloc[-1])\n"
    numbers, left, k = [], most - len(head) - len(tail), 0
    while True:
        number = str(100000 + k * 7 % 900000)
        if left < len(number) + 1:
            break
        numbers.append(number)
        left -= len(number) + 1
        k += 1
    return head + ",".join(numbers) + tail


def long_lines(most):
    """Copies of lists, on lines of about 2,000 bytes."""
    row = ", ".join(str(k * 37 % 1000) for k in range(400))
    lines, size, k = [], 0, 0
    while True:
        new = ["s%d = pd.Series([%s])" % (k, row), "t%d = s%d.copy()" % (k, k), "t%d.iloc[%d] = -1" % (k, k % 400), "print(t%d.iloc[0])" % k]
        size += sum(len(line) + 1 for line in new)
        if size > most:
            return "\n".join(lines) + "\n"
        lines += new
        k += 1


def statements(count):
    """So many short statements, each name a new one: series, copies, settings and printings."""
    lines = []
    for k in range(count // 5):
        lines += ["a%d = pd.Series([%d, 2, 3])" % (k, k), "b%d = a%d" % (k, k), "c%d = b%d.copy()" % (k, k), "c%d.iloc[-1] = %d" % (k, k), "print(c%d.iloc[2])" % k]
    return "\n".join(lines) + "\n"


def rebindings(count):
    """Half of the statements bind names, and half bind them to another object."""
    half = count // 2
    lines = ["n%d = pd.Series([%d])" % (k, k) for k in range(half)]
    lines += ["n%d = n%d" % (k, half - 1 - k) for k in range(half)]
    return "\n".join(lines) + "\n"


# A statement that is refused at once: what stands after it is read and not done.
REFUSED = "print(nothing)\n"


def ordinary(most):
    """Statements as they stand in reports, on lines of about 120 bytes."""
    rows = [
        "f%d = pd.DataFrame({'city': ['Oslo', 'Bergen', \"Lom\", pd.NA], 'count': [1, 2, pd.NA, 4], 'open': [True, False, pd.NA, True]})",
        "g%d = f0.groupby(['city', 'count'], dropna=False)[['open', 'price', 'weight']].agg({'price': 'sum', 'weight': 'max'})  # by city",
        "h%d = (f0['count'] + 2 * f0['price'] // 3 >= -7) & ~f0['city'].isna() | (f0['weight'] %% 10 == 1) ^ f0['open'].fillna(False)",
        "f0.loc[f0['count'] == %d, ['price', 'weight']] = f0[['price', 'weight']].rolling(3, min_periods=1).mean().fillna(0).shift(1)",
        "print(f0.iloc[-5:, 1:3].sort_values(['price', 'weight'], ascending=[False, True]).head(%d).reset_index(drop=True), end='\\n\\n')",
    ]
    lines, size, k = [], len(REFUSED), 0
    while True:
        line = rows[k % len(rows)] % k
        size += len(line) + 1
        if size > most:
            return REFUSED + "\n".join(lines) + "\n"
        lines.append(line)
        k += 1


def read_list(most):
    """One list of numbers of four digits: about 200,000 in 2^20 bytes."""
    count = (most - len(REFUSED) - 20) // 5
    return REFUSED + "s = pd.Series([" + ",".join(str(1000 + k % 9000) for k in range(count)) + "])\n"


def nested(most):
    """Arguments of 30 pairs of parentheses, which with the call are the deepest that there may be."""
    part = "(" * 30 + "1" + ")" * 30
    line = "x = pd.f(" + ", ".join([part] * 25) + ")"
    return REFUSED + (line + "\n") * ((most - len(REFUSED)) // (len(line) + 1))


def on_lists(script):
    """The same statements on Python's lists."""
    return script.replace("pd.Series(", "(").replace(".iloc[", "[")


COMPILE = "import sys\ntry: compile(open(sys.argv[1]).read(), 's', 'exec')\nexcept (SyntaxError, MemoryError, RecursionError): pass"


def spent():
    """The processor time of all processes that have ended, in milliseconds."""
    used = resource.getrusage(resource.RUSAGE_CHILDREN)
    return 1000 * (used.ru_utime + used.ru_stime)


def least(command, runs, check=True):
    times = []
    for _ in range(runs):
        before = spent()
        subprocess.run(command, stdout=subprocess.DEVNULL, stderr=subprocess.DEVNULL, check=check)
        times.append(spent() - before)
    return min(times)


def main():
    program = os.path.abspath(sys.argv[1])
    runs = int(sys.argv[sys.argv.index("--runs") + 1]) if "--runs" in sys.argv else 15
    scripts = [
        ("one list, 2^19 bytes", one_list(MOST_BYTES // 2), None),
        ("one list, 2^20 bytes", one_list(MOST_BYTES), 0),
        ("lines of 2,000 bytes, 2^19 bytes", long_lines(MOST_BYTES // 2), None),
        ("lines of 2,000 bytes, 2^20 bytes", long_lines(MOST_BYTES), 2),
        ("5,000 statements", statements(5000), None),
        ("10,000 statements", statements(10000), 4),
        ("5,000 bindings, half anew", rebindings(5000), None),
        ("10,000 bindings, half anew", rebindings(10000), 6),
    ]
    readings = [
        ("ordinary statements, 2^19 bytes", ordinary(MOST_BYTES // 2), None),
        ("ordinary statements, 2^20 bytes", ordinary(MOST_BYTES), 0),
        ("one list of numbers, 2^19 bytes", read_list(MOST_BYTES // 2), None),
        ("one list of numbers, 2^20 bytes", read_list(MOST_BYTES), 2),
        ("32 levels throughout, 2^19 bytes", nested(MOST_BYTES // 2), None),
        ("32 levels throughout, 2^20 bytes", nested(MOST_BYTES), 4),
        ("opening brackets, 2^19", "[" * (MOST_BYTES // 2), None),
        ("opening brackets, 2^20", "[" * MOST_BYTES, 6),
        ("pairs of brackets, 2^19 bytes", "[]" * (MOST_BYTES // 4), None),
        ("pairs of brackets, 2^20 bytes", "[]" * (MOST_BYTES // 2), 8),
    ]
    starts = start_of(program, runs), least(["python3", "-c", ""], runs)
    print("Start: pdscript %.2f, python3 %.2f" % starts)
    print("Run:")
    measure(program, scripts, runs, starts, lambda path: ["python3", path + ".py"], True)
    print("Read:")
    measure(program, readings, runs, starts, lambda path: ["python3", "-c", COMPILE, path], False)


def start_of(program, runs):
    """The time of a script without a statement."""
    with tempfile.NamedTemporaryFile() as empty:
        return least([program, empty.name], runs)


def measure(program, scripts, runs, starts, other, check):
    """A line for each script."""
    print("%-34s %10s %10s %10s %8s %8s %8s" % ("script", "bytes", "pdscript", "python3", "ratio", "started", "to half"))
    done = []
    with tempfile.TemporaryDirectory() as folder:
        for name, script, half in scripts:
            path = os.path.join(folder, "s")
            with open(path, "w") as out:
                out.write(script)
            with open(path + ".py", "w") as out:
                out.write(on_lists(script))
            ours, theirs = least([program, path], runs, check), least(other(path), runs)
            done.append(ours)
            work, work_there = ours - starts[0], theirs - starts[1]
            started = "%.2f" % (work / work_there) if work_there > starts[1] / 2 else ""
            growth = "" if half is None else "%.2f" % (ours / done[half])
            print("%-34s %10d %10.2f %10.2f %8.2f %8s %8s" % (name, len(script), ours, theirs, ours / theirs, started, growth))


if __name__ == "__main__":
    main()
