#!/usr/bin/env python3
"""Runs the built program over files and streams that can't be made the same each time, or not by every user.

    python3 bench/outside.py PROGRAM

A line for each says what is done, and how the run ended; those of cases/outside.md can be made anywhere, and stand there.
Where the caller is root, the file that may not be read is read by the user with the number 65534. A file that is cut while it
is read is cut at another moment in each of 100 runs: the number of rows that a run prints is one between those that are left
and those that were there. Ends with 1 where a run ended otherwise.
"""
import os
import shutil
import subprocess
import sys
import tempfile
import time

ROWS = 2_000_000
LEFT = 1_000
RUNS = 100
NOBODY = 65534


def ended(command, **streams):
    """The status and what is written on the two streams."""
    ran = subprocess.run(command, stdout=subprocess.PIPE, stderr=subprocess.PIPE, **streams)
    return ran.returncode, ran.stdout, ran.stderr


def unreadable(program):
    """A file that may not be read."""
    with open("t", "wb") as file:
        file.write(b"a\n1\n")
    os.chmod("t", 0)
    user = {"user": NOBODY, "group": NOBODY, "extra_groups": []} if os.getuid() == 0 else {}
    end = ended([program, "script.pds", "t=t"], **user)
    os.remove("t")
    return end == (4, b"", b"input failed\n"), end


def closed(program, stream):
    """A stream that is closed from the first."""
    end = ended(["bash", "-c", 'exec "$@" ' + stream, "bash", program, "prints.pds"])
    return end[0] == 5, end


def cut(program):
    """A file that is cut while it is read, at another moment each time; whether each run ended well, and the numbers of rows."""
    seen = set()
    for number in range(RUNS):
        with open("t", "wb") as file:
            file.write(b"a\n" + b"1234567\n" * ROWS)
        run = subprocess.Popen([program, "script.pds", "t=t"], stdout=subprocess.PIPE, stderr=subprocess.PIPE)
        time.sleep(number * 0.0005)
        os.truncate("t", 2 + 8 * LEFT)
        output, errors = run.communicate()
        if run.returncode != 0 or errors or not LEFT <= int(output) <= ROWS:
            return False, (run.returncode, output, errors)
        seen.add(int(output))
    return True, "%d different numbers of rows, from %d to %d" % (len(seen), min(seen), max(seen))


def main():
    failed = False
    with tempfile.TemporaryDirectory() as folder:
        program = shutil.copy(sys.argv[1], folder)
        os.chmod(folder, 0o755)
        os.chdir(folder)
        for name, script in (("script", 'print(len(pd.read_csv("t")))\n'), ("prints", "print(1)\nprint(x)\n")):
            with open(name + ".pds", "w") as file:
                file.write(script)
        for title, (right, end) in (
            ("a file that may not be read", unreadable(program)),
            ("an output that is closed", closed(program, ">&-")),
            ("errors that are closed", closed(program, "2>&-")),
            ("a file that is cut while it is read", cut(program)),
        ):
            print("%s: %s%s" % (title, end, "" if right else ": WRONG"))
            failed = failed or not right
    return 1 if failed else 0


if __name__ == "__main__":
    sys.exit(main())
