#!/usr/bin/env python3
"""Runs the cases of cases/, the examples of the documents and the scripts of examples/ on the built program.

    python3 cases/run.py PROGRAM [FILE ..]

A FILE is Markdown: by default each one of cases/, README.md and the documents of docs/ that have examples. A fenced block
`pdscript` is a script, and begins a case; its name is the heading above it. `csv NAME` before a script is a file that it
is given by the word NAME=NAME, `make Makefile` a file beside it, and the blocks behind it say how its run ends:

    output          what it writes, nothing where there is no such block
    errors STATUS   what it writes on the error stream, nothing where there is no such block, and the exit status.
                    The status is 1 where it isn't said, and 0 where there is no such block
    words           the words of the command line in place of `script.pds NAME=NAME ..`. Each line is a command line, read as
                    a shell does, and a run of its own; all end alike. `> DEVICE` or `2> DEVICE` may stand last
    shell           a case of its own: commands of bash, with the script and its files in the folder, and `pdscript` and the
                    tools of tools/ as commands

`pdscript PATH` stands for a script with another path, and `scripts` for many: each line, without its end, is a script of its
own, and all end alike. Where `bytes` is the last word of a fence, the block is an expression of Python for its bytes.

A table whose first column is `You wrote` has cases too, each behind the lines of the script that stands last before it.
Each code of that column is a case, which ends with the fault under `Here`, or with a syntax error where there is no such
column. The codes of a row under `Write instead`, and under `Write` in a table whose first column is `To`, are the lines of one
case, which ends without a fault, whatever it prints.

Where no FILE is given each script NAME.pds of examples/ and of the folders in it is run too, with a word FILE.csv=FILE.csv for
each file FILE.csv beside it; it writes NAME.out and NAME.err, and nothing on a stream whose file isn't there.

Prints each case that ends otherwise, by its file, line and name, and ends with 1 where there is one, or where a file has
no case.
"""
import contextlib
import glob
import os
import re
import shlex
import subprocess
import sys
import tempfile

HERE = os.path.dirname(os.path.abspath(__file__))
TOP = os.path.dirname(HERE)
SECONDS = 120
DOCUMENTS = (
    "README",
    *("docs/" + name for name in "GUIDE FROM_PANDAS LANGUAGE METHODS FORMATS CHEATSHEET OPERATIONS TOOLS".split()),
)
PART = re.compile(
    r"^#+ (?P<title>.*)$|^```(?P<fence>\w.*)\n(?P<body>(?:.*\n)*?)```$|^(?P<table>\| (?:You wrote|To) \|.*\n(?:\|.*\n)+)", re.M
)
CODE = re.compile(r"`([^`]+)`")


class Case:
    """A script with its files, and how each run of it ends. Where the output is None it isn't looked at."""

    def __init__(self, place, script, files, path="script.pds"):
        self.place, self.path, self.files = place, path, {**files, path: script}
        self.words = [[path, *("%s=%s" % (name, name) for name in files if name != "Makefile")]]
        self.output, self.errors, self.status, self.shell = b"", b"", 0, None

    def take(self, kind, rest, body):
        """Takes a block that stands behind the script."""
        if kind == "output":
            self.output = body
        elif kind == "errors":
            self.errors, self.status = body, int(rest[0]) if rest else 1
        elif kind == "words":
            self.words = [shlex.split(line) for line in body.decode(errors="surrogateescape").splitlines()]
        else:
            sys.exit("%s: no such block: %s" % (self.place, kind))

    def then(self, place, lines):
        """A case of the same files, with more lines of script."""
        files = {name: body for name, body in self.files.items() if name != self.path}
        return Case(place, self.files[self.path] + "".join(line + "\n" for line in lines).encode(), files, self.path)

    def by_shell(self, place, commands):
        """A case of the same files, that a shell runs."""
        case = self.then(place, [])
        case.shell = commands
        return case

    def refuse(self, fault):
        """Ends with a fault of the script's last line."""
        self.errors = b"line %d: %s\n" % (self.files[self.path].count(b"\n"), fault.encode())
        self.status = 3 if fault == "SyntaxError" else 1

    def failures(self, program):
        """How the runs of the case end, where that is otherwise."""
        with tempfile.TemporaryDirectory() as folder:
            for name, body in self.files.items():
                with open(os.path.join(folder, name), "wb") as out:
                    out.write(body)
            if self.shell is not None:
                with commands(program) as environment:
                    ended = run(["bash", "-c", self.shell], folder, environment)
                if ended != (self.output, self.errors, self.status):
                    yield "%s: by a shell: ended with %s" % (self.place, told(ended))
                return
            for words in self.words:
                ended = run([program, *words], folder)
                output = ended[0] if self.output is None else self.output
                if ended != (output, self.errors, self.status):
                    yield "%s: %s: ended with %s" % (self.place, shlex.join(words), told(ended))


@contextlib.contextmanager
def commands(program):
    """An environment in which the program and the tools are commands."""
    with tempfile.TemporaryDirectory() as links:
        for name in [program, *glob.glob(TOP + "/tools/*")]:
            os.symlink(name, os.path.join(links, "pdscript" if name == program else os.path.basename(name)))
        yield {**os.environ, "PATH": links + ":" + os.environ["PATH"], "LC_ALL": "C.UTF-8"}


def run(command, folder, environment=None):
    """What the command writes on its two streams in the folder, nothing on one that is sent to a device, and its status."""
    streams = {">": subprocess.PIPE, "2>": subprocess.PIPE}
    with contextlib.ExitStack() as opened:
        if len(command) > 2 and command[-2] in streams:
            streams[command[-2]] = opened.enter_context(open(command[-1], "wb"))
            command = command[:-2]
        try:
            ran = subprocess.run(
                command, cwd=folder, env=environment, stdout=streams[">"], stderr=streams["2>"], timeout=SECONDS
            )
        except subprocess.TimeoutExpired:
            return b"", b"", "none in %d seconds" % SECONDS
    return ran.stdout or b"", ran.stderr or b"", ran.returncode


def told(ended):
    """The two streams and the status, cut to a line."""
    output, errors, status = ended
    return "output %.500r, errors %.500r, status %s" % (output, errors, status)


def rows_of(page, line, table, script):
    """The cases of a table that begins on a line, behind the lines of a script."""
    head, _, *rows = [re.split(r"(?<!\\)\|", row)[1:-1] for row in table.splitlines()]
    for number, row in enumerate(rows, line + 2):
        codes = {title.strip(): CODE.findall(cell.replace("\\|", "|")) for title, cell in zip(head, row)}
        for code in codes.get("You wrote", []):
            case = script.then("%s:%d: %s" % (page, number, code), [code])
            case.refuse(*codes.get("Here", ["SyntaxError"]))
            yield case
        instead = codes.get("Write instead") or codes.get("Write")
        if instead:
            case = script.then("%s:%d: instead" % (page, number), instead)
            case.output = None
            yield case


def cases_of(name):
    """The cases of a file of Markdown."""
    with open(name, encoding="utf-8", newline="") as file:
        text = file.read()
    page, files, latest, title = os.path.relpath(name, TOP), {}, [], ""
    for part in PART.finditer(text):
        if part["title"]:
            title = part["title"]
            continue
        line = text.count("\n", 0, part.start()) + 1
        if part["table"]:
            yield from rows_of(page, line, part["table"], latest[-1])
            continue
        kind, *rest = part["fence"].split()
        body = part["body"].encode()
        if rest and rest[-1] == "bytes":
            rest, body = rest[:-1], eval(body)
        place = "%s:%d: %s" % (page, line, title)
        if kind in ("csv", "make"):
            files[rest[0]] = body
        elif kind == "shell":
            yield from latest
            latest = [latest[-1].by_shell(place, part["body"])]
        elif kind in ("pdscript", "scripts"):
            yield from latest
            scripts = [body] if kind == "pdscript" else body.splitlines()
            latest = [Case(place, script, files, *rest) for script in scripts]
            files = {}
        else:
            for case in latest:
                case.take(kind, rest, body)
    yield from latest


def bytes_of(name):
    """What a file holds; nothing where it isn't there."""
    if not os.path.exists(name):
        return b""
    with open(name, "rb") as file:
        return file.read()


def examples_of(folder):
    """The scripts of a folder, each with all files of the folder and what it writes."""
    files = {os.path.basename(name): bytes_of(name) for name in sorted(glob.glob(folder + "/*.csv"))}
    for name in sorted(glob.glob(folder + "/*.pds")):
        case = Case(os.path.relpath(name, TOP), bytes_of(name), files)
        case.output = bytes_of(name[:-4] + ".out")
        case.errors = bytes_of(name[:-4] + ".err")
        case.status = 1 if case.errors else 0
        yield case


def main():
    program, names = os.path.abspath(sys.argv[1]), sys.argv[2:]
    stored = sorted(glob.glob(HERE + "/*.md")) or [HERE + "/*.md"]
    pages = names or stored + ["%s/%s.md" % (TOP, name) for name in DOCUMENTS]
    cases = {name: list(cases_of(name)) for name in pages}
    if not names:
        cases.update((folder, list(examples_of(folder))) for folder in [TOP + "/examples", *sorted(glob.glob(TOP + "/examples/*/"))])
    failures = [line for each in cases.values() for case in each for line in case.failures(program)]
    failures += ["%s: no case" % name for name, each in cases.items() if not each]
    for line in failures:
        print(line)
    print("%d cases, %d failed" % (sum(len(case.words) for each in cases.values() for case in each), len(failures)))
    return 1 if failures or not cases else 0


if __name__ == "__main__":
    sys.exit(main())
