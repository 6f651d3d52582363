#!/usr/bin/env python3
"""Runs a script under the pandas that is installed, as the program runs it.

    python3 tools/with_pandas.py [--compare PROGRAM [--words]] SCRIPT NAME=PATH ..

The words are those of the program. `pd.read_csv("NAME")` reads the file under the name's PATH, and a name that isn't given is a
FileNotFoundError. The kinds are the nullable ones wherever a script makes cells: in `read_csv` as by
`dtype_backend="numpy_nullable"`, and where no `dtype` is named in `pd.Series`, `pd.DataFrame` and a column that is set to a
scalar or a list. Copy-on-Write is on. Tables are printed whole. All else is what pandas does; it has to be 1.5 or later. (With
pandas before 2 a column that has missing cells and isn't named in `dtype` loses digits of whole numbers beyond 2^53.)

The statements are done one after the other, without the words of the language that Python has otherwise. The first one that
pandas refuses ends the run with `line N: FAULT: DETAIL` on the error stream and status 1; a text that is no Python is told by
`line N: SyntaxError` with status 3, and a wrong command line ends with status 2.

`--compare` runs the script by PROGRAM too, prints the first line that differs, and ends with 1 where there is one. Of faults the
line and the class are compared, since the details are the program's own. With `--words` lines that differ in blanks alone are
the same.
"""
import argparse
import ast
import itertools
import re
import subprocess
import sys
import warnings

try:
    import pandas
except ImportError:
    sys.exit("pandas isn't installed for %s" % sys.executable)

WHOLE = ("display.max_rows", "display.max_columns", "display.max_colwidth", "display.max_seq_items", "display.width")
IMPORT = ast.dump(ast.parse("import pandas as pd").body[0])
MAJOR = int(pandas.__version__.split(".")[0])
KINDS = {"integer": "Int64", "boolean": "boolean", "string": "string"}
TOLD = re.compile(r"line \d+: (?:warning: )?\w+")


class Pandas:
    """What `pd` stands for in a script: pandas, with files by their names and with nullable kinds."""

    def __init__(self, files):
        self.files = files

    def __getattr__(self, name):
        return getattr(pandas, name)

    def read_csv(self, filepath_or_buffer, **named):
        if filepath_or_buffer not in self.files:
            raise FileNotFoundError(filepath_or_buffer)
        path = self.files[filepath_or_buffer]
        if MAJOR >= 2:
            return pandas.read_csv(path, **{"dtype_backend": "numpy_nullable", **named})
        named.pop("dtype_backend", None)
        return pandas.read_csv(path, **named).convert_dtypes()

    def Series(self, *given, **named):
        column = pandas.Series(*given, **named)
        return column if "dtype" in named else nullable(column)

    def DataFrame(self, *given, **named):
        frame = pandas.DataFrame(*given, **named)
        return frame if "dtype" in named else frame.apply(nullable)


def nullable(column):
    """The column with the nullable kind of its cells, and as it is where they have none."""
    kind = KINDS.get(pandas.api.types.infer_dtype(column, skipna=True))
    return column.astype(kind) if kind else column


def set_column(frame, key, value, plain=pandas.DataFrame.__setitem__):
    """Sets each column of a label, with a nullable kind where the value is a scalar or a list."""
    plain(frame, key, value)
    if isinstance(value, (str, int, list)) and not isinstance(key, list) and pandas.api.types.is_hashable(key):
        for place in frame.columns.get_indexer_for([key]):
            frame.isetitem(place, nullable(frame.iloc[:, place]))


def prepare():
    """Sets what differs between versions of pandas, and prints tables whole."""
    if MAJOR < 3:
        pandas.set_option("mode.copy_on_write", True)
    for name in WHOLE:
        pandas.set_option(name, None)
    pandas.set_option("display.expand_frame_repr", False)
    pandas.set_option("display.unicode.east_asian_width", True)
    pandas.DataFrame.__setitem__ = set_column
    warnings.simplefilter("always")


def run(script, files):
    """Does the statements, and answers the status."""
    line, names = 1, {"pd": Pandas(files)}

    def warned(message, category, *_):
        if category.__name__ == "ChainedAssignmentError":
            print("line %d: warning: ChainedAssignmentError" % line, file=sys.stderr)

    prepare()
    warnings.showwarning = warned
    try:
        with open(script, encoding="utf-8", newline="") as file:
            statements = ast.parse(file.read()).body
    except (SyntaxError, ValueError) as fault:
        print("line %d: SyntaxError" % (getattr(fault, "lineno", None) or line), file=sys.stderr)
        return 3
    for statement in statements:
        if ast.dump(statement) == IMPORT:
            continue
        line = statement.lineno
        try:
            exec(compile(ast.Module([statement], []), script, "exec"), names)
        except Exception as fault:
            detail = str(fault).split("\n")[0]
            print("line %d: %s" % (line, type(fault).__name__ + (": " + detail if detail else "")), file=sys.stderr)
            return 1
    return 0


def lines_of(command):
    """What a command prints, by lines; then what it tells on its error stream, and its status."""
    ran = subprocess.run(command, stdout=subprocess.PIPE, stderr=subprocess.PIPE)
    printed, told = (stream.decode(errors="backslashreplace").splitlines() for stream in (ran.stdout, ran.stderr))
    told = [found[0] if found else line for line, found in ((line, TOLD.match(line)) for line in told)]
    return printed, told + ["status %d" % ran.returncode]


def compare(program, words, blanks):
    """Prints the first line that differs, also where only blanks do if these count, and answers the status."""
    ours, theirs = lines_of([program, *words]), lines_of([sys.executable, __file__, *words])
    for stream, left, right in zip(("output", "error stream"), ours, theirs):
        for number, (one, other) in enumerate(itertools.zip_longest(left, right), 1):
            if one != other and (blanks or one is None or other is None or one.split() != other.split()):
                print("line %d of the %s\n  program: %s\n  pandas:  %s" % (number, stream, told(one), told(other)))
                return 1
    return 0


def told(line):
    return "ended before" if line is None else repr(line)


def main():
    parser = argparse.ArgumentParser(usage="%(prog)s [--compare PROGRAM [--words]] SCRIPT NAME=PATH ..")
    parser.add_argument("--compare", metavar="PROGRAM", help="the built pdscript")
    parser.add_argument("--words", action="store_true", help="don't compare how many blanks stand between words")
    parser.add_argument("script", metavar="SCRIPT")
    parser.add_argument("pairs", metavar="NAME=PATH", nargs="*")
    asked = parser.parse_args()
    pairs = [pair.partition("=") for pair in asked.pairs]
    files = {name: path for name, _, path in pairs}
    if len(files) < len(pairs) or not all(name and path for name, _, path in pairs):
        parser.error("each name is given once, as NAME=PATH")
    if asked.compare:
        return compare(asked.compare, [asked.script, *asked.pairs], not asked.words)
    return run(asked.script, files)


if __name__ == "__main__":
    sys.exit(main())
