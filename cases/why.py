#!/usr/bin/env python3
"""Tries tools/why on the scripts of the cases, the documents and examples/, and compares its counts with docs/TOOLS.md.

    python3 cases/why.py [--write]

A script that is a syntax error has to be named: something is found in the statement that the program tells. In a script that
ends with status 0 nothing may be found, but where Python's own parser refuses it. Prints each script at which that isn't so,
and ends with 1 where there is one, or where docs/TOOLS.md tells other counts; with --write it writes them there. No program is
run.
"""
import glob
import importlib.machinery
import importlib.util
import re
import sys

import run

TEXT = (
    r"Of (\d+) scripts that are syntax errors it names (\d+), (\d+) of them by the words of Python's own parser. "
    r"In (\d+) of the (\d+) scripts that end with status 0"
)
COUNTS = re.compile(TEXT.replace(" ", r"\s+"))


def tool(path):
    """The module of a script whose name has no ending."""
    loader = importlib.machinery.SourceFileLoader("why", path)
    module = importlib.util.module_from_spec(importlib.util.spec_from_loader("why", loader))
    loader.exec_module(module)
    return module


def cases():
    """All cases of a script of their own name, each with the script."""
    pages = sorted(glob.glob(run.HERE + "/*.md")) + ["%s/%s.md" % (run.TOP, name) for name in run.DOCUMENTS]
    for case in [case for page in pages for case in run.cases_of(page)] + list(run.examples_of(run.TOP + "/examples")):
        if not case.shell and all(words and words[0] == case.path for words in case.words):
            yield case, case.files[case.path]


def is_told(counts, write):
    """Whether docs/TOOLS.md tells these counts, which are written there before if they shall be."""
    path = run.TOP + "/docs/TOOLS.md"
    with open(path, encoding="utf-8") as file:
        page = file.read()
    found = COUNTS.search(page)
    if found is None:
        return False
    if write:
        for number in range(len(counts), 0, -1):
            page = page[: found.start(number)] + str(counts[number - 1]) + page[found.end(number) :]
        with open(path, "w", encoding="utf-8") as file:
            file.write(page)
        return True
    return tuple(int(number) for number in found.groups()) == counts


def main():
    sys.dont_write_bytecode = True
    why = tool(run.TOP + "/tools/why")
    wrong, named, by_python, lost, ended, found_there = [], 0, 0, 0, 0, 0
    for case, script in cases():
        told = re.fullmatch(rb"line (\d+): SyntaxError\n", case.errors)
        found = why.findings(script, why.pages())
        if told:
            texts = [text for line, many in found if line == int(told[1]) for _, text in many]
            named += bool(texts)
            lost += not texts
            by_python += bool(texts) and all(text.startswith("not Python") for text in texts)
        elif case.status == 0:
            ended += 1
            found_there += bool(found)
            texts = [text for _, many in found for _, text in many]
            wrong += ["%s: found %s" % (case.place, text) for text in texts if not text.startswith("not Python")]
    counts = (named + lost, named, by_python, found_there, ended)
    if not is_told(counts, "--write" in sys.argv):
        wrong.append("docs/TOOLS.md tells other counts")
    if named < 9 * lost:
        wrong.append("fewer than nine of ten syntax errors are named")
    for line in wrong:
        print(line)
    print("%d scripts are syntax errors, %d named, %d by Python; in %d of %d that end with status 0 something is found" % counts)
    return 1 if wrong else 0


if __name__ == "__main__":
    sys.exit(main())
