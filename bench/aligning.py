#!/usr/bin/env python3
"""Times operators and settings that meet by label on long tables beside pandas and data.table, start included: see beside.py.

    python3 bench/aligning.py PROGRAM [--rows N] [--runs N] [--only WORD] [--growth]

PROGRAM is the built `pdscript`. Two files have 1,000,000 rows each, with a whole number, a text or both as labels and a
whole number as value. Both have the same labels, those of the second in another order. A script reads both and does one
form. `--growth` times the program on ten times the rows as well.
"""
import os
import sys
import tempfile

from beside import TOLD, commands, form, grown, head, option, read_line

KINDS = {"k": "Int64", "w": "string", "a": "Int64", "b": "Int64"}
LABELS = {"k": lambda row: str(2654435761 * row % 2147483647), "w": lambda row: "text-%d" % (40503 * row % 2147483647)}

R = "t <- fread(f[1]); u <- fread(f[2]); %s"
MERGED = R % "m <- merge(t, u, by = '%s', all = TRUE); "
MERGED += "cat(sprintf('%%d\\n%%.0f\\n', nrow(m), sum(as.numeric(m$a + m$b), na.rm = TRUE)))"
JOINED = R % "t[u, c := i.b, on = 'k']; cat(sprintf('%d\\n%.0f\\n', nrow(t), sum(as.numeric(t$c), na.rm = TRUE)))"
READ = R % "cat(sprintf('%d\\n%.0f\\n', nrow(t), sum(as.numeric(t$a))))"

# The labels of the files, the name of the form, its script behind the reading, and what R does.
NOTHING = ("reading alone", "z = t['a']\n" + TOLD, READ)
FORMS = {
    "k": [
        NOTHING,
        ("equal labels", "s = t.set_index('k')\nz = s['a'] + s['a']\n" + TOLD, None),
        ("a column by label", "f = t.set_index('k')\nf['c'] = u.set_index('k')['b']\nz = f['c']\n" + TOLD, JOINED),
        ("whole-number labels", "z = t.set_index('k')['a'] + u.set_index('k')['b']\n" + TOLD, MERGED % "k"),
    ],
    "w": [NOTHING, ("text labels", "z = t.set_index('w')['a'] + u.set_index('w')['b']\n" + TOLD, MERGED % "w")],
    "wk": [NOTHING, ("two levels", "z = t.set_index(['w', 'k'])['a'] + u.set_index(['w', 'k'])['b']\n" + TOLD, None)],
}


def write_tables(folder, labels, rows):
    """Writes both files, and answers their paths. The second has its rows in the order of multiples of 7,919."""
    paths = [os.path.join(folder, name + ".csv") for name in ("t", "u")]
    for path, value, step in zip(paths, "ab", (1, 7919)):
        with open(path, "w") as out:
            out.write(",".join([*labels, value]) + "\n")
            for row in (step * k % rows for k in range(rows)):
                out.write(",".join([*(LABELS[label](row) for label in labels), str(30011 * row % 65536)]) + "\n")
    return paths


def reading(labels):
    """The lines of a script that read both files."""
    return "".join(read_line(name, {each: KINDS[each] for each in [*labels, value]}) for name, value in zip("tu", "ab"))


def asked_of(program, folder, paths, labels, text, in_r):
    asked = {"data.table": in_r} if in_r else {}
    return commands(program, folder, dict(zip("tu", paths)), reading(labels) + text, asked)


def main():
    program, rows, runs = os.path.abspath(sys.argv[1]), int(option("--rows", 1000000)), int(option("--runs", 3))
    head(rows)
    with tempfile.TemporaryDirectory() as folder:
        for labels, all_forms in FORMS.items():
            forms = [each for each in all_forms if each is NOTHING or option("--only", "") in each[0]]
            if len(forms) == 1:
                continue
            paths, starts = write_tables(folder, labels, rows), {}
            for name, text, in_r in forms:
                form(name, asked_of(program, folder, paths, labels, text, in_r), runs, starts)
            if "--growth" in sys.argv:
                paths = write_tables(folder, labels, 10 * rows)
                for name, text, _ in forms:
                    grown(name, asked_of(program, folder, paths, labels, text, None)["pdscript"], runs)


if __name__ == "__main__":
    main()
