"""The operations of `column_bench` on pandas' nullable arrays: columns_pandas.py OPERATION CELLS.

The data, the lines and the number of the answer's cells are those of `column_bench`.
"""
import sys
import time

import numpy
import pandas

RUNS = 7


def jump(rows):
    return rows % 65536 * 40503 % 65536


def other_jump(rows):
    return rows % 65536 * 30011 % 65536


def numbers(at):
    return pandas.Series(pandas.arrays.IntegerArray(at - 32768, at < 8192))


def divisors(at):
    return pandas.Series(pandas.arrays.IntegerArray(at % 1000 + 1, at < 8192))


def truths(at):
    return pandas.Series(pandas.arrays.BooleanArray(at % 4096 < 2048, at < 8192))


def bits(at):
    return pandas.Series(pandas.arrays.IntegerArray(at // 64 % 2, at < 8192))


def places(rows):
    earlier = numpy.maximum(rows - jump(rows), 0)
    return numpy.where(other_jump(rows) < 8192, -1, earlier)


def work(name, rows):
    """The operation, on data that is made before it is timed."""
    if name in ("add", "floor_div", "lt"):
        a, b = numbers(jump(rows)), divisors(other_jump(rows))
        return {"add": lambda: a + b, "floor_div": lambda: a // b, "lt": lambda: a < b}[name]
    if name == "and":
        a, b = truths(jump(rows)), truths(other_jump(rows))
        return lambda: a & b
    if name == "cast":
        a = bits(jump(rows))
        return lambda: a.astype("boolean")
    a = numbers(jump(rows))
    if name == "take":
        at = places(rows)
        return lambda: a.array.take(at, allow_fill=True)
    return {"sum": a.sum, "cumsum": a.cumsum, "shift": lambda: a.shift(1)}[name]


def number(answer):
    """The number of the answer's cells: a missing one counts as -3."""
    if not hasattr(answer, "__len__"):
        return int(answer)
    cells = pandas.Series(answer).astype("Int64").fillna(-3).to_numpy(dtype="int64")
    return int((cells * (numpy.arange(len(cells)) % 1000 + 1)).sum())


def main():
    name, count = sys.argv[1], int(sys.argv[2])
    run = work(name, numpy.arange(count))
    for _ in range(RUNS):
        begun = time.perf_counter()
        answer = run()
        print(name, "took", round(1e6 * (time.perf_counter() - begun)))
        del answer
    print(name, number(run()))


if __name__ == "__main__":
    main()
