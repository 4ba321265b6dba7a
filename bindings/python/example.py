"""The example of bindings/c/example.c, in Python.

    bindings/archive
    python3 bindings/python/example.py traces/b.pw
"""
import sys

import mersohki


def print_witness(file, a, b):
    """Why a and b race."""
    rows = mersohki.order_table(file)
    for k in a, b:
        orders = [mersohki.pair_order(file, k, other) for other in range(len(rows)) if other != k]
        print(f"orders of {k}:", *orders)
        print(f"row of {k}:", *rows[k])
    first, second = mersohki.two_runs(file, a, b)
    print("run:", *first)
    print("run:", *second)
    print("beginning:", *mersohki.beginning(first, second, b, a))


def print_races(file):
    counts = mersohki.accept(file)
    races = mersohki.races(file, space=4096)  # as many as the report program has space for
    print("ops", counts.operations, "workers", counts.workers)
    for lower, higher in races:
        print("race", lower, higher)
    print("races", len(races))
    if races:
        print_witness(file, *races[0])
    tidy = mersohki.canonical(file)
    print("tidy:", len(tidy), "same" if tidy == file else "other")


def main():
    if len(sys.argv) != 2:
        sys.exit("usage: example.py TRACE")
    try:
        with open(sys.argv[1], "rb") as trace:
            file = trace.read()
    except OSError as error:
        sys.exit(str(error))
    try:
        print_races(file)
    except mersohki.Refused as refusal:
        print(refusal)


if __name__ == "__main__":
    main()
