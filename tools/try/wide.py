#!/usr/bin/env python3
"""The greatest update: each point of the greatest network, with the longest names, is another after it. What it writes into a
journal is a line that an opening, `verify` and `journal` read again."""

from looks import main, run, same

SECTIONS, POINTS = 5000, 10000


def section(number):
    return f"SECTION-{number:016d}"


def network(folder, ending, remote):
    """Three files: a chain of sections with two points between each and the next, and two across its ends."""
    names = [f"{folder}/{name}-{ending}.csv" for name in ("sections", "points", "staff")]
    ends = [(place, place + 1) for place in range(SECTIONS - 1) for _ in range(2)] + 2 * [(0, SECTIONS - 1)]
    rows = [f"POINT-{number:018d},{section(one)},{section(other)},yes,{remote},open" for number, (one, other) in enumerate(ends)]
    texts = [
        ["section,source", *(f"{section(number)},{'no' if number else 'yes'}" for number in range(SECTIONS))],
        ["point,from,to,lockable,remote,position", *rows],
        ["employee,role,supervisor", "OPS,operator,"],
    ]
    for name, text in zip(names, texts, strict=True):
        with open(name, "w", encoding="ascii") as out:
            print(*text, sep="\n", file=out)
    return names


def greatest(folder):
    before, after = network(folder, "before", "no"), network(folder, "after", "yes")
    register = ["register.db", "--journal", "journal"]
    same("the greatest network", run("init", *before, "--db", *register, folder=folder)[0], 0)
    status, printed, _ = run("update", "register.db", *after, *register[1:], folder=folder)
    same("each point is another", (status, printed.count("\n")), (0, POINTS))
    same("its line is of more than a mebibyte", (folder / "journal").stat().st_size > 1 << 20, True)
    same("an opening reads it", run("run", "--db", *register, folder=folder), (0, "", ""))
    same("verify reads it", run("verify", "register.db", "journal", *before, folder=folder), (0, "verified 1 commands\n", ""))
    status, log, faults = run("journal", "journal", folder=folder)
    same("journal reads it", (status, faults), (0, ""))


if __name__ == "__main__":
    main(greatest)
