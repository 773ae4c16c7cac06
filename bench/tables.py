"""Puts the runs of bench/mul_div.c together: of each figure the middle one, and how far the ratios lie apart."""

import statistics
import sys

rows, verdicts = {}, set()
for line in open(sys.argv[1]):
    fields = line.rstrip("\n").split("|")
    if len(fields) == 6:
        rows.setdefault(tuple(fields[:2]), []).append([float(field) for field in fields[2:]])
    else:
        verdicts.add(fields[0])


def middle(numbers):
    return f"{statistics.median(numbers):.2f}"


title = None
for (manner, kind), runs in rows.items():
    if manner != title:
        title = manner
        print(f"\n{title}: ns a call, the middle one of {len(runs)} runs\n")
        print("| operands | before: least, median | after: least, median | after/before: least, median | medians apart |")
        print("|---|---|---|---|---|")
    least = [run[2] / run[0] for run in runs]
    median = [run[3] / run[1] for run in runs]
    figures = [middle(column) for column in zip(*runs)]
    print(
        f"| {kind} | {figures[0]}, {figures[1]} | {figures[2]}, {figures[3]} "
        f"| {middle(least)}, {middle(median)} | {min(median):.2f} to {max(median):.2f} |"
    )
print()
for verdict in sorted(verdicts):
    print(f"In each run: {verdict}" if len(verdicts) == 1 else verdict)
