#!/usr/bin/env python3
"""Prints two states of the library side by side, for bench/compare.sh.

Usage: compare.py BEFORE AFTER. Each file has what the benchmark printed in all runs of one state. Of each workload come the ns, from
the least to the most, and the ratios to the twin where there is one; last the best after divided by the best before.
"""
import re
import sys
from pathlib import Path

# the tables that are read: the start of the heading, the name of a row, its form, and where its ns and its ratio to the twin stand in that
TABLES = (
    ("ns a call ", "{0}", re.compile(r"(\D+?) +\d+ +(\d+) +\d+ +\d+ +([\d.]+) +[\d.]+"), 2, 3),
    ("both pairs ", "both pairs, {0}", re.compile(r"(\D+?) +\d+ +(\d+) +\d+ +[\d.]+ +[\d.]+"), 2, None),
    ("engine ", "engine, {0}", re.compile(r"(\D+?) +\d+ +(\d+) +\d+ +[\d.]+ +[\d.]+"), 2, None),
    ("whole yard: ", "a yard's tick, n {0} ε {1} δ {2}", re.compile(r" *(\d+) +(\d+) +(\d+) +\d+ +(\d+) +\d+ +\d+"), 4, None),
)


class Workload:
    """The ns of a workload in all runs, and its ratios to the twin."""

    def __init__(self):
        self.ns, self.ratios = [], []


def read(path):
    """The workloads of a file by their names. A row that does not have its table's form ends the program."""
    workloads, table = {}, None
    for line in Path(path).read_text(encoding="utf-8").splitlines():
        heading = next((table for table in TABLES if line.startswith(table[0])), None)
        if heading or not line.strip():
            table = heading
        elif table:
            add(workloads, table, line)
    return workloads


def add(workloads, table, line):
    """Puts one row of a table to the workloads."""
    _, name, form, ns, ratio = table
    row = form.fullmatch(line.rstrip())
    if not row:
        sys.exit(f"compare: this is no row of its table: {line}")
    workload = workloads.setdefault(name.format(*row.groups()), Workload())
    workload.ns.append(int(row[ns]))
    if ratio:
        workload.ratios.append(float(row[ratio]))


def span(numbers, form):
    """The least and the most of some numbers, or the one where they are the same."""
    least, most = (format(number, form) for number in (min(numbers), max(numbers))) if numbers else ("", "")
    return least if least == most else f"{least} to {most}"


def main():
    if len(sys.argv) != 3:
        sys.exit("usage: compare.py BEFORE AFTER")
    before, after = read(sys.argv[1]), read(sys.argv[2])
    if not before and not after:
        sys.exit("compare: no run has printed a table")
    if before.keys() != after.keys():
        sys.exit(f"compare: only one of the two has {', '.join(sorted(before.keys() ^ after.keys()))}")
    print(f"{'':34}{'before, ns':>20}{'after, ns':>20}{'before/twin':>15}{'after/twin':>15}{'after/before':>15}")
    for name, old in before.items():
        new = after[name]
        print(f"{name:34}{span(old.ns, ',d'):>20}{span(new.ns, ',d'):>20}", end="")
        print(f"{span(old.ratios, '.2f'):>15}{span(new.ratios, '.2f'):>15}{min(new.ns) / min(old.ns):>15.2f}")


if __name__ == "__main__":
    main()
