"""Reads the tables of several runs, one after the other, and prints one, with the median of each ratio."""
import sys
from collections import defaultdict
from statistics import median

rows = defaultdict(list)
for line in sys.stdin:
    row, _, last = line.rstrip(" |\n").rpartition("|")
    rows[row].append(last)
for row, found in rows.items():
    numbers = row.startswith("| ") and found[0] != " ratio"
    print(row, f" {median(map(float, found)):.2f}" if numbers else found[0], sep="|", end=" |\n")
