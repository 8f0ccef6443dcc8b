#!/usr/bin/env python3
"""Groups with a rollup, worked out from the rows alone: what a case of cases/groups.txt compares with.

    rollup.py NAME      takes lines of three keys and a number, from the sixth on, and prints of each group its keys, which of them
                        are dropped, the counts of rows and of numbers, sum, average, least and greatest number, the last line's
                        number and the share of the rows
"""
import sys


def toward_zero(number, by):
    return number // by if number >= 0 else -(-number // by)


def integer(text):
    try:
        return int(text)
    except ValueError:
        return None


with open(sys.argv[1], encoding="ascii") as log:
    lines = [line.rstrip("\n").split(" ") for line in log]
rows = [(index, words[:3], integer(words[3])) for index, words in enumerate(lines, 1) if index > 5]
for kept in (3, 2, 1, 0):
    groups = {}
    for row in rows:
        groups.setdefault(tuple(row[1][:kept]), []).append(row)
    for keys, group in groups.items():
        numbers = [number for _, _, number in group if number is not None]
        share = len(group) * 1000000 // len(rows)
        fields = [*keys, *[""] * (3 - kept), *["0"] * kept, *["1"] * (3 - kept), len(group), len(numbers)]
        fields += [sum(numbers), toward_zero(sum(numbers), len(numbers)), min(numbers), max(numbers)] if numbers else [""] * 4
        fields += [group[-1][0], f"{share // 1000000}.{share % 1000000:06}"]
        print(*fields, sep=",")
