#!/usr/bin/env python3
"""Tells what a ledger holds, by docs/commit.md alone: it shares nothing with the program.

    ledger.py NAME      prints of each entry, one behind the other:
        span NAME FROM TO lines LINES [columns COLUMN ..]
        list VALUE ..
        output NAME BASE LENGTH
        counts PROCESSED OUTPUT BAD
    and `not done` behind the last one, where its outputs may not be whole yet
"""
import os
import struct
import sys

MAGIC = b"LPCHECKPOINT0001"
OPEN = 0xA5
DONE = 0x5A
NONE = 2**64 - 1


class Damaged(Exception):
    pass


class Fields:
    """The fields of some bytes, one behind the other."""

    def __init__(self, data, at=0):
        self.data, self.at = data, at

    def take(self, count):
        if self.at + count > len(self.data):
            raise Damaged(f"no {count} bytes at {self.at}")
        self.at += count
        return self.data[self.at - count : self.at]

    def number(self, size):
        return int.from_bytes(self.take(size), "little")

    def text(self):
        return self.take(self.number(4))

    def name(self):
        return self.text().decode()


def standing_of(data):
    fields = Fields(data)
    lines = fields.number(8)
    columns = None
    if fields.number(1):
        columns = [fields.name() for _ in range(fields.number(2))]
    if fields.at != len(data):
        raise Damaged("a standing has bytes behind it")
    return lines, columns


def value_of(fields):
    """A value as text: NULL, an integer, a number with six digits behind its point, 'a text', or a stamp's part and seconds."""
    tag = fields.number(1)
    if tag == 0:
        return "NULL"
    if tag in (1, 2):
        number = int.from_bytes(fields.take(8), "little", signed=True)
        if tag == 1:
            return str(number)
        return f"{'-' if number < 0 else ''}{abs(number) // 10**6}.{abs(number) % 10**6:06}"
    if tag == 3:
        return f"'{fields.name()}'"
    if tag == 4:
        part = fields.number(1)
        return f"stamp {part} {int.from_bytes(fields.take(8), 'little', signed=True)}"
    raise Damaged(f"no value has the tag {tag}")


def entry_of(payload):
    fields = Fields(payload)
    if fields.number(1) != 1:
        raise Damaged("another form")
    entry = {"moment": fields.number(8), "input": fields.name()}
    entry["words"] = [fields.name() for _ in range(fields.number(4))]
    entry["query"] = fields.name()
    entry["template"] = fields.text()
    entry["spans"] = [
        (fields.name(), fields.number(8), fields.number(8), standing_of(fields.text())) for _ in range(fields.number(4))
    ]
    entry["lists"] = [[value_of(fields) for _ in range(fields.number(8))] for _ in range(fields.number(4))]
    entry["staged"] = fields.number(8)
    entry["outputs"] = [
        (fields.name(), fields.number(8), fields.number(8), fields.number(8)) for _ in range(fields.number(4))
    ]
    entry["counts"] = tuple(fields.number(8) for _ in range(3))
    if fields.at != len(payload):
        raise Damaged("an entry has bytes behind it")
    return entry


def read_ledger(data):
    """The entries, and whether the last one is done."""
    if len(data) <= 18:
        return [], True
    fields = Fields(data)
    if fields.take(16) != MAGIC:
        raise Damaged("it doesn't begin as a ledger does")
    entries, done = [], True
    while True:
        gate, mark = fields.number(1), fields.number(1)
        if gate != OPEN:
            return entries, done
        done = mark == DONE
        entries.append(entry_of(fields.take(fields.number(8))))


def staged_text(stage, staged, output, index):
    """The text of an output, found from its last frame back."""
    _, _, end, at = output
    text = b""
    while end > 0:
        prev, offset, number, length = struct.unpack("<QQII", stage[at : at + 24])
        piece = stage[at + 24 : at + 24 + length]
        fits = at + 24 + length <= min(staged, len(stage)) and number == index and 1 <= length <= 4096
        if not (fits and offset + length == end and (prev == NONE if offset == 0 else prev < at)):
            raise Damaged(f"a frame at {at} of the stage")
        text, at, end = piece + text, prev, offset
    return text


def read_file(path):
    try:
        with open(path, "rb") as file:
            return file.read()
    except FileNotFoundError:
        return b""


def recovered(folder, ledger):
    """What the files stand for: the entries, and the outputs of all of them."""
    entries, done = read_ledger(read_file(os.path.join(folder, ledger)))
    files = {output[0]: read_file(os.path.join(folder, output[0])) for entry in entries for output in entry["outputs"]}
    if not done:
        stage = read_file(os.path.join(folder, ledger + ".stage"))
        last = entries[-1]
        for index, output in enumerate(last["outputs"]):
            files[output[0]] = files[output[0]][: output[1]] + staged_text(stage, last["staged"], output, index)
    return entries, files


def main(path):
    try:
        entries, done = read_ledger(read_file(path))
    except Damaged as damage:
        print(f"damaged: {damage}")
        return
    for entry in entries:
        for name, start, end, (lines, columns) in entry["spans"]:
            behind = "" if columns is None else " columns " + " ".join(columns)
            print(f"span {name} {start} {end} lines {lines}{behind}")
        for values in entry["lists"]:
            print(" ".join(["list", *values]))
        for name, base, length, _ in entry["outputs"]:
            print(f"output {name} {base} {length}")
        print("counts", *entry["counts"])
    if not done:
        print("not done")


if __name__ == "__main__":
    main(sys.argv[1])
