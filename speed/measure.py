#!/usr/bin/env python3
"""Compares the answers of the proved programs and of plain C on seeded inputs, then times both by turns and prints the table
of docs/SPEED.md: `measure.py ROWS.. -- LIST.. -- PLAIN.. -- COPY..`, four commands (see speed/run).
"""
import math
import os
import statistics
import subprocess
import sys
import tempfile
import time

import inputs

SEEDS = 12
TURNS = 50
LEAST = 0.05  # seconds that plain C takes for one measurement of a row
RECORDING = 10_000_000

ROWS = {
    "c1": "frame check, 1 sub-frame",
    "c8": "frame check, 8 sub-frames",
    "c64": "frame check, 64 sub-frames",
    "r": "opening a mixed frame and reading its 8 payloads",
    "w": "writing a mixed frame of 6 sub-frames",
    "d": "a step of the digit sender",
    "e": "a step of the digit receiver",
    "s": "a step of the signalling sender",
    "t": "a step of the signalling receiver",
    "x": "a step of the fax replay",
    "h": "the voice card, a frame of 8 sub-frames",
    "p": "the provisioning text at its largest",
}


def answer(command, data):
    return subprocess.run(command, input=data, stdout=subprocess.PIPE, check=True).stdout


def seconds(command, source, target=os.devnull):
    """How long a command takes whose standard input is the file `source` and whose standard output is the file `target`."""
    with open(source, "rb") as take, open(target, "wb") as give:
        begun = time.perf_counter()
        subprocess.run(command, stdin=take, stdout=give, check=True)
        return time.perf_counter() - begun


def same_answers(rows, listing, plain):
    """Exits where an answer differs."""
    items = 0
    for row in inputs.COMPARE:
        for seed in range(SEEDS):
            data = inputs.compare(row, seed)
            items += int.from_bytes(data[1:5], "little")
            if answer(rows, data) != answer(plain, data):
                sys.exit(f"row {row}, seed {seed}: the answers differ")
    record = inputs.recording(RECORDING)
    if answer(listing, record) != answer(plain + ["list"], record):
        sys.exit("the listings differ")
    print(f"the same answers: {items:,} items of {len(inputs.COMPARE)} rows, and a listing of {len(record):,} octets")
    return record


def put(folder, name, data):
    path = os.path.join(folder, name)
    with open(path, "wb") as file:
        file.write(data)
    return path


def works_for(plain, folder, name):
    """So many works that plain C takes some time for them."""
    works = 64
    while True:
        took = seconds(plain, put(folder, "in", inputs.timing(name, works)))
        if took > LEAST:
            return works
        works *= 4 if took < LEAST / 3 else 2


def turns(*runs):
    """The times of each run, all runs by turns."""
    times = [[run() for run in runs] for _ in range(TURNS)]
    return [list(column) for column in zip(*times)]


def told(ratios):
    """The median of the ratios of the pairs, and the quarter of them below and above it."""
    low, middle, high = statistics.quantiles(ratios, n=4)
    return middle, f"{middle:.2f} ({low:.2f} to {high:.2f})"


def row(rows, plain, folder, name):
    """The ratios of the pairs without and with the walk over the inputs, and the seconds of one work."""
    works = works_for(plain, folder, name)
    data = inputs.timing(name, works)
    work, walk = put(folder, "work", data), put(folder, "walk", b"n" + data[1:])
    ours, theirs, our_walk, their_walk = turns(
        lambda: seconds(rows, work), lambda: seconds(plain, work), lambda: seconds(rows, walk), lambda: seconds(plain, walk)
    )
    our_walk, their_walk = statistics.median(our_walk), statistics.median(their_walk)
    net = [(a - our_walk) / (b - their_walk) for a, b in zip(ours, theirs)]
    return net, [a / b for a, b in zip(ours, theirs)], (statistics.median(ours) - our_walk) / works


def main(rows, listing, plain, copy):
    record = same_answers(rows, listing, plain)
    logs, each = [], {}
    print(f"proved / plain C, median of {TURNS} alternating pairs (in brackets the middle half of them); without, then with the walk over the inputs\n")
    print("| work | ratio | with the walk |")
    print("|---|---|---|")
    with tempfile.TemporaryDirectory() as folder:
        for name, what in ROWS.items():
            net, gross, each[name] = row(rows, plain, folder, name)
            (a, net), (b, gross) = told(net), told(gross)
            logs.append((math.log(a), math.log(b)))
            print(f"| {what} | {net} | {gross} |", flush=True)
        source, target = put(folder, "recording", record), os.path.join(folder, "listing")
        ours, theirs, copied = turns(
            lambda: seconds(listing, source, target), lambda: seconds(plain + ["list"], source, target), lambda: seconds(copy, source, target)
        )
    a, ratio = told([a / b for a, b in zip(ours, theirs)])
    logs.append((math.log(a),) * 2)
    print(f"| the listing of {len(record) / 1e6:.0f} MB, from a file to a file | {ratio} | {ratio} |")
    net, gross = (math.exp(sum(column) / len(logs)) for column in zip(*logs))
    print(f"| geometric mean | {net:.2f} | {gross:.2f} |")
    print()
    print(f"the listing beside a copy of its input by read and write: {statistics.median(ours) / statistics.median(copied):.1f} times")
    one = each["c1"]
    print(f"frame check, time per sub-frame: 1 of one, {each['c8'] / 8 / one:.2f} of eight, {each['c64'] / 64 / one:.2f} of sixty-four")


if __name__ == "__main__":
    words = " ".join(sys.argv[1:]).split(" -- ")
    main(*[word.split() for word in words])
