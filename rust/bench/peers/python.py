"""Python: json.loads checks the encoding and builds a tree, and the nodes are counted in the tree.
The command line is that of common.hpp."""

import json
import sys
import time

path, milliseconds, batch = sys.argv[1], int(sys.argv[2]), int(sys.argv[3])
steps = [(word.startswith(".."), word.lstrip(".")) for word in sys.argv[4:]]
positions = {at: int(taken[1:-1]) for at, (_, taken) in enumerate(steps) if taken.startswith("[")}
everything = (1 << len(steps)) - 1
stars = sum(1 << at for at, (_, taken) in enumerate(steps) if taken == "*")
placed = sum(1 << at for at in positions)
deeps = sum(1 << at for at, (deep, _) in enumerate(steps) if deep)
sys.setrecursionlimit(10_000)


def taking_member(marks, key):
    taking = marks & stars
    for at, (_, name) in enumerate(steps):
        if marks & ~stars & ~placed & (1 << at) and name == key:
            taking |= 1 << at
    return taking


def taking_element(marks, index):
    taking = marks & stars
    if marks & placed:
        for at, position in positions.items():
            if marks & (1 << at) and position == index:
                taking |= 1 << at
    return taking


def below(value, marks):
    if isinstance(value, list):
        children = ((taking_element(marks, index), child) for index, child in enumerate(value))
    else:
        children = ((taking_member(marks, key), child) for key, child in value.items())
    nodes = 0
    for taking, child in children:
        after = ((taking << 1) & everything) | (marks & deeps)
        nodes += (taking << 1) >> len(steps)
        if after and isinstance(child, (list, dict)):
            nodes += below(child, after)
    return nodes


def count(record):
    root = json.loads(record)
    return below(root, 1) if steps else 1


with open(path, "rb") as file:
    record = file.read()
best = float("inf")
began = time.thread_time_ns()
rows = 0
while rows < 2 or time.thread_time_ns() - began < milliseconds * 1_000_000:
    row_began = time.thread_time_ns()
    for _ in range(batch):
        nodes = count(record)
    best = min(best, (time.thread_time_ns() - row_began) / batch)
    rows += 1
print(nodes, f"{best:.1f}")
