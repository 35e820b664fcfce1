#!/usr/bin/env python3
"""Writes a large graph as a configuration, two CSV tables and a script, to time how they are read.

    bench/tables.py [--random-keys] FOLDER [VERTICES [EDGES]]

FOLDER gets `g.json`, `people.csv` (key, age, name), `transfers.csv` (key, source, destination, amount, day) and `script`. Without
numbers there are 1,000,000 vertices and 4,000,000 edges. Keys are 1, 2, 3 and so on, or with `--random-keys` numbers below 2 ^ 31 - 1
in no order, no two equal. The same words give the same bytes."""

import json
import os
import sys

CONFIGURATION = {
    "version": 1,
    "vertex_providers": [
        {
            "name": "Person",
            "file": "people.csv",
            "props": [{"name": "age", "type": "integer"}, {"name": "name", "type": "string"}],
        }
    ],
    "edge_providers": [
        {
            "name": "transfer",
            "file": "transfers.csv",
            "source_vertex_provider": "Person",
            "destination_vertex_provider": "Person",
            "props": [{"name": "amount", "type": "long"}, {"name": "day", "type": "local_date"}],
        }
    ],
}

SCRIPT = "source s config g.json\nphase\nactor a\nopen\nload g from s\ncolumns\n"


def in_order(i):
    return i


def at_random(i):
    """The i-th key, for i below 2 ^ 31 - 1, which is prime. So no two are equal."""
    return i * 1_103_515_245 % 2_147_483_647


def people(vertices, key):
    for i in range(1, vertices + 1):
        yield f"{key(i)},{18 + i % 80},p{i}\n"


def transfers(vertices, edges, key):
    for i in range(1, edges + 1):
        source = key(7919 * i % vertices + 1)
        destination = key((104729 * i + 12345) % vertices + 1)
        yield f"{key(i)},{source},{destination},{i * 31 % 100000},2024-{i % 12 + 1:02}-{i % 28 + 1:02}\n"


def write_lines(path, lines):
    with open(path, "w", encoding="utf-8") as out:
        out.writelines(lines)


def main(words):
    key = in_order
    if words[:1] == ["--random-keys"]:
        key, words = at_random, words[1:]
    if not 1 <= len(words) <= 3:
        sys.exit(__doc__)
    folder = words[0]
    vertices = int(words[1]) if len(words) > 1 else 1_000_000
    edges = int(words[2]) if len(words) > 2 else 4 * vertices
    os.makedirs(folder, exist_ok=True)
    with open(os.path.join(folder, "g.json"), "w", encoding="utf-8") as out:
        json.dump(CONFIGURATION, out, indent=2)
    write_lines(os.path.join(folder, "people.csv"), people(vertices, key))
    write_lines(os.path.join(folder, "transfers.csv"), transfers(vertices, edges, key))
    write_lines(os.path.join(folder, "script"), [SCRIPT])


main(sys.argv[1:])
