"""How long a build takes: docs/GATE.md has the processor minutes of each crate's own proof."""

import os

from launcher import places, sources


def own_minutes():
    """Returns the processor minutes of each crate's own proof, as far as the table of docs/GATE.md has them."""
    found, column = {}, None
    try:
        with open(os.path.join(places.DOCS, "GATE.md"), encoding="utf-8") as it:
            lines = it.read().split("\n")
    except OSError:
        return found
    for line in lines:
        cells = [it.strip().strip("`*") for it in line.strip().strip("|").split("|")]
        lower = [it.lower() for it in cells]
        if "own proof" in lower:
            column = lower.index("own proof")
        elif column is not None and column < len(cells):
            minutes = number(cells[column])
            if minutes is not None:
                found.setdefault(cells[0], minutes)
    return found


def number(text):
    """Returns the first number of a cell, or None."""
    try:
        return float(text.replace(",", "").split()[0])
    except (ValueError, IndexError):
        return None


def processors():
    return len(os.sched_getaffinity(0))


def chain_minutes(crates, minutes, lines):
    """Returns for each crate the minutes of the longest chain of crates that begins with it and goes up."""
    chain = {}
    for crate in reversed(crates):
        above = [chain[it] for it in crates if crate in lines[it] and it in chain]
        chain[crate] = minutes.get(crate, 0.0) + max(above, default=0.0)
    return chain


def build_minutes(crates=None):
    """Returns about how many minutes it takes to prove these crates, or all that the program uses, or None where nobody knows."""
    crates = sources.closure() if crates is None else crates
    minutes = own_minutes()
    if not crates or any(it not in minutes for it in crates):
        return None
    chain = chain_minutes(crates, minutes, sources.crate_lines())
    total = sum(minutes[it] for it in crates)
    return max(total / processors(), max(chain.values()))


def spoken(minutes):
    """Returns minutes as they are told."""
    rounded = max(1, round(minutes))
    return "1 minute" if rounded == 1 else f"{rounded} minutes"
