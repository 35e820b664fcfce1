"""The crates that the program is made of, and whether one of their files is newer than the program."""

import os

from launcher import places

PARTS = ("src", "specs", "proofs")


def crate_texts():
    """Gives each crate of crates.txt with its line and the names of its libraries, kit's ones among them."""
    with open(os.path.join(places.PREFIX, "crates.txt"), encoding="utf-8") as it:
        for line in it:
            name, colon, libraries = line.partition("#")[0].partition(":")
            if colon:
                yield name.split()[0], line.rstrip("\n") + "\n", libraries.split()


def crate_lines():
    """Returns the libraries of each crate of crates.txt."""
    return {crate: libraries for crate, _, libraries in crate_texts()}


def lines_of(crates):
    """Returns the lines of these crates in crates.txt."""
    return [line for crate, line, _ in crate_texts() if crate in crates]


def closure(name="tarzubei"):
    """Returns the crates of the repository that a crate uses, lowest first, itself last."""
    lines, order = crate_lines(), []

    def add(crate):
        if crate not in order and crate in lines:
            for library in lines[crate]:
                add(library)
            order.append(crate)

    add(name)
    return order


def newer_file():
    """Returns a file that the program is made of and that is newer than the program, or None."""
    if places.IS_INSTALLED:
        return None
    built = os.stat(places.PROGRAM).st_mtime_ns
    for crate in closure():
        for part in PARTS:
            path = newer_below(os.path.join(places.CRATES, crate, part), built)
            if path:
                return os.path.relpath(path, places.PREFIX)
    return None


def newer_below(folder, built):
    """Returns a file below a folder that is newer than this time, or None."""
    try:
        entries = os.scandir(folder)
    except OSError:
        return None
    with entries:
        for entry in entries:
            if entry.is_dir(follow_symlinks=False):
                path = newer_below(entry.path, built)
                if path:
                    return path
            elif entry.stat().st_mtime_ns > built:
                return entry.path
    return None
