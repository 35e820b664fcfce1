"""Explains the lines of the program that speak of a vertex or an edge of an inline source."""

from launcher import script_text as lines
from launcher.tell import Explanation

SECTION = ("ERRORS.md", "A table is at fault")


def explain_inline(script, source, letter, row, number):
    """Explains `error table SOURCE.V record ROW fault NUMBER ..`, or the same of SOURCE.E."""
    at, line = lines.line_of_row(script.data, source, letter, row)
    words = line.split(b" ")
    where = f'{script.label}, line {at}, the source "{source}"'
    if number == 11:
        it = key_twice(script, source, letter, words, row, where, line)
    elif number == 12:
        it = end_missing(script, source, words, where, line)
    else:
        most = "1,048,576 vertices" if letter == b"v" else "4,194,304 edges"
        it = Explanation(f"{where}: with this line the graph passes {most}").note("Take a smaller graph.")
    return it.see(*SECTION)


def rows_of(script, source):
    """Gives the lines of vertices and edges of an inline source: number and words."""
    inside = False
    for number, line in lines.lines_of(script.data):
        words = line.split(b" ")
        if words[0] == b"source" and words[1].decode() == source:
            inside = True
        elif inside and words[0] == b"end":
            return
        elif inside:
            yield number, words


def key_twice(script, source, letter, words, row, where, line):
    key, kind = int(words[1]), "vertex" if letter == b"v" else "edge"
    first = next(number for number, it in rows_of(script, source) if it[0] == letter and int(it[1]) == key)
    it = Explanation(f"{where}: the key {key} is that of an earlier {kind}, in line {first}")
    return it.mark(line, 2, 2 + len(words[1])).note(f"Keys of a source's {'vertices' if letter == b'v' else 'edges'} differ.")


def end_missing(script, source, words, where, line):
    keys = {int(it[1]) for _, it in rows_of(script, source) if it[0] == b"v"}
    place = 2 if int(words[2]) not in keys else 3
    start = len(b" ".join(words[:place])) + 1
    role = "source" if place == 2 else "destination"
    it = Explanation(f"{where}: the {role} of this edge, the vertex {int(words[place])}, is not there")
    it.mark(line, start, start + len(words[place]))
    return it.note(f"Write a line 'v {int(words[place])}' before the first 'e' line, or take this edge out.")
