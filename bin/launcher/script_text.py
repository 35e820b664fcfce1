"""The lines of a script: where each stands, which sources there are, and what may stand in a place."""

LIMIT = 16_777_216

LATER = "refresh tick feed hops components cores weights drop query".split()

# What may stand in a place of a script: the first words of lines, and how the place is told.
ALLOWED = {
    "start": (("source", "phase"), "before 'phase'"),
    "vertices": (("v", "e", "end"), "inside an inline source"),
    "edges": (("e", "end"), "inside an inline source, after its first 'e' line"),
    "phase": (("actor", "phase"), "right after 'phase'"),
    "actor": (
        ("open", "close", "columns", "lines", "load", "clone", "transpose", "undirect", "simplify", "sortdeg", "change", "discard",
         "build", "snapshot", "publish", "unpublish", "get", "checkout", "release", "show", "rows", "actor", "phase"),
        "among the commands of an actor",
    ),
}

# How each line is written.
FORMS = {
    "source": "source S inline, or source S config FILE",
    "phase": "phase",
    "v": "v KEY",
    "e": "e KEY SOURCE DESTINATION",
    "end": "end",
    "actor": "actor A",
    "open": "open",
    "close": "close",
    "columns": "columns",
    "lines": "lines",
    "load": "load G from S",
    "clone": "clone G from H",
    "transpose": "transpose G from H",
    "undirect": "undirect G from H",
    "simplify": "simplify G from H",
    "sortdeg": "sortdeg G from H",
    "change": "change G ROW",
    "discard": "discard",
    "build": "build G from H",
    "snapshot": "snapshot G",
    "publish": "publish G as L keep K threshold T",
    "unpublish": "unpublish L",
    "get": "get G from L",
    "checkout": "checkout G at SID, or checkout G at latest",
    "release": "release G",
    "show": "show S",
    "rows": "rows G",
}

# The lines whose last word is the rest of the line, with all its spaces.
RESTS = ("change",)

# The numbers of a line that are no keys: the place of the word, what it is, the greatest that it may be, and what is said of it.
# The least is 1.
COUNTS = {
    "publish": (
        (5, "number of snapshots", 64, "A published graph keeps 1 to 64 snapshots."),
        (7, "threshold", 2 ** 63 - 1, "A threshold is a number from 1 to 9223372036854775807."),
    ),
    "checkout": (
        (3, "id of a snapshot", 2 ** 63 - 1, "The id of a snapshot is a number from 1 to 9223372036854775807; 'latest' stands for the last."),
    ),
}


class Source:
    """A source of a script: its name, the number of its line, and the name of its configuration if it has one."""

    def __init__(self, name, line, config):
        self.name, self.line, self.config = name, line, config


class Reading:
    """What stands before a line of a script, all lines before it being right: the place of the line, the sources, and the actors of
    its phase, each with the number of its line."""

    def __init__(self):
        self.place, self.sources, self.actors = "start", [], {}
        self.number, self.line = 0, b""

    def take(self, line, number):
        """Takes one more right line."""
        words = line.split(b" ")
        first = words[0]
        if first == b"source" and self.place == "start":
            config = words[3] if len(words) > 3 else None
            self.sources.append(Source(words[1].decode(), number, config.decode() if config else None))
            self.place = "start" if config else "vertices"
        elif first == b"e" and self.place == "vertices":
            self.place = "edges"
        elif first == b"end" and self.place in ("vertices", "edges"):
            self.place = "start"
        elif first == b"phase":
            self.place, self.actors = "phase", {}
        elif first == b"actor":
            self.place = "actor"
            self.actors[words[1].decode()] = number


def lines_of(data):
    """Gives the lines that count, each with its number, without spaces at its start and one carriage return at its end."""
    for number, line in enumerate(data.split(b"\n"), 1):
        line = cleaned(line)
        if line and not line.startswith(b"#"):
            yield number, line


def cleaned(line):
    if line.endswith(b"\r"):
        line = line[:-1]
    return line.lstrip(b" ")


def read_to(data, target):
    """Returns what stands before a line of a script, and that line, as `number` and `line`."""
    reading = Reading()
    for number, line in lines_of(data):
        if number >= target:
            reading.line = line if number == target else b""
            break
        reading.take(line, number)
    reading.number = target
    return reading


def sources_of(data):
    """Returns the sources of a script that is right, in order."""
    reading = Reading()
    for number, line in lines_of(data):
        if line == b"phase":
            break
        reading.take(line, number)
    return reading.sources


def config_names(data):
    """Returns the names of configurations that the script's sources name, in order, each once, without a look at each line."""
    found, at = [], data.find(b" config ")
    while at >= 0:
        begin = data.rfind(b"\n", 0, at) + 1
        end = data.find(b"\n", at)
        words = cleaned(data[begin:end if end >= 0 else len(data)]).split(b" ")
        if words[0] == b"source" and len(words) == 4:
            name = words[3].decode("utf-8", "surrogateescape")
            if name not in found:
                found.append(name)
        at = data.find(b" config ", at + 1)
    return found


def line_of_row(data, source, letter, row):
    """Returns the number and the text of the line that is the vertex or edge of this row, counted from 1, of an inline source."""
    inside, count = False, 0
    for number, line in lines_of(data):
        words = line.split(b" ")
        if words[0] == b"source" and words[1].decode() == source:
            inside = True
        elif inside and words[0] == b"end":
            break
        elif inside and words[0] == letter:
            count += 1
            if count == row:
                return number, line
    return None, b""
