"""What the launcher writes on standard error."""

import os

WIDTH = 110
SHOWN = 100


def say(text):
    """Writes lines to standard error; where that is closed or full, nobody can be told."""
    data = text.encode("utf-8", "backslashreplace")
    try:
        while data:
            data = data[os.write(2, data):]
    except OSError:
        pass


def tell(text):
    say(f"tarzubei: {text}\n")


def shown(data):
    """Returns bytes or a text as one line that can be shown: what is no character of a line is escaped."""
    if isinstance(data, bytes):
        data = data.decode("utf-8", "backslashreplace")
    return "".join(escaped(it) for it in data)


def escaped(character):
    if character.isprintable():
        return character
    code = ord(character)
    if 0xDC80 <= code <= 0xDCFF:
        # (a byte that is not UTF-8)
        return f"\\x{code - 0xDC00:x}"
    return {"\t": "\\t", "\r": "\\r", "\n": "\\n"}.get(character) or f"\\u{{{code:x}}}"


def quoted(data):
    """Returns a value in double quotes, cut where it is long."""
    text = shown(data)
    return f'"{text}"' if len(text) <= 60 else f'"{text[:57]}..."'


def columns_of(text):
    """Returns how many columns of a terminal a text takes."""
    import unicodedata

    wide = sum(unicodedata.east_asian_width(it) in "WF" for it in text)
    return len(text) + wide - sum(1 for it in text if unicodedata.combining(it))


class Explanation:
    """What is said of one line of the program: what it means, the place marked, the cause, and the page."""

    def __init__(self, what):
        self.lines = [f"tarzubei: {what}"]

    def note(self, text):
        """Adds a sentence."""
        self.lines.append(f"  {text}")
        return self

    def mark(self, line, start, end):
        """Adds a line of a file with the bytes from `start` to `end` marked, or the place where something is missing."""
        before, marked, after = shown(line[:start]), shown(line[start:end]), shown(line[end:])
        if len(before) > SHOWN // 2:
            before = "..." + before[-(SHOWN // 2):]
        room = max(SHOWN - len(before), 20)
        if len(marked) > room:
            marked, after = marked[:room] + "...", ""
        elif len(marked) + len(after) > room:
            after = after[:room - len(marked)] + "..."
        self.lines.append(f"  {before}{marked}{after}".rstrip() or "  (an empty line)")
        self.lines.append("  " + " " * columns_of(before) + "^" * max(columns_of(marked), 1))
        return self

    def see(self, page, section=None):
        """Adds the page to read."""
        return self.note(f'See docs/{page}, "{section}".' if section else f"See docs/{page}.")

    def text(self):
        return "".join(f"{it}\n" for it in self.lines)
