"""JSON with the place of each value, and why a text is none, as the program's reader judges it."""

BLANKS = " \t\n\r"
DIGITS = "0123456789"
MOST_DEPTH = 127
ESCAPES = {'"': '"', "\\": "\\", "/": "/", "b": "\b", "f": "\f", "n": "\n", "r": "\r", "t": "\t"}
WORDS = {"true": True, "false": False, "null": None}


class NotJson(Exception):
    """Why a text is no JSON: from where to where it is at fault, and why."""

    def __init__(self, start, end, why, *hints):
        super().__init__(why)
        self.start, self.end, self.why, self.hints = start, end, why, hints


class Node:
    """A value and where it stands. An object's value is a list of pairs of nodes, a list's a list of nodes."""

    __slots__ = ("kind", "value", "start", "end")

    def __init__(self, kind, value, start, end):
        self.kind, self.value, self.start, self.end = kind, value, start, end

    def get(self, name):
        """Returns the value of a field of an object, the last where it stands twice, or None."""
        found = [value for key, value in self.value if key.value == name] if self.kind == "object" else []
        return found[-1] if found else None


def read_json(data):
    """Returns the value that the bytes of a file write, its places counted in characters, and the text."""
    try:
        text = data.decode("utf-8")
    except UnicodeDecodeError as error:
        start = len(data[:error.start].decode("utf-8"))
        raise NotJson(start, start + 1, f"a byte that is not UTF-8, {data[error.start]}", "Save the file in UTF-8.") from None
    return Reader(text).whole(), text


class Reader:
    def __init__(self, text):
        self.text, self.at, self.open = text, 0, []

    def here(self):
        """Returns the next character behind blanks, or nothing at the end."""
        while self.at < len(self.text) and self.text[self.at] in BLANKS:
            self.at += 1
        return self.text[self.at:self.at + 1]

    def whole(self):
        if self.text.startswith("\ufeff"):
            raise NotJson(0, 1, "a byte order mark stands before the text", "Save the file without one.")
        if not self.here():
            raise NotJson(0, 0, "the file is empty", "A configuration is at least "
                          '{"vertex_providers": [], "edge_providers": []}.')
        node = self.value()
        if self.here():
            raise NotJson(self.at, self.at + 1, "the configuration ends before this", "Take out what follows its end.")
        return node

    def fail(self, due, *hints):
        """Refuses what stands here in the place of what is due."""
        found = self.here()
        if not found:
            self.fail_at_end()
        if found == "'":
            hints = ["Texts stand in double quotes."]
        elif found == "/" or found == "#":
            hints = ["JSON has no comments."]
        end = self.at + 1
        while found.isalnum() and end < len(self.text) and (self.text[end].isalnum() or self.text[end] == "_"):
            end += 1
        raise NotJson(self.at, end, f"{due} is expected here", *hints)

    def fail_at_end(self):
        if not self.open:
            raise NotJson(self.at, self.at, "the file ends before the value does")
        at, closing = self.open[-1]
        raise NotJson(at, at + 1, f"this bracket is not closed: a '{closing}' is missing")

    def value(self):
        found = self.here()
        if found == "{":
            return self.inside("object", "}", self.member)
        if found == "[":
            return self.inside("list", "]", self.value)
        if found == '"':
            return self.string()
        if found and found in "-" + DIGITS:
            return self.number()
        return self.word()

    def inside(self, kind, closing, item):
        """Reads an object or a list, from its opening bracket to its closing one."""
        start = self.at
        self.open.append((start, closing))
        if len(self.open) > MOST_DEPTH:
            raise NotJson(start, start + 1, f"brackets nest more than {MOST_DEPTH} deep")
        self.at += 1
        items = []
        while self.here() != closing or items:
            items.append(item())
            if self.here() == closing:
                break
            self.comma(closing)
        self.open.pop()
        self.at += 1
        return Node(kind, items, start, self.at)

    def comma(self, closing):
        """Passes over a comma between two items."""
        if self.here() != ",":
            self.missing_comma(closing)
        comma = self.at
        self.at += 1
        if self.here() == closing:
            raise NotJson(comma, comma + 1, f"a comma stands before '{closing}'", "Take it out: commas stand between items only.")

    def missing_comma(self, closing):
        found = self.here()
        if found and (found in '"{[-' or found.isalnum()):
            before = len(self.text[:self.at].rstrip(BLANKS))
            hints = ["Or a double quote is missing before, at the end of a text."] if self.text[before - 1] == '"' != found else []
            raise NotJson(before, before, "a comma is missing here", *hints)
        self.fail(f"a comma or '{closing}'")

    def member(self):
        if self.here() != '"':
            self.fail("a field's name in double quotes")
        key = self.string()
        if self.here() != ":":
            self.fail("a colon")
        self.at += 1
        return key, self.value()

    def string(self):
        start, parts = self.at, []
        self.at += 1
        while True:
            found = self.text[self.at:self.at + 1]
            if found == '"':
                self.at += 1
                return Node("string", "".join(parts), start, self.at)
            if found in ("", "\n", "\r"):
                raise NotJson(start, self.at, "this text is not closed: a double quote is missing")
            if found < " ":
                raise NotJson(self.at, self.at + 1, "a control character stands in a text", "Write it as an escape, a tab as \\t.")
            parts.append(self.escape() if found == "\\" else found)
            self.at += 1

    def escape(self):
        """Returns what an escape stands for, and stops at its last character."""
        start = self.at
        self.at += 1
        found = self.text[self.at:self.at + 1]
        if found == "u":
            code = self.code(start)
            if 0xD800 <= code < 0xDC00 and self.text[self.at + 1:self.at + 3] == "\\u":
                self.at += 2
                low = self.code(start)
                if 0xDC00 <= low < 0xE000:
                    return chr(0x10000 + ((code - 0xD800) << 10) + low - 0xDC00)
            if 0xD800 <= code < 0xE000:
                raise NotJson(start, self.at + 1, "half of a pair of surrogates alone is no character")
            return chr(code)
        if not found or found not in ESCAPES:
            raise NotJson(start, self.at + 1, "no escape begins so", "A backslash of a text is written \\\\.")
        return ESCAPES[found]

    def code(self, start):
        """Returns the number of four digits of base 16 behind the `u` here, and stops at the last."""
        digits = self.text[self.at + 1:self.at + 5]
        if len(digits) < 4 or any(it not in "0123456789abcdefABCDEF" for it in digits):
            raise NotJson(start, self.at + 1 + len(digits), "four digits of base 16 are expected after \\u")
        self.at += 4
        return int(digits, 16)

    def number(self):
        start = self.at
        self.at += self.text[self.at] == "-"
        first = self.text[self.at:self.at + 1]
        self.digits(start)
        if first == "0" and self.at > start + 1 + (self.text[start] == "-"):
            raise NotJson(start, self.at, "a number begins with no zero but 0 itself")
        if self.text[self.at:self.at + 1] == ".":
            self.at += 1
            self.digits(start)
        if self.text[self.at:self.at + 1] in ("e", "E"):
            self.at += 1
            self.at += self.text[self.at:self.at + 1] in ("+", "-")
            self.digits(start)
        word = self.text[start:self.at]
        if float(word) in (float("inf"), float("-inf")):
            raise NotJson(start, self.at, "the number is too great")
        return Node("number", word, start, self.at)

    def digits(self, start):
        begin = self.at
        while self.text[self.at:self.at + 1] and self.text[self.at] in DIGITS:
            self.at += 1
        if self.at == begin:
            raise NotJson(start, self.at + 1, "a digit is expected in this number")

    def word(self):
        for word, value in WORDS.items():
            if self.text.startswith(word, self.at):
                self.at += len(word)
                return Node("word", value, self.at - len(word), self.at)
        found = self.here()
        if found in ("]", "}"):
            self.fail("a value")
        self.fail("a value", "A value is a text in double quotes, a number, true, false, null, a list or an object.")
