"""The records of a table file, with the places of their fields, as the program's reader takes them.

Fields stand between commas; one that begins with a double quote goes on to the quote that ends it, a doubled quote being text.
A line feed or a carriage return ends a record, an empty line is none, and a byte order mark at the beginning is dropped.
"""

MARK = b"\xef\xbb\xbf"


class Field:
    """A field: its bytes without quotes, and where it stands in the file."""

    __slots__ = ("value", "start", "end")

    def __init__(self, value, start, end):
        self.value, self.start, self.end = value, start, end


class Record:
    """A record: its number and its first line, both from 1, where it stands, and where its quote begins that is not ended."""

    __slots__ = ("number", "line", "start", "end", "open_quote")

    def __init__(self, number, line, start, end, open_quote):
        self.number, self.line, self.start, self.end, self.open_quote = number, line, start, end, open_quote

    def fields(self, data):
        return fields_from(data, self.start)[0]

    def first(self, data):
        """Returns the bytes of the first field."""
        row = data[self.start:self.end]
        return row.partition(b",")[0] if b'"' not in row else self.fields(data)[0].value


def records_of(data):
    """Gives the records of a file in order."""
    at, number, line = len(MARK) if data.startswith(MARK) else 0, 0, 1
    while at < len(data):
        stop = data.find(b"\n", at)
        stop = len(data) if stop < 0 else stop
        row = data[at:stop]
        end, quote = stop, None
        if b'"' in row or b"\r" in row:
            if row[:1] == b"\r":
                at += 1
                continue
            _, end, quote = fields_from(data, at)
        if end > at:
            number += 1
            yield Record(number, line, at, end, quote)
        line += data.count(b"\n", at, end + 1)
        at = end + 1


def fields_from(data, at):
    """Returns the fields of the record that begins here, where it ends, and the place of a quote that is not ended."""
    fields, quote = [], None
    while True:
        start, value = at, b""
        if data[at:at + 1] == b'"':
            value, at, is_ended = quoted_part(data, at + 1)
            quote = None if is_ended else start
        end = plain_end(data, at)
        fields.append(Field(value + data[at:end], start, end))
        at = end + 1
        if data[end:end + 1] != b",":
            return fields, end, quote


def quoted_part(data, at):
    """Returns the text of a field from behind its first quote, where it goes on behind the last, and whether there is one."""
    parts = []
    while True:
        close = data.find(b'"', at)
        if close < 0:
            return b"".join(parts) + data[at:], len(data), False
        parts.append(data[at:close])
        if data[close + 1:close + 2] != b'"':
            return b"".join(parts), close + 1, True
        parts.append(b'"')
        at = close + 2


def plain_end(data, at):
    """Returns where a field ends that goes on without a quote."""
    stop = data.find(b"\n", at)
    stop = len(data) if stop < 0 else stop
    for byte in (b"\r", b","):
        found = data.find(byte, at, stop)
        stop = stop if found < 0 else found
    return stop


def open_quote_of(data):
    """Returns the last record of a file where a quote of it is not ended, or None."""
    if data.count(b'"') % 2 == 0:
        return None
    last = None
    for last in records_of(data):
        pass
    return last if last and last.open_quote is not None else None
