"""Explains the lines of the program that speak of a record of a table file."""

from launcher import csv_text, values
from launcher.config_text import Config
from launcher.json_text import NotJson
from launcher.tell import Explanation, quoted

SECTION = ("ERRORS.md", "A table is at fault")
MOST_VERTICES, MOST_EDGES, MOST_VALUES = 1_048_576, 4_194_304, 16_777_216


def explain_table(script, folder, file, row, number):
    """Explains `error table FILE record ROW fault NUMBER ..` of a file, or returns None where no configuration names it."""
    for config, table in tables_of_file(script, folder, file):
        data = folder.read(file)
        record = next((it for it in csv_text.records_of(data) if it.number == row), None)
        if record and first_fault(table, record.fields(data)) in (number, None):
            fault = Fault(folder, config, table, data, record)
            return FAULTS[number](fault).see(*SECTION)
    return None


def tables_of_file(script, folder, file):
    """Gives each table that has this file, with its configuration, in the order in which the program reads them."""
    for source in script.config_sources():
        try:
            config = Config(folder.read(source.config))
        except (OSError, NotJson):
            continue
        for table in config.tables():
            if table.file == file:
                yield config, table


def first_fault(table, fields):
    """Returns the number of the first fault that a record has by itself, or None."""
    if len(fields) != len(table.fields):
        return 9
    for field in fields:
        try:
            field.value.decode("utf-8")
        except UnicodeDecodeError:
            return 8
    return 10 if bad_place(table, fields) is not None else None


def bad_place(table, fields):
    """Returns the place of the first field that is no value of its kind, or None."""
    for place, (field, (_, kind)) in enumerate(zip(fields, table.fields)):
        text = field.value.decode("utf-8")
        if (not text and kind is None) or not values.is_value(kind or "long", text):
            return place
    return None


class Fault:
    """A record at fault, with its table and the files around it."""

    def __init__(self, folder, config, table, data, record):
        self.folder, self.config, self.table, self.data, self.record = folder, config, table, data, record
        self.fields = record.fields(data)

    def where(self):
        record = self.record
        last = record.line + self.data.count(b"\n", record.start, record.end)
        lines = f"line {record.line}" if last == record.line else f"lines {record.line} to {last}"
        return f"{self.table.file}, record {record.number} ({lines})"

    def column(self, place):
        name, kind = self.table.fields[place]
        told = quoted(name) if kind else {"key": "the key", "source": "the source's key"}.get(name, "the destination's key")
        return f"column {place + 1}, {told}" if not kind else f"column {place + 1} {told}"

    def mark(self, it, start, end):
        """Marks bytes of the file in the line in which they begin."""
        begin = self.data.rfind(b"\n", 0, start) + 1
        if begin == 0 and self.data.startswith(csv_text.MARK):
            begin = len(csv_text.MARK)
        stop = self.data.find(b"\n", start)
        line = self.data[begin:stop if stop >= 0 else len(self.data)].rstrip(b"\r")
        return it.mark(line, start - begin, max(start, min(end, begin + len(line))) - begin)

    def mark_field(self, it, place):
        return self.mark(it, self.fields[place].start, self.fields[place].end)

    def is_header(self):
        """Tells whether the record may be a header line: the first record, and its key begins with a letter."""
        first = self.fields[0].value.strip(b'" _').decode("utf-8", "replace")
        return self.record.number == 1 and first[:1].isalpha()

    def earlier(self):
        """Gives the tables whose keys this record's key has to differ from, up to its own."""
        others = not self.config.has_keys_per_table()
        for table in self.config.tables():
            if table.path == self.table.path or (others and table.is_edge == self.table.is_edge):
                yield table
            if table.path == self.table.path:
                return


HEADER = "This looks like a header line, and a table file has none: take the line out."


def explain_utf8(fault):
    for place, field in enumerate(fault.fields):
        try:
            field.value.decode("utf-8")
        except UnicodeDecodeError as error:
            byte = field.value[error.start]
            start = fault.data.index(field.value[error.start:error.start + 1], field.start)
            it = Explanation(f"{fault.where()}, {fault.column(place)}: a byte that is not UTF-8, {byte}")
            return fault.mark(it, start, start + 1).note("Save the file in UTF-8.")
    return Explanation(f"{fault.where()}: a field is not UTF-8")


def explain_count(fault):
    found, due = len(fault.fields), len(fault.table.fields)
    names = ", ".join(name for name, _ in fault.table.fields)
    fields = "1 field" if found == 1 else f"{found} fields"
    it = Explanation(f"{fault.where()}: {fields}, and the table {quoted(fault.table.name)} has {due}: {names}")
    if fault.record.open_quote is not None:
        line = fault.record.line + fault.data.count(b"\n", fault.record.start, fault.record.open_quote)
        fault.mark(it, fault.record.open_quote, fault.record.open_quote + 1)
        return it.note(f"This double quote, in line {line}, is not closed: all that follows it is the text of one field.")
    if found > due:
        fault.mark(it, fault.fields[due].start, fault.fields[-1].end)
    else:
        fault.mark(it, fault.record.end, fault.record.end)
    return it.note(cause_of_count(fault, found, due))


def cause_of_count(fault, found, due):
    if fault.is_header():
        return HEADER
    row = fault.data[fault.record.start:fault.record.end]
    for mark, name in ((b";", "semicolon"), (b"\t", "tab"), (b"|", "vertical bar")):
        if found == 1 and row.count(mark) == due - 1 and due > 1:
            return f"Fields are separated by commas, and not by a {name}."
    if found == due + 1 and not fault.fields[-1].value:
        return "A comma stands at the end of the line: take it out."
    if found > due:
        return "Put a text that has a comma in it into double quotes, or add a property to the configuration."
    return "Where a property has no value its field is empty, but its comma is there."


def explain_cell(fault):
    place = bad_place(fault.table, fault.fields)
    field, kind = fault.fields[place], fault.table.fields[place][1]
    text = field.value.decode("utf-8")
    what = f"{quoted(text)} {values.NO_VALUE[kind] if kind else 'is no key'}" if text else "there is no key"
    it = fault.mark_field(Explanation(f"{fault.where()}, {fault.column(place)}: {what}"), place)
    if fault.is_header() and place == 0:
        return it.note(HEADER)
    if not text:
        return it.note("The field is empty, and a key is a whole number: only a property may be without a value.")
    if kind is None:
        it.note("A key is a whole number of 64 bits.")
    if text.upper() == "NULL" and kind != "string":
        return it.note("NULL is written as an empty field.")
    for sentence in values.why_no_value(kind or "long", text):
        it.note(sentence)
    return it


def key_of(record, data):
    return values.whole_number(record.first(data).decode("ascii", "replace"))


def explain_twice(fault):
    key = key_of(fault.record, fault.data)
    for table in fault.earlier():
        data = fault.folder.read(table.file)
        for record in csv_text.records_of(data):
            if table.path == fault.table.path and record.number >= fault.record.number:
                break
            if key_of(record, data) == key:
                kind = "edge" if table.is_edge else "vertex"
                it = Explanation(f"{fault.where()}, {fault.column(0)}: the key {key} is that of an earlier {kind}, in "
                                 f"{table.file}, record {record.number} (line {record.line})")
                fault.mark_field(it, 0)
                if fault.config.has_keys_per_table():
                    return it.note("Keys differ within each table. Give one of the two another key.")
                return it.note(f"Keys differ over all {kind} tables of a configuration. Give one of the two another key.")
    return fault.mark_field(Explanation(f"{fault.where()}: the key {key} stands already"), 0)


def has_key(fault, table, key):
    data = fault.folder.read(table.file)
    return any(key_of(it, data) == key for it in csv_text.records_of(data))


def explain_end(fault):
    ends = ((1, "source", fault.table.source), (2, "destination", fault.table.destination))
    vertices = [it for it in fault.config.tables() if not it.is_edge]
    for place, role, name in ends:
        key = values.whole_number(fault.fields[place].value.decode("utf-8"))
        table = next(it for it in vertices if it.name == name)
        if has_key(fault, table, key):
            continue
        it = Explanation(f"{fault.where()}, {fault.column(place)}: no vertex {key} in the table {quoted(name)}")
        fault.mark_field(it, place)
        others = [other for other in vertices if other.name != name and has_key(fault, other, key)]
        if others:
            it.note(f"The table {quoted(others[0].name)} has a vertex {key}, but \"{role}_vertex_provider\" is {quoted(name)}.")
            return it.note("Mend the key or the configuration.")
        return it.note(f"Add a record with the key {key} to {table.file}, or take this edge out.")
    return Explanation(f"{fault.where()}: an end of the edge is not there")


def explain_rows(fault):
    rows = values_so_far = 0
    for table in fault.config.tables():
        data, is_own = fault.folder.read(table.file), table.path == fault.table.path
        count = fault.record.number if is_own else sum(1 for _ in csv_text.records_of(data))
        rows += count if table.is_edge == fault.table.is_edge else 0
        values_so_far += count * sum(1 for _, kind in table.fields if kind)
        if is_own:
            break
    most, what = (MOST_EDGES, "edges") if fault.table.is_edge else (MOST_VERTICES, "vertices")
    if rows <= most and values_so_far > MOST_VALUES:
        most, what = MOST_VALUES, "values of properties"
    return Explanation(f"{fault.where()}: with this record the graph passes {most:,} {what}").note("Take a smaller graph.")


FAULTS = {
    8: explain_utf8,
    9: explain_count,
    10: explain_cell,
    11: explain_twice,
    12: explain_end,
    13: explain_rows,
}
