"""Warns of what the program passes over without a word: fields that nobody reads, and quotes that are not closed."""

from launcher import script_text
from launcher.csv_text import open_quote_of
from launcher.tell import quoted, tell

# (past these sizes nothing is looked at, so that a run that is right is not kept waiting)
MOST_CONFIG = 1 << 15
MOST_TABLE = 1 << 20
MOST_TABLES = 8 << 20
MOST_WARNINGS = 5
HINTS = {
    "header": "a table file has no header line",
    "separator": "fields are separated by commas",
    "delimiter": "fields are separated by commas",
}


def warn(script, folder, line):
    """Writes the warnings of a script's configurations and of their small files to standard error.

    A record that the program's line names is left out, since it is explained.
    """
    told = 0
    for name in script_text.config_names(script.data):
        if folder.is_file(name) and (line.startswith("error ") or folder.size(name) <= MOST_CONFIG):
            for warning in warnings_of(folder, name, line):
                told += 1
                if told > MOST_WARNINGS:
                    return
                tell(f"warning: {warning}")


def warnings_of(folder, name, line):
    """Gives the warnings of a configuration; one that is no JSON has none."""
    from launcher import config_text
    from launcher.json_text import NotJson

    try:
        config = config_text.Config(folder.read(name))
    except (OSError, NotJson):
        return
    for key, path in config_text.strange_fields(config.top):
        yield f"{name}, line {config.line(key)}: nobody reads the field {quoted(key.value)}" + hint_of(key.value, path)
    room = MOST_TABLES
    for table in config.tables():
        size = folder.size(table.file) if table.file else 0
        if 0 < size <= min(MOST_TABLE, room):
            room -= size
            record = open_quote_of(folder.read(table.file))
            if record and not line.startswith(f"error table {table.file} record {record.number} "):
                yield (f"{table.file}, line {record.line}: the double quote of record {record.number} is not closed: "
                       "all that follows it is the text of one field")


def hint_of(field, path):
    from launcher.config_text import fields_at
    from launcher.why_config import meant_field

    if field in HINTS:
        return f": {HINTS[field]}"
    meant = meant_field(field, fields_at(path))
    return f": did you mean {quoted(meant)}?" if meant else ""
