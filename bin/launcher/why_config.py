"""Explains the lines of the program that speak of a configuration."""

from launcher import config_text as config
from launcher.json_text import NotJson
from launcher.near import nearest
from launcher.tell import Explanation, quoted

SECTION = ("ERRORS.md", "A configuration is at fault")
OTHER_NAMES = {
    "properties": "props",
    "columns": "props",
    "attributes": "props",
    "vertex_props": "props",
    "edge_props": "props",
    "filename": "file",
    "path": "file",
    "uri": "file",
    "uris": "file",
    "kind": "type",
    "label": "name",
    "id": "name",
    "source": "source_vertex_provider",
    "destination": "destination_vertex_provider",
    "vertices": "vertex_providers",
    "edges": "edge_providers",
}
OTHER_KINDS = {
    "int": "integer",
    "int32": "integer",
    "number": "integer",
    "int64": "long",
    "bigint": "long",
    "bool": "boolean",
    "text": "string",
    "str": "string",
    "varchar": "string",
    "date": "local_date",
    "timestamp": "local_date",
}


def explain_config(script, folder, name, number, path):
    """Explains `error config NAME fault NUMBER .. PATH`."""
    data = folder.read(name)
    try:
        it = config.Config(data)
    except NotJson as fault:
        return explain_no_json(name, data, fault)
    if number == 3:
        return Explanation(f"{name} is not JSON as the program reads it").see(*SECTION)
    return FAULTS[number](Place(script, name, it, path)).see(*SECTION)


def explain_no_json(name, data, fault):
    text = data.decode("utf-8", "surrogateescape")
    begin = text.rfind("\n", 0, fault.start) + 1
    line, end = text.count("\n", 0, fault.start) + 1, text.find("\n", fault.start)
    it = Explanation(f"{name}, line {line}, column {fault.start - begin + 1}: not JSON: {fault.why}")
    shown = text[begin:end if end >= 0 else len(text)].rstrip("\r")
    if text.strip():
        it.mark(shown, fault.start - begin, max(fault.start, min(fault.end, begin + len(shown))) - begin)
    for hint in fault.hints:
        it.note(hint)
    return it.see(*SECTION)


class Place:
    """A place of a configuration that is at fault: its path, the value there, if any, and the object that it belongs to."""

    def __init__(self, script, name, it, path):
        self.script, self.name, self.config, self.path = script, name, it, path
        self.node = it.node_at(path)
        above, _, self.field = path.rpartition(".")
        self.above = above or "$"
        self.object = it.node_at(self.above)

    def explain(self, node, what):
        """Returns an explanation that marks a value."""
        line, column, text, at = self.config.place(node.start)
        it = Explanation(f"{self.name}, line {line}, column {column}: {what}")
        return it.mark(text, at, min(at + node.end - node.start, len(text)))

    def owner(self):
        """Returns how the object is told to which the field belongs."""
        if self.above == "$":
            return "the configuration"
        name = config.text_of(self.object, "name")
        return f"the {'property' if '.props[' in self.above else 'table'} {self.above}" + (f" {quoted(name)}" if name else "")


def explain_missing(place):
    known = config.fields_at(place.above)
    it = place.explain(place.object, f"{place.owner()} has no field {quoted(place.field)}")
    for key, _ in place.object.value:
        if key.value not in known and meant_field(key.value, known) == place.field:
            it.note(f"It has a field {quoted(key.value)}: did you mean {quoted(place.field)}?")
    needed = [quoted(name) for name in known if name not in ("version", "props")]
    return it.note(f"These fields have to be there: {', '.join(needed)}.")


def meant_field(name, known):
    """Returns the field that an unknown one was meant to be, or None."""
    other = OTHER_NAMES.get(name.lower())
    return other if other in known else nearest(name, known)


def explain_type(place):
    node, field = place.node, place.field
    shown = place.config.text[node.start:node.end] if node.kind in ("number", "word") else "this"
    it = place.explain(node, f"{quoted(node.value) if node.kind == 'string' else shown} is no {role_of(place)}")
    if node.kind == "word" and node.value is None:
        it.note("null stands for no value: leave the field out where it may be missing.")
    if field == "type":
        meant = nearest_kind(node.value) if node.kind == "string" else None
        if meant:
            it.note(f"Did you mean {quoted(meant)}?")
        return it.note(f"The kinds are {', '.join(map(quoted, config.KINDS))}.")
    return it.note(rule_of(place))


def role_of(place):
    """Returns what is due in a place, as 'is no ..' says it."""
    field = place.field
    if field == "type":
        return "kind of a property"
    if field == "version":
        return "version of a configuration"
    if field == "file":
        return "file name"
    if field == "name" or field.endswith("_provider"):
        return "name"
    return "list" if field in ("vertex_providers", "edge_providers", "props") else "object"


def rule_of(place):
    """Returns what the value of a field has to be."""
    role = role_of(place)
    return {
        "version of a configuration": "The version is the number 1 or 2, or is left out.",
        "file name": "A file name has 1 to 255 letters, digits, '_', '.', '-' and '/', all ASCII, in double quotes.",
        "name": "A name has 1 to 64 letters, digits and '_', all ASCII, in double quotes; the first is no digit.",
        "list": "A list stands in square brackets.",
        "object": f"An object stands in braces: its fields are {', '.join(map(quoted, config.fields_at(place.path)))}.",
    }[role]


def nearest_kind(word):
    return OTHER_KINDS.get(word.lower()) or nearest(word, config.KINDS)


def explain_twice(place):
    name, first = place.node.value, None
    if ".props[" in place.path:
        table = place.config.node_at(place.path.partition(".props")[0])
        first = next(prop for prop in config.items_of(table, "props") if config.text_of(prop, "name") == name)
        what = f"the property {quoted(name)} stands already in this table"
    else:
        tables = [it for kind in ("vertex_providers", "edge_providers") for it in config.items_of(place.config.top, kind)]
        first = next(table for table in tables if config.text_of(table, "name") == name)
        what = f"a table {quoted(name)} stands already"
    it = place.explain(place.node, f"{what}, in line {place.config.line(first.get('name'))}")
    return it.note("Rename one of the two.")


def explain_unknown(place):
    names = [it.name for it in place.config.tables() if not it.is_edge]
    it = place.explain(place.node, f"no vertex table is called {quoted(place.node.value)}")
    meant = nearest(place.node.value, names)
    if meant:
        it.note(f"Did you mean {quoted(meant)}?")
    return it.note(f"The vertex tables are {', '.join(map(quoted, names))}." if names else "There is no vertex table.")


def explain_clash(place):
    side = "edge" if place.path.startswith("edge") else "vertex"
    name, kind = config.text_of(place.object, "name"), place.node.value
    for table in config.items_of(place.config.top, f"{side}_providers"):
        for prop in config.items_of(table, "props"):
            other = config.text_of(prop, "type")
            if config.text_of(prop, "name") == name and other != kind:
                line = place.config.line(prop.get("type"))
                it = place.explain(place.node, f"the property {quoted(name)} is {quoted(kind)} here and {quoted(other)} in line {line}")
                return it.note(f"A property has one kind in all {side} tables: take one kind, or two names.")
    return place.explain(place.node, "this property has another kind in an earlier table")


def explain_many(place):
    count = len(place.node.value)
    if place.field == "props":
        it = place.explain(place.node, f"{count} properties: a table has at most 64")
    else:
        tables = len(place.config.tables())
        it = place.explain(place.node, f"{tables} tables: a configuration has at most 32")
    return it.note("Take some out, or split the graph.")


FAULTS = {
    4: explain_missing,
    5: explain_type,
    6: explain_twice,
    7: explain_unknown,
    50: explain_clash,
    52: explain_many,
}
