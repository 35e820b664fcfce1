"""What a configuration says: its tables with their files and properties, and where each of it stands."""

from launcher.json_text import read_json

KINDS = ("integer", "long", "boolean", "string", "local_date")
TOP_FIELDS = ("version", "vertex_providers", "edge_providers")
VERTEX_FIELDS = ("name", "file", "props")
EDGE_FIELDS = ("name", "file", "source_vertex_provider", "destination_vertex_provider", "props")
PROP_FIELDS = ("name", "type")


class Table:
    """A table of a configuration: `fields` are the names and kinds of a record's fields in order."""

    def __init__(self, node, path, is_edge):
        self.path, self.is_edge = path, is_edge
        self.name, self.file = text_of(node, "name"), text_of(node, "file")
        self.source, self.destination = text_of(node, "source_vertex_provider"), text_of(node, "destination_vertex_provider")
        keys = ["key", "source", "destination"] if is_edge else ["key"]
        self.fields = [(it, None) for it in keys] + [(text_of(it, "name"), text_of(it, "type")) for it in items_of(node, "props")]


class Config:
    """A configuration that is JSON."""

    def __init__(self, data):
        self.data = data
        self.top, self.text = read_json(data)

    def tables(self):
        """Returns the tables in the order in which the program reads their files."""
        found = []
        for list_name in ("vertex_providers", "edge_providers"):
            for place, node in enumerate(items_of(self.top, list_name)):
                found.append(Table(node, f"{list_name}[{place}]", list_name == "edge_providers"))
        return found

    def has_keys_per_table(self):
        """Tells whether keys differ within each table alone, which is so under version 2."""
        version = self.top.get("version")
        return version is not None and self.text[version.start:version.end] == "2"

    def node_at(self, path):
        """Returns the value at a path, such as `vertex_providers[0].props[1].type`, or None."""
        node = self.top
        for step in [] if path == "$" else path.replace("[", ".[").split("."):
            if node is None:
                return None
            if step.startswith("["):
                place = int(step[1:-1])
                node = node.value[place] if node.kind == "list" and place < len(node.value) else None
            else:
                node = node.get(step)
        return node

    def place(self, at):
        """Returns the line and the column of a place of the text, both from 1, and the line with the place in it."""
        begin = self.text.rfind("\n", 0, at) + 1
        end = self.text.find("\n", at)
        line = self.text[begin:end if end >= 0 else len(self.text)]
        return self.text.count("\n", 0, at) + 1, at - begin + 1, line.rstrip("\r"), at - begin

    def line(self, node):
        return self.place(node.start)[0]


def fields_at(path):
    """Returns the fields that the object at a path may have."""
    if path == "$":
        return TOP_FIELDS
    if ".props[" in path:
        return PROP_FIELDS
    return EDGE_FIELDS if path.startswith("edge") else VERTEX_FIELDS


def text_of(node, name):
    value = node.get(name)
    return value.value if value is not None and value.kind == "string" else ""


def items_of(node, name):
    value = node.get(name)
    return value.value if value is not None and value.kind == "list" else []


def objects_of(top):
    """Gives the objects of a configuration with their paths: the whole, the tables and their properties."""
    yield top, "$"
    for list_name in ("vertex_providers", "edge_providers"):
        for place, table in enumerate(items_of(top, list_name)):
            yield table, f"{list_name}[{place}]"
            for at, prop in enumerate(items_of(table, "props")):
                yield prop, f"{list_name}[{place}].props[{at}]"


def strange_fields(top):
    """Gives each field that nobody reads: its key and its object's path. One that begins with `_` or `$` is taken for a comment."""
    for node, path in objects_of(top):
        for key, _ in node.value if node.kind == "object" else []:
            if key.value not in fields_at(path) and key.value[:1] not in ("_", "$"):
                yield key, path
