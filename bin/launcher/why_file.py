"""Explains the lines of the program that speak of a file that is missing or cannot be read."""

import os

from launcher.config_text import Config
from launcher.files import LIMIT, is_outside
from launcher.json_text import NotJson
from launcher.near import nearest
from launcher.tell import Explanation, quoted

MISSING = ("ERRORS.md", "A file is missing")
UNREAD = ("ERRORS.md", "A file cannot be read")


def named_files(script, folder):
    """Gives the files that the script names, in the order in which they are read: name, and how it is named."""
    for source in script.config_sources():
        yield source.config, f"Line {source.line} of {script.label} names it", ""
        try:
            config = Config(folder.read(source.config))
        except (OSError, NotJson):
            continue
        for table in config.tables():
            node = config.node_at(f"{table.path}.file")
            line = config.line(node) if node is not None else 1
            how = f"Line {line} of {source.config} names it, as the file of the table {quoted(table.name)}"
            yield table.file, how, source.config


def explain_missing(script, folder, name):
    """Explains `error no file NAME`."""
    naming, config = next(((how, config) for file, how, config in named_files(script, folder) if file == name), (None, ""))
    told = "no file is looked for under the name" if is_outside(name) else "there is no file"
    it = Explanation(f"{told} {quoted(name)}")
    if naming:
        it.note(f"{naming}.")
    if is_outside(name):
        it.note("A name that begins with '/' or has '..' as a part leads out of the folder where the command is given.")
        return it.note("Copy the file into that folder, or give the command in the folder above both.").see(*MISSING)
    for sentence in causes(script, name, config):
        it.note(sentence)
    return it.see(*MISSING)


def causes(script, name, config):
    """Gives the likely causes of a file that is not there."""
    beside = os.path.join(os.path.dirname(config), name)
    if config and os.path.dirname(config) and os.path.isfile(beside):
        yield (f"There is {quoted(beside)}: names lead from the folder where the command is given, and not from that of the "
               "configuration.")
        return
    folder = os.path.dirname(script.file or "")
    if folder and os.path.isfile(os.path.join(folder, name)):
        yield f"It stands beside the script: give the command in the folder {quoted(folder)}."
        return
    try:
        names = os.listdir(os.path.dirname(name) or ".")
    except OSError:
        names = []
    meant = nearest(os.path.basename(name), sorted(names))
    if meant:
        yield f"Did you mean {quoted(os.path.join(os.path.dirname(name), meant))}?"
    else:
        yield "Names are looked for in the folder where the command is given: change to that folder first."


def explain_unread(script, folder):
    """Explains `error read fault`."""
    if script.why_unread and script.file:
        return Explanation(f"the script {quoted(script.file)} cannot be read: {script.why_unread}").see(*UNREAD)
    if script.why_unread:
        return Explanation("the script cannot be read: standard input is closed, or a folder, or it failed").see(*UNREAD)
    for name, how, _ in named_files(script, folder):
        why = None if is_outside(name) else folder.why_unread(name)
        if why:
            it = Explanation(f"the file {quoted(name)} cannot be read: {why}").note(f"{how}.")
            return it.see(*UNREAD)
    it = Explanation("the script or a file could not be read")
    return it.note(f"Look whether you may read each file that is named, and whether it has at most {LIMIT:,} bytes.").see(*UNREAD)
