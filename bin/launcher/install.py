"""Copies the program, what explains its answers, and its pages below a folder."""

import os
import shutil

from launcher import places, sources
from launcher.page import kit_line
from launcher.tell import tell

PAGES = ("TUTORIAL.md", "SCRIPT.md", "FORMATS.md", "ERRORS.md")


def install(prefix):
    """Installs below a folder, and returns the status."""
    if not os.path.isfile(places.PROGRAM):
        tell("the program is not built: 'tarzubei build' proves and builds it")
        return 1
    newer = sources.newer_file()
    if newer:
        tell(f"the program is older than {newer}: 'tarzubei build' proves and builds it anew")
        return 1
    try:
        copy_all(os.path.abspath(prefix))
    except OSError as error:
        tell(f"{error.filename or prefix}: {(error.strerror or str(error)).lower()}")
        return 1
    tell(f"installed {os.path.join(prefix, 'bin', 'tarzubei')}, and its man page below {os.path.join(prefix, 'share', 'man')}")
    return 0


def copy_all(prefix):
    """Copies each file to its place."""
    library = os.path.join(prefix, "lib", "tarzubei")
    commands = os.path.join(places.PREFIX, "bin")
    for name in ("tarzubei", "tarzubei-draw"):
        copy(os.path.join(commands, name), os.path.join(prefix, "bin", name))
    copy(places.PROGRAM, os.path.join(library, "program"))
    for name in sorted(os.listdir(places.LAUNCHER)):
        if name.endswith((".py", ".1")):
            copy(os.path.join(places.LAUNCHER, name), os.path.join(library, "launcher", name))
    copy(os.path.join(places.LAUNCHER, "tarzubei.1"), os.path.join(prefix, "share", "man", "man1", "tarzubei.1"))
    for name in PAGES:
        copy(os.path.join(places.DOCS, name), os.path.join(prefix, "share", "doc", "tarzubei", name))
    with open(os.path.join(library, "kit"), "w", encoding="utf-8") as it:
        it.write(f"{kit_line()}\n")


def copy(source, target):
    """Copies a file over another in one step, so that a program that runs is not disturbed."""
    os.makedirs(os.path.dirname(target), exist_ok=True)
    shutil.copy(source, f"{target}.new")
    os.replace(f"{target}.new", target)
