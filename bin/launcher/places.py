"""Where things stand: in a clone of the repository, or where `tarzubei install` has put them."""

import os

LAUNCHER = os.path.dirname(os.path.realpath(__file__))
BASE = os.path.dirname(LAUNCHER)
IS_INSTALLED = os.path.isfile(os.path.join(BASE, "program"))

if IS_INSTALLED:
    PREFIX = os.path.dirname(os.path.dirname(BASE))
    PROGRAM = os.path.join(BASE, "program")
    DOCS = os.path.join(PREFIX, "share", "doc", "tarzubei")
else:
    PREFIX = os.path.dirname(BASE)
    PROGRAM = os.path.join(PREFIX, "crates", "tarzubei", "out", "tarzubei")
    DOCS = os.path.join(PREFIX, "docs")

CRATES = os.path.join(PREFIX, "crates")


def rt_command():
    """Returns the path of the command `rt` on the PATH, or None."""
    for folder in os.environ.get("PATH", os.defpath).split(os.pathsep):
        path = os.path.join(folder or ".", "rt")
        if os.path.isfile(path) and os.access(path, os.X_OK):
            return path
    return None
