"""The files that a script and its configurations name, as they stand in the folder where the command is given."""

import os
import stat

LIMIT = 268_435_456


def is_outside(name):
    """Tells whether a name leads out of the folder: no such file is looked for."""
    return name.startswith("/") or ".." in name.split("/")


class Folder:
    """The folder where the command is given. Files are read once."""

    def __init__(self):
        self.kept = {}

    def read(self, name):
        """Returns the bytes of a file."""
        if name not in self.kept:
            if not self.is_file(name):
                raise FileNotFoundError(name)
            with open(name, "rb") as it:
                self.kept[name] = it.read(LIMIT + 1)
        return self.kept[name]

    def is_file(self, name):
        """Tells whether a name leads to a file that is neither a folder nor anything else that cannot be read to an end."""
        try:
            return not is_outside(name) and stat.S_ISREG(os.stat(name).st_mode)
        except OSError:
            return False

    def size(self, name):
        return os.path.getsize(name) if self.is_file(name) else 0

    def why_unread(self, name):
        """Returns why a file cannot be read, or None where it can be, or is not there."""
        try:
            status = os.stat(name)
        except FileNotFoundError:
            return None
        except NotADirectoryError:
            return "a part of its path is a file, and no folder"
        except OSError as error:
            return error.strerror.lower()
        if stat.S_ISDIR(status.st_mode):
            return "it is a folder"
        if not stat.S_ISREG(status.st_mode):
            return "it is no regular file"
        if status.st_size > LIMIT:
            return f"it has {status.st_size:,} bytes, and a file may have {LIMIT:,}"
        return None if os.access(name, os.R_OK) else "you may not read it"
