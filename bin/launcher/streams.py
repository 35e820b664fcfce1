"""The streams of the program: what it reads is kept for an explanation, and what it writes is passed on and looked at."""

import os
import stat

PIECE = 1 << 16
# The program reads no more of a script than this.
MOST_INPUT = 16_777_216 + 1


def fill_closed():
    """Puts something that cannot be read or written in the place of closed standard streams, so that no file takes their number."""
    for number, way in ((0, os.O_WRONLY), (1, os.O_RDONLY), (2, os.O_RDONLY)):
        try:
            os.fstat(number)
        except OSError:
            os.open(os.devnull, way)


class Input:
    """What the program reads, from a file or from standard input, kept so that it can be read once more."""

    def __init__(self, file=None):
        self.file, self.fd, self.start, self.why_unread = file, 0, 0, None
        if file is not None:
            self.open_file(file)
        try:
            self.keep()
        except OSError as error:
            self.why_unread = error.strerror.lower()

    def open_file(self, file):
        try:
            self.fd = os.open(file, os.O_RDONLY | os.O_CLOEXEC)
        except OSError as error:
            # (what cannot be opened is told by the program as what cannot be read)
            self.fd, self.why_unread = os.open(os.devnull, os.O_WRONLY | os.O_CLOEXEC), error.strerror.lower()

    def keep(self):
        """A regular file can be read again; of anything else a copy is made in memory."""
        mode = os.fstat(self.fd).st_mode
        if self.why_unread is not None:
            return
        if stat.S_ISDIR(mode):
            self.why_unread = "it is a folder"
        elif stat.S_ISREG(mode):
            self.start = os.lseek(self.fd, 0, os.SEEK_CUR)
        else:
            self.copy()

    def copy(self):
        piece, size = os.read(self.fd, PIECE), 0
        copy = os.memfd_create("script")
        while piece:
            write_all(copy, piece)
            size += len(piece)
            piece = os.read(self.fd, PIECE) if size < MOST_INPUT else b""
        os.lseek(copy, 0, os.SEEK_SET)
        self.fd = copy

    def data(self):
        """Returns the bytes, or none where they could not be read."""
        try:
            parts, at = [], self.start
            while at - self.start < MOST_INPUT:
                piece = os.pread(self.fd, 1 << 20, at)
                if not piece:
                    break
                parts.append(piece)
                at += len(piece)
            return b"".join(parts)
        except OSError:
            return b""


def write_all(fd, data):
    view = memoryview(data)
    while view:
        view = view[os.write(fd, view):]


class Output:
    """What the program writes: passed on as it comes, its first line kept, and its refusals looked for where that is asked."""

    REFUSED = b"\n  refused "

    def __init__(self, looks_for_refusals):
        self.first, self.tail, self.looks, self.is_refused, self.is_whole = b"", b"\n", looks_for_refusals, False, True

    def take(self, piece):
        """Looks at a piece and passes it on; tells whether more can be written."""
        if len(self.first) < 4096:
            self.first += piece[:4096]
        if self.looks and not self.is_refused:
            text = self.tail + piece
            self.is_refused = self.REFUSED in text
            self.tail = text[-len(self.REFUSED):]
        try:
            write_all(1, piece)
        except OSError:
            self.is_whole = False
        return self.is_whole

    def line(self):
        """Returns the first line, without its line feed."""
        return self.first.partition(b"\n")[0].decode("utf-8", "replace")
