"""The words of the command line: what they ask of the launcher, and what is left for the program."""

import os

from launcher import places

PROGRAM_WORDS = ("once", "check")
LAUNCHER_WORDS = ("build", "install", "help")
OPTIONS = ("--quiet", "--strict", "--quick")
ALL_WORDS = (*PROGRAM_WORDS, *LAUNCHER_WORDS, "--help", "--version", *OPTIONS)


class Request:
    """What the words ask for: `kind` is 'page', 'version', 'build', 'install', 'run' or 'wrong'."""

    def __init__(self, kind, words, options, file=None, usage=None):
        self.kind, self.words, self.file, self.usage = kind, words, file, usage
        self.is_quiet = "--quiet" in options
        self.is_strict = "--strict" in options
        self.is_quick = "--quick" in options


def read_request(given):
    """Returns what the words of the command line ask for."""
    options = [it for it in given if it in OPTIONS]
    words = [it for it in given if it not in OPTIONS]
    first = words[0] if words else ""
    if "-h" in words or "--help" in words or first == "help":
        return Request("page", words, options)
    if words == ["--version"]:
        return Request("version", words, options)
    if first == "build":
        return one_form(words, options, 1)
    if first == "install":
        return one_form(words, options, 2)
    if first in PROGRAM_WORDS and len(words) == 1:
        return Request("run", words, options)
    if first in PROGRAM_WORDS and len(words) == 2 and os.path.exists(words[1]):
        return Request("run", words[:1], options, file=words[1])
    return Request("wrong", words, options, usage=usage_place(words))


def one_form(words, options, count):
    """Returns the request of a launcher's word that stands with this number of words."""
    if places.IS_INSTALLED and words[0] == "build":
        return Request("wrong", words, options, usage=0)
    if len(words) == count:
        return Request(words[0], words, options)
    return Request("wrong", words, options, usage=min(len(words), count))


def usage_place(words):
    """Returns the place of the first word that is wrong for the program, counted from 0: the number of its line `usage I`."""
    return 1 if words and words[0] in PROGRAM_WORDS else 0


def are_text(words):
    """Tells whether each word is UTF-8; the program ends with status 8 where one is not."""
    try:
        for word in words:
            os.fsencode(word).decode("utf-8")
    except UnicodeDecodeError:
        return False
    return True
