"""Explains the one line that the program writes where something is wrong."""

from launcher import words as forms
from launcher.near import nearest
from launcher.script_text import sources_of
from launcher.tell import Explanation, quoted, say


class Script:
    """What the program read: its bytes, its file if one was named, and how it is told."""

    def __init__(self, kept):
        self.kept, self.file, self.why_unread, self.bytes = kept, kept.file, kept.why_unread, None
        self.label = kept.file if kept.file else "the script"

    @property
    def data(self):
        if self.bytes is None:
            self.bytes = self.kept.data()
        return self.bytes

    def config_sources(self):
        """Returns the sources that have a configuration; the script is right."""
        return [it for it in sources_of(self.data) if it.config]


def explain(status, line, script, folder):
    """Writes what is to be said of a status and of the program's last line to standard error."""
    try:
        it = explanation(status, line, script, folder)
    except (OSError, LookupError, ValueError, AttributeError, StopIteration):
        # (a file that has changed since the program read it)
        it = None
    it = it or Explanation(f"{line or f'the status is {status}'}").see("ERRORS.md")
    say(it.text())


def explanation(status, line, script, folder):
    """Returns the explanation of a status and a line of the program, or None."""
    parts = line.split(" ")
    if status == 3 and line.startswith("error line "):
        from launcher.why_script import explain_line

        return explain_line(script, int(parts[2]), parts[5])
    if status == 3:
        from launcher.why_script import explain_length

        return explain_length(script)
    if line.startswith("error no file "):
        from launcher.why_file import explain_missing

        return explain_missing(script, folder, parts[3])
    if line.startswith("error config "):
        from launcher.why_config import explain_config

        return explain_config(script, folder, parts[2], int(parts[4]), parts[6] if len(parts) > 6 else "")
    if line.startswith("error table "):
        return explain_record(script, folder, parts[2], int(parts[4]), int(parts[6]))
    if status == 6:
        from launcher.why_file import explain_unread

        return explain_unread(script, folder)
    return OTHERS[status]() if status in OTHERS else None


def explain_record(script, folder, file, row, number):
    """Explains a record of a file, or a line of an inline source S, which stands for a record of `S.V` or `S.E`."""
    from launcher.why_table import explain_table

    it = explain_table(script, folder, file, row, number)
    source, _, letter = file.rpartition(".")
    if it is None and letter in ("V", "E"):
        from launcher.why_inline import explain_inline

        it = explain_inline(script, source, letter.lower().encode(), row, number)
    return it


def no_memory():
    it = Explanation("memory ran out")
    return it.note("Give the program more of it, or take a smaller graph.").see("ERRORS.md", "Statuses")


def not_written():
    it = Explanation("standard output could not be written to its end")
    it.note("Look whether the disk is full, or whether the program behind a pipe ended early.")
    return it.see("ERRORS.md", "The output cannot be written")


def not_text():
    it = Explanation("a word of the command is not UTF-8")
    return it.see("ERRORS.md", "Statuses")


OTHERS = {5: no_memory, 7: not_written, 8: not_text}


def explain_words(request, status):
    """Says which word is wrong, and which was meant; tells whether the whole page is to follow."""
    given, place = request.words, request.usage
    if status != 2:
        say(OTHERS[status]().text() if status in OTHERS else "")
        return False
    if not given:
        say(Explanation("a word is missing").text())
        return True
    first = given[0]
    if first in forms.PROGRAM_WORDS and len(given) == 2:
        it = Explanation(f"there is no file {quoted(given[1])}")
        it.note(f"'{first}' takes the script from a file that is there, or from standard input.")
    elif first in forms.PROGRAM_WORDS:
        it = Explanation(f"there are too many words: after '{first}' comes one file at most")
    elif first in ("build", "install") and 0 < place < len(given):
        it = Explanation(f"{quoted(given[place])} is one word too many")
    elif first == "build":
        it = Explanation("there are no sources here: 'build' is for a clone of the repository")
    elif first == "install":
        it = Explanation("a word is missing: the folder to install into")
    else:
        meant = nearest(first, forms.ALL_WORDS)
        it = Explanation(f"there is no word {quoted(first)}" + (f": did you mean {quoted(meant)}?" if meant else ""))
        say(it.text())
        return True
    say(it.note("'tarzubei --help' tells the words.").text())
    return False
