"""Explains the lines of the program that speak of a line of the script."""

from launcher import script_text as lines
from launcher.near import nearest
from launcher.tell import Explanation, quoted

SECTION = ("ERRORS.md", "A line of the script is at fault")
MARK = "\ufeff"


def explain_line(script, number, why):
    """Explains `error line NUMBER fault 47 WHY`."""
    reading = lines.read_to(script.data, number)
    return WHYS[why](Fault(script, reading)).see(*SECTION)


def explain_length(script):
    """Explains `error script longer than 16777216 bytes`."""
    it = Explanation(f"{script.label} has more than {lines.LIMIT:,} bytes, and a script may have no more")
    it.note("Put large graphs into CSV files, and name them by 'source S config FILE'.")
    return it.see("SCRIPT.md", "source S config FILE")


class Fault:
    """A line at fault: what stands before it, and its words with their places."""

    def __init__(self, script, reading):
        self.script, self.reading, self.line = script, reading, reading.line
        self.words, at = [], 0
        for word in reading.line.split(b" "):
            self.words.append((word, at, at + len(word)))
            at += len(word) + 1
        self.first = self.word(0)

    def word(self, place):
        return self.words[place][0].decode("utf-8", "replace") if place < len(self.words) else ""

    def explain(self, what):
        return Explanation(f"{self.script.label}, line {self.reading.number}: {what}")

    def mark_word(self, it, place):
        _, start, end = self.words[place]
        return it.mark(self.line, start, end)


def explain_utf8(fault):
    try:
        fault.line.decode("utf-8")
    except UnicodeDecodeError as error:
        it = fault.explain(f"a byte that is not UTF-8, {fault.line[error.start]}")
        return it.mark(fault.line, error.start, error.start + 1).note("Save the script in UTF-8.")
    return fault.explain("the line is not UTF-8")


def explain_word(fault):
    allowed, where = lines.ALLOWED[fault.reading.place]
    first = fault.first
    if first.split("\t")[0] in lines.FORMS and "\t" in first:
        at = fault.line.index(b"\t")
        it = fault.explain(f"a tab stands after {quoted(fault.line[:at])}").mark(fault.line, at, at + 1)
        return it.note("Words are separated by one space, and not by a tab.")
    if first.startswith(MARK):
        it = fault.explain(f"a byte order mark stands before {quoted(first[1:])}").mark(fault.line, 0, len(MARK.encode()))
        return it.note("Save the script without one.")
    it = fault.mark_word(fault.explain(f"{quoted(first)} is not allowed here, {where}"), 0)
    for sentence in causes_of_word(fault, allowed):
        it.note(sentence)
    forms = [f"'{form}'" for name in allowed for form in lines.FORMS[name].split(", or ")]
    return it.note(f"Allowed here: {', '.join(forms)}.")


def causes_of_word(fault, allowed):
    """Gives the likely causes of a first word that is not allowed in its place."""
    place, first = fault.reading.place, fault.first
    meant = nearest(first, allowed)
    if first in lines.FORMS or first in lines.LATER:
        yield from causes_of_place(place, first, fault.reading)
    elif meant:
        yield f"Did you mean {quoted(meant)}?" + (" Words are written in small letters." if meant == first.lower() else "")
    elif nearest(first, tuple(lines.FORMS)):
        meant = nearest(first, tuple(lines.FORMS))
        yield f"If {quoted(meant)} is meant:"
        yield from causes_of_place(place, meant, fault.reading)


def causes_of_place(place, first, reading):
    """Gives what is missing before a line that is right in another place."""
    if place in ("vertices", "edges"):
        if first == "v":
            yield "All 'v' lines of a source stand before its first 'e' line."
        else:
            begin = next_source_line(reading)
            yield f"The line 'end' of the source that begins in line {begin} is missing before it."
    elif place == "start" and first in ("v", "e", "end"):
        yield "It is a line of a source: 'source S inline' is missing before it."
    elif place == "start" and first == "actor":
        yield "A line 'phase' is missing before it."
    elif place == "start":
        yield "Commands come after 'phase' and 'actor A': these two lines are missing before it."
    elif place == "phase" and first in ("source", "v", "e", "end"):
        yield "Sources stand before 'phase'."
    elif place == "phase":
        yield "A line 'actor A' is missing before it."
    elif first in ("source", "v", "e", "end"):
        yield "Sources stand before 'phase'."


def next_source_line(reading):
    return reading.sources[-1].line


def explain_later(fault):
    it = fault.mark_word(fault.explain(f"{quoted(fault.first)} is part of the language, but not built yet"), 0)
    return it.note("Leave the line out. docs/SCRIPT.md has the commands that are built.")


def explain_form(fault):
    first, line = fault.first, fault.line
    it = fault.explain(f"this is not how {quoted(first)} is written")
    if first in lines.RESTS:
        explain_rest(fault, it)
    elif line.endswith(b" "):
        end = len(line.rstrip(b" "))
        it.mark(line, end, len(line)).note("A blank at the end of a line counts as one more word: take it out.")
    elif b"  " in line:
        at = line.index(b"  ")
        stop = at + len(line[at:]) - len(line[at:].lstrip(b" "))
        it.mark(line, at, stop).note("Words are separated by exactly one space.")
    elif b"\t" in line:
        at = line.index(b"\t")
        it.mark(line, at, at + 1).note("Words are separated by one space, and not by a tab.")
    else:
        explain_words(fault, it)
    forms = [f"'{form}'" for form in lines.FORMS[first].split(", or ")]
    return it.note(f"It is written {' or '.join(forms)}.")


def explain_rest(fault, it):
    """Marks the end of a line whose last word is the rest of the line, which is missing."""
    it.mark(fault.line, len(fault.line), len(fault.line))
    if len(fault.words) == 1:
        it.note("A word is missing: G.")
    else:
        it.note("The row is missing. It begins behind the name of the graph and one space, and ends with the line.")


def explain_words(fault, it):
    """Marks the word of a line that makes its form wrong: too many, too few, or not the fixed word that is due."""
    forms = [form.split(" ") for form in lines.FORMS[fault.first].split(", or ")]
    form = next((it for it in forms if it[0] == "source" and it[2] == fault.word(2)), forms[0])
    count = len(fault.words)
    comment = next((place for place, (word, _, _) in enumerate(fault.words) if word.startswith(b"#")), None)
    if comment is not None:
        fault.mark_word(it, comment).note("A comment, which begins with '#', stands on a line of its own.")
    elif fault.first == "source" and fault.word(2) not in ("inline", "config"):
        place = min(2, count - 1)
        fault.mark_word(it, place).note("The third word is 'inline' or 'config'.")
    elif fault.first == "source" and fault.word(4) == "changes":
        fault.mark_word(it, 4).note("Files of changes are part of the language, but not built yet.")
    elif count > len(form):
        fault.mark_word(it, len(form)).note("The line ends before this word.")
    else:
        explain_fixed_word(fault, it, form)


PLACES = {2: "third", 4: "fifth", 6: "seventh"}


def explain_fixed_word(fault, it, form):
    """Marks the first fixed word of a form that is missing or another one, or the end of a line that is too short."""
    count = len(fault.words)
    place = next((at for at in range(2, min(count, len(form))) if form[at].islower() and fault.word(at) != form[at]), None)
    if place is None:
        it.mark(fault.line, len(fault.line), len(fault.line)).note(f"A word is missing: {form[count]}.")
    elif count == len(form) - 1:
        it.mark(fault.line, fault.words[place][1], fault.words[place][1]).note(f"The word '{form[place]}' is missing here.")
    else:
        fault.mark_word(it, place).note(f"The {PLACES[place]} word is '{form[place]}'.")


def explain_name(fault):
    place = 1 if bad_name(fault.word(1)) else 3
    word = fault.word(place)
    if fault.first == "source" and place == 3:
        it = fault.mark_word(fault.explain(f"{quoted(word)} is no file name"), place)
        return it.note(bad_file(word) or "").note(
            "A file name has 1 to 255 letters, digits, '_', '.', '-' and '/', all ASCII.")
    it = fault.mark_word(fault.explain(f"{quoted(word)} is no name"), place)
    return it.note(bad_name(word) or "").note("A name has 1 to 64 letters, digits and '_', all ASCII; the first is no digit.")


def bad_name(word):
    """Returns why a word is no name, or None where it is one."""
    if not word:
        return "The word is empty: words are separated by exactly one space, and none stands at the end of a line."
    if len(word) > 64:
        return f"It has {len(word)} characters."
    if word[:1].isascii() and word[:1].isdigit():
        return "It begins with a digit."
    return bad_character(word, "_")


def bad_file(word):
    return f"It has {len(word)} characters." if len(word) > 255 else bad_character(word, "_.-/")


def bad_character(word, marks):
    for it in word:
        if not (it.isascii() and it.isalnum() or it in marks):
            return f"The character {quoted(it)} is not allowed in it."
    return None


def explain_number(fault):
    if fault.first in lines.COUNTS:
        return explain_count(fault)
    place = next(place for place in range(1, len(fault.words)) if bad_number(fault.word(place)))
    word = fault.word(place)
    it = fault.mark_word(fault.explain(f"{quoted(word)} is no key"), place)
    return it.note(bad_number(word)).note("A key is a whole number from -9223372036854775808 to 9223372036854775807.")


def explain_count(fault):
    place, what, most, limits = next(it for it in lines.COUNTS[fault.first] if bad_count(fault.word(it[0]), it[2]))
    word = fault.word(place)
    it = fault.mark_word(fault.explain(f"{quoted(word)} is no {what}"), place)
    return it.note(bad_count(word, most)).note(limits)


def bad_count(word, most):
    """Returns why a word is no number from 1 to the greatest, or None where it is one."""
    if word[:1] in ("+", "-"):
        return f"It begins with '{word[0]}': leave the sign out."
    if not (word.isascii() and word.isdigit()):
        return "It has other characters than digits."
    if word[0] == "0" and len(word) > 1:
        return "It begins with a zero: leave it out."
    return None if 1 <= int(word) <= most else ("It is too small." if int(word) < 1 else "It is too great.")


def bad_number(word):
    """Returns why a word is no key, or None where it is one."""
    digits = word[1:] if word.startswith("-") else word
    if word.startswith("+"):
        return "It begins with '+': leave the sign out."
    if not (digits.isascii() and digits.isdigit()):
        return "It has other characters than digits."
    if digits[0] == "0" and len(digits) > 1:
        return "It begins with a zero: leave it out."
    if word == "-0":
        return "Zero has no sign."
    return None if -2 ** 63 <= int(word) < 2 ** 63 else "It does not fit into 64 bits."


def explain_twice(fault):
    name, reading = fault.word(1), fault.reading
    if fault.first == "actor":
        first = reading.actors[name]
        it = fault.mark_word(fault.explain(f"the actor {quoted(name)} stands in this phase already, in line {first}"), 1)
        return it.note("Put its commands together, or begin another phase before this line.")
    first = next(it.line for it in reading.sources if it.name == name)
    it = fault.mark_word(fault.explain(f"a source {quoted(name)} stands already, in line {first}"), 1)
    return it.note("Give one of the two another name.")


def explain_many(fault):
    if fault.first == "source":
        it = fault.explain("the 65th source: a script has at most 64")
    elif fault.first == "actor":
        it = fault.explain("the 129th actor: a script has at most 128, in all its phases")
    else:
        it = fault.explain("the 65,537th command: a script has at most 65,536")
    return it.mark(fault.line, 0, len(fault.line)).note("Split the script.")


def explain_end(fault):
    source = fault.reading.sources[-1]
    it = fault.explain(f"the script ends inside the source {quoted(source.name)}, which begins in line {source.line}")
    return it.note("Write a line 'end' after its last 'v' or 'e' line.")


WHYS = {
    "utf8": explain_utf8,
    "word": explain_word,
    "later": explain_later,
    "form": explain_form,
    "name": explain_name,
    "number": explain_number,
    "twice": explain_twice,
    "many": explain_many,
    "end": explain_end,
}
