"""Whether a text is a value of a kind, and why it is none."""

RANGES = {"integer": 31, "long": 63}
LONGEST_TEXT = 65_535
MONTHS = (31, 28, 31, 30, 31, 30, 31, 31, 30, 31, 30, 31)
NO_VALUE = {
    "integer": "is no integer",
    "long": "is no long",
    "boolean": "is no boolean",
    "string": "is too long for a string",
    "local_date": "is no date",
}


def whole_number(text):
    """Returns the number that a text writes, as the program reads keys and whole numbers, or None."""
    digits = text[1:] if text[:1] in ("+", "-") else text
    return int(text) if digits.isascii() and digits.isdigit() else None


def is_value(kind, text):
    """Tells whether a text is a value of a kind; the empty one is NULL, of every kind."""
    return text == "" or why_no_value(kind, text) is None


def why_no_value(kind, text):
    """Returns the sentences that say why a text, not empty, is no value of a kind, or None where it is one."""
    if kind in RANGES:
        return why_no_number(kind, text)
    if kind == "boolean":
        return None if text.lower() in ("true", "false") and text.isascii() else ["A boolean is true or false."]
    if kind == "string":
        size = len(text.encode())
        return None if size <= LONGEST_TEXT else [f"It has {size:,} bytes, and a string has at most {LONGEST_TEXT:,}."]
    return why_no_date(text)


def why_no_number(kind, text):
    most = 2 ** RANGES[kind]
    number = whole_number(text)
    if number is not None and -most <= number < most:
        return None
    if number is not None and kind == "integer" and -2 ** 63 <= number < 2 ** 63:
        return [f'An integer lies from {-most} to {most - 1}; a wider whole number is a "long" in the configuration.']
    if number is not None:
        return [f"{'An' if kind == 'integer' else 'A'} {kind} lies from {-most} to {most - 1}."]
    if text != text.strip() and whole_number(text.strip()) is not None:
        return ["A blank stands before or behind the number: nothing is trimmed, so take it out."]
    plain = text.replace(",", "").replace(".", "").replace("_", "").replace("'", "").replace(" ", "")
    if plain != text and whole_number(plain) is not None:
        return ["A whole number has digits alone: no point, comma, blank or other mark between them, and no fraction."]
    return ["A whole number is an optional '+' or '-' and then digits alone."]


def why_no_date(text):
    form = len(text) == 10 and text.isascii() and text[4] == text[7] == "-"
    digits = text[:4] + text[5:7] + text[8:]
    if not (form and digits.isdigit()):
        return ["A date is written YYYY-MM-DD, as 2024-02-29: ten characters, the year first, no time behind it."]
    year, month, day = int(text[:4]), int(text[5:7]), int(text[8:])
    if not 1 <= month <= 12:
        return [f"There is no month {text[5:7]}: a date is written YYYY-MM-DD."]
    is_leap = year % 4 == 0 and (year % 100 != 0 or year % 400 == 0)
    days = MONTHS[month - 1] + (month == 2 and is_leap)
    if 1 <= day <= days:
        return None
    leap = f" {text[:4]} is {'a' if is_leap else 'no'} leap year." if month == 2 else ""
    return [f"{text[:7]} has {days} days.{leap}"]
