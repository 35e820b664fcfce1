"""What each request of the command line leads to."""

import os

from launcher import places, streams
from launcher.tell import say, tell
from launcher.words import are_text, read_request


def main(given):
    """Does what the words ask for, and returns the status."""
    streams.fill_closed()
    request = read_request(given)
    if request.kind == "run":
        return run(request)
    if request.kind == "wrong":
        return refuse(request)
    if request.kind in ("page", "version"):
        from launcher import page

        return write(page.page() if request.kind == "page" else page.version())
    if request.kind == "build":
        from launcher.build import build

        return build(request.is_quiet)
    from launcher.install import install

    return install(request.words[1])


def write(text):
    """Writes a text to standard output, and returns the status."""
    try:
        streams.write_all(1, text.encode())
    except OSError:
        return 7
    return 0


def run(request):
    """Runs the program where it is there and no source is newer, and else its sources without a proof."""
    from launcher import sources

    is_there = os.path.isfile(places.PROGRAM)
    newer = sources.newer_file() if is_there else None
    rt = places.rt_command() if request.is_quick or newer or not is_there else None
    if is_there and not request.is_quick and (not newer or not rt):
        if newer and not request.is_quiet:
            tell(f"the program is older than {newer}, and the command rt, which builds it anew, is not on the PATH")
        from launcher.run import run as run_program

        return run_program(request, request.file)
    if places.IS_INSTALLED or not rt:
        tell("the program is not built, and the command rt of the Rattle kit, which builds it, is not on the PATH")
        return 1
    from launcher.quick import run as run_quick

    why = f"the program is older than {newer}" if newer else "the program is not built"
    return run_quick(request, request.file, "--quick" if request.is_quick else why)


def refuse(request):
    """Answers words that are no form as the program does, by itself where it is there, and explains them."""
    from launcher.explain import explain_words

    if os.path.isfile(places.PROGRAM) and request.words[:1] not in (["build"], ["install"]):
        from launcher.run import run_words

        status = run_words(request.words)
    elif not are_text(request.words):
        status = 8
    else:
        status = write(f"usage {request.usage}\n") or 2
    if not request.is_quiet and explain_words(request, status):
        from launcher import page

        say(page.page())
    return status
