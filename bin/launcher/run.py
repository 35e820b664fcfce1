"""Runs the proved program: its words, its streams and its status are its own."""

import os
import signal

from launcher import streams
from launcher.explain import Script, explain
from launcher.files import Folder
from launcher.places import PROGRAM
from launcher.tell import tell
from launcher.warn import warn

STOPS = (signal.SIGINT, signal.SIGTERM, signal.SIGHUP, signal.SIGQUIT)
STATUS_REFUSED = 9


def run(request, input_file):
    """Runs the program, and returns its status, or 9 where a refusal counts."""
    if request.is_quiet and not request.is_strict:
        become(request.words, input_file)
    it = streams.Input(input_file)
    reader, writer = os.pipe()
    child = start(request.words, it.fd, writer)
    os.close(writer)
    return conclude(request, Script(it), *pass_on(child, reader, request.is_strict))


def run_words(words):
    """Runs the program on words that are no form, and returns its status."""
    reader, writer = os.pipe()
    child = start(words, 0, writer)
    os.close(writer)
    status, _ = pass_on(child, reader, False)
    return status


def conclude(request, script, status, output):
    """Explains what there is to explain, and returns the status."""
    folder = Folder()
    is_refused = request.is_strict and status == 0 and output.is_refused
    if not request.is_quiet:
        line = output.line()
        if status == 0 or line.startswith("error table "):
            warn(script, folder, line)
        if status != 0:
            explain(status, line, script, folder)
        if is_refused:
            tell(f"a command was refused, so the status is {STATUS_REFUSED}: look for 'refused' in the journal")
    return STATUS_REFUSED if is_refused else status


def become(words, input_file):
    """Puts the program in the place of the launcher."""
    if input_file is not None:
        it = streams.Input(input_file)
        os.dup2(it.fd, 0)
    signal.signal(signal.SIGPIPE, signal.SIG_DFL)
    os.execv(PROGRAM, [PROGRAM, *words])


def start(words, source, sink):
    """Starts the program on these streams, and passes signals that end the launcher on to it."""
    moves = [(os.POSIX_SPAWN_DUP2, sink, 1)]
    if source != 0:
        moves.append((os.POSIX_SPAWN_DUP2, source, 0))
    caught = [it for it in STOPS if signal.getsignal(it) != signal.SIG_IGN]
    child = os.posix_spawn(PROGRAM, [PROGRAM, *words], os.environ, file_actions=moves, setsigdef=[*caught, signal.SIGPIPE])
    for it in caught:
        signal.signal(it, lambda number, _: os.kill(child, number))
    return child


def pass_on(child, reader, looks_for_refusals):
    """Passes on what the program writes, and returns its status and what is kept of it."""
    output = streams.Output(looks_for_refusals)
    while True:
        piece = os.read(reader, streams.PIECE)
        if not piece or not output.take(piece):
            break
    os.close(reader)
    _, ended = os.waitpid(child, 0)
    for it in STOPS:
        if signal.getsignal(it) != signal.SIG_IGN:
            signal.signal(it, signal.SIG_DFL)
    if os.WIFSIGNALED(ended):
        end_by(os.WTERMSIG(ended))
    status = os.WEXITSTATUS(ended)
    return (status if output.is_whole else 7), output


def end_by(number):
    """Ends the launcher by the signal that ended the program."""
    if number != signal.SIGKILL:
        signal.signal(number, signal.SIG_DFL)
    os.kill(os.getpid(), number)
