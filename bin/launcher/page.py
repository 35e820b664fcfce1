"""The page of `tarzubei --help`, and the line of `tarzubei --version`."""

import os
import time

from launcher import places

PAGE = """\
usage: tarzubei once [FILE]     run the script and write the journal
       tarzubei check [FILE]    read the script and all its sources, run no command, and write 'ok SOURCES ACTORS COMMANDS'
       tarzubei build           prove and build the program; stopped and begun again, it goes on where it was
       tarzubei install DIR     copy the program to DIR/bin and its man page to DIR/share/man/man1
       tarzubei --help          write this page; so do -h and help
       tarzubei --version       say which program is there

options: --quiet    explain nothing on standard error
         --strict   end with status 9 where a command was refused
         --quick    run without a proof, also where the program is built

The script is FILE or standard input. Files that it names are looked for in the folder where the command is given, wherever
FILE stands. Where the program is not built, 'once' and 'check' run it without a proof, which takes about two minutes.

A script, in ten lines:

    source routes inline
    v 1
    v 2
    e 10 1 2
    end
    phase
    actor ann
    open
    load g from routes
    rows g

It writes out a graph of two vertices and one edge; an actor opens a session, loads the graph and lists its rows. A graph
in CSV files begins 'source S config FILE' in place of the lines from 'source' to 'end'.

The journal, or one line that says what is wrong, goes to standard output. Standard error explains that line. The status:

    0  the whole journal was written; a refused command is a line of it
    1  there is no program and no way to run without it; the cause is on standard error
    2  the words are none of the above: 'usage I', I being the place of the first wrong word, from 0
    3  the script is at fault: 'error line N fault 47 WHY', or it is too long
    4  a file is missing or at fault: 'error no file ..', 'error config ..', 'error table ..'
    5  memory ran out: 'error no memory'
    6  the script or a file could not be read: 'error read fault'
    7  standard output could not be written
    8  the words are not UTF-8
    9  with --strict: the whole journal was written, and a command of it was refused

To read: {docs}
    TUTORIAL.md  from nothing to a loaded graph      FORMATS.md  values, configurations, tables, scripts, journals
    SCRIPT.md    each command, with an example       ERRORS.md   each status, error line and refusal
"""


def page():
    return PAGE.replace("{docs}", places.DOCS)


def version():
    """Returns what `--version` writes: the kit that the proofs are made with, and which program is there."""
    return f"tarzubei, proved with {kit_line()}\n{program_line()}\n"


def kit_line():
    """Returns the line of the kit that the program is proved with, as README.md names it."""
    path = os.path.join(places.BASE, "kit") if places.IS_INSTALLED else os.path.join(places.PREFIX, "README.md")
    with open(path, encoding="utf-8") as it:
        lines = it.read().split("\n")
    if places.IS_INSTALLED:
        return lines[0]
    return next((it.split("`")[1] for it in lines if it.startswith("Proved with `")), "the Rattle kit")


def program_line():
    """Returns which program is there, and whether a source is newer."""
    from launcher import sources

    if not os.path.isfile(places.PROGRAM):
        return "the program is not built; 'tarzubei build' proves and builds it"
    when = time.strftime("%Y-%m-%d %H:%M", time.localtime(os.path.getmtime(places.PROGRAM)))
    newer = sources.newer_file()
    return f"{places.PROGRAM}, built {when}" + (f"; older than {newer}" if newer else "")
