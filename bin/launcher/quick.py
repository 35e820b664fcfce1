"""Runs the program without a proof, by `rt try`, in a copy of its sources: slow, but with no need of a build.

`rt try` compiles the program anew each time and keeps no file. It gives the program standard input, and copies of files under
the names that it is told. An answer is kept, by the checksum of all that it rests on, so the same run is answered at once.
"""

import hashlib
import os
import shutil
import signal
import subprocess
import tempfile

from launcher import estimate, places, sources
from launcher.config_text import Config
from launcher.explain import Script
from launcher.files import Folder, is_outside
from launcher.json_text import NotJson
from launcher.script_text import config_names
from launcher.streams import Input, Output
from launcher.tell import say, tell

# The longest time in seconds that the compiled program is given, and the most bytes of files that it is handed.
MOST_SECONDS = 300
MOST_BYTES = 64 << 20


class Past(Exception):
    """Why a run is past what `rt try` takes."""


def run(request, input_file, why):
    """Runs the program without a proof, and returns its status."""
    from launcher.run import conclude

    rt = places.rt_command()
    script, folder = Script(Input(input_file)), Folder()
    output = Output(request.is_strict)
    try:
        if script.why_unread:
            raise Past(f"the script cannot be read: {script.why_unread}")
        files = named_files(script.data, folder)
        kept = kept_path(rt, request.words, script.data, files)
        answer = kept_answer(kept)
        if not request.is_quiet:
            how = "this is the kept answer of an unproved run" if answer else "this run is unproved and slow, about two minutes"
            tell(f"{why}: {how}; 'tarzubei build' proves and builds it")
        status, written = answer or fresh_answer(rt, request.words, script.data, files, kept)
    except Past as error:
        tell(f"{error}, which is past what a run without a proof takes; {build_sentence()}")
        return 1
    if written and not output.take(written):
        status = 7
    return conclude(request, script, status, output)


def build_sentence():
    minutes = estimate.build_minutes()
    if minutes is None:
        return "'tarzubei build' proves and builds the program first"
    return f"'tarzubei build' proves and builds the program first, in about {estimate.spoken(minutes)} here"


def all_names(data, folder):
    """Gives the names of files that a script and its configurations have, as far as the program looks for them."""
    for name in config_names(data):
        for file in [name, *table_files(folder, name)]:
            if is_handed(file):
                yield file


def named_files(data, folder):
    """Returns the files that a script and its configurations name, as far as they are there."""
    found = {}
    for file in all_names(data, folder):
        why = folder.why_unread(file)
        if why and file.strip("./"):
            raise Past(f"the file {file} cannot be read ({why})")
        if folder.is_file(file):
            found[file] = os.path.abspath(file)
    size = len(data) + sum(os.path.getsize(it) for it in found.values())
    if size > MOST_BYTES:
        raise Past(f"the script and its files have {size:,} bytes")
    return found


def is_handed(name):
    """Tells whether a name is a file name for the program, which looks for no other."""
    return not is_outside(name) and 0 < len(name) < 256 and all(it.isascii() and (it.isalnum() or it in "_.-/") for it in name)


def table_files(folder, name):
    """Returns the files of the tables of a configuration, none where it is not there or is no JSON."""
    try:
        return [it.file for it in Config(folder.read(name)).tables()] if is_handed(name) else []
    except (OSError, NotJson):
        return []


def kept_answer(path):
    """Returns the status and the output of the program where the same was asked before, or None."""
    try:
        with open(path, "rb") as it:
            status, _, written = it.read().partition(b"\n")
            return int(status), written
    except (OSError, TypeError, ValueError):
        return None


def fresh_answer(rt, words, data, files, kept):
    """Returns the status and the output of the program, and keeps them."""
    with tempfile.TemporaryDirectory(prefix="tarzubei-quick-") as room:
        status, written = try_program(rt, copy_sources(room), words, data, files)
    keep(kept, status, written)
    return status, written


def copy_sources(room):
    """Copies what the program is compiled from, and returns the folder of its crate."""
    crates = sources.closure()
    lines = sources.lines_of(crates)
    with open(os.path.join(room, "crates.txt"), "w", encoding="utf-8") as it:
        it.writelines(lines)
    shutil.copy(os.path.join(places.PREFIX, "HANDLES"), room)
    for crate in crates:
        for part in ("src", "specs"):
            path = os.path.join(places.CRATES, crate, part)
            if os.path.isdir(path):
                shutil.copytree(path, os.path.join(room, "crates", crate, part))
    return os.path.join(room, "crates", "tarzubei")


def try_program(rt, crate, words, data, files):
    """Runs `rt try` in the crate's folder, and returns the program's status and output."""
    given = [it for name, path in files.items() for it in ("--data", f"{name}={path}")]
    command = [rt, "try", "--seconds", str(MOST_SECONDS), *given, "--", *words]
    with tempfile.TemporaryFile() as script:
        script.write(data)
        script.seek(0)
        ran = subprocess.Popen(command, cwd=crate, stdin=script, stdout=subprocess.PIPE, stderr=subprocess.PIPE,
                               start_new_session=True)
    try:
        written, told = ran.communicate()
    except BaseException:
        os.killpg(ran.pid, signal.SIGTERM)
        ran.wait()
        raise
    return read_end(told.decode("utf-8", "replace"), written)


def read_end(told, written):
    """Returns the status that the last line of `rt try` tells, and what the program wrote."""
    last = next((it for it in reversed(told.split("\n")) if it.startswith("run=")), "")
    parts = dict(it.split("=", 1) for it in last.split() if "=" in it)
    if parts.get("run") == "ended" and parts.get("status", "").isdigit():
        return int(parts["status"]), written
    if "program wrote more than" in told:
        raise Past("the program writes more than 1,048,576 bytes")
    said = next((it for it in told.split("\n") if it.startswith("checked: ")), "")
    if not said:
        say(told[-4000:])
    raise Past(f"'rt try' gave no answer{said and ' (' + said + ')'}")


def kept_path(rt, words, data, files):
    """Returns where the answer of a run is kept, or None where nothing can be kept."""
    home = os.environ.get("XDG_CACHE_HOME") or os.path.join(os.environ.get("HOME") or "/nonexistent", ".cache")
    if not os.path.isabs(home) or not os.access(os.path.dirname(home), os.W_OK):
        return None
    digest = hashlib.sha256(subprocess.run([rt, "version"], stdout=subprocess.PIPE).stdout)
    for path in sorted(source_files()):
        add_file(digest, path, path)
    for word in words:
        digest.update(b"\0word\0" + word.encode())
    digest.update(b"\0script\0" + data)
    for name, path in files.items():
        add_file(digest, name, path)
    return os.path.join(home, "tarzubei", digest.hexdigest())


def add_file(digest, name, path):
    digest.update(b"\0file\0" + name.encode() + b"\0")
    with open(path, "rb") as it:
        digest.update(it.read())


def source_files():
    """Gives the files that the program is compiled from."""
    yield os.path.join(places.PREFIX, "crates.txt")
    for crate in sources.closure():
        for folder, _, names in os.walk(os.path.join(places.CRATES, crate, "src")):
            yield from (os.path.join(folder, name) for name in names)


def keep(path, status, written):
    """Keeps an answer; where that is not possible, it is not kept."""
    if path is None:
        return
    try:
        os.makedirs(os.path.dirname(path), exist_ok=True)
        with open(f"{path}.{os.getpid()}", "wb") as it:
            it.write(b"%d\n" % status + written)
        os.replace(f"{path}.{os.getpid()}", path)
    except OSError:
        pass
