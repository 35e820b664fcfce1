"""Proves and builds the program: a library at a time, as many side by side as there is room for, the lowest first.

Each library is proved by `rt lib` and stays in its crate's out/, so a build that was stopped goes on where it was.
"""

import os
import signal
import subprocess
import time

from launcher import estimate, places, sources
from launcher.tell import say, tell

MEMORY_EACH = 3 << 30
UNCHANGED = "rt: nothing has changed"
PROBE_SECONDS = 20


class Stopped(Exception):
    """A signal ends the build."""


class Job:
    """A run of `rt` in a crate's folder. What it says goes into out/build.log."""

    def __init__(self, rt, crate, words):
        self.crate, self.began = crate, time.monotonic()
        folder = os.path.join(places.CRATES, crate)
        os.makedirs(os.path.join(folder, "out"), exist_ok=True)
        self.log = os.path.join(folder, "out", "build.log")
        with open(self.log, "wb") as log:
            self.child = subprocess.Popen([rt, *words], cwd=folder, stdin=subprocess.DEVNULL, stdout=log, stderr=log,
                                          start_new_session=True)

    def said(self):
        with open(self.log, encoding="utf-8", errors="replace") as log:
            return log.read()

    def stop(self):
        if self.child.poll() is None:
            os.killpg(self.child.pid, signal.SIGTERM)
            self.child.wait()


def build(is_quiet):
    """Builds the program where it is missing or older than a source, and returns the status."""
    if os.path.isfile(places.PROGRAM) and not sources.newer_file():
        if not is_quiet:
            tell("the program is built, and none of its sources is newer")
        return 0
    rt = places.rt_command()
    if not rt:
        tell("the command rt of the Rattle kit, which builds the program, is not on the PATH")
        return 1
    for number in (signal.SIGINT, signal.SIGTERM, signal.SIGHUP):
        signal.signal(number, stop)
    began, work = time.time(), Build(rt, is_quiet)
    try:
        status = 0 if work.is_unchanged() else work.build_all()
    except Stopped as why:
        work.stop()
        tell("stopped; 'tarzubei build' goes on from here")
        return 128 + why.args[0]
    if status == 0:
        # (where no text had changed, rt leaves the program as old as it was)
        os.utime(places.PROGRAM, (began, began))
        if not is_quiet:
            tell("the program is proved and built")
    return status


def stop(number, _):
    raise Stopped(number)


class Build:
    def __init__(self, rt, is_quiet):
        self.rt, self.is_quiet, self.began = rt, is_quiet, time.monotonic()
        self.lines, self.crates = sources.crate_lines(), sources.closure()
        minutes = estimate.own_minutes()
        chain = estimate.chain_minutes(self.crates, minutes, self.lines)
        self.waiting = sorted(self.crates, key=lambda it: -chain[it])
        self.running, self.done = [], []
        self.room = min(estimate.processors(), max(1, free_memory() // MEMORY_EACH))

    def stop(self):
        for job in self.running:
            job.stop()

    def is_unchanged(self):
        """Tells whether rt still has the program of these very sources, as the gate leaves it."""
        if not os.path.isfile(places.PROGRAM):
            return False
        job = Job(self.rt, "tarzubei", ["run", "--", "once"])
        self.running.append(job)
        while job.child.poll() is None:
            said = job.said()
            if UNCHANGED not in said and (said or time.monotonic() - job.began > PROBE_SECONDS):
                break
            time.sleep(0.1)
        job.stop()
        self.running.remove(job)
        return job.child.returncode == 0 and UNCHANGED in job.said()

    def build_all(self):
        """Proves the libraries and then the program, and returns the status."""
        while self.waiting or self.running:
            self.begin_ready()
            time.sleep(0.2)
            for job in [it for it in self.running if it.child.poll() is not None]:
                self.running.remove(job)
                if job.child.returncode != 0:
                    return self.fail(job)
                self.done.append(job.crate)
        return 0

    def begin_ready(self):
        """Begins the crates whose libraries are all proved, the lowest end of the longest chain first."""
        own = set(self.crates)
        for crate in list(self.waiting):
            is_ready = all(it in self.done for it in self.lines[crate] if it in own)
            if is_ready and len(self.running) < self.room:
                self.waiting.remove(crate)
                # (the program's script is empty, so its run ends at once)
                words = ["run", "--", "once"] if crate == "tarzubei" else ["lib"]
                self.running.append(Job(self.rt, crate, words))
                self.tell_place(crate)

    def fail(self, job):
        self.stop()
        say("".join(f"{it}\n" for it in job.said().split("\n")[-20:]))
        tell(f"the crate {job.crate} could not be built; all that was said is in {job.log}")
        return 1

    def tell_place(self, crate):
        """Says which crate is begun, and about how long the build will take."""
        if self.is_quiet:
            return
        place = len(self.crates) - len(self.waiting)
        left = self.minutes_left()
        tell(f"crate {place} of {len(self.crates)} ({crate})" + (f", about {estimate.spoken(left)} left" if left else ""))

    def minutes_left(self):
        """Returns about how many minutes are left, by the table of docs/GATE.md and the pace of this build so far."""
        left = [it for it in self.crates if it not in self.done]
        whole, rest = estimate.build_minutes(self.crates), estimate.build_minutes(left)
        if whole is None or rest is None:
            return None
        passed = (time.monotonic() - self.began) / 60
        pace = passed / (whole - rest) if whole - rest > 1 and passed > 1 else 1.0
        return rest * min(max(pace, 0.2), 5.0)


def free_memory():
    """Returns how many bytes of memory are free."""
    try:
        with open("/proc/meminfo", encoding="ascii") as it:
            for line in it:
                if line.startswith("MemAvailable:"):
                    return int(line.split()[1]) * 1024
    except OSError:
        pass
    return MEMORY_EACH
