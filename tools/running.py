"""Runs of the program that end when this process is asked to end."""

import os
import re
import signal
import subprocess
import tempfile
import threading

from report import ReportError

ENDING = (signal.SIGINT, signal.SIGTERM, signal.SIGHUP)


SCOPE = re.compile(r"trace \d+: scope ")
ANSWERS = (0, 1, 8)     # (the statuses of the program that aren't of a refusal or a fault)


class Stopped(BaseException):
    """This process was asked to end, by a signal of this number."""


class Children:
    """The runs that are going on. Once they are ended no other begins."""

    def __init__(self):
        self.lock, self.going, self.ended = threading.Lock(), set(), False

    def begin(self, words, error):
        with self.lock:
            if self.ended:
                raise ReportError("not begun: this run was asked to end")
            child = subprocess.Popen(words, stdout=subprocess.PIPE, stderr=error, errors="backslashreplace")
            self.going.add(child)
            return child

    def end(self):
        with self.lock:
            self.ended = True
            for child in self.going:
                child.terminate()

    def last_line(self, words):
        """The status of a run, the last line that it prints, and what it says of a refusal or a fault, in lines."""
        with tempfile.TemporaryFile() as error:
            child = self.begin(words, error)
            with child:
                last = last_of(child)
            with self.lock:
                self.going.discard(child)
            error.seek(0)
            return child.returncode, last, of_refusal(child.returncode, error.read())


def of_refusal(status, error):
    """The lines that a run left on standard error, where it ended in a refusal or a fault; none else. (What it tells of an answer, the
    answer says too, and it counts the dumps of that run alone. So it does where it tells in which scope it read a dump.)"""
    lines = error.decode(errors="backslashreplace").strip("\n").split("\n")
    return [it for it in lines if it and not SCOPE.match(it)] if status not in ANSWERS else []


def last_of(child):
    """The last line that a child prints, which is ended where this is broken off."""
    last = ""
    try:
        for line in child.stdout:
            last = line
    except BaseException:
        child.terminate()
        raise
    return last.rstrip("\n")


def word_of(path):
    """The name of a file as a word that no program takes for an option."""
    return os.path.join(".", path) if path.startswith("-") else path


def stop_at_signals():
    """From now on a signal to end raises `Stopped` in the first thread, once."""
    def stop(number, _):
        # (a child takes its own way of a signal that is handled here, and would keep ignoring one that is ignored)
        for it in ENDING:
            signal.signal(it, lambda *_: None)
        raise Stopped(number)
    for it in ENDING:
        if signal.getsignal(it) != signal.SIG_IGN:
            signal.signal(it, stop)
