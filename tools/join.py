#!/usr/bin/env python3
"""Joins the files of a design into the one text that `localise` reads.

    tools/join.py FILE.. [--include DIR].. [--filelist FILE].. > WHOLE

Before the text of each file stands a directive `` `line 1 "FILE" 0``. `localise` ignores it; tools/annotate.py and its page name the
file and the line by it. A line `` `include "NAME"`` is replaced by that file, which is looked for beside the file that asks for it, and
then in each DIR. Where there is none the line stays, and standard error says so: it does no harm in a part that an `ifdef` leaves out.
A file list has names of files one a line, and `+incdir+DIR`; blank lines and what follows `//` or `#` are passed over, and so is, with a
word on standard error, every other option.

The status is 0; 2 where a file can't be read, or files include one another without an end.
"""

import argparse
import os
import re
import sys

INCLUDE = re.compile(rb'\s*`include\s+"([^"]+)"\s*(?://.*)?')
MOST_NESTED = 64
MARK = b"\xef\xbb\xbf"     # (what some editors write before a text)


class Problem(Exception):
    """Why there is no whole text."""


def say(words):
    print("join.py: " + words, file=sys.stderr)


def load(path):
    try:
        with open(path, "rb") as file:
            return file.read().removeprefix(MARK)
    except OSError as error:
        raise Problem("%s: can't be read: %s" % (path, error.strerror)) from None


def lines_of(text):
    """The lines of a text, as `localise` counts them: each ends with a newline."""
    lines = text.split(b"\n")
    return lines[:-1] if lines[-1] == b"" else lines


def directive(number, path, level):
    if re.search("[\"\n]", path):
        raise Problem("%r: no directive can have such a name" % path)
    return b'`line %d "%s" %d\n' % (number, os.fsencode(path), level)


def included(name, path, folders):
    """The file of this name that a line in `path` means, or None."""
    places = [os.path.dirname(path), *folders]
    return next((it for it in (os.path.join(place, name) for place in places) if os.path.isfile(it)), None)


def text_of(path, folders, above=()):
    """The text of a file, with those that it includes; `above` are those that it is included by."""
    if len(above) == MOST_NESTED:
        raise Problem("%s: %d files include one another" % (path, MOST_NESTED))
    parts = [directive(1, path, min(len(above), 1))]
    for number, line in enumerate(lines_of(load(path)), 1):
        wanted = INCLUDE.fullmatch(line)
        other = wanted and included(os.fsdecode(wanted[1]), path, folders)
        if other:
            parts += [text_of(other, folders, (*above, path)), directive(number + 1, path, 2)]
        else:
            parts.append(line + b"\n")
        if wanted and not other:
            say("%s:%d: %s isn't there: the line stays" % (path, number, os.fsdecode(wanted[1])))
    return b"".join(parts)


def of_filelist(path):
    """The files that a list names, and the folders."""
    files, folders = [], []
    for line in os.fsdecode(load(path)).splitlines():
        word = re.split(r"//|#", line)[0].strip()
        if word.startswith("+incdir+"):
            folders += word.split("+")[2:]
        elif word.startswith(("-", "+")):
            say("%s: %s is passed over" % (path, word))
        elif word:
            files.append(word)
    return files, folders


def parsed(words):
    parser = argparse.ArgumentParser(description=__doc__, formatter_class=argparse.RawDescriptionHelpFormatter)
    parser.add_argument("files", metavar="FILE", nargs="*")
    parser.add_argument("--include", metavar="DIR", action="append", default=[], help="a folder where included files are looked for")
    parser.add_argument("--filelist", metavar="FILE", action="append", default=[], help="a list of files, as simulators take it with -f")
    asked = parser.parse_args(words)
    if not asked.files and not asked.filelist:
        parser.error("no file is named")
    return asked


def whole(asked):
    """The joined text."""
    lists = [of_filelist(it) for it in asked.filelist]
    folders = asked.include + [it for _, some in lists for it in some]
    files = [it for some, _ in lists for it in some] + asked.files
    return b"".join(text_of(it, folders) for it in files)


def main(words):
    try:
        sys.stdout.buffer.write(whole(parsed(words)))
        sys.stdout.flush()
        return 0
    except Problem as problem:
        say("%s" % problem)
        return 2


if __name__ == "__main__":
    sys.stderr.reconfigure(errors="backslashreplace")
    sys.exit(main(sys.argv[1:]))
