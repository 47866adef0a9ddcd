"""The reports and logs of single dumps: which of those that stand is a dump's own, and what is wrong with one that isn't."""

import hashlib
import os
import re

from report import ReportError, inputs_digest, read_report

WORD = "([0-9]{1,10}|[0-9a-f]{16})"     # (behind the prefix: the dump's number, or of a digest the first digits)


def dump_text(asked, number):
    return "trace %d (%s)" % (number, asked.traces[number - 1])


def question_of(asked):
    return {"top": asked.top, "clock": asked.clock, "kinds": asked.suspects, "size": asked.size}


def digest_of(asked, number):
    """The digest of a dump's inputs; the dump is read when it is asked for."""
    if number not in asked.digests:
        asked.digests[number] = inputs_digest(question_of(asked), asked.design, [asked.traces[number - 1]])
    return asked.digests[number]


def dumps_of(asked, digest):
    """The named dumps of these inputs; reads all of them."""
    return [number for number in range(1, len(asked.traces) + 1) if digest_of(asked, number) == digest]


# ---- names

def names_of(asked, word):
    """The names of a report and its log."""
    return "%s-%s.json" % (asked.prefix, word), "%s-%s.log" % (asked.prefix, word)


def stands(names):
    return all(map(os.path.exists, names))


def lacking(names):
    return " or ".join(it for it in names if not os.path.exists(it)) or "a pair of its own"


def log_inputs(path):
    """The digest with which a log begins, or None where that is no log."""
    with open(path, "rb") as file:
        head = re.fullmatch(rb"localise-log 1\ninputs ([0-9a-f]{64})\n", file.readline(16) + file.readline(80))
    return head and head[1].decode()


def elsewhere(asked, digest):
    """The names of a standing pair whose log is of these inputs, or None."""
    folder, name = os.path.split(asked.prefix)
    pattern = re.compile(re.escape(name) + "-" + WORD + r"\.log")
    words = [it[1] for it in map(pattern.fullmatch, sorted(os.listdir(folder or "."))) if it]
    pairs = [names for names in (names_of(asked, word) for word in words) if stands(names)]
    return next((names for names in pairs if log_inputs(names[1]) == digest), None)


def new_names(asked, number):
    """The names that a new pair of a dump takes: by its number; where a pair of that name is another dump's, by its inputs."""
    own = names_of(asked, number)
    return names_of(asked, digest_of(asked, number)[:16]) if stands(own) else own


# ---- whose a pair is

def judge_digest(asked, number, path, digest):
    if digest != digest_of(asked, number):
        others = dumps_of(asked, digest)
        whose = dump_text(asked, others[0]) if others else "other inputs: another design, dump, clock, size or kinds"
        raise ReportError("%s is of %s" % (path, whose))


def judge_report(asked, number, path, report):
    """Raises a ReportError where the report is not of this question and this dump."""
    for name, value in question_of(asked).items():
        if report[name] != value:
            raise ReportError("%s is of another question: its %s is %r, and %r is asked" % (path, name, report[name], value))
    judge_digest(asked, number, path, report["inputs"])


def judge_log(asked, number, path):
    """Raises a ReportError where the log doesn't begin as one of this dump; `check` looks at its steps."""
    digest = log_inputs(path)
    if digest is None:
        raise ReportError("%s: no log of localise" % path)
    judge_digest(asked, number, path, digest)


def own_report(asked, number, names):
    """The report of a pair; a ReportError says why it is none of this dump."""
    report = read_report(names[0])
    judge_report(asked, number, names[0], report)
    judge_log(asked, number, names[1])
    return report


def is_anothers(asked, names):
    """Whether the pair is, whole, that of another named dump."""
    digest = read_report(names[0])["inputs"]
    return log_inputs(names[1]) == digest and bool(dumps_of(asked, digest))


def standing(asked, number):
    """The names of the pair that stands for a dump, by its number or another, or None; a ReportError names a pair that is in its place."""
    names, digest = names_of(asked, number), digest_of(asked, number)
    if not stands(names) or digest not in (read_report(names[0])["inputs"], log_inputs(names[1])):
        others = elsewhere(asked, digest)
        if others or not stands(names) or is_anothers(asked, names):
            names = others
    if names:
        own_report(asked, number, names)
    return names


# ---- the bytes of a pair

def prints_of(names):
    """The digests of a pair's bytes."""
    return [print_of(path) for path in names]


def print_of(path):
    found = hashlib.sha256()
    with open(path, "rb") as file:
        for part in iter(lambda: file.read(1 << 20), b""):
            found.update(part)
    return found.hexdigest()
