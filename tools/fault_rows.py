"""The rows of tools/faults.py: each a run in which the system fails the program, with what it has to end in."""

import os
from typing import Callable, NamedTuple


class Row(NamedTuple):
    """A run with one fault. `last` is the line of a refusal; `may` are the files that the run may write, by what they are of a run without
    the fault, whole where the status is 0; `limit` is the most bytes that a file may get, `stream` what becomes of standard output. What is
    `asked` before the search fails with nothing printed."""

    fault: str
    words: list
    status: int
    last: str = ""
    prepare: Callable = lambda room: None
    may: dict = {}
    limit: int = -1
    stream: str = ""
    as_nobody: bool = False
    asked: bool = False


SIM, MAKE = ["sim", "m.v", "full_adder", "t.vcd"], ["make", "7"]


def find(*more, design="m.v", dump="t.vcd"):
    return ["find", design, "full_adder", dump, *more]


def going_on(*more, report="s.json", log="s.log"):
    return find("--resume", report, "--resume-log", log, *more)


def checkpointed(*more):
    return find("--checkpoint", "c", *more)


def kind_of(words):
    """By what a run is known among those without a fault."""
    return next((f"find {option}" for option in ("--resume", "--checkpoint") if option in words), words[0])


# ---- what is in a folder
def link(target, name):
    return lambda room: os.symlink(target, os.path.join(room, name))


def second_name(of, name):
    return lambda room: os.link(os.path.join(room, of), os.path.join(room, name))


def folder(name, mode=0o755):
    return lambda room: os.mkdir(os.path.join(room, name), mode)


def mode_of(name, mode):
    return lambda room: os.chmod(os.path.join(room, name), mode)


# ---- the rows
LOG, REPORT = {"localise.log": "localise.log"}, {"localise.json": "localise.json"}
BOTH = {**LOG, **REPORT}


def unread_rows():
    yield Row("no design", find(design="absent.v"), 5, "read fault absent.v")
    yield Row("no dump", find(dump="absent.vcd"), 5, "read fault absent.vcd")
    yield Row("the design is a folder", find(design="d"), 5, "read fault d", folder("d"))
    yield Row("the dump is a folder", find(dump="d"), 5, "read fault d", folder("d"))
    yield Row("a file is the design's folder", find(design="t.vcd/m.v"), 5, "read fault t.vcd/m.v")
    yield Row("the design may not be read", find(), 5, "read fault m.v", mode_of("m.v", 0), as_nobody=True)
    yield Row("the dump may not be read", find(), 5, "read fault t.vcd", mode_of("t.vcd", 0), as_nobody=True)
    yield Row("the report may not be read", ["check", "m.v", "full_adder", "localise.json", "localise.log", "t.vcd"], 5,
              "read fault localise.json", mode_of("localise.json", 0), as_nobody=True)


def unwritten_rows():
    yield Row("no folder for the log", find("--log", "absent/x.log"), 6, asked=True)
    yield Row("no folder for the report", find("--report", "absent/x.json"), 6, asked=True)
    yield Row("no folder for the waves", find("--waves", "absent/w"), 6, asked=True)
    yield Row("the log is a folder", find("--log", "d"), 6, prepare=folder("d"), asked=True)
    yield Row("the report is a folder", find("--report", "d"), 6, prepare=folder("d"), asked=True)
    yield Row("the log may not be written", find(), 6, prepare=mode_of("localise.log", 0o444), as_nobody=True, asked=True)
    yield Row("the report may not be written", find(), 6, prepare=mode_of("localise.json", 0o444), as_nobody=True, asked=True)
    yield Row("the log's folder may not be written", find("--log", "d/x.log"), 6, prepare=folder("d", 0o555), as_nobody=True, asked=True)


def full_rows():
    yield Row("the disk is full at the log", find("--log", "/dev/full"), 6, may=REPORT)
    yield Row("the disk is full at the report", find("--report", "/dev/full"), 6, may=LOG)
    yield Row("the disk is full at the output", find(), 6, may=BOTH, stream="full")
    yield Row("the disk is full at the output of sim", SIM, 6, stream="full")
    for limit in (0, 1, 40, 200):
        yield Row("no file gets more than %d bytes" % limit, find(), 6, may=BOTH, limit=limit)
    for stream in ("closed", "unread"):
        yield Row("the output is %s" % stream, find(), 6, may=BOTH, stream=stream)
        yield Row("the output of sim is %s" % stream, SIM, 6, stream=stream)


def name_rows():
    usage = (2, "usage name")
    yield Row("one name for log and report", find("--log", "x", "--report", "x"), *usage)
    yield Row("one path for log and report", find("--log", "x", "--report", ".//x"), *usage)
    yield Row("the log is the design", find("--log", "m.v"), *usage)
    yield Row("the log is the design's path", find("--log", "./m.v"), *usage)
    yield Row("the report is the dump's path", find("--report", "././t.vcd"), *usage)
    yield Row("the log is a wave's name", find("--waves", "w", "--log", "./w-1-1.vcd"), *usage)
    yield Row("make: design and dump are one path", [*MAKE, "--design", "x", "--trace", "./x"], *usage)


def link_rows():
    yield Row("the log is a link to the design", find("--log", "x"), 6, prepare=link("m.v", "x"), asked=True)
    yield Row("the log is a second name of the dump", find("--log", "x"), 6, prepare=second_name("t.vcd", "x"), asked=True)
    yield Row("the log is the design by `..`", find("--log", "d/../m.v"), 6, prepare=folder("d"), asked=True)
    yield Row("the log is the design by a link to its folder", find("--log", "d/m.v"), 6, prepare=link(".", "d"), asked=True)
    yield Row("the report is a link to the dump", find("--report", "x"), 6, prepare=link("t.vcd", "x"), asked=True)
    yield Row("the report is a link to the log", find("--report", "x"), 6, prepare=link("localise.log", "x"), may=LOG)
    yield Row("the report is the log by `..`", find("--report", "d/../localise.log"), 6, prepare=folder("d"), may=LOG)
    yield Row("a wave is a link to the design", find("--waves", "w"), 6, prepare=link("m.v", "w-1-1.vcd"), asked=True)
    yield Row("the dump of make is a link to its design", [*MAKE, "--design", "y", "--trace", "x"], 6, prepare=link("y", "x"),
              may={"y": "made.v"})
    yield Row("the log is a link to no file", find("--log", "l"), 0, prepare=link("x", "l"), may={"x": "localise.log", **REPORT})
    yield Row("the report is a link to no file", find("--report", "l"), 0, prepare=link("x", "l"), may={"x": "localise.json", **LOG})


def session_rows():
    """Rows of a run that goes on from the list in s.json and s.log."""
    yield Row("resumed: no report", going_on(report="absent"), 5, "read fault absent")
    yield Row("resumed: no log", going_on(log="absent"), 5, "read fault absent")
    yield Row("resumed: the report is a folder", going_on(report="d"), 5, "read fault d", folder("d"))
    yield Row("resumed: the log is a folder", going_on(log="d"), 5, "read fault d", folder("d"))
    yield Row("resumed: the report may not be read", going_on(), 5, "read fault s.json", mode_of("s.json", 0), as_nobody=True)
    yield Row("resumed: the log may not be read", going_on(), 5, "read fault s.log", mode_of("s.log", 0), as_nobody=True)
    yield Row("resumed: no folder for the new log", going_on("--log", "absent/x.log"), 6, asked=True)
    yield Row("resumed: no folder for the new report", going_on("--report", "absent/x.json"), 6, asked=True)
    yield Row("resumed: the disk is full at the new log", going_on("--log", "/dev/full"), 6, may=REPORT)
    yield Row("resumed: the disk is full at the new report", going_on("--report", "/dev/full"), 6, may=LOG)
    for limit in (0, 1, 40, 200):
        yield Row("resumed: no file gets more than %d bytes" % limit, going_on(), 6, may=BOTH, limit=limit)
    for stream in ("full", "closed", "unread"):
        yield Row("resumed: the output is %s" % stream, going_on(), 6, may=BOTH, stream=stream)


def session_name_rows():
    usage = (2, "usage name")
    yield Row("resumed: the new log is the old one", going_on("--log", "s.log"), *usage)
    yield Row("resumed: the new report is the path of the old log", going_on("--report", ".//s.log"), *usage)
    yield Row("resumed: the default names are those of the old pair", going_on(report="localise.json", log="localise.log"), *usage)
    yield Row("resumed: waves are named as the old report", going_on("--waves", "s", report="s-1.json"), *usage)
    yield Row("resumed: the new log is a link to the old one", going_on("--log", "x"), 6, prepare=link("s.log", "x"), asked=True)
    yield Row("resumed: the new report is a second name of the old one", going_on("--report", "x"), 6, prepare=second_name("s.json", "x"), asked=True)
    yield Row("resumed: the new report is the old log by `..`", going_on("--report", "d/../s.log"), 6, prepare=folder("d"), asked=True)
    yield Row("resumed: a wave is a link to the old report", going_on("--waves", "w"), 6, prepare=link("s.json", "w-1-1.vcd"), asked=True)


def checkpoint_rows():
    """Rows of a run with checkpoints: their files are asked for with the log and the report, and written between the sets."""
    saved = {name: name for name in ("c-1.log", "c-1.json", "c-2.log", "c-2.json")}
    yield Row("no folder for the checkpoints", find("--checkpoint", "absent/c"), 6, asked=True)
    yield Row("a checkpoint's log is a folder", checkpointed(), 6, prepare=folder("c-1.log"), asked=True)
    yield Row("a checkpoint's report is a folder", checkpointed(), 6, prepare=folder("c-1.json"), asked=True)
    yield Row("the checkpoints' folder may not be written", find("--checkpoint", "d/c"), 6, prepare=folder("d", 0o555), as_nobody=True, asked=True)
    yield Row("a checkpoint's log is a link to the design", checkpointed(), 6, prepare=link("m.v", "c-1.log"), asked=True)
    yield Row("a checkpoint's report is a second name of the dump", checkpointed(), 6, prepare=second_name("t.vcd", "c-1.json"), asked=True)
    yield Row("the disk is full at a checkpoint's log", checkpointed(), 6, prepare=link("/dev/full", "c-1.log"), may=BOTH)
    yield Row("the disk is full at a checkpoint's report", checkpointed(), 6, prepare=link("/dev/full", "c-1.json"), may={**BOTH, "c-1.log": "c-1.log"})
    yield Row("the second checkpoint's log is a folder", checkpointed(), 6, prepare=folder("c-2.log"), may={**BOTH, **saved})
    yield Row("the second checkpoint's report is a link to the log", checkpointed(), 6, prepare=link("localise.log", "c-2.json"), may={**BOTH, **saved})
    yield Row("a checkpoint's log is the log's name", find("--checkpoint", "c", "--log", "c-1.log"), 2, "usage name")
    for limit in (0, 1, 40, 200):
        yield Row("with checkpoints: no file gets more than %d bytes" % limit, checkpointed(), 6, may={**BOTH, **saved}, limit=limit)
    for stream in ("full", "closed", "unread"):
        yield Row("with checkpoints: the output is %s" % stream, checkpointed(), 6, may={**BOTH, **saved}, stream=stream)


def rows():
    for some in (unread_rows, unwritten_rows, full_rows, name_rows, link_rows, session_rows, session_name_rows, checkpoint_rows):
        yield from some()
