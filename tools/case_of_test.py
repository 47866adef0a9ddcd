"""What is known of one test: whether it fails, and where it does the list of single suspects of its dump, cut at the first wrong output.

Where several outputs are wrong in that cycle and no single suspect explains all of them, the list is made output by output, the others
left open. Outputs that one suspect explains are put together again, where a run on both says so. Each such group of outputs is a unit.
For each unit one failure is made up: the same dump is cut at some cycle before, and one bit of the unit's first output wanted otherwise
there. A suspect that explains that too explains anything, and says little.
"""

import os
import re
import subprocess
import sys
import tempfile
from dataclasses import dataclass, field
from typing import Optional

import cut_dump
from last_cycle import NotThere, bits_of, with_last
from running import of_refusal
from whole_files import Problem, digest

MOST = "4097"       # (there are at most 4,096 suspects, so a list of single ones never ends at this)
MEMBER = re.compile(r"^  (\d+) (\S+) (\d+) (.*)$", re.M)


class NoAnswer(Exception):
    """The line with which the program ended, where it gave no list."""


class Killed(Exception):
    """The program was ended by a signal, or there was no memory or no room on the disk: another time it may give an answer."""


WITHOUT_ROOM = (6, 7)       # (the statuses where a write failed, or memory ran out)
ENDED = 124                 # (from here on a shell, or `timeout`, says that it ended the run, or that there is none)


@dataclass
class Listed:
    """Single suspects by their numbers, each with kind, line and label, and the last line of the list."""
    suspects: dict
    ending: str

    def is_whole(self):
        return self.ending.startswith("complete ")


def singles(asked, text, *further):
    """The single suspects that explain a dump's text."""
    with tempfile.TemporaryDirectory(prefix="triage-") as room:
        with open(os.path.join(room, "dump.vcd"), "wb") as file:
            file.write(text)
        last, printed = run_find(asked, room, ["dump.vcd"], "1", *further)
    members = {int(number): {"kind": kind, "line": int(line), "label": label} for number, kind, line, label in MEMBER.findall(printed)}
    return Listed(members, last)


def parted(words, names):
    """The options of these names with their values, and the others."""
    some, others, left = [], [], list(words)
    while left:
        word = left.pop(0)
        value = [left.pop(0)] if word in names and left else []
        (some if word.partition("=")[0] in names else others).extend([word, *value])
    return some, others


def value_of(words, name):
    """The value of an option, where it stands, as it stands last."""
    some, _ = parted(words, (name,))
    return some[-1].removeprefix(name + "=") if some else None


def run_find(asked, room, dumps, size, *further):
    """The last line and all that `find` prints of dumps in a folder, where it leaves its report and its log."""
    effort = asked.effort if "--sets" not in further else parted(asked.effort, ("--sets",))[1]
    sets = [] if parted([*effort, *further], ("--sets",))[0] else ["--sets", MOST]
    words = [asked.program, "find", asked.design, asked.top, *(os.path.join(room, it) for it in dumps)]
    words += ["--size", size, *sets, *asked.options, *effort, *further] + (["--clock", asked.clock] if asked.clock else [])
    words += ["--report", os.path.join(room, "report.json"), "--log", os.path.join(room, "log")]
    ran = subprocess.run(words, stdin=subprocess.DEVNULL, capture_output=True)
    printed = ran.stdout.decode(errors="backslashreplace")
    last = printed.strip("\n").split("\n")[-1]
    tell(asked.about, of_refusal(ran.returncode, ran.stderr.replace(os.fsencode(os.path.join(room, "")), b"")))
    judge("find", ran.returncode, last, [*asked.options, *effort])
    if ran.returncode > 1:
        raise NoAnswer(last)
    return last, printed


def tell(about, said):
    """Hands on what a run said of a refusal or a fault, each line behind what it is about."""
    for line in said:
        print("triage.py: %s: %s" % (about, line), file=sys.stderr)


def judge(command, status, last, options=()):
    """Raises what is said of a run that was ended, or whose arguments are wrong."""
    if status < 0 or status in WITHOUT_ROOM or status >= ENDED:
        raise Killed("%s was ended by signal %d" % (command, -status) if status < 0 else "%s ended with status %d" % (command, status))
    if not last:
        raise Killed("%s ended with status %d and printed nothing" % (command, status))
    if status == 2:
        raise Problem("%s refuses its arguments: %s%s" % (command, last, "; handed through are %s" % " ".join(options) if options else ""))


# ---- the cut dump

@dataclass
class Cut:
    """A dump's text up to some cycle, its length, and the names by which its ports are found: all outputs, and the clock."""
    text: bytes
    names: list
    clocked: bool

    def with_last(self, values):
        return with_last(self.text, values, self.names, self.clocked) if values else self.text


def names_of(asked, said):
    """The outputs in the order of the ports, as `sim` prints them, and the clock."""
    first = re.search(rb"^1 \d+ (.*)$", said.lines, re.M)
    outputs = [it.rpartition(b"=")[0].decode(errors="replace") for it in first[1].split(b" ")] if first else []
    return outputs + ([asked.clock] if asked.clock else [])


def wrong_outputs(asked, cut, cycle):
    """The outputs that are wrong in the last cycle: each in turn is left open, until `sim` finds no further one."""
    found = []
    while True:
        said = cut_dump.simulated(asked, cut.with_last(dict.fromkeys(found)))
        if said.miss is None:
            return found
        if said.miss != cycle or said.output in found:
            raise NotThere("cycle %d can't be looked at output by output" % cycle)
        found.append(said.output)


# ---- units

@dataclass
class Unit:
    """Outputs that are wrong in the cycle, and what explains them while the `opened` ones aren't checked there."""
    outputs: list
    opened: list
    listed: Listed


def unit_of(asked, cut, wrong, outputs):
    opened = [it for it in wrong if it not in outputs]
    return Unit(outputs, opened, singles(asked, cut.with_last(dict.fromkeys(opened))))


def put_together(asked, cut, wrong, units):
    """Units with those joined that one suspect explains together; each is asked for."""
    found = []
    for unit in units:
        for place, other in enumerate(found):
            if unit.listed.suspects.keys() & other.listed.suspects.keys():
                both = unit_of(asked, cut, wrong, other.outputs + unit.outputs)
                if both.listed.suspects:
                    found[place] = both
                    break
        else:
            found.append(unit)
    return found


def units_of(asked, cut, wrong):
    whole = unit_of(asked, cut, wrong, wrong)
    if whole.listed.suspects or len(wrong) == 1 or not whole.listed.is_whole():
        return [whole]
    return put_together(asked, cut, wrong, [unit_of(asked, cut, wrong, [it]) for it in wrong])


# ---- a made-up failure

def value_at(said, cycle, output):
    """What the design gives for an output in a cycle."""
    row = re.search(rb"^1 %d (.*)$" % cycle, said.lines, re.M)
    values = dict(it.rpartition(b"=")[::2] for it in row[1].split(b" "))
    return int(values[output.encode()], 16)


def made_up(asked, cut, said, unit):
    """The cycle and the bit that were made wrong, and the single suspects that explain it; None where there is no such failure or no list."""
    chance = int(digest(b"%s %s" % (digest(cut.text).encode(), unit.outputs[0].encode())), 16)
    if said.miss == 0:
        return None
    bits = bits_of(cut.text, unit.outputs[0], cut.names)
    cycle, bit = chance % said.miss, chance // said.miss % bits
    text = cut_dump.shortest(asked, cut.text, cycle + 1, said.miss + 1)
    other = value_at(said, cycle, unit.outputs[0]) ^ (1 << bit)
    text = Cut(text, cut.names, cut.clocked).with_last({unit.outputs[0]: other})
    there = cut_dump.simulated(asked, text)
    if (there.miss, there.output) != (cycle, unit.outputs[0]):
        return None
    listed = singles(asked, text)
    return {"cycle": cycle, "bit": bit, "suspects": sorted(listed.suspects)} if listed.is_whole() else None


# ---- the case

@dataclass
class Case:
    """What is said of a test: `answer` is fails, passes, refused, unfinished (it fails, and a list of it isn't whole) or killed, and
    `line` is the program's word for it. `end` is where the dump is cut, and `names` are those by which its ports are found."""
    answer: str
    line: str = ""
    cycle: Optional[int] = None
    end: Optional[int] = None
    names: list = field(default_factory=list)
    units: list = field(default_factory=list)
    suspects: dict = field(default_factory=dict)


def unit_entry(asked, cut, said, unit):
    """A unit as it stands in the file."""
    entry = {"outputs": unit.outputs, "opened": unit.opened, "suspects": sorted(unit.listed.suspects), "ending": unit.listed.ending}
    entry["made_up"] = None
    if unit.listed.suspects and unit.listed.is_whole():
        try:
            entry["made_up"] = made_up(asked, cut, said, unit)
        except NoAnswer:
            pass
    return entry


def failing(asked, text, said):
    """The case of a test that fails."""
    cut = Cut(cut_dump.shortest(asked, text, said.miss + 1, said.cycles), names_of(asked, said), bool(asked.clock))
    units = units_of(asked, cut, wrong_outputs(asked, cut, said.miss))
    entries = [unit_entry(asked, cut, said, it) for it in units]
    suspects = {number: what for it in units for number, what in it.listed.suspects.items()}
    unfinished = [it.listed.ending for it in units if not it.listed.is_whole()]
    answer, line = ("unfinished", unfinished[0]) if unfinished else ("fails", "")
    return Case(answer, line, said.miss, len(cut.text), cut.names, entries, suspects)


def case_of(asked):
    """What is known of the test. A Problem says that nothing can be known of any test, since the words are wrong."""
    try:
        return looked_at(asked)
    except Killed as killed:
        return Case("killed", str(killed))
    except (NoAnswer, NotThere) as refused:
        return Case("refused", str(refused))
    except OSError as error:
        raise Problem("%s: %s" % (error.filename or asked.program, error.strerror)) from None


def looked_at(asked):
    """The case of a test for which each run gives an answer."""
    try:
        text, said = cut_dump.read(asked)
        return Case("passes") if said.miss is None else failing(asked, text, said)
    except cut_dump.Refused as refused:
        last = refused.line.split("\n")[-1]
        tell(asked.about, refused.said)
        judge("sim", refused.status, last)
        raise NoAnswer(last) from None
