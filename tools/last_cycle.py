"""Gives outputs other values in the last cycle of a cut dump: x, where they aren't to be checked there, or a value that wasn't wanted.

A change is written before the last stamp where there is a clock, since a cycle has the values from just before its edge, and at the end
where there is none. Whether it came to what was meant is for `localise sim` to say: this reads no more of a dump than its variables and
its stamps.
"""

import re
from itertools import product

from cut_dump import stamps

SECTION = re.compile(rb"\$(\S+)\s(?:(.*?)\s)??\$end(?=\s|$)", re.S)
HEADER = re.compile(rb"\$enddefinitions\s(?:.*?\s)??\$end(?=\s|$)", re.S)


class NotThere(Exception):
    """The dump has no scope with these outputs."""


class Variable:
    """A variable of a scope: its code, its bits, and where in the text its code stands."""

    def __init__(self, section):
        words = list(re.finditer(rb"\S+", section[2]))
        self.bits, self.code = int(words[1][0]), words[2][0]
        self.name = name_of([it[0] for it in words[3:]])
        self.start, self.end = (section.start(2) + it for it in words[2].span())


def name_of(words):
    """The name of a reference: up to its first bracket, or all behind its backslash."""
    text = words[0]
    return (text[1:] if text.startswith(b"\\") else text.partition(b"[")[0]).decode(errors="replace")


def scopes_of(text):
    """The variables of each scope by their names, in the order in which the scopes are opened."""
    scopes, opened = [], []
    end = HEADER.search(text)
    for section in SECTION.finditer(text, 0, end.start() if end else len(text)):
        if section[1] == b"scope":
            opened.append({})
            scopes.append(opened[-1])
        elif section[1] == b"upscope" and opened:
            opened.pop()
        elif section[1] == b"var" and opened:
            it = Variable(section)
            opened[-1].setdefault(it.name, it)
    return scopes


def scopes_with(text, names):
    """The scopes that have all these variables. `localise` reads the first that has the inputs, too: it is one of them, and so all are changed."""
    found = [it for it in scopes_of(text) if all(name in it for name in names)]
    if not found:
        raise NotThere("no scope of the dump has %s" % ", ".join(names))
    return found


def bits_of(text, name, names):
    """The bits of a variable in the scopes that have all these."""
    return scopes_with(text, names)[0][name].bits


# ---- a code of its own

def with_code_doubled(text, variable, code):
    """The text with another code for one variable: each change of the old one stands there for the new one, too."""
    old = re.escape(variable.code)
    body = HEADER.search(text).end()
    doubled = re.sub(rb"(?<=\s)([bBrRsS]\S+\s+)%s(?=\s|$)|(?<=\s)([01xXzZ])%s(?=\s|$)" % (old, old),
                     lambda it: it[0] + b"\n" + (it[1] or it[2]) + code, text[body:])
    return text[:variable.start] + code + text[variable.end:body] + doubled


def with_own_codes(text, names, all_names):
    """The text in which each of these outputs has a code of its own, as a dump has it where a change of one isn't one of another port."""
    for place, name in product(range(len(scopes_with(text, all_names))), names):
        scope = scopes_with(text, all_names)[place]
        variable = scope[name]
        if sum(it.code == variable.code for it in scope.values()) > 1:
            code = next(it for it in (b"own%d" % number for number in range(len(text))) if it not in text)
            text = with_code_doubled(text, variable, code)
    return text


# ---- the last cycle

def digits_of(value, bits):
    """The digits of a value, or of none at all: x."""
    return b"x" if value is None else format(value, "0%db" % bits).encode()


def with_last(text, values, all_names, clocked):
    """The text with these values of outputs, by their names, in its last cycle; None leaves one open. `all_names` are those by which the
    scope is found: all outputs, and the clock where there is one."""
    text = with_own_codes(text, values, all_names)
    at = stamps(text)[-2] if clocked else len(text)
    variables = [(scope[name], value) for scope in scopes_with(text, all_names) for name, value in values.items()]
    changes = dict.fromkeys(b"b%s %s\n" % (digits_of(value, it.bits), it.code) for it, value in variables)
    return text[:at] + (b"" if text[:at].endswith(b"\n") else b"\n") + b"".join(changes) + text[at:]
