"""Holds the tables of codes in formats.md against the errors in the sources of the program: the same codes, each with the same messages.

The message of an error's variant is its `#[error("..")]`; the variant's code is the first one in the arm of a `match` that has the
variant on its left (`LexErr::BadByte(span) => Code::At("L1", span)`), or in the function that the arm calls. A row of a table
begins with a line's code (`L1`, `input T1 N OFFSET`, `limit size`), and its second cell is the message. A field that a message shows,
as `{offset}`, is written `OFFSET` in the table.
"""

import glob
import os
import re

TOP = os.path.dirname(os.path.dirname(os.path.abspath(__file__)))
CODE = r"(?:input |limit )?([A-Z][0-9]{1,2}|size)"
ROW = re.compile(r"^\| `%s(?: [^`]*)?` \| (.*?) \|" % CODE, re.M)
LITERAL = re.compile(r'"%s ?"' % CODE)
TYPE = re.compile(r"pub(?:\(crate\))? enum (\w+) \{\n(.*?)\n\}\n", re.S)
VARIANT = re.compile(r'#\[error\("((?:[^"\\]|\\.)*)"[^\n]*\)\]\n    (\w+)')
FUNCTION = re.compile(r"\bfn (\w+)[^\n]*\n(.*?\n)(?:    )?\}\n", re.S)
# What is printed where no error is matched: a report's kinds are looked up before they are chosen.
UNMATCHED = {("ChooseErr", "UnknownKind"): "U1"}


def crates_of(program):
    """A program's crate and those below it, by crates.txt."""
    with open(os.path.join(TOP, "crates.txt"), encoding="utf-8") as file:
        below = {name: uses.split() for name, found, uses in (line.strip().partition(":") for line in file) if found}
    found, left = set(), [program]
    while left:
        name = left.pop()
        if name in below and name not in found:
            found.add(name)
            left += below[name]
    return sorted(found)


def sources():
    """The texts of the program's sources."""
    for name in crates_of("localise"):
        for path in sorted(glob.glob(os.path.join(TOP, "crates", name, "src", "**", "*.rt"), recursive=True)):
            with open(path, encoding="utf-8") as file:
                yield file.read()


def messages_of(texts):
    """The message of each variant that has one."""
    return {
        (name, variant): re.sub(r"\{(\w+)\}", lambda field: field.group(1).upper(), message)
        for text in texts
        for name, body in TYPE.findall(text)
        for message, variant in VARIANT.findall(body)
    }


def codes_of(texts):
    """The codes of each variant, by the arms of all matches."""
    single = {}
    for text in texts:
        for name, body in FUNCTION.findall(text):
            found = set(LITERAL.findall(body))
            if len(found) == 1 and "=>" not in body:
                single[name] = found.pop()
    codes = {variant: {code} for variant, code in UNMATCHED.items()}
    for text in texts:
        arms = text.split("=>")
        for left, right in zip(arms, arms[1:]):
            left = left[max(left.rfind(";"), left.rfind(",\n"), left.rfind("}\n"), left.rfind("{\n")) + 1 :]
            right = right[: right.rfind(",\n") + 1] or right
            called = [single[name] for name in re.findall(r"\b(\w+)\(", right) if name in single]
            code = LITERAL.findall(right)[:1] or called[:1]
            for variant in re.findall(r"\b(\w+)::(\w+)", left):
                codes.setdefault(variant, set()).update(code)
    return codes


def check():
    """Whether the tables have just the codes and messages of the sources; says what differs."""
    texts = list(sources())
    messages, codes = messages_of(texts), codes_of(texts)
    there = {(code, message) for variant, message in messages.items() for code in codes.get(variant, ())}
    with open(os.path.join(TOP, "docs", "formats.md"), encoding="utf-8") as file:
        said = set(ROW.findall(file.read()))
    for code, message in sorted(said - there):
        print("formats.md: no error says of %s: %s" % (code, message))
    for code, message in sorted(there - said):
        print("formats.md: no row says of %s: %s" % (code, message))
    return said == there and bool(said)
