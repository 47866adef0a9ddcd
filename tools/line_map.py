"""Which line of which file a line of a text is, by its `line` directives (IEEE 1364-2005, 19.7): `` `line N "FILE" LEVEL`` says that the next
line is line N of FILE. What stands before the first one is of the text itself. `localise` reads such a directive and ignores it, so its
answers have the lines of the text; this gives the lines that a person knows."""

import re

DIRECTIVE = re.compile(r'\s*`line\s+([0-9]{1,9})\s+"([^"]*)"\s+[012]\s*')


def directive_of(line):
    """The number and the file that a line gives the next one, or None."""
    found = DIRECTIVE.fullmatch(line)
    return found and (int(found[1]), found[2])


def origins_of(name, lines):
    """For each line of a text of this name the file and the number there; None for a directive."""
    found, file, number = [], name, 1
    for line in lines:
        said = directive_of(line)
        found.append(None if said else (file, number))
        number, file = said or (number + 1, file)
    return found


class LineMap:
    """The file and the number of each line of a text, counted from 1."""

    def __init__(self, name, lines):
        self.name, self.origins = name, origins_of(name, lines)
        self.is_plain = all(it == (name, number) for number, it in enumerate(self.origins, 1))

    def at(self, line):
        """The file and the line there; a line that the text doesn't have, and a directive, stand for themselves."""
        return 1 <= line <= len(self.origins) and self.origins[line - 1] or (self.name, line)

    def text(self, line):
        """A line in words: with its file, where not all are of one."""
        return "line %d" % line if self.is_plain else "%s:%d" % self.at(line)

    def texts(self, lines):
        """Several lines in words."""
        if not self.is_plain:
            return ", ".join(map(self.text, lines))
        return ("line %s" if len(lines) == 1 else "lines %s") % ", ".join(map(str, lines))
