"""The page of a report: one file of HTML and CSS, which loads nothing. Its sets are links to their values; a small script shows those of
the chosen set alone and marks its lines. Without it the values of all sets stand one under the other. Where the text has `line` directives,
each line has the file and the number that they say."""

import html
import os
from dataclasses import dataclass
from functools import cached_property
from itertools import groupby
from typing import Optional

from line_map import LineMap, directive_of
from report import ending_words, set_places, set_text

SETS = 1000         # sets on a page, where --only chooses none
CELLS = 400000      # values on a page
ROWS = 400          # rows of a table; further ones are folded
NAMED = 4           # sets that a line of the text names
WIDE = 8            # places that need a scroller


@dataclass
class Wanted:
    """The design's file and lines, whether dumps were looked at, and which sets and cycles are wanted (None: all)."""
    design: str
    lines: list
    checked: bool
    only: Optional[list]
    cycles: Optional[tuple]

    @cached_property
    def places(self):
        """Which line of which file each line is."""
        return LineMap(self.design, self.lines)


def shown(text):
    """A text for HTML; a byte that is no character stands there as U+FFFD."""
    return html.escape(str(text).encode("utf-8", "surrogateescape").decode("utf-8", "replace"))


def many(number, word):
    return "%s %s%s" % (format(number, ",d"), word, "" if number == 1 else "s")


def lines_of(report, found):
    """The lines of a set's members, each once."""
    return sorted({report["suspects"][it - 1]["line"] for it in found["members"]})


# ---- the values of a set

def runs_of(rows, first):
    """Rows that follow each other and are the same: the first cycle, the last one, and the row."""
    runs = []
    for row, group in groupby(enumerate(rows, first), key=lambda it: it[1]):
        numbers = [number for number, _ in group]
        runs.append((numbers[0], numbers[-1], row))
    return runs


def cycles_text(first, last):
    return str(first) if first == last else "%d to %d" % (first, last)


def cycles_words(runs):
    first, last = runs[0][0], runs[-1][1]
    return ("cycle " if first == last else "cycles ") + cycles_text(first, last)


def row_html(run, before):
    """A row of a table. Where there are several places, those that changed since the row before are strong."""
    first, last, row = run
    changed = [before is not None and len(row) > 1 and a != b for a, b in zip(row, before or row)]
    cells = "".join("<td>%s</td>" % ("<b>%s</b>" % value if new else value) for value, new in zip(row, changed))
    return '<tr><th scope="row">%s</th>%s</tr>\n' % (cycles_text(first, last), cells)


def table_html(runs, before, heads, name):
    befores = [before] + [row for _, _, row in runs[:-1]]
    rows = "".join(row_html(run, old) for run, old in zip(runs, befores))
    columns = "".join('<th scope="col">%s</th>' % head for head in heads)
    caption = cycles_words(runs)
    table = '<table>\n<caption>%s</caption>\n<thead><tr><th scope="col">Cycle</th>%s</tr></thead>\n<tbody>\n%s</tbody>\n</table>\n' % (caption, columns, rows)
    if len(heads) > WIDE:
        return '<div class="scroll" role="region" tabindex="0" aria-label="%s, %s">\n%s</div>\n' % (name, caption, table)
    return table


def folded(tables, runs):
    """Tables one under the other: the first stands open, a further one behind the cycles that it has."""
    parts = [tables[0]]
    for number, table in enumerate(tables[1:], 1):
        part = runs[number * ROWS:(number + 1) * ROWS]
        parts.append("<details><summary>%s</summary>\n%s</details>\n" % (cycles_words(part), table))
    return "".join(parts)


def dump_html(rows, first, heads, name, room):
    """The values in one dump, as far as there is room; and how many values these are."""
    runs = runs_of(rows, first)
    if not runs:
        return "<p>%s has none of these cycles.</p>\n" % name, 0
    fits = runs[:room // max(1, len(heads))]
    tables = []
    for at in range(0, len(fits), ROWS):
        tables.append(table_html(fits[at:at + ROWS], fits[at - 1][2] if at else None, heads, name))
    said = folded(tables, fits) if tables else ""
    if len(fits) < len(runs):
        said += '<p class="note">Cycles %s of %s are left out, since the page has too many values by then: <code>--only</code> and ' \
                '<code>--cycles</code> choose others.</p>\n' % (cycles_text(runs[len(fits)][0], runs[-1][1]), name)
    return said, len(fits) * len(heads)


def heads_of(report, found, places):
    """The heads of the columns: the member that a value is of where the report says it, else the place's number among those of the set."""
    of = set_places(report, found)
    most = max((len(row) for cycles in found["values"] for row in cycles), default=0)
    if of is None:
        return ["place %d of %d" % (number, most) for number in range(1, most + 1)]
    if len(found["members"]) == 1 and most > 1:
        return ["%d, place %d" % (it, number) for number, it in enumerate(of, 1)]
    return ["%d, %s" % (it, shown(places.text(report["suspects"][it - 1]["line"]))) for it in of]


def values_html(report, found, wanted, room):
    """What is said of a set's values, and how many there are."""
    if not found["members"]:
        return "<p>Nothing has to be freed: the design gives what the dumps want.</p>\n", 0
    heads, said, used = heads_of(report, found, wanted.places), [], 0
    if set_places(report, found) is None:
        said.append('<p class="note">The places ascend. Which of them belong to which member, the report doesn\'t say.</p>\n')
    for number, rows in enumerate(found["values"], 1):
        first, last = wanted.cycles or (0, len(rows) - 1)
        part, cells = dump_html(rows[first:last + 1], first, heads, "Dump %d" % number, room - used)
        said.append("<h4>Dump %d</h4>\n%s" % (number, part))
        used += cells
    return "".join(said), used


def member_html(report, number, wanted):
    """A member of a set, with its line."""
    suspect, lines = report["suspects"][number - 1], wanted.lines
    text = "<b>%d</b> %s %s, " % (number, shown(suspect["kind"]), shown(suspect["label"]))
    if not 1 <= suspect["line"] <= len(lines):
        return "<li>%sline %d, which the text doesn't have</li>\n" % (text, suspect["line"])
    code = lines[suspect["line"] - 1].strip()
    return '<li>%s<a href="#L%d">%s</a> <code>%s</code></li>\n' % (text, suspect["line"], shown(wanted.places.text(suspect["line"])), shown(code))


def section_html(report, number, wanted, room):
    """The section of a set, numbered from 1, and how many values it has."""
    found = report["sets"][number - 1]
    said, used = values_html(report, found, wanted, room)
    members = "".join(member_html(report, it, wanted) for it in found["members"])
    members = '<ul class="members">\n%s</ul>\n' % members if members else ""
    lines = " ".join(str(it) for it in lines_of(report, found))
    head = '<section class="values" id="v%d" aria-labelledby="h%d" data-lines="%s">\n<h3 id="h%d">Set %s</h3>\n' % (number, number, lines, number, set_text(found))
    return "%s%s%s</section>\n" % (head, members, said), used


# ---- the list of sets

def where_text(report, found, places):
    lines = lines_of(report, found)
    return places.texts(lines) if lines else "nothing has to be freed"


def choices_html(report, numbers, places):
    if not report["sets"]:
        return "<p>There is none: no set of at most %s makes the dumps right%s.</p>\n" % (
            many(report["size"], "suspect"), "" if report["ending"] == "complete" else ", as far as was searched")
    links = "".join('<li><a href="#v%d">%s</a> %s</li>\n' % (
        it, set_text(report["sets"][it - 1]), shown(where_text(report, report["sets"][it - 1], places))) for it in numbers)
    left = len(report["sets"]) - len(numbers)
    note = '<p class="note">%s of the report %s not on this page: <code>--only</code> chooses others.</p>\n' % (
        many(left, "further set"), "is" if left == 1 else "are") if left else ""
    return '<ul class="sets">\n%s</ul>\n%s' % (links, note)


# ---- the text

def suspects_at(report, numbers):
    """For each line the suspects that stand in a set of the page, and for each of these the sets."""
    at = {}
    for number in numbers:
        for member in report["sets"][number - 1]["members"]:
            at.setdefault(report["suspects"][member - 1]["line"], {}).setdefault(member, []).append(number)
    return at


def who_html(report, member, numbers):
    """A suspect beside its line: its kind and number, and the sets that it is in, each of which a click chooses."""
    sets = "".join(' <a href="#v%d">%s</a>' % (it, set_text(report["sets"][it - 1])) for it in numbers[:NAMED])
    more = " and %s" % many(len(numbers) - NAMED, "other") if len(numbers) > NAMED else ""
    return '<span class="who">%s %d in%s%s</span>' % (shown(report["suspects"][member - 1]["kind"]), member, sets, more)


def line_html(report, name, text, members):
    """A line; `name` is by what it is found, and what it is counted as where that isn't one more than the line before."""
    code = "<code>%s</code>" % shown(text)
    if not members:
        return '<li %s>%s</li>\n' % (name, code)
    who = "".join(who_html(report, it, sets) for it, sets in sorted(members.items()))
    return '<li %s class="marked"><div>%s<span class="beside">%s</span></div></li>\n' % (name, code, who)


def file_html(number, said):
    """A directive: it heads the lines of its file."""
    return '<li id="L%d" class="file">%s, line %d</li>\n' % (number, shown(said[1]), said[0])


def text_html(report, lines, numbers):
    at, counted, rows = suspects_at(report, numbers), "", []
    for number, text in enumerate(lines, 1):
        said = directive_of(text)
        rows.append(file_html(number, said) if said else line_html(report, 'id="L%d"%s' % (number, counted), text, at.get(number)))
        counted = ' value="%d"' % said[0] if said else ""
    return '<ol class="text">\n%s</ol>\n' % "".join(rows)


# ---- the page

STYLE = """
:root { color-scheme: light dark; --paper: #ffffff; --ink: #1b1f24; --faint: #565f69; --rule: #c9d1d9; --link: #0550ae;
  --marked: #fdf3d0; --bar: #8a5a00; --chosen: #ffdccf; --strong: #a32115; --warn: #a32115; }
@media (prefers-color-scheme: dark) { :root { --paper: #14181d; --ink: #e6edf3; --faint: #a3adb8; --rule: #454e58; --link: #86bdff;
  --marked: #302a14; --bar: #dba92c; --chosen: #54261a; --strong: #ff9d85; --warn: #ff9d85; } }
* { box-sizing: border-box; }
body { margin: 0; background: var(--paper); color: var(--ink); font: 1rem/1.45 system-ui, sans-serif; }
h1 { font-size: 1.35rem; } h1 code { font-size: 1em; } h2 { font-size: 1.15rem; } h3, h4 { font-size: 1rem; }
h1, h2, h3, h4 { margin: 1rem 0 .4rem; line-height: 1.25; } p { margin: .4rem 0; max-width: 60rem; }
code, ol.text, td, tbody th { font-family: ui-monospace, "DejaVu Sans Mono", Consolas, monospace; font-size: .875rem; }
a { color: var(--link); } .scripted .values:not(.chosen) { display: none; }
header { padding: .2rem 1.2rem .8rem; border-bottom: 1px solid var(--rule); }
dl { display: flex; flex-wrap: wrap; gap: .2rem 1.6rem; margin: .5rem 0 0; } dl div { display: flex; gap: .45rem; }
dt { color: var(--faint); } dd { margin: 0; overflow-wrap: anywhere; }
.side, .design { padding: 0 1.2rem 1rem; min-width: 0; }
.note { color: var(--faint); font-size: .875rem; } .warn { color: var(--warn); font-weight: 600; }
ul.sets { list-style: none; margin: .3rem 0; padding: .2rem 0; border: 1px solid var(--rule); border-radius: 4px; }
ul.sets li { padding: .12rem .7rem; border-left: 5px solid transparent; } ul.sets li.chosen { background: var(--chosen); border-left-color: var(--strong); }
ul.sets a, .who a { font-family: ui-monospace, "DejaVu Sans Mono", Consolas, monospace; } ul.sets li.chosen a { font-weight: 700; }
:focus-visible { outline: 3px solid var(--link); outline-offset: 1px; }
.members { padding-left: 1.1rem; margin: .3rem 0; } .members code { overflow-wrap: anywhere; }
table { border-collapse: collapse; margin: .4rem 0 .8rem; }
caption { text-align: left; white-space: nowrap; color: var(--faint); padding: .1rem 0 .2rem; }
th, td { border: 1px solid var(--rule); padding: .08rem .55rem; text-align: right; white-space: nowrap; font-weight: 400; }
thead th { font-weight: 600; background: var(--paper); position: sticky; top: 0; white-space: normal; vertical-align: bottom; }
td b { color: var(--strong); }
.scroll { overflow: auto; max-height: 80vh; } .scroll th:first-child { position: sticky; left: 0; background: var(--paper); }
.scroll thead th:first-child { z-index: 1; }
summary { cursor: pointer; padding: .15rem 0; }
@counter-style plain { system: extends decimal; suffix: " "; }
ol.text { list-style: plain; margin: .4rem 0; padding: 0 0 0 5ch; }
ol.text li { padding-left: .6rem; border-left: 5px solid transparent; min-height: 1.45em; } ol.text li::marker { color: var(--faint); }
ol.text li.file { color: var(--faint); border-top: 1px solid var(--rule); margin-top: .6rem; } ol.text li.file::marker { content: ""; }
ol.text code { white-space: pre-wrap; tab-size: 4; overflow-wrap: anywhere; }
ol.text li.marked { background: var(--marked); border-left: 5px double var(--bar); } ol.text li.marked::marker { color: var(--ink); font-weight: 700; }
li.marked > div { display: flex; flex-wrap: wrap; justify-content: space-between; gap: 0 1rem; }
.beside { font: .8125rem/1.55 system-ui, sans-serif; margin-left: auto; padding-right: .5rem; } .who { display: block; text-align: right; }
ol.text li.chosen { background: var(--chosen); border-left: 5px solid var(--strong); }
li.chosen .who:first-child::before { content: "chosen: "; font-weight: 700; }
li:target { outline: 2px solid var(--link); }
@media screen and (min-width: 60rem) {
  main { display: grid; grid-template-columns: minmax(20rem, 2fr) minmax(0, 5fr); align-items: start; }
  .side { position: sticky; top: 0; height: 100vh; overflow: auto; border-right: 1px solid var(--rule); }
  .sets { max-height: 38vh; overflow: auto; }
}
@media print {
  body { font-size: 10pt; } header, .side, .design { padding-left: 0; padding-right: 0; } thead th { position: static; }
  ol.text li, tr { break-inside: avoid; } h2, h3, h4, caption { break-after: avoid; } .scroll { max-height: none; overflow: visible; }
}
"""


SCRIPT = """
"use strict";
{
  const sections = [...document.querySelectorAll("section.values")];
  const isWide = matchMedia("(min-width: 60rem)");

  /** Shows the values of one set, and marks its lines and its entry in the list. */
  function choose(chosen) {
    for (const item of document.querySelectorAll(".chosen")) item.classList.remove("chosen");
    chosen.classList.add("chosen");
    const lines = chosen.dataset.lines.split(" ").map((line) => document.getElementById("L" + line)).filter((line) => line);
    for (const line of lines) line.classList.add("chosen");
    for (const link of document.querySelectorAll("ul.sets a")) {
      const isChosen = link.hash === "#" + chosen.id;
      link.parentNode.classList.toggle("chosen", isChosen);
      if (isChosen) link.setAttribute("aria-current", "true"); else link.removeAttribute("aria-current");
    }
    return lines;
  }

  function follow() {
    const section = sections.find((it) => "#" + it.id === location.hash);
    if (!section) return;
    const lines = choose(section);
    section.querySelector("h3").scrollIntoView({ block: "nearest" });
    if (isWide.matches && lines.length) lines[0].scrollIntoView({ block: "nearest" });
  }

  addEventListener("hashchange", follow);
  if (sections.length) choose(sections[0]);
  follow();
}
"""


def facts_html(report, wanted):
    traces = [len(it) for it in report["sets"][0]["values"]] if report["sets"] else []
    facts = [("design", wanted.design), ("top", report["top"]), ("clock", report["clock"] or "none"), ("suspects", "%s of %s" % (
        format(len(report["suspects"]), ",d"), "kind " + report["kinds"][0] if len(report["kinds"]) == 1 else "kinds " + ", ".join(report["kinds"]))),
             ("most members of a set", report["size"])]
    if traces:
        facts.append(("cycles" if len(traces) == 1 else "cycles of the dumps", ", ".join(format(it, ",d") for it in traces)))
    return "<dl>\n%s</dl>\n" % "".join("<div><dt>%s</dt><dd>%s</dd></div>\n" % (name, shown(value)) for name, value in facts)


def header_html(report, wanted, wrong):
    title = "What can explain the dumps of <code>%s</code>" % shown(report["top"])
    said = "<p>%s; %s.</p>\n" % (many(len(report["sets"]), "set"), ending_words(report))
    warnings = "".join('<p class="warn">%s</p>\n' % shown(line) for line in wrong)
    if not wrong and wanted.checked:
        warnings = "<p>The report is of this text and of these dumps: the digest in it is theirs.</p>\n"
    return "<header>\n<h1>%s</h1>\n%s%s%s</header>\n" % (title, said, facts_html(report, wanted), warnings)


def page_of(report, wanted, wrong):
    """The page of a report; `wrong` has what shows that it isn't of this design."""
    numbers = wanted.only or list(range(1, min(SETS, len(report["sets"])) + 1))
    sections, used = [], 0
    for number in numbers:
        section, cells = section_html(report, number, wanted, CELLS - used)
        sections.append(section)
        used += cells
    about = "" if not numbers else (
        "<h2>Values</h2>\n<p class=\"note\">With these values (base 16) in place of what the members compute, every dump is right. Cycles with the same values share a "
        "row; in several columns, a strong value differs from the one above it.</p>\n")
    title = "%s: %s of %s" % (shown(os.path.basename(wanted.design)), many(len(report["sets"]), "set"), shown(report["top"]))
    head = '<meta charset="utf-8">\n<meta name="viewport" content="width=device-width, initial-scale=1">\n<title>%s</title>\n<style>%s</style>\n' \
        '<script>document.documentElement.classList.add("scripted");</script>\n' % (title, STYLE)
    side = '<div class="side">\n<h2>Sets</h2>\n%s%s%s</div>\n' % (choices_html(report, numbers, wanted.places), about, "".join(sections))
    marks = "<p class=\"note\">A line that has a member of a set is marked, those of the chosen set more so; beside it stand the suspect's number and its sets.</p>\n"
    design = '<div class="design">\n<h2>The design</h2>\n%s%s</div>\n' % (marks if numbers else "", text_html(report, wanted.lines, numbers))
    script = "<script>%s</script>\n" % SCRIPT if numbers else ""
    return '<!DOCTYPE html>\n<html lang="en">\n<head>\n%s</head>\n<body>\n%s<main>\n%s%s</main>\n%s</body>\n</html>\n' % (
        head, header_html(report, wanted, wrong), side, design, script)
