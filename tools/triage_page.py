"""The page of a regression: one file of HTML and CSS, which loads nothing. What is certified and what is likely differs by a word and by
its look: the one stands behind a whole bar, the other behind a broken one.
"""

import os
from urllib.parse import quote

from bins_of_tests import counts_text
from page import STYLE, shown
from triage_text import certified_text, hits_text, many, range_text

FOLDED = 12         # suspects of a bin that stand open

MORE_STYLE = """
main.triage { display: block; padding: 0 1.2rem 1.5rem; }
.what { display: inline-block; vertical-align: middle; font-size: .75rem; font-weight: 700; padding: 0 .45rem; border-radius: 3px; margin-right: .5rem; }
.what.certified { background: var(--ink); color: var(--paper); border: 1px solid var(--ink); }
.what.likely { color: var(--faint); border: 1px dashed var(--faint); font-style: italic; font-weight: 400; }
.said { padding: .25rem .8rem; margin: .35rem 0; max-width: 75rem; overflow-wrap: anywhere; }
.said.certified { border-left: 5px solid var(--ink); } .said.likely { border-left: 5px dashed var(--faint); }
table.bins { width: 100%; }
table.bins td, table.bins th { text-align: left; white-space: normal; vertical-align: top; padding: .4rem .6rem; }
table.bins td, table.bins tbody th { font-family: inherit; font-size: .9375rem; } table.bins .n { white-space: nowrap; }
ol.ranked { list-style: none; margin: .2rem 0 0; padding: 0; }
ol.ranked li { padding: .12rem 0 .12rem .5rem; border-left: 3px solid var(--ink); } ol.ranked.mostly li { border-left: 3px dashed var(--faint); }
ol.ranked code { overflow-wrap: anywhere; } ol.ranked .note { white-space: nowrap; } td ul { margin: 0; padding-left: 1rem; }
.tests code { white-space: nowrap; }
@media print { details > * { display: block; } }
"""


def badge(kind):
    return '<span class="what %s">%s</span>' % (kind, kind)


def said(kind, text):
    return '<div class="said %s">%s%s</div>\n' % (kind, badge(kind), text)


def link_to(path, folder, text):
    """A link to a file, as it is reached from the page's folder."""
    return '<a href="%s">%s</a>' % (shown(quote(os.path.relpath(path, folder or "."), errors="surrogateescape")), text)


# ---- a bin

def suspect_html(row, before=""):
    code = " <code>%s</code>" % shown(row["text"]) if row["text"] else ""
    return '<li><b>%d</b> %s, %s, %s%s <span class="note">%s%s</span></li>\n' % (
        row["number"], shown(row["kind"]), shown(row["where"]), shown(row["label"]), code, before, hits_text(row, "explains"))


def mostly_html(it):
    """Suspects that most lists of the bin have, and not all: a hint, where two bugs meet in one of its tests."""
    rows = "".join(suspect_html(row, "in %d of %d lists; " % (row["lists"], len(it["dumps"]))) for row in it["mostly"][:FOLDED])
    return '<ol class="ranked mostly">\n%s</ol>\n' % rows if rows else ""


def suspects_html(rows):
    open_ones = '<ol class="ranked">\n%s</ol>\n' % "".join(map(suspect_html, rows[:FOLDED]))
    rest = rows[FOLDED:]
    return open_ones + ("<details><summary>%s</summary>\n<ol class=\"ranked\">\n%s</ol>\n</details>\n" % (
        many(len(rest), "further suspect"), "".join(map(suspect_html, rest))) if rest else "")


def test_html(it):
    """A test by its dump, with the cycle and the outputs that are wrong in it."""
    return "<code>%s</code>, cycle %d, %s" % (shown(it["dump"]), it["cycle"], shown(", ".join(it["outputs"])))


def tests_html(it):
    rows = "".join("<li>%s</li>\n" % test_html(test) for test in it["dumps"])
    return '<details class="tests"><summary>its tests</summary>\n<ul>\n%s</ul>\n</details>\n' % rows


def joint_html(it, folder):
    """Links to what the joint run of a bin left."""
    joint = it["joint"]
    if joint is None:
        return '<span class="note">not asked</span>\n'
    files = [("list.html", "list and values")] if joint["line"].startswith("complete") else []
    files += [("waves/suspect-%d.vcd" % row["number"], "wave of %d" % row["number"]) for row in it["suspects"][:FOLDED]]
    links = [link_to(os.path.join(joint["folder"], name), folder, text) for name, text in files]
    of = ("" if joint["dumps"] == joint["units"] else "%d of " % joint["dumps"]) + many(joint["units"], "cut dump")
    return "%s<p class=\"note\">one run on %s: <code>%s</code></p>\n" % ("<br>".join(links), of, shown(joint["line"]))


def row_html(it, folder):
    # (the suspects are certified: each explains all tests of the bin alone, and no other one does; their order isn't)
    first = ", ".join("<code>%s</code>" % shown(name) for name in it["first_outputs"])
    suspects = suspects_html(it["suspects"]) + mostly_html(it)
    return ('<tr id="bin%d"><th scope="row" class="n">%d</th><td class="n">%d</td><td class="n">%s%s</td><td>%s</td>\n<td>%s</td>\n'
            "<td><code>%s</code></td>\n<td>%s</td></tr>\n") % (
        it["number"], it["number"], it["family"], format(it["tests"], ",d"), tests_html(it), first, suspects, shown(it["look_at"]),
        joint_html(it, folder))


HEADS = [
    ("Bin", badge("likely")), ("Family", badge("likely")), ("Tests", ""), ("First wrong at", badge("certified")),
    ("Suspects: each alone explains every test of the bin up to its first miss (of a split test, the outputs named), and no other of these kinds does", badge("certified") + badge("likely") + "order"),
    ("Look at first", ""), ("More", "")]


def bins_html(known, folder):
    heads = "".join('<th scope="col">%s%s</th>' % (name, "<br>" + kinds if kinds else "") for name, kinds in HEADS)
    rows = "".join(row_html(it, folder) for it in known["bins"])
    return '<table class="bins">\n<thead><tr>%s</tr></thead>\n<tbody>\n%s</tbody>\n</table>\n' % (heads, rows)


# ---- tests that are in no bin

def list_html(head, note, lines, is_open=True):
    if not lines:
        return ""
    rows = "".join("<li>%s</li>\n" % it for it in lines)
    return '<details%s><summary>%s: %s</summary>\n<p class="note">%s</p>\n<ul>\n%s</ul>\n</details>\n' % (
        " open" if is_open else "", head, many(len(lines), "test"), note, rows)


def named(it):
    return "<code>%s</code>: <code>%s</code>" % (shown(it["dump"]), shown(it["line"]))


def could_be_html(it):
    links = ", ".join('<a href="#bin%d">bin %d</a>' % (number, number) for number in it["bins"])
    return named(it) + ("; could be of " + links if links else "")


def others_html(known):
    unexplained = "No single %s explains what is wrong in the cycle of the first miss. Two may, or a coarser kind of suspect."
    parts = [
        list_html("Not explained", unexplained % ("/".join(known["kinds"]) or "suspect"), list(map(test_html, known["unexplained"]))),
        list_html("Not finished", "The list of such a test isn't whole, so it is in no bin.", list(map(could_be_html, known["unfinished"]))),
        list_html("Refused", "The design, the dump or the question can't be taken.", list(map(named, known["refused"]))),
        list_html("Without an answer", "No run came to its end. The same command tries these again.", list(map(named, known["killed"]))),
        list_html("Passing", "All outputs are as wanted.", ["<code>%s</code>" % shown(it) for it in known["passing"]], False),
    ]
    return "<h2>Tests in no bin</h2>\n%s" % "".join(parts) if any(parts) else ""


# ---- the page

def header_html(known):
    facts = [("design", known["design"]), ("top", known["top"]), ("clock", known["clock"] or "none"),
             ("suspects", ", ".join(known["kinds"]) or "none"), ("options", " ".join(known["options"]) or "none")]
    rows = "".join("<div><dt>%s</dt><dd>%s</dd></div>\n" % (name, shown(value)) for name, value in facts)
    return "<header>\n<h1>The failing tests of <code>%s</code></h1>\n<p>%s.</p>\n<dl>\n%s</dl>\n</header>\n" % (
        shown(known["top"]), counts_text(known["counts"]), rows)


MEANINGS = (
    '<p class="note">%s follows from lists of <code>localise find</code> that are whole: this is proved, and <code>localise check</code> tells '
    "it from the logs. A count of places isn't one of bugs: a bug may be in more than one. %s is a guess from the lists: which tests belong "
    "together, which bins are one family, the order of suspects, the number of bugs. A made-up failure is a wrong bit in an earlier cycle: what "
    "explains these too explains anything.</p>\n") % (badge("certified"), badge("likely"))


def least_html(known, folder):
    """The least number of places, with what shows it: a run was made for it only where it is more than one."""
    least = known["certified"]
    if not least:
        return '<p class="note">How many places are wrong wasn\'t asked.</p>\n'
    files = "report, log and dumps" if least["line"] else "dumps"
    return said("certified", "%s (%s)." % (shown(certified_text(known)), link_to(least["folder"] + "/", folder, files)))


def known_html(known, folder):
    """How many places and bugs there are, and what the two words mean."""
    likely = range_text(known["likely"]["least"], known["likely"]["most"], "bug")
    return least_html(known, folder) + (said("likely", likely + ".") if known["bins"] else "") + MEANINGS


def page_of(known, folder):
    """The page, for a file in this folder."""
    title = "%s: %s" % (shown(known["top"]), many(len(known["bins"]), "bin"))
    head = '<meta charset="utf-8">\n<meta name="viewport" content="width=device-width, initial-scale=1">\n'
    head += "<title>%s</title>\n<style>%s%s</style>\n" % (title, STYLE, MORE_STYLE)
    bins = "<h2>Bins</h2>\n" + bins_html(known, folder) if known["bins"] else ""
    return '<!DOCTYPE html>\n<html lang="en">\n<head>\n%s</head>\n<body>\n%s<main class="triage">\n%s%s%s</main>\n</body>\n</html>\n' % (
        head, header_html(known), known_html(known, folder), bins, others_html(known))
