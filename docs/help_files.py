#!/usr/bin/env python3
"""Makes the man page and the completions of shells from the program's own pages of help and its tables of arguments.

usage: docs/help_files.py [--write]     at the top of the repository

Without `--write` it says which files in docs/help aren't what it makes, and where a page of help has other options than the table by
which the command's words are read. The pages are in crates/command_words/src/pages.rt, each table in the file of its command beside it.
"""

import os
import re
import sys

TOP = os.path.dirname(os.path.dirname(os.path.abspath(__file__)))
SOURCES = os.path.join(TOP, "crates", "command_words", "src")
FOLDER = os.path.join(TOP, "docs", "help")
COMMANDS = ["sim", "find", "check", "make"]
PAGE = re.compile(r'pub const (\w+): &\[u8\] =\s+b"(.*?)";', re.S)
TABLE = re.compile(r'Table \{\s+command: "(\w+)",.*?options: &\[(.*?)\],\s+flags: &\[(.*?)\],?\s+\}', re.S)
# What stands for the value of an option that is a file's name, or the front of one (but for that of --clock).
FILES = ("NAME", "PREFIX", "R", "L")
ENTRY = re.compile(r"  (--[\w-]+(?: \S+)?|[A-Z]+(?:, [A-Z]+)*) {2,}(\S.*)")


def read(name):
    with open(os.path.join(SOURCES, name), encoding="utf-8") as file:
        return file.read()


def pages():
    """The pages of help by their names, in lower case."""
    return {name.lower(): text for name, text in PAGE.findall(read("pages.rt"))}


def options_of(command):
    """The options and flags of a command, by its table."""
    tables = TABLE.findall(read(f"{command}.rt"))
    return [re.findall(r'"([\w-]+)"', options + flags) for name, options, flags in tables if name == command][0]


class Page:
    """A command's page: its usage, what it does, its arguments with what they are, and the rest, by paragraphs."""

    def __init__(self, text):
        usage, self.about, arguments, *rest = text.rstrip("\n").split("\n\n")
        self.usage = usage.removeprefix("usage: ")
        self.entries, self.after = entries_of(arguments)
        self.rest = [paragraph for part in rest for paragraph in split_example(part)]

    def options(self):
        """The options by their names: the word that stands for the value (none for a flag), and what it is."""
        return {name[2:].split()[0]: (name.partition(" ")[2], about) for name, about in self.entries if name.startswith("--")}


def entries_of(paragraph):
    """The arguments of a paragraph, each with what it is, and the sentence behind them."""
    found, after = [], []
    for line in paragraph.split("\n"):
        entry = ENTRY.fullmatch(line)
        if entry:
            found.append([entry[1], entry[2]])
        elif line.startswith("    "):
            found[-1][1] += " " + line.strip()
        else:
            after.append(line)
    return found, " ".join(after)


def split_example(paragraph):
    """A paragraph, with the statuses and the example that end it apart."""
    before, marked, example = paragraph.partition("example:")
    parts = re.split(r"\n(?=status 0:)", before.rstrip("\n"))
    return [part for part in (*parts, marked and f"{marked} {' '.join(example.split())}") if part]


def kinds(made):
    """The kinds of suspects, by the page of `find`."""
    return re.search(r"kinds: ([\w, ]+) \(", made["find"].options()["suspects"][1])[1].split(", ")


def formats(made):
    """The formats of designs, by the same page."""
    return list(re.search(r"design: (\w+) or (\w+) \(", made["find"].options()["format"][1]).groups())


# ---- the man page


def roff(text):
    """A line of text for roff: no backslash, hyphen or leading dot means more than itself."""
    return re.sub(r"^([.'])", r"\\&\1", text.replace("\\", "\\e").replace("-", "\\-"), flags=re.M)


def paragraph(text):
    """A paragraph: flowing, or as it stands where its lines are a table's."""
    if any(line.startswith("  ") for line in text.split("\n")):
        return f".PP\n.nf\n{roff(text)}\n.fi\n"
    return f".PP\n{roff(' '.join(text.split()))}\n"


def manual_of(page):
    """The part of the man page on a command."""
    entries = "".join(f".TP\n.B {roff(name)}\n{roff(about)}\n" for name, about in page.entries)
    after = paragraph(page.after) if page.after else ""
    return f".SS {roff(page.usage)}\n{roff(' '.join(page.about.split()))}\n{entries}{after}" + "".join(map(paragraph, page.rest))


def manual(overview, made):
    """The man page."""
    about, usage, commands, _, statuses, example = overview.rstrip("\n").split("\n\n")
    parts = "".join(manual_of(made[command]) for command in COMMANDS)
    name = about.split(". ")[0].removeprefix("localise ")
    return (
        f'.\\" Made by docs/help_files.py\n.TH LOCALISE 1\n.SH NAME\nlocalise \\- {roff(" ".join(name.split()))}\n'
        f".SH SYNOPSIS\n.B {roff(usage.removeprefix('usage: '))}\n.SH DESCRIPTION\n{roff(' '.join(about.split()))}\n"
        f"{paragraph(commands)}.SH COMMANDS\n{parts}.SH EXIT STATUS\n{paragraph(statuses)}.SH EXAMPLE\n{roff(example.removeprefix('example: '))}\n"
    )


# ---- completions


def shell_line(overview, command):
    """What a command does, in the words of the page on all."""
    return re.search(rf"^  {command} +(.*)$", overview, re.M)[1]


def bash(overview, made):
    """The completion for bash."""
    arms = "".join(f'        {command}) words="{" ".join("--" + name for name in made[command].options())}" ;;\n' for command in COMMANDS)
    return f"""# Completion of localise for bash. Made by docs/help_files.py
_localise() {{
    local word=${{COMP_WORDS[COMP_CWORD]}} before=${{COMP_WORDS[COMP_CWORD - 1]}} words=
    COMPREPLY=()
    if ((COMP_CWORD == 1)); then
        mapfile -t COMPREPLY < <(compgen -W "{" ".join(COMMANDS)} help --help --version" -- "$word")
        return
    fi
    case ${{COMP_WORDS[1]}} in
{arms}        help) mapfile -t COMPREPLY < <(compgen -W "{" ".join(COMMANDS)}" -- "$word") && return ;;
    esac
    [[ $word == = ]] && word=
    [[ $before == = ]] && before=${{COMP_WORDS[COMP_CWORD - 2]}}
    if [[ $before == --suspects ]]; then
        local front=
        [[ $word == *,* ]] && front=${{word%,*}},
        mapfile -t COMPREPLY < <(compgen -P "$front" -W "{" ".join(kinds(made))}" -- "${{word##*,}}")
    elif [[ $before == --format ]]; then
        mapfile -t COMPREPLY < <(compgen -W "{" ".join(formats(made))}" -- "$word")
    elif [[ $word == -* ]]; then
        mapfile -t COMPREPLY < <(compgen -W "$words" -- "$word")
    else
        mapfile -t COMPREPLY < <(compgen -f -- "$word")
    fi
}}
complete -o filenames -F _localise localise
"""


def quoted(text):
    """A text between single quotes, as each of the shells reads it."""
    return "'" + text.replace("'", "'\\''") + "'"


def zsh_option(name, value, about, made):
    """An option for zsh's _arguments, with what may be its value, or a flag."""
    lists = {"suspects": f"_sequence compadd - {' '.join(kinds(made))}", "format": f"({' '.join(formats(made))})"}
    values = {**lists, "clock": " "}.get(name)
    about = about.replace("[", "\\[").replace("]", "\\]").replace(":", "\\:")
    if not value:
        return quoted(f"--{name}[{about}]")
    if values is None:
        values = "_files" if value in FILES else " "
    return quoted(f"--{name}=[{about}]:{value}:{values}")


def zsh(overview, made):
    """The completion for zsh."""
    names = "\n".join(f"        {quoted(f'{it}:{shell_line(overview, it)}')}" for it in [*COMMANDS, "help"])
    arms = "".join(
        f"        {command})\n            _arguments \\\n"
        + "".join(f"                {zsh_option(name, value, about, made)} \\\n" for name, (value, about) in made[command].options().items())
        + "                '*:file:_files'\n            ;;\n"
        for command in COMMANDS
    )
    return f"""#compdef localise
# Completion of localise for zsh. Made by docs/help_files.py
_localise() {{
    local -a commands
    commands=(
{names}
    )
    if ((CURRENT == 2)); then
        _describe command commands
        return
    fi
    local command=$words[2]
    shift words
    ((CURRENT--))
    case $command in
{arms}        help)
            compadd {" ".join(COMMANDS)}
            ;;
    esac
}}
_localise "$@"
"""


def fish_option(command, name, value, about, made):
    """A line for fish of an option: with its values, with files, with a value of which nothing is known, or with none."""
    kind = "-r" if value in FILES and name != "clock" else "-x" if value else "-f"
    if name == "suspects":
        kind = f"-x -a '(__fish_append , {' '.join(kinds(made))})'"
    if name == "format":
        kind = f"-x -a '{' '.join(formats(made))}'"
    return f"complete -c localise -n '__fish_seen_subcommand_from {command}' -l {name} {kind} -d {quoted(about)}\n"


def fish(overview, made):
    """The completion for fish."""
    first = "".join(
        f"complete -c localise -n __fish_use_subcommand -f -a {it} -d {quoted(shell_line(overview, it))}\n" for it in [*COMMANDS, "help"]
    )
    options = "".join(
        fish_option(command, name, value, about, made) for command in COMMANDS for name, (value, about) in made[command].options().items()
    )
    help_words = f"complete -c localise -n '__fish_seen_subcommand_from help' -f -a '{' '.join(COMMANDS)}'\n"
    return f"# Completion of localise for fish. Made by docs/help_files.py\n{first}{help_words}{options}"


# ---- the files


def files():
    """Each file of docs/help with its text."""
    texts = pages()
    made = {command: Page(texts[command]) for command in COMMANDS}
    overview = texts["overview"]
    return {
        "localise.1": manual(overview, made),
        "localise.bash": bash(overview, made),
        "_localise": zsh(overview, made),
        "localise.fish": fish(overview, made),
    }


def differing_options():
    """The commands whose page has other options than their table."""
    texts = pages()
    return [it for it in COMMANDS if sorted(Page(texts[it]).options()) != sorted(options_of(it))]


def check():
    """Whether pages and tables have the same options, and the files are current; says what isn't so."""
    wrong = [f"the page of help on {it} has other options than its table" for it in differing_options()]
    for name, text in files().items():
        path = os.path.join(FOLDER, name)
        there = open(path, encoding="utf-8").read() if os.path.exists(path) else None
        if there != text:
            wrong.append(f"docs/help/{name} isn't current: docs/help_files.py --write")
    print("".join(f"{line}\n" for line in wrong), end="")
    return not wrong


def main(words):
    if words not in ([], ["--write"]):
        sys.exit(__doc__)
    if words:
        os.makedirs(FOLDER, exist_ok=True)
        for name, text in files().items():
            with open(os.path.join(FOLDER, name), "w", encoding="utf-8") as file:
                file.write(text)
    return 0 if check() else 1


if __name__ == "__main__":
    sys.exit(main(sys.argv[1:]))
