"""Puts the program where a machine looks for programs, with its man page and the completions for shells; and makes the archive for
machines without the kit. `./build` calls these."""

import io
import os
import shutil
import subprocess
import tarfile

TOP = os.path.dirname(os.path.dirname(os.path.abspath(__file__)))
# The files of docs/help (docs/help_files.py makes them), by where they are put below a prefix.
PLACES = {
    "share/man/man1/localise.1": "localise.1",
    "share/bash-completion/completions/localise": "localise.bash",
    "share/zsh/site-functions/_localise": "_localise",
    "share/fish/vendor_completions.d/localise.fish": "localise.fish",
}
ARCHIVED = ["README.md", "docs", "examples", "tools"]


def installed(program):
    """Each file that is put below a prefix, by its place there."""
    return {"bin/localise": program, **{place: os.path.join(TOP, "docs", "help", name) for place, name in PLACES.items()}}


def install(program, prefix):
    """Puts the program, the man page and the completions below a prefix; answers the paths."""
    paths = []
    for place, source in installed(program).items():
        path = os.path.join(os.path.expanduser(prefix), place)
        os.makedirs(os.path.dirname(path), exist_ok=True)
        paths.append(shutil.copy(source, path))
    return paths


def tracked():
    """The documents, the examples and the tools, by their names at the top."""
    names = subprocess.run(["git", "ls-files", "-z", *ARCHIVED], cwd=TOP, capture_output=True, text=True, check=True).stdout
    return {name: os.path.join(TOP, name) for name in names.split("\0") if name}


def plain(entry):
    """An entry without what differs from machine to machine: who made it, and when."""
    entry.uid = entry.gid = entry.mtime = 0
    entry.uname = entry.gname = ""
    entry.mode = 0o755 if entry.mode & 0o100 else 0o644
    return entry


def archive(program, path):
    """Writes an archive of a folder `localise`: what is installed, and the documents, the examples and the tools."""
    with tarfile.open(path, "w:xz") as file:
        for name, source in sorted({**installed(program), **tracked()}.items()):
            with open(source, "rb") as text:
                content = text.read()
            entry = plain(file.gettarinfo(source, f"localise/{name}"))
            entry.size = len(content)
            file.addfile(entry, io.BytesIO(content))
    return path
