"""Files of JSON that are there whole or not at all: each is written beside its name, and takes it when it is whole."""

import hashlib
import json
import os
import tempfile

from report import ReportError as Problem, load


def digest(text):
    return hashlib.sha256(text).hexdigest()


def json_text(value):
    """A value as it stands in a file: keys ascending, a line for each entry."""
    return json.dumps(value, indent=1, sort_keys=True) + "\n"


def write_whole(path, text):
    """Writes a file that is there whole or not at all."""
    folder, name = os.path.split(path)
    try:
        with tempfile.NamedTemporaryFile("wb", dir=folder or ".", prefix="." + name + ".", delete=False) as file:
            file.write(text.encode("utf-8", "surrogateescape"))
        os.chmod(file.name, 0o666 & ~umask())
        os.replace(file.name, path)
    except (OSError, ValueError) as error:
        raise Problem("%s: can't be written: %s" % (path, getattr(error, "strerror", None) or error)) from None


def umask():
    now = os.umask(0)
    os.umask(now)
    return now


def read_json(path, form):
    """The value in a file of this form, as "case 1"."""
    try:
        value = json.loads(load(path).decode("utf-8", "surrogateescape"))
    except ValueError as error:
        raise Problem("%s: not JSON: %s" % (path, error)) from None
    if not isinstance(value, dict) or value.get("form") != form:
        raise Problem("%s: no file of the form %r of tools/triage.py" % (path, form))
    return value
