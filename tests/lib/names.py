"""The names that the tables of a page give: definitions as `name`, `other` in `crates/…`, and impostors as (`label`) or (`label` of `crate`)."""
import re

import impostors
from listed import ROOT


def labels():
    """The labels of each crate's impostors, in the order of its edits."""
    found = {}
    for crate, path in impostors.edits():
        found.setdefault(crate, []).extend(one.label for one in impostors.read(path)[0])
    return found


def definitions(row):
    """The definitions that a row names, as (name, path); the path may be a link."""
    for names, path in re.findall(r"((?:`[^`]+`(?:, )?)+) in \[?`(crates/[^`]+)`", row):
        for name in re.findall(r"`([^`]+)`", names):
            yield name, path


def amiss(name, path):
    """What is wrong with a name: it stands in its file, as a whole word, or there is no such file."""
    file = ROOT / path
    if not file.is_file():
        return [f"{path}: no such file (for {name})"]
    found = re.search(r"(?<![\w·-])" + re.escape(name) + r"(?![\w·-])", file.read_text())
    return [] if found else [f"{path}: has no {name}"]


def ruled_out(cell):
    """The impostors that a cell names, as (label, crate); the crate is '' where none is named."""
    return re.findall(r"\(`(\w+)`(?: of `(\w+)`)?\)", cell)
