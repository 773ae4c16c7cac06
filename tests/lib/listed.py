"""The repository, and what crates.txt says."""
import pathlib

ROOT = pathlib.Path(__file__).resolve().parents[2]


def dependencies():
    """What each crate depends on, in the order of crates.txt."""
    return {name: below for name, _, below in lines()}


def lines():
    """The lines of crates.txt: a crate, what it is besides ('staticlib' or nothing), and what it depends on."""
    for line in (ROOT / "crates.txt").read_text().splitlines():
        head, colon, below = line.split("#")[0].partition(":")
        if colon:
            name, *kind = head.split()
            yield name, " ".join(kind), below.split()
