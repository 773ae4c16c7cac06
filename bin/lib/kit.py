"""The prover of the kit, called by itself over the libraries that rt left beside their crates."""
import os
import pathlib
import shutil

from .calls import ROOT, Bad


def home():
    """The kit's folder: that of the 'rt' on the path, unless RATTLE_HOME names another."""
    rt = shutil.which("rt")
    return pathlib.Path(os.environ.get("RATTLE_HOME") or (pathlib.Path(rt).resolve().parent.parent if rt else "/"))


def lines():
    """The lines of crates.txt: a crate, what it is besides ('staticlib' or nothing), and what it depends on."""
    for line in (ROOT / "crates.txt").read_text().splitlines():
        head, colon, below = line.split("#")[0].partition(":")
        if colon:
            name, *kind = head.split()
            yield name, " ".join(kind), below.split()


def order_of(name):
    """The crates that rt proves for a crate, in its order: what a crate stands on, as crates.txt lists it, and then the crate."""
    needs, order = {one: below for one, _, below in lines()}, []

    def visit(one):
        if one in needs and one not in order:
            for below in needs[one]:
                visit(below)
            order.append(one)

    visit(name)
    return order


def made(name):
    """The library of a crate, as rt left it."""
    return ROOT / "crates" / name / "out/rlib" / f"{name}.rlib"


def left_by_ci(name):
    """Whether the libraries below a crate are those that rt ci made. It puts what earlier checks had made back in their place, which have a stamp, and may be of
    another text: rt sees that."""
    return not any((made(one).parent / "stamp").exists() for one in order_of(name)[:-1])


def words(verb, name):
    """The words by which rt calls the prover on a crate, to be said in its folder or in a copy of it."""
    kit = home()
    [(kind, needs)] = [(kind, below) for one, kind, below in lines() if one == name]
    own = order_of(name)[:-1]
    for one in own:
        if not made(one).is_dir():
            raise Bad(f"there is no library of {one}, which {name} stands on: 'rt ci' makes it, or 'rt lib' in its folder")
    root = "src/main.rt" if (ROOT / "crates" / name / "src/main.rt").exists() else "src/lib.rt"
    said = [kit / "bin/rattle", verb, "--crate-name", name, root]
    for one in ["std", *needs]:
        said += ["--extern", f"{one}={made(one) if one in own else kit / 'rlibs' / (one + '.rlib')}"]
    for folder in [kit / "rlibs", *(made(one).parent for one in own)]:
        said += ["-L", f"dependency={folder}"]
    said += ["--antt-project", kit / "rattle/logic/antt-project.json", "--logic-built", kit / "logic_built", "--jobs", "1", "--links", f"{name}="]
    return said + (["--crate-type", kind] if kind else [])
