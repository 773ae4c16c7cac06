"""What an edit of several impostors says, and what the prover says of it.

An edit file (crates/NAME/must-fail/*.edit) is rt's: 'file:', 'old:' and 'new:' lines; rt passes over every other line. Each impostor in it begins with

    # impostor LABEL: the rule that it breaks
    # refused: FILE NAME

where NAME is a declaration or a goal of FILE that must be refused at its own text, and not because something that it cites was refused. FILE is that of the
proof, as proofs/F/Answers.antt for a goal of the function F, whether or not there is such a file: what it doesn't answer the kit's own search has to close.

rt tries each edit file whole and says one line of it, so the prover is called again here, by the words that rt has for it, on a copy of the crate. What it
says of one text is kept in the user's cache, by the sum of all that it read, as rt keeps what it tried."""
import concurrent.futures
import hashlib
import os
import pathlib
import re
import shutil
import subprocess
import sys
import tempfile

from listed import ROOT, dependencies

sys.path.insert(0, str(ROOT / "bin"))
from lib import calls, kit  # noqa: E402

# so much a check takes at most, in gigabytes, of what is free
EACH_TAKES = 2
# as many logs are kept
MOST_KEPT = 4000


class Impostor:
    def __init__(self, label, rule):
        self.label, self.rule = label, rule
        self.refused = []  # (file, name)
        self.pairs = []  # (file, old, new)


def edits():
    """Every edit file with its crate."""
    for path in sorted(ROOT.glob("crates/*/must-fail/*.edit")):
        yield path.parent.parent.name, path


def read(path):
    """The impostors of an edit file, and what is wrong with its form."""
    impostors, wrong = [], []
    file = old = None
    for number, line in enumerate(path.read_text().splitlines(), 1):
        head = re.fullmatch(r"# impostor (\w+): (.+)", line)
        if head:
            impostors.append(Impostor(*head.groups()))
            file = None  # each names its files, so that each can be tried alone
        elif line.startswith("# refused: "):
            words = line.split()[2:]
            if not impostors or len(words) != 2:
                wrong.append(f"line {number}: '# refused: FILE NAME' behind an '# impostor' line is wanted")
            else:
                impostors[-1].refused.append(tuple(words))
        elif line.startswith("file: "):
            file = line[len("file: "):]
        elif line.startswith("old: "):
            old = line[len("old: "):]
        elif line.startswith("new:"):
            if not impostors or file is None or old is None:
                wrong.append(f"line {number}: a 'new:' line stands behind no '# impostor', 'file:' and 'old:' line of its own")
            else:
                impostors[-1].pairs.append((file, old, line[len("new:"):].removeprefix(" ")))
            old = None
        elif line.strip() and not line.startswith("#"):
            wrong.append(f"line {number}: neither a comment nor 'file:', 'old:', 'new:'")
    for one in impostors:
        if not one.refused:
            wrong.append(f"{one.label}: no line '# refused: FILE NAME'")
        if not one.pairs:
            wrong.append(f"{one.label}: it changes nothing")
    if not impostors:
        wrong.append("no line '# impostor LABEL: RULE'")
    return impostors, wrong


def refusals(log):
    """The declarations and goals that a log refuses at their own text, as (file, name), in the log's order; and its lines that say that a proof no longer fits the
    code, or that the edited text can't be read, which show nothing of a rule. Any other name that the edit took away counts for neither."""
    own, unfit = [], []
    for line in log.splitlines():
        sought = re.match(r"fn \S+: no proof: expected answers in (?:\S*/)?(proofs/\S+); `search` did not prove (.*)", line)
        if sought:
            own += [(sought.group(1), name) for name in re.findall(r"`([^`]+)`", sought.group(2).split(";")[0])]
            continue
        found = re.match(r"(?:\./)?((?:proofs|specs|src)/\S+?):\d+:\d+: error(?:\[[\w-]+\])?: (?:`([^`]+)`: )?(.*)", line)
        if not found:
            continue
        file, name, why = found.groups()
        if re.search(r"\.(?:Goals|Given)` has no `", line) or not file.startswith("proofs/"):
            unfit.append(line[:160])
        elif name and not re.search(r"was not admitted|has no field|is not in scope|has no `|cannot be named", why) and (file, name) not in own:
            own.append((file, name))
    return own, unfit


# ---- what the prover says


def texts_of(crate):
    """The files of a crate that the prover reads."""
    for part in ("src", "specs", "proofs"):
        for path in sorted((ROOT / "crates" / crate / part).rglob("*")):
            if path.is_file():
                yield path


def stamp_of(crate):
    """The sum of all that the prover reads for a crate, but for an edit."""
    total = hashlib.sha256((kit.home() / "KIT-ID").read_bytes())
    for one in kit.order_of(crate):
        total.update(repr((one, dependencies()[one])).encode())
        for path in texts_of(one):
            total.update(repr((str(path.relative_to(ROOT)), path.read_bytes())).encode())
    return total.hexdigest()


def kept_at():
    return pathlib.Path(os.environ.get("XDG_CACHE_HOME") or pathlib.Path.home() / ".cache") / "taleviqa/impostors"


class Prover:
    """Calls the prover on a crate with some texts replaced, over the libraries that rt ci has just made, or else those that `rt check` sees to. What it begins with is
    what `rt check` left of the crate, or else what the first text's check proved."""

    def __init__(self, crate, made, after_ci):
        self.crate, self.made, self.stamp, self.begun, self.count = crate, made, stamp_of(crate), None, 0
        self.is_ready = after_ci and kit.left_by_ci(crate)

    def says(self, pairs):
        """What the prover says of the crate with these replacements."""
        texts = {}
        for file, old, new in pairs:
            path = ROOT / "crates" / self.crate / file
            text = texts.get(file) if file in texts else path.read_text() if path.is_file() else ""
            if text.count(old) != 1:
                return f"src/the-edit:0:0: error: its 'old:' text stands in {file} {text.count(old)} times: {old}\n"
            texts[file] = text.replace(old, new)
        kept = kept_at() / hashlib.sha256(repr((self.stamp, sorted(texts.items()))).encode()).hexdigest()
        try:
            return kept.read_text()
        except OSError:
            said = self.said_of(texts)
        try:
            kept.parent.mkdir(parents=True, exist_ok=True)
            with tempfile.NamedTemporaryFile("w", dir=kept.parent, delete=False) as out:
                out.write(said)
            os.replace(out.name, kept)
        except OSError:
            pass
        return said

    def said_of(self, texts):
        if not self.is_ready:
            ran = subprocess.run(["rt", "check"], cwd=ROOT / "crates" / self.crate, stdin=subprocess.DEVNULL, stdout=subprocess.PIPE, stderr=subprocess.STDOUT)
            if ran.returncode:
                raise calls.Bad(f"{self.crate}: rt check fails: {ran.stdout.decode(errors='replace').splitlines()[-3:]}")
            self.is_ready = True
        self.count += 1
        place = self.made / f"{self.crate}.{self.count}"
        for path in texts_of(self.crate):
            copy = place / path.relative_to(ROOT / "crates" / self.crate)
            copy.parent.mkdir(parents=True, exist_ok=True)
            shutil.copyfile(path, copy)
        for file, text in texts.items():
            (place / file).write_text(text)
        beside = place.with_name(place.name + ".work")
        if self.begin():
            shutil.copytree(self.begun, beside, copy_function=linked)
        else:
            beside.mkdir()
        ran = subprocess.run(kit.words("check", self.crate) + ["--incremental", beside], cwd=place, stdin=subprocess.DEVNULL, stdout=subprocess.PIPE, stderr=subprocess.STDOUT)
        said = ran.stdout.decode(errors="replace")
        if self.begun:
            shutil.rmtree(beside)
        else:
            self.begun = beside
        shutil.rmtree(place)
        if ran.returncode not in (0, 1) or not re.search(r"^logic=|: error", said, re.M):
            raise calls.Bad(f"{self.crate}: the prover gave no verdict, status {ran.returncode}: {said.splitlines()[-3:]}")
        return said

    def begin(self):
        """The work that is kept; there is none before the first text where `rt check` left none."""
        if self.begun is None:
            found = ROOT / "crates" / self.crate / "out/incremental"
            self.begun = found if found.is_dir() and any(found.iterdir()) else None
        return self.begun


def linked(one, other):
    """What was proved the prover replaces, and doesn't write into."""
    if one.endswith(".oantt"):
        try:
            return os.link(one, other)
        except OSError:
            pass
    return shutil.copyfile(one, other)


def jobs():
    """As many at once as there are processors, and room."""
    free = re.search(r"^MemAvailable:\s+(\d+)", pathlib.Path("/proc/meminfo").read_text(), re.M)
    return max(1, min(len(os.sched_getaffinity(0)), int(free.group(1)) // (EACH_TAKES << 20) if free else 1))


def for_each(work, crates, most=None, after_ci=False):
    """What work comes to for each crate, given its prover, in the crates' order."""
    with tempfile.TemporaryDirectory() as made, concurrent.futures.ThreadPoolExecutor(most or jobs()) as pool:
        running = [pool.submit(work, crate, Prover(crate, pathlib.Path(made), after_ci)) for crate in crates]
        yield from ((crate, one.result()) for crate, one in zip(crates, running))
    shrink()


def shrink():
    """Takes away the logs that were made longest ago, where there are too many."""
    try:
        found = sorted(kept_at().iterdir(), key=lambda path: path.stat().st_mtime)
        for path in found[:-MOST_KEPT]:
            path.unlink()
    except OSError:
        pass


PAGE_HEAD = """# Impostors

Wrong replayers that the prover must refuse, each with the rule that it breaks and the declaration that
refuses it: the gate applies the edits of `crates/CRATE/must-fail/` to a copy of the crate, and
`tests/after-proofs/impostors` holds what the prover says to this list: `NAME` is the goal or the lemma, and the file
is that of the proof, or of the answers that the function would have. [PROMISES.md](PROMISES.md) says which
promise each belongs to. Written by `tests/by-hand/impostors-page`.

| crate | impostor | the rule | refused at |
|---|---|---|---|
"""


def page():
    """docs/IMPOSTORS.md."""
    rows = []
    for crate, path in edits():
        for one in read(path)[0]:
            at = "; ".join(f"`{name}` in `{file}`" for file, name in one.refused)
            rows.append(f"| `{crate}` | `{one.label}` | {one.rule} | {at} |\n")
    return PAGE_HEAD + "".join(rows)
