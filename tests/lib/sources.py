"""The public functions of the product's crates, read off their sources."""
import functools
import re

from listed import ROOT, dependencies


class Call:
    def __init__(self, crate, path, name, parameters, returns):
        self.crate, self.path, self.name = crate, path, name
        self.parameters = parameters  # (name, type), in order
        self.returns = returns  # its type, or nothing
        self.requires, self.ensures = [], []  # the clauses' texts, without their names


# The crates that read and write for a program, and those that have the oracle's cases and the tally of them.
SYSTEM, TESTS = ("record_io", "feed_blocks"), ("test_cases", "test_tally")


def product():
    """The crates that are neither tests, which stand on the oracle's cases or on the tally of them, nor what reads and writes for a program: no contract can say
    what the system did."""
    deps = dependencies()

    @functools.lru_cache(maxsize=None)
    def outside(name):
        return name in SYSTEM + TESTS or any(outside(d) for d in deps.get(name, []))
    return [name for name in deps if not outside(name)]


def braced(text, at):
    """The text within the braces that open at this place, and the place behind them."""
    depth = 0
    for k in range(at, len(text)):
        depth += {"{": 1, "}": -1}.get(text[k], 0)
        if depth == 0:
            return text[at + 1:k], k + 1
    raise ValueError("a brace is left open")


def calls(crate):
    """The public functions and methods of a crate, those of its traits among them, in the order of its sources."""
    for path in sorted((ROOT / "crates" / crate / "src").glob("*.rt")):
        text = re.sub(r"//[^\n]*", "", path.read_text())
        # A public trait's methods are public, and have no word for it
        text = re.sub(r"^pub trait .*?^\}", lambda trait: re.sub(r"(?m)^    fn ", "    pub fn ", trait.group(0)), text, flags=re.S | re.M)
        for found in re.finditer(r"\bpub (?:extern \"C\" )?fn (\w+)(?:<[^>]*>)?\(([^)]*)\)", text):
            parameters = [tuple(part.strip() for part in one.split(":", 1)) for one in found.group(2).split(",") if ":" in one]
            returns = re.compile(r"\s*->\s*(.*?)\s*(?=\brequires\b|\bensures\b|\{)", re.S).match(text, found.end())
            call = Call(crate, path.relative_to(ROOT), found.group(1), parameters, returns.group(1) if returns else "")
            at = found.end()
            while True:
                clause = re.compile(r"\s*(requires|ensures)\b[^{]*(?={)").search(text, at)
                body = text.index("{", at)
                if not clause or clause.end() > body or text[at:].lstrip().startswith(";"):
                    break
                inside, at = braced(text, clause.end())
                (call.requires if clause.group(1) == "requires" else call.ensures).append(inside)
            yield call


# A crate is a library or a static library, not both: what C calls stands in a crate of its own, whose calls are those of the library, word for word.
FOR_C = {"exports_c": "exports"}


def as_declared(call):
    """What a caller of a call reads: its parameters, its result and its clauses."""
    return call.parameters, call.returns, [" ".join(one.split()) for one in call.requires], [" ".join(one.split()) for one in call.ensures]


# What users call, beside the direct calls. The calls of PURE are users' too: they are lent no list to change, but for those that are faces for that.
FACES = {"replay": ["run"], "feed": ["feed", "end"], "feed_reader": ["over", "moved", "left", "fed", "feed_from"],
         "exports": ["taleviqa_run", "taleviqa_feed", "taleviqa_feed_end", "taleviqa_outline_begin", "taleviqa_outline_next"],
         "outline_steps": ["begin", "next"], "outline_print": ["print_outline"],
         "record_replay": ["replay"], "record_print": ["print"], "record_read": ["open"], "record_write": ["write"]}
PURE = ("int", "math", "round", "super_round", "flags", "graphics", "projection", "state_words")


def is_changed(kind):
    """Whether a parameter of this type is lent to be changed."""
    return re.match(r"&('\w+ )?mut\b", kind) is not None


def is_direct(call):
    return call.name.startswith("try_")


def faces():
    """The calls of which one outcome is stated call by call."""
    for crate in sorted(product()):
        for call in calls(crate):
            lent = any(is_changed(kind) for _, kind in call.parameters)
            if call.name in FACES.get(crate, ()) or is_direct(call) or (crate in PURE and lent):
                yield call


DIRECT = "crates/laws_direct/proofs/Said.antt"
# The files of laws_outcome with the laws of some crates' faces; those of all others stand in Outcome.antt.
OUTCOMES = {"feed": "Feeds", "feed_reader": "Reader"}


def outcomes(call):
    """The file with the law that a face has one outcome."""
    return f"crates/laws_outcome/proofs/{OUTCOMES.get(call.crate, 'Outcome')}.antt"


def law_of(call):
    """The law in DIRECT on what a direct call says; with _has_one_outcome behind it, that in the face's file of outcomes."""
    return call.name


def stated(path, law):
    """What a public law of a file says, on one line; None where there is no such law."""
    found = re.search(rf"\bpub {law} :(.*?)\n\s*{law}\s", (ROOT / path).read_text(), re.S)
    return found and " ".join(found.group(1).split())


def one_outcome(call):
    """What `NAME_has_one_outcome` must end with: the contract twice, for r₁ and the lists left beside it and for r₂ and its lists, and that the parts are equal."""
    premises, left, answers = [], [], False
    for k in "₁₂":
        for said in call.ensures:
            answers = answers or re.search(r"\bresult\b", said) is not None
            left += [name for name in re.findall(r"\b(\w+)\.new\b", said) if name not in left]
            said = re.sub(r"(?<![\w.])result\b", "r" + k, said)
            said = re.sub(r"(?<![\w.])(\w+)\.new\b", rf"\1{k}", said)
            said = re.sub(r"(?<![\w.])(\w+)\.(?:old|now)\b", r"\1", said)
            said = re.sub(r"(?<![\w.])(\w+)\.entry\b", r"\1", said)  # a struct that holds a slice, and its slice
            said = " ".join(re.sub(r"\((\w+)\)", r"\1", said).split())
            premises.append(f"({said})" if re.match(r"\(\w+ : \w+\) → ", said) else said)  # what holds for each value is one premise
    parts = [f"{name}₁ ≡ {name}₂" for name in ["r"] * answers + left]
    return " → ".join(premises + [parts[0] if len(parts) == 1 else " × ".join(f"({part})" for part in parts)])


def table(asked):
    """The rows of docs/PROMISES.md's table of calls; `asked` has the words that stand there on what a crate's calls ask of their callers."""
    rows = []
    for crate in sorted(product()):
        found = list(calls(crate))
        for path in dict.fromkeys(call.path for call in found):
            here = [call for call in found if call.path == path]
            names = ", ".join(f"`{name}`" for name in dict.fromkeys(call.name for call in here))
            rows.append(f"| {names} in `{path}` | {asked.get(str(path), '')} |".replace("|  |", "| |"))
    return rows


def face_table():
    """The rows of docs/PROMISES.md's table of faces."""
    for call in faces():
        says = f"`{law_of(call)}` in `{DIRECT}`" if is_direct(call) else ""
        yield f"| `{call.name}` in `{call.path}` | `{law_of(call)}_has_one_outcome` in `{outcomes(call)}` | {says} |".replace("|  |", "| |")
