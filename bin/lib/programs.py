"""The proved programs: those of release/ where its sums are right, else proved and built here; and what they say of a record."""
import contextlib
import functools
import hashlib
import os
import pathlib
import platform
import re
import select
import shutil
import signal
import subprocess
import time

from . import kit, outline, record
from .calls import NAME, ROOT, Bad, Stopped, encoded, say, tell, write_all

RELEASE = ROOT / "release"
# where what was proved and built here is noted, and what rt said
TARGET = ROOT / "target"
LOADER = "/lib64/ld-linux-x86-64.so.2"
# the program that replays a record, and the one that replays many, each in a frame: its length in four bytes, the low one first, and the record
ONE, MANY = "replay_record", "replay_records"
# the one that feeds the sheet behind such a frame, as it arrives
FEED = "feed_sheet"
BLOCK = 1 << 16
FRAME_BYTES = 4


# ---- what a replay says


def replay(data, rules):
    """The four numbers of a record's answer under the rules of a name, and all that is printed."""
    printed = run(ONE, data, rules)
    return record.answer_in(data, printed), printed


def replay_each(records, rules):
    """For each record the number of its answer and all that is printed, or a Bad that says why there is none. They go through one process where the
    program for many is there; what that leaves of a batch other than an answer to each frame, none of the batch is taken from."""
    if not batch_program():
        return [replayed_or_bad(data, lambda data=data: run(ONE, data, rules)) for data in records]
    try:
        answers = unframed(run(MANY, b"".join(framed(data) for data in records), rules), len(records))
    except Bad as bad:
        return [bad] * len(records)
    return [replayed_or_bad(data, lambda answer=answer: answer) for data, answer in zip(records, answers)]


def replayed_or_bad(data, printed):
    try:
        text = printed()
        return record.answer_in(data, text)[0], text
    except Bad as bad:
        return bad


def framed(data):
    return len(data).to_bytes(FRAME_BYTES, "little") + data


def unframed(stream, wanted):
    """The answers in a stream, one for each frame that was sent."""
    answers, at = [], 0
    while at < len(stream):
        start = at + FRAME_BYTES
        at = start + int.from_bytes(stream[at:start], "little")
        answers.append(stream[start:at])
    if at != len(stream) or len(answers) != wanted:
        raise Bad(f"{MANY} was sent {wanted} records, and what it wrote is not an answer to each: {len(answers)} answers in {len(stream)} bytes")
    return answers


def replayer():
    """The program that replays many records, or that for one where there is none, and the sum of its file."""
    name = MANY if batch_program() else ONE
    return name, sum_of(program(name))


def rewrite(data, rules):
    """The record as it stands after its replay under the rules of a name; nothing where it is refused."""
    written = run("write_record", data, rules)
    if written:
        record.hold_rewritten(data, written)
    return written


def outlined(data, rules):
    """The outline of a record's glyph after its replay under the rules of a name, or why there is none."""
    return outline.whole(data, run("outline_record", data, rules))


def fed(data, blocks, rules):
    """The four numbers of the answer to a record that a sheet's blocks are fed to, and all that is printed. A block is sent when it is there; none after a
    refusal, which ends the program."""
    with starting(FEED):
        running = subprocess.Popen(command(FEED) + [rules], stdin=subprocess.PIPE, stdout=subprocess.PIPE, stderr=subprocess.PIPE, env=environment())
    try:
        write_all(running.stdin.fileno(), framed(data))
        for block in blocks:
            write_all(running.stdin.fileno(), block)
    except BrokenPipeError:
        pass
    except BaseException:
        running.kill()
        running.communicate()
        raise
    printed = whole_output(FEED, running, *running.communicate())
    return record.answer_in(data, printed), printed


def run(name, data, rules):
    """What a program writes on a record. A name of rules that it doesn't know it tells on standard error."""
    with starting(name):
        ran = subprocess.run(command(name) + [rules], input=data, stdout=subprocess.PIPE, stderr=subprocess.PIPE, env=environment())
    return whole_output(name, ran, ran.stdout, ran.stderr)


@contextlib.contextmanager
def starting(name):
    shown = program(name).relative_to(ROOT)
    try:
        yield
    except OSError as bad:
        raise Bad(f"{shown} can't be started: {bad.strerror}") from None


def whole_output(name, ran, output, errors):
    """What a program wrote that has ended, once it is seen that nothing went wrong."""
    shown = program(name).relative_to(ROOT)
    said = errors.decode(errors="replace").strip()
    if ran.returncode < 0:
        stack = "; it needs a stack of 512 KiB (ulimit -s)" if ran.returncode == -signal.SIGSEGV else ""
        raise Bad(f"{shown} was ended by {signal.Signals(-ran.returncode).name}{stack}")
    if ran.returncode or said:
        raise Bad(f"{shown} ended with status {ran.returncode}{': ' if said else ''}{said}")
    return output


@functools.lru_cache(None)
def command(name):
    """The words that run a program here. Programs are for x86-64: elsewhere a kit may have an emulator and a loader."""
    path = str(program(name))
    if platform.machine() == "x86_64" and os.path.exists(LOADER):
        return [path]
    tools = kit.home() / "on" / platform.machine() / "toolchain"
    loader, emulator = tools / "lib/ld-linux-x86-64.so.2", tools / "bin/qemu-x86_64"
    if not loader.exists():
        raise Bad("a program for x86-64 can't run here without the Rattle kit: put its 'rt' on the path, or set RATTLE_HOME")
    return ([str(emulator)] if os.access(emulator, os.X_OK) else []) + [str(loader), "--library-path", str(tools / "lib"), path]


def environment():
    """Without what would change the emulator's doings."""
    return {name: value for name, value in os.environ.items() if not name.startswith("QEMU_")}


# ---- which program that is


@functools.lru_cache(None)
def program(name):
    """The file of a proved program, made of the sources as they stand."""
    why = unreleased(name)
    if not why:
        return RELEASE / "bin" / name
    if not is_built(name):
        build(name, why)
    return built(name)


@functools.lru_cache(None)
def batch_program():
    """Whether there is a program for many records. It saves time and says nothing else, so it is not proved and built where it isn't there."""
    return not unreleased(MANY) or is_built(MANY)


def unreleased(name):
    """Why the program in release/ is not to be used; nothing where it is."""
    sums = read_sums()
    path = RELEASE / "bin" / name
    if not sums:
        return "there is no release/SUMS"
    if sum_of(path) is None or sum_of(path) != sums.get(f"bin/{name}"):
        return f"release/bin/{name} is not the one that release/SUMS says"
    if not os.access(path, os.X_OK):
        return f"release/bin/{name} may not be executed"
    if sources_sum() != sums.get("sources"):
        return "crates.txt and crates/ are not what release/ was built from"
    return ""


def read_sums():
    """release/SUMS: the sum of each artefact by its path below release/, and that of the sources."""
    try:
        lines = (RELEASE / "SUMS").read_text().splitlines()
    except (OSError, UnicodeDecodeError):
        return {}
    sums = {}
    for line in lines:
        words = line.lstrip("# ").split()
        if words[:1] == ["sources"]:
            sums["sources"] = words[1]
        elif not line.startswith("#") and len(words) == 2:
            sums[words[1]] = words[0]
    return sums


def sum_of(path):
    """A file's sum; None where it can't be read."""
    try:
        return hashlib.sha256(path.read_bytes()).hexdigest()
    except OSError:
        return None


@functools.lru_cache(None)
def sources_sum():
    """The sum over `sha256sum` of crates.txt and each file below crates/, in the order of their names; what rt makes of them, in out/, is none of them."""
    files = [ROOT / "crates.txt"]
    for folder, folders, names in os.walk(ROOT / "crates"):
        folders[:] = [one for one in folders if one != "out"]
        files += [pathlib.Path(folder, name) for name in names]
    lines = [f"{sum_of(path)}  {path.relative_to(ROOT).as_posix()}\n" for path in files]
    return hashlib.sha256(encoded("".join(sorted(lines, key=lambda line: encoded(line[66:]))))).hexdigest()


# ---- proving and building


def is_library(name):
    return (ROOT / "crates" / name / "src/lib.rt").exists()


def built(name):
    """Where rt leaves a program, or a static library."""
    return ROOT / "crates" / name / "out" / (f"lib{name}.a" if is_library(name) else name)


def is_there(name):
    return os.access(built(name), os.R_OK if is_library(name) else os.X_OK)


def note_of(name):
    """What a program was built from is noted: another text's proof says nothing of this one."""
    return TARGET / (name + ".sums"), f"{sources_sum()} {sum_of(built(name))}\n"


def is_built(name):
    path, wanted = note_of(name)
    try:
        return path.read_text() == wanted and is_there(name)
    except OSError:
        return False


def note(name):
    """Notes that a program was proved and built from the sources as they stand."""
    path, text = note_of(name)
    path.parent.mkdir(exist_ok=True)
    path.write_text(text)


def build(name, why):
    """Proves and links a program, or a static library, and shows how far that is. rt starts a program that it has built: it gets no input."""
    verb = "lib" if is_library(name) else "run"
    ask_rt(verb, name, why)
    if not is_there(name):
        raise Bad(f"rt {verb} left no {built(name).relative_to(ROOT)}")
    note(name)


def ask_rt(verb, name, why):
    """Has rt prove and build a crate, what it says in a log, with a line that shows the crate under way."""
    if not shutil.which("rt"):
        raise Bad(f"{why}, and no 'rt' to prove and build {name}: install the Rattle kit and put its 'rt' on the path")
    say(f"{why}: proving and building {name}; it takes a quarter of an hour or more where nothing is proved yet")
    log = TARGET / (name + ".log")
    try:
        log.parent.mkdir(exist_ok=True)
        with open(log, "wb") as out:
            status = watched(["rt", verb], ROOT / "crates" / name, out, Progress(kit.order_of(name), log))
    except OSError as bad:
        raise Bad(f"{bad.filename or log}: {bad.strerror}") from None
    if status:
        for line in log.read_bytes().splitlines()[-5:]:
            say(line.decode(errors="replace"))
        raise Bad(f"rt {verb} failed in crates/{name}; all that it said is in {log}")


def watched(words, folder, out, progress):
    """Runs rt to its end, or ends it. It has a process group of its own, so that its provers end with it."""
    rt = subprocess.Popen(words, cwd=folder, stdin=subprocess.DEVNULL, stdout=subprocess.PIPE, stderr=subprocess.STDOUT, start_new_session=True)
    try:
        watch(rt, out, progress)
    except BaseException as ended:
        end_group(rt)
        progress.close()
        if isinstance(ended, Stopped):
            say(f"stopped at {progress.at()}; what is proved stays proved, and {NAME} called again goes on from there")
        raise
    progress.close()
    return rt.returncode


def watch(rt, out, progress):
    """Takes what rt says to the log, and counts the crates that it has done with."""
    held = b""
    while True:
        if select.select([rt.stdout], [], [], 1)[0]:
            part = os.read(rt.stdout.fileno(), 65536)
            if not part:
                break
            write_all(out.fileno(), part)
            *lines, held = (held + part).split(b"\n")
            for line in lines:
                progress.take(line)
        progress.show()
    rt.wait()


def end_group(rt):
    for asking in (signal.SIGTERM, signal.SIGKILL):
        try:
            os.killpg(rt.pid, asking)
            rt.wait(5)
        except (ProcessLookupError, subprocess.TimeoutExpired):
            pass


class Progress:
    """Which crate of how many is under way: one line that is written over on a terminal, a line now and then elsewhere."""

    APART = 15  # seconds between lines where there is no terminal

    def __init__(self, crates, log):
        self.crates, self.log, self.done = crates, os.path.relpath(log), 0
        self.began = self.shown = time.monotonic()
        self.terminal = os.isatty(2)

    def take(self, line):
        """rt names each crate that it begins with, and passes over what an earlier call built."""
        begun = re.match(rb"rt: (?:chose --jobs \d+ for (\w+)|(\w+): begins with )", line)
        name = begun and (begun.group(1) or begun.group(2)).decode()
        if name in self.crates:
            self.done = max(self.done, self.crates.index(name))

    def at(self):
        return f"crate {self.done + 1} of {len(self.crates)}, {self.crates[self.done]}"

    def show(self):
        now = time.monotonic()
        text = f"{NAME}: {self.at()}, {now - self.began:.0f} s; log: {self.log}"
        if self.terminal:
            tell(f"\r\033[K{text[: (os.get_terminal_size(2).columns or 80) - 1]}")
        elif now - self.shown >= self.APART:
            tell(text + "\n")
            self.shown = now

    def close(self):
        if self.terminal:
            tell("\r\033[K")
