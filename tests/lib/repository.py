"""A small repository to call the commands in, with no kit on the path and nothing proved: bin/, examples/, a few lines for sources, and a release/ made here of
the programs that rt ci built and `sha256sum`. Whatever is called, no traceback and no nameless file may be said."""
import os
import pathlib
import platform
import shutil
import subprocess
import sys

ROOT = pathlib.Path(__file__).resolve().parent.parent.parent
PROGRAMS = ("outline_record", "replay_record", "write_record")
MANY = "replay_records"

wrong = []


def proved(name):
    """The program that was just proved."""
    return ROOT / "crates" / name / "out" / name


def expect(holds, what):
    if not holds:
        wrong.append(what)


class Repository:
    """A copy of bin/ with what it stands among, and ways to call its commands."""

    calls_made = 0

    def __init__(self, folder):
        self.root, self.tools, self.shelf = folder / "repository", folder / "tools", folder / "shelf"
        for name in ("bin", "examples"):
            shutil.copytree(ROOT / name, self.root / name)
        for crate, file in [("low", "lib.rt"), ("high", "lib.rt")] + [(name, "main.rt") for name in PROGRAMS]:
            (self.root / "crates" / crate / "src").mkdir(parents=True)
            (self.root / "crates" / crate / "src" / file).write_text("// a source\n")
        (self.root / "crates.txt").write_text("# what stands on what\noutline_record: high\nreplay_record: low high\nwrite_record: high\nhigh: low\nlow:\n")
        self.tools.mkdir()
        self.shelf.mkdir()
        for name in ("dirname", "readlink"):
            (self.tools / name).symlink_to(shutil.which(name))
        (self.tools / "python3").symlink_to(sys.executable)
        self.environment = {"PATH": str(self.tools), "TMPDIR": "/no/such/folder"}
        if platform.machine() != "x86_64":  # the emulator is the kit's
            self.environment["RATTLE_HOME"] = str(pathlib.Path(shutil.which("rt")).resolve().parent.parent)
        self.release()

    def release(self, stand_in=None, names=PROGRAMS, many=None):
        """Makes release/ of the proved programs, or with a script in the place of some; with a program for many records, where its bytes are given. Its sums
        are right in any case."""
        shutil.rmtree(self.root / "release", ignore_errors=True)
        (self.root / "release/bin").mkdir(parents=True)
        for name in PROGRAMS:
            program = self.root / "release/bin" / name
            if stand_in is None or name not in names:
                shutil.copy(proved(name), program)
            else:
                program.write_text("#!/bin/sh\n" + stand_in)
            program.chmod(0o755)
        if many is not None:
            (self.root / "release/bin" / MANY).write_bytes(many)
            (self.root / "release/bin" / MANY).chmod(0o755)
        shell = "printf '# sources %s\\n' $(find crates.txt crates -type f -not -path '*/out/*' | LC_ALL=C sort | xargs sha256sum | sha256sum | cut -d' ' -f1) >release/SUMS"
        subprocess.run(["sh", "-c", shell + "; cd release && sha256sum bin/* >>SUMS"], cwd=self.root, check=True)

    def start(self, words, **how):
        how = {"stdin": subprocess.DEVNULL, "stdout": subprocess.PIPE, "stderr": subprocess.PIPE, "env": self.environment, "cwd": self.root, **how}
        return subprocess.Popen([self.root / "bin" / words[0]] + words[1:], **how)

    def say(self, words, status, out=None, said=None, data=None, **how):
        """Calls a command, and holds it to its exit status, what it printed, and each of the parts of what it said on standard error."""
        Repository.calls_made += 1
        started = self.start(words, **({"stdin": subprocess.PIPE} if data is not None else {}), **how)
        printed, told = started.communicate(data)
        told = told or b""
        name = " ".join(os.fsdecode(word) for word in words)
        expect(started.returncode == status, f"{name}: wanted status {status}, got {started.returncode}, and it said {told!r}")
        if out is not None:
            expect(printed == out, f"{name}: wanted {out!r}, printed {printed!r}")
        if said == b"":
            expect(told == b"", f"{name}: wanted nothing on standard error, got {told!r}")
        for part in [said] if isinstance(said, bytes) else said or []:
            expect(part in told, f"{name}: wanted {part!r} on standard error, got {told!r}")
        for never in (b"Traceback", b"None", b"Errno", b"Exception"):
            expect(never not in told, f"{name}: {told!r}")
        return printed

    def put(self, name, data):
        """A file on the shelf."""
        path = self.shelf / name
        path.parent.mkdir(exist_ok=True, parents=True)
        path.write_bytes(data)
        return path
