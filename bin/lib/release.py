"""The folder release/: the proved programs and the static library as the sources build them, and their sums."""
import hashlib
import os
import shutil
import subprocess

from . import kit, programs
from .calls import ROOT, Bad
from .programs import RELEASE

PROGRAMS = ["feed_sheet", "outline_record", "replay_record", "replay_records", "write_record"]
LIBRARY, ARCHIVE = "exports_c", "lib/libtaleviqa.a"
SUMS = """\
# Built from the proved sources by bin/release. `sha256sum -c SUMS` in this folder holds each file to its sum.
# sources {sources}
# is what `find crates.txt crates -type f -not -path '*/out/*' | LC_ALL=C sort | xargs sha256sum | sha256sum` prints above this folder.
# kit {kit}
"""


def made():
    """Each file of the folder, by its path below it, as the sources build it: proved first where that isn't done."""
    for name in PROGRAMS + [LIBRARY]:
        if not programs.is_built(name):
            programs.build(name, "release/ is made of what is proved")
    files = {f"bin/{name}": programs.built(name).read_bytes() for name in PROGRAMS}
    files[ARCHIVE] = programs.built(LIBRARY).read_bytes()
    lines = [f"{hashlib.sha256(data).hexdigest()}  {path}\n" for path, data in files.items()]
    files["SUMS"] = (SUMS.format(sources=programs.sources_sum(), kit=version()) + "".join(lines)).encode()
    return files


def version():
    try:
        return subprocess.run(["rt", "version"], stdout=subprocess.PIPE, universal_newlines=True).stdout.split("\n")[0].strip()
    except OSError:
        raise Bad("no 'rt' to say which kit built release/: install the Rattle kit and put its 'rt' on the path") from None


def build_library():
    """Builds the static library, which rt ci proves and doesn't build, over the libraries that rt ci has just left beside their crates; where it put older ones back,
    rt does it."""
    if not kit.left_by_ci(LIBRARY):
        programs.build(LIBRARY, "rt ci proves the static library, and doesn't build it")
        return
    programs.built(LIBRARY).parent.mkdir(exist_ok=True)
    words = kit.words("build", LIBRARY) + ["--toolchain", kit.home() / "toolchain", "--backend", "llvm", "-o", programs.built(LIBRARY)]
    ran = subprocess.run(words, cwd=ROOT / "crates" / LIBRARY, stdin=subprocess.DEVNULL, stdout=subprocess.PIPE, stderr=subprocess.STDOUT)
    said = ran.stdout.decode(errors="replace").splitlines()
    if ran.returncode or not said or not said[-1].startswith("logic=proved "):
        raise Bad("\n".join([f"crates/{LIBRARY} was not built:"] + said[-5:]))
    programs.note(LIBRARY)


def mode_of(path):
    return 0o755 if path.startswith("bin/") else 0o644


def differences(files, folder=RELEASE):
    """What is not in a folder as it should be, a line each."""
    found = {path.relative_to(folder).as_posix(): path for path in folder.rglob("*") if not path.is_dir()}
    for path in sorted(files.keys() | found.keys()):
        if path not in found:
            yield f"{path} is missing"
        elif path not in files:
            yield f"{path} is none of it"
        elif found[path].read_bytes() != files[path]:
            yield f"{path} is not what the sources build to"
        elif mode_of(path) & 0o111 and not os.access(found[path], os.X_OK):
            yield f"{path} may not be executed"


def write(files):
    """Writes the folder beside, then puts it in place."""
    beside, old = RELEASE.with_name("release.new"), RELEASE.with_name("release.old")
    try:
        for folder in (beside, old):
            shutil.rmtree(folder, ignore_errors=True)
        for path, data in files.items():
            (beside / path).parent.mkdir(parents=True, exist_ok=True)
            (beside / path).write_bytes(data)
            (beside / path).chmod(mode_of(path))
        if RELEASE.exists():
            RELEASE.rename(old)
        beside.rename(RELEASE)
        shutil.rmtree(old, ignore_errors=True)
    except OSError as bad:
        shutil.rmtree(beside, ignore_errors=True)
        raise Bad(f"{bad.filename or RELEASE}: {bad.strerror}") from None
