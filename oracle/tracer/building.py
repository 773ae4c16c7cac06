"""Builds the tracer, FreeType's own interpreter with calls into it, and the program around the proved library."""
import hashlib
import os
import pathlib
import shutil
import subprocess

import hooks
import opcode_table
from lib import programs as proved
from lib.calls import ROOT, Bad

HERE = pathlib.Path(__file__).resolve().parent
LIBRARY = proved.RELEASE / "lib/libtaleviqa.a"
FETCH = HERE.parent / "freetype/fetch"
TREE = HERE.parent / "freetype/tree/freetype-2.13.3"
VERSION = "2.13.3"

MODULES = """\
FT_USE_MODULE( FT_Driver_ClassRec, tt_driver_class )
FT_USE_MODULE( FT_Module_Class, psnames_module_class )
FT_USE_MODULE( FT_Module_Class, sfnt_module_class )
FT_USE_MODULE( FT_Renderer_Class, ft_smooth_renderer_class )
"""
# the files that hold those modules, and what they stand on
PARTS = ["base/ftsystem", "base/ftinit", "base/ftdebug", "base/ftbase", "base/ftbitmap", "base/ftmm", "sfnt/sfnt", "smooth/smooth", "psnames/psnames", "gzip/ftgzip"]
OURS = ["follow.c", "lower.c", "record.c", "main.c"]
# overflow that FreeType doesn't guard against is undefined in C; here it wraps
FLAGS = ["-std=gnu11", "-O2", "-fwrapv", "-DFT2_BUILD_LIBRARY", "-DFT_CONFIG_MODULES_H=<ftmodule.h>"]
STRICT = ["-Wall", "-Wextra", "-Werror", "-Wno-unused-parameter"]


def freetype(named):
    """The folder of FreeType's source: the one that is named, in the call or by TALEVIQA_FREETYPE, or the one that oracle/freetype/fetch makes."""
    named = named or os.environ.get("TALEVIQA_FREETYPE")
    tree = pathlib.Path(named) if named else TREE
    if not named and not (tree / "src/truetype/ttinterp.c").is_file():
        run([str(FETCH), "tree"], "FreeType's source can't be fetched; --freetype names a folder that has it")
    if not (tree / "src/truetype/ttinterp.c").is_file():
        raise Bad(f"no FreeType at {tree}: it must be the folder that holds src/truetype/ttinterp.c")
    hold_version(tree)
    return tree


def hold_version(tree):
    text = (tree / "include/freetype/freetype.h").read_text()
    for name, number in zip(("MAJOR", "MINOR", "PATCH"), VERSION.split(".")):
        if f"#define FREETYPE_{name}  {number}\n" not in text:
            raise Bad(f"{tree} is not FreeType {VERSION}")


def run(words, otherwise):
    try:
        ran = subprocess.run(words, stdin=subprocess.DEVNULL, stdout=subprocess.PIPE, stderr=subprocess.STDOUT)
    except OSError as bad:
        raise Bad(f"{otherwise}: {words[0]}: {bad.strerror}") from None
    if ran.returncode:
        said = ran.stdout.decode(errors="replace").strip()
        raise Bad(f"{otherwise}: {' '.join(said.splitlines()[-3:]) or f'status {ran.returncode}'}")


def sum_of(paths):
    total = hashlib.sha256()
    for path in paths:
        total.update(hashlib.sha256(path.read_bytes()).digest())
    return total.hexdigest()


def made_from(tree):
    """The sum of all that decides what the tracer says."""
    ours = [HERE / name for name in OURS + ["trace.h"]]
    theirs = [path for path in sorted((tree / "src/truetype").glob("*.[ch]")) if path.name != "ttinterp.c"]
    texts = [opcode_table.included(), hooked(tree), " ".join(FLAGS)]
    return hashlib.sha256(" ".join([sum_of(ours + theirs + [tree / "src/base/ftcalc.c"]), *texts]).encode()).hexdigest()


def hooked(tree):
    """FreeType's interpreter with the tracer's calls."""
    try:
        return hooks.hooked((tree / "src/truetype/ttinterp.c").read_text())
    except ValueError as bad:
        raise Bad(str(bad)) from None


def tracer(named, folder):
    """The tracer, built in the folder if it isn't there as it must be, and the sum of what it was made from."""
    if not shutil.which("gcc"):
        raise Bad("there is no gcc to build the tracer with")
    tree = freetype(named)
    total = made_from(tree)
    built = folder / f"tracer-{total[:16]}"
    if not (built / "trace").is_file():
        build_tracer(tree, built)
    return built / "trace", total


def build_tracer(tree, built):
    built.mkdir(parents=True, exist_ok=True)
    (built / "ftmodule.h").write_text(MODULES)
    (built / "opcodes.inc").write_text(opcode_table.included())
    # the interpreter's folder is compiled as one file, which includes the others by their names
    copy = built / "truetype"
    shutil.copytree(tree / "src/truetype", copy, dirs_exist_ok=True)
    (copy / "ttinterp.c").write_text(hooked(tree))
    seen = [f"-I{folder}" for folder in (built, HERE, copy, tree / "include")]
    parts = [str(tree / "src" / f"{part}.c") for part in PARTS] + [str(copy / "truetype.c")]
    objects = []
    for source in parts + [str(HERE / name) for name in OURS]:
        objects.append(str(built / (pathlib.Path(source).stem + ".o")))
        strict = STRICT if pathlib.Path(source).parent == HERE else ["-w"]
        run(["gcc", *FLAGS, *strict, *seen, "-c", source, "-o", objects[-1]], f"{source} can't be compiled")
    unfinished = built / "trace.new"
    run(["gcc", "-o", str(unfinished), *objects], "the tracer can't be linked")
    unfinished.rename(built / "trace")


def hold_library():
    """The library has to be what the sources that stand here build to."""
    sums, name = proved.read_sums(), LIBRARY.relative_to(proved.RELEASE)
    if proved.sum_of(LIBRARY) != sums.get(str(name), "") or proved.sources_sum() != sums.get("sources"):
        raise Bad(f"release/{name} isn't there, or not of these sources: 'bin/release' makes it")


def leaver(folder):
    """The program around the proved library, and the library's sum."""
    hold_library()
    source, total = HERE / "leave.c", sum_of([LIBRARY, HERE / "leave.c", ROOT / "include/taleviqa.h"])
    built = folder / f"leave-{total[:16]}"
    if not built.is_file():
        folder.mkdir(parents=True, exist_ok=True)
        unfinished = built.with_suffix(".new")
        run(["gcc", "-std=gnu11", "-O2", *STRICT, f"-I{ROOT / 'include'}", str(source), str(LIBRARY), "-o", str(unfinished)], "leave.c can't be built")
        unfinished.rename(built)
    return built, total
