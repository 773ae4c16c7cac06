"""Debian packages with fonts, fetched by apt-get into a cache folder: nothing is installed, and apt's own lists stay as they are."""
import collections
import pathlib
import shutil
import subprocess
import tarfile
import threading

from lib.calls import Bad

LIST = pathlib.Path(__file__).resolve().parent / "fonts.txt"

Font = collections.namedtuple("Font", "package file maker")


def listed(path=LIST):
    """The fonts that are to be traced."""
    try:
        lines = pathlib.Path(path).read_text().splitlines()
    except OSError as bad:
        raise Bad(f"{path}: {bad.strerror}") from None
    rows = [[part.strip() for part in line.split("|")] for line in lines if line and not line.startswith("#")]
    for row in rows:
        if len(row) != 3:
            raise Bad(f"{path}: wanted package | file | maker, and there is {' | '.join(row)}")
    return [Font(*row) for row in rows]


class Packages:
    """The packages of a cache folder; what is there isn't fetched again."""

    def __init__(self, cache):
        self.apt, self.debs, self.fonts = cache / "apt", cache / "packages", cache / "fonts"
        self.no_lists, self.fetched, self.one_at_a_time = None, False, threading.Lock()

    def font(self, font):
        """The file of a font, and its package's version."""
        with self.one_at_a_time:
            return self.file_and_version(font)

    def file_and_version(self, font):
        deb = self.package(font.package)
        version = self.output(["dpkg-deb", "--field", str(deb), "Version"], f"{deb.name} can't be read").decode().strip()
        path = self.fonts / deb.stem / font.file
        if not path.is_file():
            self.unpack(deb, font.file, path)
        return path, version

    def package(self, name):
        found = sorted(self.debs.glob(f"{name}_*.deb"))
        return found[-1] if found else self.fetch(name)

    def fetch(self, name):
        """A package, by lists that may be older than the mirror: then they are fetched anew, and it is tried once more."""
        fresh = self.refresh_lists()
        try:
            return self.download(name)
        except Bad:
            if fresh:
                raise
        shutil.rmtree(self.apt / "lists")
        self.refresh_lists()
        return self.download(name)

    def download(self, name):
        coming = self.debs / "coming"
        shutil.rmtree(coming, ignore_errors=True)
        coming.mkdir(parents=True)
        self.output(["apt-get", *self.options(), "download", "--quiet", name], f"the package {name} can't be fetched", coming)
        [deb] = coming.glob("*.deb")
        return deb.rename(self.debs / deb.name)

    def refresh_lists(self):
        """apt's lists, in a folder of their own; whether they are this call's. What can't be fetched is tried once in a call."""
        if self.no_lists:
            raise self.no_lists
        if any((self.apt / "lists").glob("*_Packages*")):
            return self.fetched
        try:
            self.fetch_lists(self.apt / "lists")
        except Bad as bad:
            self.no_lists = bad
            raise
        self.fetched = True
        return True

    def fetch_lists(self, lists):
        (lists / "partial").mkdir(parents=True, exist_ok=True)
        (self.apt / "archives/partial").mkdir(parents=True, exist_ok=True)
        said = self.output(["apt-get", *self.options(), "update"], "apt's lists can't be fetched")
        if not any(lists.glob("*_Packages*")):
            raise Bad(f"apt's lists can't be fetched; is there a network? {last_lines(said)}")

    def options(self):
        apt = self.apt.resolve()
        settings = {"Dir::State::lists": apt / "lists", "Dir::Cache": apt, "Dir::Cache::archives": apt / "archives", "APT::Sandbox::User": ""}
        return [word for name, value in settings.items() for word in ("-o", f"{name}={value}")]

    def unpack(self, deb, name, path):
        """One file out of a package."""
        held = self.output(["dpkg-deb", "--fsys-tarfile", str(deb)], f"{deb.name} can't be unpacked")
        path.parent.mkdir(parents=True, exist_ok=True)
        whole = path.parent / "tar"
        whole.write_bytes(held)
        with tarfile.open(whole) as tar:
            found = [member for member in tar if member.isfile() and pathlib.Path(member.name).name == name]
            if not found:
                whole.unlink()
                raise Bad(f"{deb.name} has no file {name}: another version of the package may")
            unfinished = path.with_suffix(".new")
            unfinished.write_bytes(tar.extractfile(found[0]).read())
        whole.unlink()
        unfinished.rename(path)

    def output(self, words, otherwise, folder=None):
        try:
            ran = subprocess.run(words, stdin=subprocess.DEVNULL, stdout=subprocess.PIPE, stderr=subprocess.PIPE, cwd=folder)
        except FileNotFoundError:
            raise Bad(f"{otherwise}: there is no {words[0]}; fonts are fetched from Debian's packages") from None
        except OSError as bad:
            raise Bad(f"{otherwise}: {bad.strerror}") from None
        if ran.returncode:
            raise Bad(f"{otherwise}: {last_lines(ran.stderr) or f'{words[0]} ended with status {ran.returncode}'}")
        return ran.stdout


def last_lines(said, most=2):
    return " ".join(said.decode(errors="replace").strip().splitlines()[-most:])
