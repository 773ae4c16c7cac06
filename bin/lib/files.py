"""Files that come new, as a kept print or a fingerprint: none is ever written over, and none is there before it is whole. And files that change while they are read."""
import contextlib
import errno
import os
import stat

from . import calls

# what a file system says that has no second names for a file
NO_LINKS = (errno.EPERM, errno.ENOTSUP, errno.EOPNOTSUPP, errno.ENOSYS)


def refuse_existing(name, what):
    if os.path.lexists(name):
        raise calls.Bad(f"{name} is there already, and a kept {what} is never overwritten")


@contextlib.contextmanager
def new(name, what):
    """A way to write a file that isn't there: it is written beside its name, so that a failure leaves no half of it, and named when it is whole."""
    refuse_existing(name, what)
    beside = os.path.join(os.path.dirname(name), f".{os.getpid()}.{os.urandom(4).hex()}.part")
    try:
        place = os.open(beside, os.O_WRONLY | os.O_CREAT | os.O_EXCL | os.O_CLOEXEC, 0o666)
        try:
            try:
                yield lambda data: calls.write_all(place, data)
                os.fsync(place)
            finally:
                os.close(place)
            name_as(beside, name)
        finally:
            if os.path.lexists(beside):
                os.unlink(beside)
    except FileExistsError:
        raise calls.Bad(f"{name} is there already, and a kept {what} is never overwritten") from None
    except OSError as bad:
        raise calls.Bad(f"{name}: {bad.strerror}; nothing is kept") from None


def name_as(beside, name):
    """Unlike a rename, a second name never takes the place of a file that came meanwhile."""
    try:
        os.link(beside, name)
    except OSError as bad:
        if bad.errno not in NO_LINKS:
            raise
        os.rename(beside, name)


# ---- records as they are read


def read_marked(name, what, most):
    """The bytes of a file and the mark that it had before, which tells it from any that takes its place or is written into it; no mark where it is no plain
    file. Who has done with the bytes holds the file to its mark."""
    if not name or name == "-":
        return calls.read(name, what, most), None
    before = mark_of(name)
    return calls.read(name, what, most), before


def mark_of(name):
    try:
        found = os.stat(name)
    except OSError as bad:
        raise calls.Bad(f"{name}: {bad.strerror}") from None
    if not stat.S_ISREG(found.st_mode):
        return None
    return [found.st_dev, found.st_ino, found.st_size, found.st_mtime_ns, found.st_ctime_ns]


def hold_mark(name, mark):
    if mark and mark_of(name) != mark:
        raise calls.Bad(f"{name}: it was changed or replaced while it was read or replayed; check it again")
