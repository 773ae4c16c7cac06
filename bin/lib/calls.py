"""How a command is called and how it ends: its options, what it reads and writes, its exit status."""
import os
import pathlib
import signal
import sys

# the exit statuses of every command: good; answered otherwise, as with a refusal; a bad call or what can't be done
GOOD, OTHERWISE, CANNOT = 0, 1, 2

ROOT = pathlib.Path(__file__).resolve().parent.parent.parent
NAME = os.path.relpath(os.path.realpath(sys.argv[0]), ROOT)


class Bad(Exception):
    """The call was bad, or it can't be done."""


class Stopped(KeyboardInterrupt):
    """A signal that asks for the end."""


def run(usage, work):
    """Runs a command to its end: work takes the words of the call and gives the exit status."""
    try:
        hold_streams()
        for asking in (signal.SIGINT, signal.SIGTERM, signal.SIGHUP):
            if signal.getsignal(asking) != signal.SIG_IGN:
                signal.signal(asking, stop)
        status = help_or(usage, work, sys.argv[1:])
        close_output()
    except Bad as bad:
        say(bad)
        status = CANNOT
    except OSError as bad:
        say(f"{bad.filename or 'the system'}: {bad.strerror}")
        status = CANNOT
    except Stopped as stopped:
        say("interrupted")
        status = 128 + stopped.args[0]
    sys.exit(status)


def hold_streams():
    """Puts in the place of a standard stream that is closed one that refuses in the same words, so that no file of ours gets its number."""
    for place, refusing in ((0, os.O_WRONLY), (1, os.O_RDONLY), (2, os.O_WRONLY)):
        try:
            os.fstat(place)
        except OSError:
            os.open(os.devnull, refusing)  # takes the lowest number that is free


def stop(number, _):
    raise Stopped(number)


def help_or(usage, work, arguments):
    before = arguments[: arguments.index("--")] if "--" in arguments else arguments
    if "-h" in before or "--help" in before:
        write(usage.strip() + "\n")
        return GOOD
    return work(arguments)


def operands(arguments, options=(), valued=()):
    """What is said by each option that is set, and the other words of a call: '--' ends the options, and '-' is none. An option of `valued` takes
    what stands behind its '=', or the next word, and stands once; the others say nothing."""
    given, words, rest = {}, [], iter(arguments)
    for word in rest:
        option, equals, value = word.partition("=")
        if word == "--":
            words += rest
        elif not word.startswith("-") or word == "-":
            words.append(word)
        elif word in options:
            given[word] = None
        elif option not in valued:
            raise Bad(f"no such option: {word}; --help says more")
        elif option in given:
            raise Bad(f"{option} is given twice; --help says more")
        else:
            given[option] = value if equals else next(rest, None)
            if given[option] is None:
                raise Bad(f"{option} wants a word behind it; --help says more")
    return given, words


def only_file(words, what):
    """The one file that a call may name; '-', standard input, where it names none."""
    if len(words) > 1:
        raise Bad(f"at most one {what}, and there are {len(words)}; --help says more")
    if not words and os.isatty(0):
        raise Bad(f"no {what}, and standard input is a terminal; --help says more")
    return words[0] if words else "-"


def read(name, what, most):
    """The first bytes of a file, or of standard input for '-'; no more than `most` are asked for."""
    if not name:
        raise Bad(f"the name of the {what} is empty")
    try:
        place = 0 if name == "-" else os.open(name, os.O_RDONLY | os.O_CLOEXEC)
        try:
            held = bytearray()
            while len(held) < most:
                part = os.read(place, min(most - len(held), 1 << 16))
                if not part:
                    break
                held += part
            return bytes(held)
        finally:
            if place:
                os.close(place)
    except OSError as bad:
        raise Bad(f"{'standard input' if name == '-' else name}: {bad.strerror}") from None


def blocks(name, what, most):
    """A file, or standard input for '-', by the block as it arrives."""
    if not name:
        raise Bad(f"the name of the {what} is empty")
    try:
        place = 0 if name == "-" else os.open(name, os.O_RDONLY | os.O_CLOEXEC)
        try:
            while True:
                part = os.read(place, most)
                if not part:
                    return
                yield part
        finally:
            if place:
                os.close(place)
    except OSError as bad:
        raise Bad(f"{'standard input' if name == '-' else name}: {bad.strerror}") from None


def write_all(place, data):
    while data:
        data = data[os.write(place, data) :]


def write(output):
    """Writes text or bytes to standard output, the whole of it."""
    try:
        write_all(1, encoded(output))
    except OSError as bad:
        raise Bad(f"standard output: {bad.strerror}; what was written is not whole") from None


def close_output():
    """The last that a failing disk can say of what was written, it says here."""
    try:
        os.close(1)
    except OSError as bad:
        raise Bad(f"standard output: {bad.strerror}; what was written may not be whole") from None


def refuse_terminal(how, what="a record"):
    if os.isatty(1):
        raise Bad(f"{what} is no text for a terminal: redirect it to a file, {how}")


def say(text):
    """A line on standard error."""
    tell(f"{NAME}: {text}\n")


def tell(text):
    """Text on standard error, where that takes it: the exit status says how it ended too."""
    try:
        write_all(2, encoded(text))
    except OSError:
        pass


def encoded(text):
    """A file's name comes out as the bytes that it went in as."""
    return text if isinstance(text, bytes) else os.fsencode(text)
