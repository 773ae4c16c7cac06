"""Work on very many things, a process to a core: batches go out as workers become free, and what comes of them comes back in order."""
import collections
import itertools
import multiprocessing
import os
import signal
import time

from . import calls

ASKING = (signal.SIGINT, signal.SIGTERM, signal.SIGHUP)


def batches(things, most):
    """Things in lists of at most so many."""
    things = iter(things)
    while True:
        batch = list(itertools.islice(things, most))
        if not batch:
            return
        yield batch


def each_in_order(work, things, most):
    """What work gives for each of the things, in their order. It is given lists of at most so many, and gives a list as long. No more lists are held
    than there are workers, however many the things are. Who takes less than all closes it (contextlib.closing), which ends the workers."""
    for done in lists_in_order(work, batches(things, most), len(os.sched_getaffinity(0))):
        yield from done


def lists_in_order(work, lists, cores):
    lists = iter(lists)
    ahead = list(itertools.islice(lists, 2))
    if cores < 2 or len(ahead) < 2:
        yield from (work(one) for one in itertools.chain(ahead, lists))
        return
    workers = collections.deque()
    try:
        for one in itertools.chain(ahead, lists):
            done = None
            if len(workers) < cores:
                workers.append(Worker(work))
            else:
                done = workers[0].take()
                workers.rotate(-1)  # whose turn it was is now the last
            workers[-1].give(one)
            if done is not None:
                yield done
        yield from (worker.take() for worker in workers)
    finally:
        for worker in workers:
            worker.end()


class Worker:
    """A process that does work on each list that it is given."""

    def __init__(self, work):
        self.pipe, its = multiprocessing.Pipe()
        held = signal.pthread_sigmask(signal.SIG_BLOCK, ASKING)  # until the worker goes its own way: it has its parent's work under it
        try:
            self.process = os.fork()
            if not self.process:
                serve(work, self.pipe, its, held)
        finally:
            signal.pthread_sigmask(signal.SIG_SETMASK, held)
        its.close()

    def give(self, one):
        try:
            self.pipe.send(one)
        except OSError:
            raise calls.Bad("a worker ended before its work was done") from None

    def take(self):
        try:
            done = self.pipe.recv()
        except (EOFError, OSError):
            raise calls.Bad("a worker ended before its work was done") from None
        if isinstance(done, Exception):
            raise done
        return done

    def end(self):
        self.pipe.close()
        try:
            os.kill(self.process, signal.SIGTERM)
            os.waitpid(self.process, 0)
        except (ProcessLookupError, ChildProcessError):
            pass


def serve(work, parents, pipe, held):
    """A worker's life: until its pipe is closed, or it is told to end. It never returns. What is asked for at a terminal its parent decides."""
    try:
        try:
            signal.signal(signal.SIGINT, signal.SIG_IGN)
            signal.signal(signal.SIGHUP, signal.SIG_IGN)
            signal.signal(signal.SIGTERM, calls.stop)
            signal.pthread_sigmask(signal.SIG_SETMASK, held)
            parents.close()
            while True:
                pipe.send(outcome(work, pipe.recv()))
        finally:
            # held back, and not ignored: Python says on standard error of a signal that comes while its handler is taken away
            signal.pthread_sigmask(signal.SIG_BLOCK, ASKING)
    except (EOFError, OSError, calls.Stopped):
        pass
    finally:
        os._exit(0)


def outcome(work, one):
    """What work gives, or the exception that it raised, which is its parent's to raise."""
    try:
        return work(one)
    except Exception as bad:
        return bad


class Progress:
    """How far a run is, its rate and when it will end: a line that is written over on a terminal, nothing elsewhere."""

    APART = 0.5  # seconds

    def __init__(self, total):
        self.total, self.done, self.terminal = total, 0, os.isatty(2)
        self.began = self.shown = time.monotonic()

    def count(self, found=1):
        self.done += found
        now = time.monotonic()
        if self.terminal and now - self.shown >= self.APART:
            self.shown = now
            calls.tell(f"\r\033[K{self.line(now)[: (os.get_terminal_size(2).columns or 80) - 1]}")

    def line(self, now):
        rate = self.done / max(now - self.began, 0.001)
        left = max(self.total - self.done, 0) / rate if rate else 0
        ends = time.strftime("%Y-%m-%d %H:%M:%S", time.localtime(time.time() + left))
        return f"{calls.NAME}: {self.done} of {self.total}, {rate:.0f} a second, ends {ends}"

    def clear(self):
        if self.terminal:
            calls.tell("\r\033[K")

    def clear_for_output(self):
        """Where what is written stands on the same terminal."""
        if self.terminal and os.isatty(1):
            self.clear()
