"""What the scripts of bench/ share: running the built programs, and taking their times."""

import os, resource, subprocess, sys, tempfile, threading, time
from contextlib import contextmanager
from dataclasses import dataclass

from messages import ALIVE, STATUS, make_store

TOP = os.path.dirname(os.path.dirname(os.path.abspath(__file__)))
IN_MEMORY = "/dev/shm" if os.path.isdir("/dev/shm") else None  # where a sync costs nothing, if there is such a place


def argument(place, default):
    """The script's argument at this place, a number."""
    return int(sys.argv[place]) if place < len(sys.argv) else default


def built(crate, build):
    """The path of a crate's program."""
    path = f"{TOP}/crates/{crate}/out/{crate}"
    if not os.access(path, os.X_OK):
        sys.exit(f"build it first: {build}")
    return path


@dataclass
class Run:
    passed: float  # seconds that passed
    user: float  # seconds of the processor in the program
    system: float  # seconds of the processor in the system
    numbers: list  # what the program printed


def run(*words):
    """Runs the program `bench` on these words."""
    command = [built("bench", "cd crates/bench && rt run"), *map(str, words)]
    before, start = resource.getrusage(resource.RUSAGE_CHILDREN), time.monotonic()
    reply = subprocess.run(command, check=True, stdout=subprocess.PIPE).stdout
    passed, after = time.monotonic() - start, resource.getrusage(resource.RUSAGE_CHILDREN)
    numbers = [int(word) for word in reply.split()]
    return Run(passed, after.ru_utime - before.ru_utime, after.ru_stime - before.ru_stime, numbers)


def pairs(many, few):
    """Three times a run with many rounds and one with few, whose time is to be taken off."""
    return [(run(*many), run(*few)) for _ in range(3)]


def few_of(count):
    """How few rounds go with so many."""
    few = max(1, count // 1000)
    if count <= few:
        sys.exit("more rounds are needed")
    return few


def nanoseconds(count, *words):
    """Nanoseconds for each of so many rounds: the best of three."""
    few = few_of(count)
    runs = pairs((*words, count), (*words, few))
    return min(many.passed - less.passed for many, less in runs) / (count - few) * 1e9


def rate(count, *words):
    """Megabytes a second over so many rounds, of bytes that the program counts: the best of three; and the bytes of
    one round."""
    runs = pairs((*words, count), (*words, few_of(count)))
    best = max((many.numbers[0] - less.numbers[0]) / (many.passed - less.passed) for many, less in runs)
    return best / 1e6, runs[0][0].numbers[0] // count


@contextmanager
def new_store(place=None):
    """The command that serves a new store, in a folder of its own that goes afterwards."""
    with tempfile.TemporaryDirectory(dir=place) as folder:
        yield make_store(built("metastore", "./demo"), folder)


def peak_of(child):
    """The peak memory of a program that runs, in KiB, or 0 where it has ended."""
    try:
        lines = open(f"/proc/{child.pid}/status").read().splitlines()
        return max([0] + [int(line.split()[1]) for line in lines if line.startswith("VmHWM")])
    except OSError:
        return 0


def processor_of(child):
    """The seconds of the processor that a program which runs has used."""
    fields = open(f"/proc/{child.pid}/stat").read().rpartition(")")[2].split()
    return (int(fields[11]) + int(fields[12])) / os.sysconf("SC_CLK_TCK")


def served(command, messages):
    """Pipes messages through the metastore: its status, the size of its replies, seconds, peak memory in KiB."""
    with tempfile.TemporaryFile() as given, tempfile.TemporaryFile() as replies:
        given.writelines(messages)
        given.flush()
        given.seek(0)
        start, peak = time.monotonic(), 0
        child = subprocess.Popen(command, stdin=given, stdout=replies, stderr=subprocess.DEVNULL)
        while child.poll() is None:
            peak = max(peak, peak_of(child))
            time.sleep(0.0005)
        return child.returncode, replies.seek(0, 2), time.monotonic() - start, peak


def served_anew(messages):
    """The same at a new store."""
    with new_store() as command:
        return served(command, messages)


class Session:
    """A session that is asked piece by piece."""

    def __init__(self, command):
        self.child = subprocess.Popen(command, stdin=subprocess.PIPE, stdout=subprocess.PIPE, bufsize=0)

    def feed(self, given):
        with memoryview(given) as left:
            while left:
                left = left[self.child.stdin.write(left) :]

    def seconds(self, messages):
        """The seconds from the first of these messages to the reply to the last."""
        given, end = b"".join(messages) + STATUS, b""
        feeder = threading.Thread(target=self.feed, args=(given,))
        start = time.monotonic()
        feeder.start()
        while end != ALIVE:
            piece = os.read(self.child.stdout.fileno(), 1 << 20)
            if not piece:
                raise SystemExit(f"a session ended with status {self.child.wait()}")
            end = (end + piece)[-len(ALIVE) :]
        feeder.join()
        return time.monotonic() - start

    def end(self):
        self.child.stdin.close()
        self.child.stdout.close()
        if self.child.wait():
            raise SystemExit(f"a session ended with status {self.child.returncode}")
