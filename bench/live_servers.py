"""The servers that bench/serve measures, the clients that it lets ask them, and what that costs the servers."""

import contextlib
import dataclasses
import os
import pathlib
import resource
import shlex
import subprocess
import sys

BENCH = pathlib.Path(__file__).resolve().parent
TOP = BENCH.parent
sys.path.insert(0, str(TOP / "tools"))

import device_model as model
import tpm_commands as tpm
from built_programs import program
from live_daemon import Daemon

PROGRAM = program()
LIMIT = ("--journal-bytes", "1073741824")
GET_RANDOM = tpm.command("GetRandom", parameters=model.uint16(8))
SECONDS = 120
# How many commands are sent where their cost is measured.
COUNTED = 20_000


@dataclasses.dataclass
class Load:
    """What clients send: each connection the commands in `first` once, and then those in `again`, `batch` at once, for
    so many rounds that there are about `requests` of them over all connections. Where they pass, each round has a
    connection of its own, one command is sent at once, and `first` is empty; a round is made before all others."""

    connections: int
    requests: int
    again: tuple = (GET_RANDOM,)
    first: tuple = ()
    batch: int = 1
    # how many more connections are open
    idle: int = 0
    passes: bool = False

    def commands(self):
        """One round."""
        return self.again * max(1, self.batch // len(self.again))

    def rounds(self):
        return max(1, self.requests // self.connections // len(self.commands()))

    def sent(self):
        return self.connections * self.rounds() * len(self.commands())

    def accepted(self, rounds):
        """How many connections there are in so many rounds."""
        return self.idle + self.connections * (rounds + 1 if self.passes else 1)


@dataclasses.dataclass
class Told:
    """Commands a second; and the microseconds of a batch: the median, the 99th percentile and the most."""

    rate: float
    median: float
    late: float
    most: float


@dataclasses.dataclass
class Cost:
    """What a command cost the server: futex calls, None where nothing counts them; how often a thread gave up its
    processor; and the processor time in microseconds."""

    futexes: float | None
    switches: float
    microseconds: float


def as_it_is(program):
    return program


class Bench:
    """A folder with the compiled clients, a socket's path, and what the clients send. One server runs at a time."""

    def __init__(self, folder):
        self.folder = pathlib.Path(folder)
        self.path = self.folder / "socket"
        self.client = self.folder / "link_client"
        subprocess.run(["cc", "-O2", "-pthread", "-o", self.client, BENCH / "link_client.c"], check=True)
        self.futexes = FutexCounter(self.folder)

    def daemon(self, connections, program=PROGRAM):
        return Daemon(self.path, connections, *LIMIT, program=program)

    def start(self, server, connections, wrapped):
        """The process of "tabrmd", "echo", "line" or "pool", which listens."""
        if server == "tabrmd":
            return self.daemon(connections, wrapped(PROGRAM)).process
        process = subprocess.Popen([wrapped(self.client), server, self.path, str(connections)], stdout=subprocess.PIPE,
                                   stderr=subprocess.PIPE)
        process.stdout.readline()
        return process

    def file_of(self, name, commands):
        path = self.folder / name
        path.write_bytes(b"".join(commands))
        return path

    def ask(self, load, rounds):
        """The seconds that so many rounds took, and the three of the microseconds of a batch."""
        mode, more = ("pass", ()) if load.passes else ("ask", (str(load.batch), self.file_of("first", load.first)))
        words = [self.client, mode, self.path, str(load.connections), str(rounds), *more,
                 self.file_of("again", load.commands())]
        told = subprocess.run(words, check=True, stdout=subprocess.PIPE).stdout
        return [float(word) for word in told.split()]

    def told_by(self, load):
        seconds, median, late, most = self.ask(load, load.rounds())
        return Told(load.sent() / seconds, median, late, most)

    @contextlib.contextmanager
    def held(self, count):
        """Meanwhile so many more connections are open, each of which has had a reply."""
        words = [self.client, "hold", self.path, str(count), self.file_of("held", [GET_RANDOM])]
        with subprocess.Popen(words, stdin=subprocess.PIPE, stdout=subprocess.PIPE) as holder:
            if holder.stdout.readline() != b"held\n":
                sys.exit("not all connections are served at once")
            yield
            holder.stdin.close()

    @contextlib.contextmanager
    def served(self, server, load, rounds, wrapped=as_it_is):
        """Meanwhile a server runs for so many rounds of this load. It ends when all its connections have ended."""
        process = self.start(server, load.accepted(rounds), wrapped)
        with self.held(load.idle) if load.idle else contextlib.nullcontext():
            yield
        finish(process)

    def measure(self, server, load):
        with self.served(server, load, load.rounds()):
            return self.told_by(load)

    def used(self, server, load, rounds):
        """How often the server's threads gave up their processor, and its processor time in microseconds."""
        with self.served(server, load, rounds):
            self.ask(load, rounds)
            before = resource.getrusage(resource.RUSAGE_CHILDREN)
        after = resource.getrusage(resource.RUSAGE_CHILDREN)
        return (after.ru_nvcsw - before.ru_nvcsw,
                1e6 * (after.ru_utime + after.ru_stime - before.ru_utime - before.ru_stime))

    def calls(self, server, load, rounds):
        with self.served(server, load, rounds, self.futexes.wrapped):
            self.ask(load, rounds)
        return self.futexes.count()

    def cost(self, server, load):
        """What runs with some rounds have more than runs with none, of one command."""
        load = dataclasses.replace(load, requests=min(load.requests, COUNTED))

        def of_one(measured):
            return (measured(load.rounds()) - measured(0)) / load.sent()
        calls = of_one(lambda rounds: self.calls(server, load, rounds)) if self.futexes.counter else None
        none, some = (self.used(server, load, rounds) for rounds in (0, load.rounds()))
        return Cost(calls, *((more - less) / load.sent() for less, more in zip(none, some)))


def finish(process):
    _, error = process.communicate(timeout=SECONDS)
    if process.returncode:
        sys.exit(f"a server ended with status {process.returncode}: {error.decode()}")


class FutexCounter:
    """Counts the futex calls of a program by another one, where there is one that can."""

    # What is put before the program, and where the number stands in the line of the file that tells it.
    COUNTERS = (
        ("perf stat -x, -e syscalls:sys_enter_futex -o {} --", lambda line: line.split(",")[0]),
        ("strace -f -c -e trace=futex -o {}", lambda line: line.split()[3]),
    )

    def __init__(self, folder):
        self.told, self.script = folder / "futexes", folder / "counted"
        for self.counter in self.COUNTERS:
            if self.can_count():
                return
        self.counter = None

    def can_count(self):
        tried = subprocess.run([self.wrapped("true")], stderr=subprocess.DEVNULL, check=False)
        try:
            return tried.returncode == 0 and self.count() == 0
        except (OSError, ValueError):
            return False

    def wrapped(self, program):
        """A script that runs the program with the script's words, and has its calls counted."""
        self.told.unlink(missing_ok=True)
        before = self.counter[0].format(shlex.quote(str(self.told)))
        self.script.write_text(f'#!/bin/sh\nexec {before} {shlex.quote(str(program))} "$@"\n', encoding="ascii")
        self.script.chmod(0o755)
        return self.script

    def count(self):
        """How many calls the last program made that ran."""
        lines = [line for line in self.told.read_text(encoding="ascii").splitlines() if "futex" in line]
        # strace has no line for none
        return int(self.counter[1](lines[0])) if lines else 0


@contextlib.contextmanager
def on_processors(count):
    """What is started meanwhile has so many of the processors, or all."""
    had = os.sched_getaffinity(0)
    os.sched_setaffinity(0, sorted(had)[:count])
    yield
    os.sched_setaffinity(0, had)
