"""The program as a daemon, `tabrmd serve`, and its clients' ends of connections."""

import os
import pathlib
import socket
import subprocess
import time

from built_programs import program

PROGRAM = program()
SECONDS = 60


def listeners_at(path):
    """The numbers of the sockets at this path that take connections. It doesn't connect, since that would count as one."""
    found = []
    for line in pathlib.Path("/proc/net/unix").read_text(errors="replace").splitlines()[1:]:
        # the fields are: address, count of uses, protocol, flags, type, state, inode and path
        fields = line.split(None, 7)
        if len(fields) == 8 and fields[7].strip().endswith(str(path)) and int(fields[3], 16) & 0x10000:
            found.append(int(fields[6]))
    return found


def is_listening(path):
    return bool(listeners_at(path))


class Daemon:
    """A daemon of so many connections, over a device in memory of this seed, or over the one that a word names. It
    listens when this is made, or it has ended. `variables` are put into its environment. The end of a `with` kills it if
    it still runs."""

    def __init__(self, path, connections, *words, seed="0" * 64, device=None, program=PROGRAM, output=subprocess.PIPE,
                 umask=-1, preexec_fn=None, variables=None):
        self.path = pathlib.Path(path)
        self.process = subprocess.Popen(
            [program, "serve", "--device", device or f"memory:{seed}", "--socket", str(path), "--connections",
             str(connections), *words],
            stdin=subprocess.DEVNULL, stdout=output, stderr=subprocess.PIPE, umask=umask, preexec_fn=preexec_fn,
            env={**os.environ, **(variables or {})})
        until = time.monotonic() + SECONDS
        while not is_listening(self.path) and self.process.poll() is None:
            if time.monotonic() > until:
                self.kill()
                raise OSError(f"the program doesn't listen at {path}")
            time.sleep(0.005)

    def __enter__(self):
        return self

    def __exit__(self, *_):
        if self.process.poll() is None:
            self.kill()

    def status(self, field):
        """A number that the system tells of the process: `Threads`, or of its KiB of memory `VmRSS` and `VmSize`."""
        for line in pathlib.Path(f"/proc/{self.process.pid}/status").read_text(encoding="ascii").splitlines():
            if line.startswith(f"{field}:"):
                return int(line.split()[1])
        raise OSError("the program has ended")

    def descriptors(self):
        """How many descriptors the process has open."""
        return len(os.listdir(f"/proc/{self.process.pid}/fd"))

    def threads(self):
        """The numbers of its threads."""
        return set(os.listdir(f"/proc/{self.process.pid}/task"))

    def connect(self):
        link = socket.socket(socket.AF_UNIX)
        link.settimeout(SECONDS)
        link.connect(str(self.path))
        return link

    def refuses(self):
        """Whether no client can connect any more. One that can is closed here."""
        try:
            self.connect().close()
        except (ConnectionRefusedError, FileNotFoundError):
            return True
        return False

    def stop(self):
        """Asks it to end, and waits until it has; whether that was done."""
        return subprocess.run([PROGRAM, "stop", "--socket", self.path], stdin=subprocess.DEVNULL, check=False).returncode == 0

    def finish(self, seconds=SECONDS):
        """Waits for the end; status, standard output, and standard error behind the line that says where it listens."""
        try:
            output, error = self.process.communicate(timeout=seconds)
        except subprocess.TimeoutExpired:
            self.kill()
            raise
        return self.process.returncode, output, error.removeprefix(f"tabrmd: listens at {self.path}\n".encode())

    def kill(self):
        self.process.kill()
        self.process.communicate()


def read_exactly(link, count):
    """So many bytes; fewer where the connection ends before."""
    data = b""
    while len(data) < count:
        more = link.recv(count - len(data))
        if not more:
            break
        data += more
    return data


def read_reply(link):
    """The next reply; a part of it, or nothing, where the connection ends."""
    header = read_exactly(link, 6)
    if len(header) < 6:
        return header
    return header + read_exactly(link, int.from_bytes(header[2:], "big") - 6)


def read_rest(link):
    """All bytes until the connection ends."""
    data = []
    while more := link.recv(65536):
        data.append(more)
    return b"".join(data)


def ask(link, command):
    """Sends a command and waits for its reply."""
    link.sendall(command)
    return read_reply(link)
