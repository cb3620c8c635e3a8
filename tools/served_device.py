"""A device behind a Unix socket: it takes one connection, answers the commands that come, and keeps them.

    with ServedDevice(path, listed(START)) as device:
        ..                                              # a program runs over `unix:PATH`
    device.commands                                     # what it sent

What it answers is a function of the command: `listed`, `of_model` and `ending_after` make some. It gives the bytes of
the response, SILENCE where none is sent, END where the connection ends instead, or `Last` of them where it ends then.
"""

import re
import socket
import threading
import time

import device_model as model
import tpm_commands as tpm
from live_daemon import SECONDS, read_reply

END, SILENCE = None, b""

SUCCESS = bytes.fromhex("80010000000a00000000")

# What a broker sends at its start: Startup, GetCapability of each of the device's numbers, and of the handles of
# objects, of loaded sessions and of saved ones.
STARTUP = tpm.command("Startup", parameters=bytes(2))
NUMBER_COMMANDS = [tpm.get_capability(6, property_asked, 1) for property_asked in model.NUMBER_PROPERTIES]
LISTS = [tpm.get_capability(1, first, 254) for first in (0x80000000, 0x02000000, 0x03000000)]
BEGUN = [STARTUP, *NUMBER_COMMANDS, *LISTS]

EMPTY_LIST = bytes.fromhex("80010000001300000000000000000100000000")
LIST_HEADER_BYTES = len(EMPTY_LIST)

# What clients are told where a transmission failed, and where an answer is wrong.
DEVICE_FAULT, DEVICE_ANSWER = bytes.fromhex("80010000000a000b0002"), bytes.fromhex("80010000000a000b0004")

# How many bytes a command or a response has, and how long a device waits between two pieces of an answer.
LEAST_BYTES, MOST_BYTES = 10, 4096
PIECE_SECONDS = 0.0002


# What standard error says of a link that failed.
FAILED = re.compile(rb"tabrmd: the connection to the device failed: "
                    rb"(?:it was closed|it can't be read|it can't be written|a response of \d+ bytes)\n")


def failures_in(error):
    """How often standard error says that the link failed, and what else it says."""
    return len(FAILED.findall(error)), FAILED.sub(b"", error)


def told_wrong(command, answer):
    """What standard error says where this answer to this command was wrong."""
    return (f"tabrmd: the device's answer to command 0x{command[6:10].hex()} is wrong: "
            f"response code 0x{answer[6:10].hex()}, {len(answer)} bytes\n").encode()


# ---- answers

class Last(bytes):
    """An answer behind which the device ends the connection."""


def listed(answers, rest=END):
    """Answers with these one after the other, and with `rest` to each later command."""
    left = iter(answers)
    return lambda command: next(left, rest)


def of_model(seed, numbers=model.PROFILE):
    """Answers as a new device with this seed and these numbers."""
    return model.Device(seed, numbers).transmit


def ending_after(count, answer):
    """Answers so many commands, and ends the connection at the next one."""
    left = iter(range(count))
    return lambda command: END if next(left, None) is None else answer(command)


# ---- what a broker sends at its start

def property_answer(property_told, value):
    """The answer that tells this property and nothing else."""
    return bytes.fromhex("80010000001b00000000000000000600000001") + model.uint32(property_told) + model.uint32(value)


def number_answers(numbers):
    """The answers of a device that has these numbers."""
    return list(map(property_answer, model.NUMBER_PROPERTIES, numbers))


# The answers of a device of the profile that holds nothing.
START = [SUCCESS, *number_answers(model.PROFILE), *3 * [EMPTY_LIST]]


def number_in(command, answer):
    """The number that an answer tells, where it is the right answer to a command that asks for one; else None."""
    value = int.from_bytes(answer[-4:], "big")
    right = property_answer(int.from_bytes(command[14:18], "big"), value)
    # between them stands moreData, which may be anything
    is_right = command in NUMBER_COMMANDS and (answer[:10], answer[11:]) == (right[:10], right[11:])
    return value if is_right else None


def handles_of(answer):
    """The handles of a list that a device answered."""
    return [int.from_bytes(answer[place:place + 4], "big") for place in range(LIST_HEADER_BYTES, len(answer), 4)]


def numbers_in(commands, answers):
    """The numbers that a device tells by these answers."""
    return [value for value in map(number_in, commands, answers) if value is not None]


def start_commands(answers):
    """What a broker sends to a device that answers its start so, if it takes all answers."""
    lists = answers[len(BEGUN) - len(LISTS):len(BEGUN)]
    return [*BEGUN, *(tpm.flush(handle) for answer in lists for handle in handles_of(answer))]


# ---- the device

class ServedDevice:
    """A device that listens at this path when this is made, until one connects. `commands` are those that came whole,
    `rest` the bytes behind them, and `answers` what was sent. It sends an answer in pieces of so many bytes. The end of a `with` ends the
    connection."""

    def __init__(self, path, answer, piece=MOST_BYTES + 1):
        self.commands, self.answers, self.rest = [], [], b""
        self._answer, self._piece = answer, piece
        self._link, self._listener = None, socket.socket(socket.AF_UNIX)
        self._listener.bind(str(path))
        self._listener.listen(1)
        self._thread = threading.Thread(target=self._serve, daemon=True)
        self._thread.start()

    def __enter__(self):
        return self

    def __exit__(self, *_):
        self.hang_up()
        self._thread.join(SECONDS)

    def hang_up(self):
        """Ends the connection, or the listening where nobody connected."""
        for end in filter(None, (self._listener, self._link)):
            try:
                end.shutdown(socket.SHUT_RDWR)
            except OSError:
                pass                        # it has ended before

    def _serve(self):
        with self._listener:
            try:
                self._link, _ = self._listener.accept()
            except OSError:
                return
        with self._link:
            try:
                self._answer_all()
            except OSError:
                pass                        # the other end has gone

    def _answer_all(self):
        while is_whole(command := read_reply(self._link)):
            self.commands.append(command)
            answer = self._answer(command)
            if answer is END:
                return
            self._send(answer)
            if isinstance(answer, Last):
                return
        self.rest = command

    def _send(self, answer):
        self.answers.append(answer)
        for place in range(0, len(answer), self._piece):
            if place:
                time.sleep(PIECE_SECONDS)
            self._link.sendall(answer[place:place + self._piece])


def is_whole(frame):
    """Whether a command or a response can come over a link: it has as many bytes as its size field says."""
    return LEAST_BYTES <= len(frame) <= MOST_BYTES and int.from_bytes(frame[2:6], "big") == len(frame)
