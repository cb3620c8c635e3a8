"""The audit text of the program, as docs/PROTOCOL.md tells it ("Audit text"): its lines, and their entries."""

import itertools
import re
from collections import namedtuple

Entry = namedtuple("Entry", "client number kind pick faults command reply")
KIND = re.compile(r"open|command|canceled:(0|[1-9][0-9]*)|fault|close")
NUMBER = re.compile(r"0|[1-9][0-9]*")
PICK = re.compile(r"-|(session|sequence):(0|[1-9][0-9]*)")
BYTES = re.compile(r"-|([0-9a-f]{2})+")
ENTRY_BYTES = 64                        # of an entry without a command
REPLY_LINE = re.compile(rb"[0-9]+ ([0-9a-f]{2})+\n")


class BadLine(Exception):
    """A line that isn't one of an audit text. Its one argument says why."""


def number_of(word, what, bits):
    if not NUMBER.fullmatch(word):
        raise BadLine(f"{what} isn't a decimal number without needless zeros: {word[:40]}")
    if int(word) >> bits:
        raise BadLine(f"{what} is 2^{bits} or more: {word[:40]}")
    return int(word)


def bytes_of(word, what):
    if not BYTES.fullmatch(word):
        raise BadLine(f"{what} isn't '-' or pairs of hexadecimal digits in lower case: {word[:40]}")
    return b"" if word == "-" else bytes.fromhex(word)


def entry_of(line):
    """The entry of a line, which is bytes with their newline."""
    if not line.endswith(b"\n"):
        raise BadLine("no newline ends it")
    words = line[:-1].decode("ascii", "backslashreplace").split(" ")
    if len(words) != len(Entry._fields):
        raise BadLine(f"it has {len(words)} words, and not {len(Entry._fields)} with one space between two")
    client, number, kind, pick, faults, command, reply = words
    found = KIND.fullmatch(kind)
    if not found:
        raise BadLine(f"KIND is none of open, command, canceled:U, fault, close: {kind[:40]}")
    if found[1]:
        number_of(found[1], "U", 64)
    if not PICK.fullmatch(pick):
        raise BadLine(f"PICK is none of -, session:K, sequence:Q: {pick[:40]}")
    return Entry(number_of(client, "CLIENT", 32), number_of(number, "NUMBER", 64), kind, pick,
                 number_of(faults, "FAULTS", 64), bytes_of(command, "COMMAND"), bytes_of(reply, "REPLY"))


def lines_of(output):
    """The numbered lines of the text in what `run --audit` wrote: behind those of replies."""
    return itertools.dropwhile(lambda pair: REPLY_LINE.fullmatch(pair[1]), enumerate(output, 1))


def line_of(entry):
    """The line of an entry."""
    words = entry._replace(command=entry.command.hex() or "-", reply=entry.reply.hex() or "-")
    return " ".join(map(str, words)).encode() + b"\n"


def canceled_up_to(entry):
    """Up to which number commands were canceled, of a canceled entry."""
    return int(entry.kind.partition(":")[2])


def kept_by(entry):
    """How many bytes an entry counts as."""
    return ENTRY_BYTES + len(entry.command) + len(entry.reply)
