"""Hostile bytes for the readers of the program: commands, their text and answers with changes, and random bytes."""

import functools
import random

import device_model as model
import tpm_commands as tpm
from device_model import uint16, uint32
from link_journal import SEED
from other_tools import load_tool
from random_commands import RandomCommands
from served_device import LEAST_BYTES, MOST_BYTES

judge = load_tool("judge_audit")

# The commands of one client, from which the hostile ones are made: how many such talks there are, and how long they are.
TALKS, TALK_COMMANDS = 300, 24
WEIGHTS = dict.fromkeys(("random", "primary", "create", "load", "unseal", "hmac", "read_public", "start", "policy",
                         "policy_secret", "pcr", "index", "flush", "save", "give_back", "capability", "other"), 1)

# Where fields begin (tag, size, code, first handle, what follows it), and numbers at the limits of what they may be.
FIELDS = (0, 2, 6, 10, 14)
LIMITS = (0, 1, 2, 63, 64, 65, 255, 256, 2048, 4095, 4096, 0x7FFF, 0xFFFF, 0x01000000, 0x02000000, 0x03000001,
          0x40000001, 0x40000007, 0x40000009, 0x80000000, 0x80000002, 0x80000FFF, 0x81000000, 2 ** 31 - 1, 2 ** 32 - 1)
BAD_SIZES = (0, LEAST_BYTES - 1, MOST_BYTES + 1, 2 ** 32 - 1)
ALPHABETS = (bytes(range(256)), b"0123456789abcdefABCDEF", b"01 0a close\r\n", b"\n", b"7")
LABELS = (0, 1, 7, 10, 2 ** 32 - 1)


@functools.cache
def talk(number):
    """Commands of a client that is alone."""
    world = model.World(bytes.fromhex(SEED))
    commands = RandomCommands(random.Random(number), world)
    made = []
    while len(made) < TALK_COMMANDS:
        command = commands.choose(0, WEIGHTS)
        if command:
            made.append(command)
            reply = world.command(0, command)
            if tpm.succeeded(reply):
                commands.learn(0, command, reply)
    return made


def changed(rng, data):
    """The bytes with others at one place: some may be left out, and some put in."""
    at = rng.choice((*FIELDS, *len(FIELDS) * [rng.randrange(len(data) + 1)]))
    old = data[at:at + rng.choice((0, 1, 2, 4, 40, len(data)))]
    new = rng.choice((b"", data, bytes(byte ^ 1 << rng.randrange(8) for byte in old), uint32(rng.choice(LIMITS)),
                      uint16(rng.choice(LIMITS) & 0xFFFF), rng.randbytes(rng.choice((1, 2, 4, 40, 400)))))
    return data[:at] + new + data[at + len(old):]


def hostile_frame(rng, frame, missized):
    """The frame with some changes. `missized` says how often its size isn't right, from 0 to 1."""
    for _ in range(rng.randrange(1, 4)):
        frame = changed(rng, frame)
    if rng.random() < missized:
        size = rng.choice((None, *BAD_SIZES, len(frame) + 1, len(frame) - 1, rng.randrange(2 * MOST_BYTES)))
        return frame if size is None else frame[:2] + uint32(size % 2 ** 32) + frame[6:]
    frame = frame[:MOST_BYTES].ljust(LEAST_BYTES, b"\0")
    return frame[:2] + uint32(len(frame)) + frame[6:]


def any_talk(rng):
    return talk(rng.randrange(TALKS))


def hostile_stream(rng):
    """What a client sends."""
    if rng.randrange(20) == 0:
        return rng.randbytes(rng.randrange(200))
    changes, missized = rng.choice((0.1, 0.5, 1)), rng.choice((0, 0, 0.02, 0.3))
    commands = [hostile_frame(rng, command, missized) if rng.random() < changes else command
                for command in any_talk(rng)[:rng.randint(1, TALK_COMMANDS)]]
    if rng.randrange(10) == 0:
        commands.insert(rng.randrange(len(commands)), judge.CANCEL)
    return b"".join(commands)


def hostile_script(rng):
    """A script. Its lines are pieces of a few streams, mostly up to a line whose text is changed."""
    if rng.randrange(10) == 0:
        return bytes(rng.choices(rng.choice(ALPHABETS), k=rng.choice((3, 100, 16_384, 16_385, 40_000))))
    streams = {rng.choice((*LABELS, rng.randrange(2 ** 32))): hostile_stream(rng) for _ in range(rng.randint(1, 5))}
    lines = []
    while left := [label for label in streams if streams[label]]:
        label, count = rng.choice(left), rng.choice((1, 30, 200, 1_000, 8_185))
        digits = streams[label][:count].hex()
        lines.append(f"{label} {rng.choice((digits, digits, digits.upper()))}\n".encode())
        streams[label] = streams[label][count:]
        if rng.randrange(20) == 0:
            lines.append(f"{label} close\n".encode())
    if lines and rng.randrange(3):
        place = rng.randrange(len(lines) // 2, len(lines))
        lines[place] = changed(rng, lines[place])
    return b"".join(lines)
