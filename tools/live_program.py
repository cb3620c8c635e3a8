"""The program over a script that is made while it runs, so that what it answered can stand in a later line."""

import subprocess
import sys

from built_programs import program

PROGRAM = program()


class LiveProgram:
    """Each line goes to the program and to `script`."""

    def __init__(self, seed, *words, script=sys.stdout.buffer):
        self.script, self.lines = script, 0
        self.program = subprocess.Popen([PROGRAM, "run", "--device", f"memory:{seed.hex()}", *words],
                                        stdin=subprocess.PIPE, stdout=subprocess.PIPE)

    def line(self, label, word):
        text = f"{label} {word}\n".encode()
        self.script.write(text)
        self.program.stdin.write(text)
        self.program.stdin.flush()
        self.lines += 1

    def reply(self, label):
        """The next reply, which has to be to this label."""
        told, _, digits = self.program.stdout.readline().decode().rstrip("\n").partition(" ")
        if told != str(label):
            sys.exit(f"the program wrote a reply to label {told!r}, and not to {label}")
        return bytes.fromhex(digits)

    def send(self, label, command):
        self.line(label, command.hex())
        return self.reply(label)

    def finish(self):
        self.program.stdin.close()
        if self.program.wait():
            sys.exit(f"the program ended with status {self.program.returncode}")
