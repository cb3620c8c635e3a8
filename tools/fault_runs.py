"""The program crates/fault_runs, which plays scripts over a device in memory that fails at listed transmissions: what it
is given, what it tells of each run, and what is wrong with a run."""

import functools
import subprocess
from collections import namedtuple

import audit_text
from built_programs import program
from other_tools import load_tool

MOST_LABELS = 256
LIMIT = 2 ** 30                         # of the journal of a run

# What became of a line: the numbers of its transmissions are those from `first` to one below `last`. The reply of a close is
# None.
Line = namedtuple("Line", "first last orphans reply")

# A run. `begun` is how many transmissions its beginning had, or None where one of them failed: `faults` is the device's fault
# count then, `sent` the number of transmissions, and nothing else is there. `texts` are the lines of the audit text.
Ran = namedtuple("Ran", "begun lines texts sent faults held")


class Wrong(Exception):
    """The program didn't tell of its runs as it should. Its one argument says how."""


judge_audit = load_tool("judge_audit")
FAULT_REPLY = judge_audit.FAULT_REPLY


@functools.cache
def player():
    """The program, which is looked for once."""
    return program("fault_runs")


# ---- runs

class Script:
    """The lines of a script, each one whole command or a close, and the seed of the device that it is played over."""

    def __init__(self, seed, lines):
        self.seed = bytes.fromhex(seed)
        self.lines = [tuple(line.split()) for line in lines]
        self.judged = [f"{label} {word}\n".encode() for label, word in self.lines]
        labels = {}
        self.given = "".join(f"{labels.setdefault(label, len(labels))} {word}\n" for label, word in self.lines)
        if len(self.seed) != 32 or not self.lines or len(labels) > MOST_LABELS:
            raise Wrong(f"a script has a seed of 64 digits, lines, and no more than {MOST_LABELS} labels")

    def is_close(self, place):
        return self.lines[place][1] == "close"

    def play(self, failings):
        """Plays the script once for each of these lists of transmissions that fail, in one process."""
        failings = list(failings)
        given = "".join(" ".join(map(str, [self.seed.hex(), *failing])) + "\n" + self.given for failing in failings)
        ran = subprocess.run([player()], input=given.encode(), capture_output=True, check=False)
        if ran.returncode != 0:
            raise Wrong(f"the program ended with status {ran.returncode}: {ran.stderr.decode()[:200]}")
        told = iter(ran.stdout.splitlines(True))
        runs = [self._run(told) for _ in failings]
        if next(told, None) is not None:
            raise Wrong("the program told more than of its runs")
        return runs

    def _run(self, told):
        """The next run that is told of."""
        try:
            replies, line = [], next(told)
            while line[:1].isdigit():
                replies.append(line.split())
                line = next(told)
            word, *counts = line.split()
            if word == b"failed":
                faults, sent = map(int, counts)
                return Ran(None, [], [], sent, faults, None)
            begun, = map(int, counts)
            lines, text = self._lines(told, iter(replies), begun)
            texts = []
            while not text.startswith(b"end "):
                texts.append(text)
                text = next(told)
            return Ran(begun, lines, texts, *map(int, text.split()[1:]))
        except (StopIteration, TypeError, ValueError):
            raise Wrong("the program didn't tell of a run as it should") from None

    def _lines(self, told, replies, begun):
        """What became of each line, by the calls that are told of; and what is told behind the calls."""
        lines, open_labels = [], []
        for label, (word, given) in zip((label for label, _ in self.lines), (it.split() for it in self.given.splitlines())):
            before = lines[-1] if lines else Line(None, begun, 0, None)
            if given != "close":
                name, reply = next(replies)
                if name != word.encode():
                    raise Wrong("a reply is that of another label")
                lines.append(call_of("command", next(told), bytes.fromhex(reply.decode())))
                open_labels += [label] * (label not in open_labels)
            elif label in open_labels:
                lines.append(call_of("close", next(told), None))
                open_labels.remove(label)
            else:
                # nothing is called for a label that isn't open
                lines.append(Line(before.last, before.last, before.orphans, None))
        for _ in open_labels:
            call_of("close", next(told), None)
        if next(replies, None) is not None:
            raise Wrong("there are more replies than commands")
        return lines, next(told)

    # ---- what is wrong with a run

    def fault_of_beginning(self, ran):
        """What is wrong with a run whose failing transmission is one of the beginning."""
        return None if ran.begun is None and ran.faults == 1 else "the broker began, or the fault count isn't 1"

    def fault_of(self, ran, failing, places):
        """What is wrong with a run that fails at these transmissions: just the lines at these places, from 0, are answered
        that a transmission failed, and have a Fault entry."""
        if ran.begun is None:
            return "the broker didn't begin"
        told = [place for place, line in enumerate(ran.lines) if line.reply == FAULT_REPLY]
        if told != sorted(places):
            return f"lines {numbers_of(told)} are told of a fault, and not lines {numbers_of(sorted(places))}"
        judge = judge_audit.Judge(self.seed)
        return (self._fault_of_counts(ran) or self._fault_of_journal(judge, ran)
                or self._fault_of_held(judge, ran, failing))

    def _fault_of_counts(self, ran):
        ends = [ran.begun, *(line.last for line in ran.lines)]
        if [line.first for line in ran.lines] != ends[:-1] or sorted(ends) != ends or ran.sent < ends[-1]:
            return "the counts of transmissions of one line don't go on where those of the last one ended"
        return None

    def _fault_of_journal(self, judge, ran):
        """The replies and the journal of the whole run, as the model judges them."""
        replies = [f"{label} {line.reply.hex()}\n".encode()
                   for (label, _), line in zip(self.lines, ran.lines) if line.reply is not None]
        try:
            judge_audit.judge_run(judge, LIMIT, self.judged, replies + ran.texts)
        except judge_audit.Illegal as illegal:
            return "line {} of the replies and the journal: {}".format(*illegal.args)
        return None

    def _fault_of_held(self, judge, ran, failing):
        """What the device holds in the end: the sessions that their clients left, as the judge of the journal has them, and
        what is counted as nobody's."""
        for number, line in enumerate(ran.lines, 1):
            if line.reply not in (None, FAULT_REPLY) and line.last > line.first and line.orphans:
                return f"line {number} has used the device, and {line.orphans} orphans are still in it"
        if ran.faults != len(failing):
            return f"the device failed {ran.faults} times"
        last, left = ran.lines[-1], len(judge.world.left)
        at_end = sum(number >= last.last for number in failing)
        entries = sum(audit_text.entry_of(text).kind == "fault" for text in ran.texts)
        if ran.held != last.orphans + at_end + left or ran.held + entries > ran.faults + left:
            return (f"the device holds {ran.held} at the end: {left} sessions are left, there were "
                    f"{last.orphans} orphans behind the last line, and {at_end} of its {ran.faults} failures "
                    "came behind it")
        return None


def call_of(kind, line, reply):
    """A call of this kind that is told of in a line."""
    word, first, last, orphans = line.split()
    if word != kind.encode():
        raise Wrong(f"a {kind} isn't told of as one")
    return Line(int(first), int(last), int(orphans), reply)


def numbers_of(places):
    return " ".join(str(place + 1) for place in places) or "none"
