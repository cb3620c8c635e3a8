"""The programs that are built from this repository: where one is that fits the sources, and the sums of it."""

import hashlib
import os
import pathlib
import subprocess
import sys

TOP = pathlib.Path(__file__).resolve().parent.parent
# The programs that stand in dist/, each with the variable that names another one in its place.
PROGRAMS = {"tabrmd": "TABRMD_PROGRAM", "known_answers": "TABRMD_KNOWN_ANSWERS", "fault_runs": "TABRMD_FAULT_RUNS"}
SUMS = "SUMS"


def program(name="tabrmd"):
    """The path of a program: what the environment names, or what tools/program finds. It may be proved and built first,
    which takes as long as it takes. Where there is none, this ends the script with 1."""
    if given := os.environ.get(PROGRAMS[name]):
        return pathlib.Path(given).resolve()
    ran = subprocess.run([TOP / "tools" / "program", name], stdin=subprocess.DEVNULL, stdout=subprocess.PIPE, text=True, check=False)
    if ran.returncode != 0:
        sys.exit(1)
    return pathlib.Path(ran.stdout.rstrip("\n"))


def sum_of(path):
    """The SHA-256 of a file, or None where it can't be read."""
    try:
        return hashlib.sha256(path.read_bytes()).hexdigest()
    except OSError:
        return None


def sum_sources(top, name):
    """What tools/source_sum prints for this program in the checkout at `top`."""
    return subprocess.run([top / "tools" / "source_sum", name], stdout=subprocess.PIPE, text=True, check=True).stdout.strip()


def read_sums(folder):
    """The sums in a folder: for each program its own and that of its sources; and the kit that built them, or None."""
    sums, kit = {}, None
    for line in (folder / SUMS).read_text().splitlines():
        name, _, rest = line.partition(" ")
        if name == "kit":
            kit = rest
        elif name != "#":
            sums[name] = tuple(rest.split())
    return sums, kit


def write_sums(folder, sources, kit=None):
    """Writes the sums of the programs in a folder, each built from sources with this sum."""
    lines = [f"{name} {sum_of(folder / name)} {built_from}" for name, built_from in sources.items()]
    head = ["# for each program its SHA-256, and what tools/source_sum printed for it"]
    (folder / SUMS).write_text("\n".join([*head, *lines, *([f"kit {kit}"] if kit else [])]) + "\n")
