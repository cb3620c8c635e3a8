"""The journal of a run over many connections: whose entries are whose, and whether it is legal."""

import pathlib
import subprocess

import tpm_commands as tpm

TOOLS = pathlib.Path(__file__).resolve().parent
SEED = "5e" * 32


class Wrong(Exception):
    """What is wrong with a run. Its one argument says it."""


def hello(number):
    """A command of its own for each connection, by which its client is found in the journal. It is refused."""
    return tpm.command("GetRandom", parameters=tpm.uint16(0) + tpm.uint32(number))


def judge_file(path):
    """Has the audit text in a file judged."""
    judged = subprocess.run([TOOLS / "judge_audit", SEED, path], capture_output=True, check=False)
    if judged.returncode:
        raise Wrong(f"the journal isn't legal: {judged.stdout.decode()[:400]}{judged.stderr.decode()[:400]}")
