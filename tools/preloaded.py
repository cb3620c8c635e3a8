"""Libraries in C that are loaded into the program, where a tool refuses it something or watches its calls."""

import pathlib
import shutil
import subprocess

TOOLS = pathlib.Path(__file__).resolve().parent
COMPILER = "cc"


def has_compiler():
    return shutil.which(COMPILER) is not None


def variables_of(name, folder, **variables):
    """What a program has in its environment to load the library of tools/NAME.c, and the variables that this reads. The
    library is built in this folder, where it isn't there."""
    library = pathlib.Path(folder, f"{name}.so")
    if not library.exists():
        words = [COMPILER, "-shared", "-fPIC", "-O1", "-Wall", "-o", library, TOOLS / f"{name}.c", "-ldl"]
        subprocess.run(words, check=True)
    return {"LD_PRELOAD": str(library), **{variable: str(value) for variable, value in variables.items()}}
