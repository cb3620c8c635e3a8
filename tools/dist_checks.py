"""What tools/check_tools tries on tools/program, tools/dist, tools/prove and tools/install: a small copy of a repository,
whose programs are scripts, with one thing changed. There is no toolchain on its path but a stand-in, where one is wanted.

testdata/installed.service has the lines of the unit as it is to be installed, without comments.
"""

import functools
import pathlib
import shutil
import stat
import subprocess
import tempfile
import threading

import built_programs
from built_programs import PROGRAMS

TOP = pathlib.Path(__file__).resolve().parent.parent
UNIT = "contrib/tabrmd.service"
COPIED = ("tabrmd", *(f"tools/{name}" for name in ("program", "source_sum", "dist", "prove", "install", "built_programs.py",
                                                   "source_names.py")), "docs/tabrmd.8", UNIT)
# The commands of the system that these call.
COMMANDS = ("awk cat cut dirname env find flock getconf install mkdir mv python3 readlink sed sh sha256sum sort tail uname "
            "xargs").split()
RAN = "tabrmd of dist ran a b\n"
# held while the first copy is made, since checks run side by side
MAKING = threading.Lock()

# In place of `rt`: it has none of the parts that tools/prove looks for, and `rt run` builds a program that has the sum of
# all that is in crates/. Like `rt`, it builds nothing where a program is there. `{meanwhile}` is what comes between.
BUILDER = """#!/usr/bin/env python3
import hashlib, pathlib, sys
if __name__ == "__main__":
    crate = pathlib.Path.cwd()
    program = crate / "out" / crate.name
    files = [path for path in sorted(crate.parent.rglob("*")) if path.is_file() and "out" not in path.parts]
    summed = hashlib.sha256(b"".join(path.read_bytes() for path in files)).hexdigest()
    {meanwhile}
    if sys.argv[1:2] == ["run"] and not program.exists():
        program.parent.mkdir(exist_ok=True)
        program.write_text("#!/bin/sh\\necho " + crate.name + " of out ran $*\\n# " + summed + "\\n")
        program.chmod(0o755)
"""

# Where an install goes in its check, and the mode of each file that is there then.
PREFIX = "/opt/tabrmd"
INSTALLED = {f"{PREFIX}/bin/tabrmd": 0o755, f"{PREFIX}/share/man/man8/tabrmd.8": 0o644,
             f"{PREFIX}/lib/systemd/system/tabrmd.service": 0o644}
BAD_PREFIXES = [(), ("",), ("opt",), ("/opt tabrmd",), ("/opt|x",), ("/opt;x",), ("/opt\nx",), (PREFIX, PREFIX)]


class SmallCopy:
    """A repository of five crates: three programs, a library below them, and one that none of them stands on."""

    def __init__(self, folder):
        self.top = pathlib.Path(folder)

    def make(self):
        for path in COPIED:
            (self.top / path).parent.mkdir(exist_ok=True)
            shutil.copy(TOP / path, self.top / path)
        self.write("HANDLES", "Handles allowed: none.\n")
        self.write("crates.txt", "# crates\nbelow:\n" + "".join(f"{name} may_wait=1: below sha2\n" for name in PROGRAMS) + "apart:\n")
        for name in ("below", "apart", *PROGRAMS):
            self.write(f"crates/{name}/src/lib.rt", f"{name}\n")
        for path in ("specs/Lib.antt", "specs/Words.antt", "proofs/f/Answers.antt"):
            self.write(f"crates/below/{path}", "below\n")
        self.fill("dist")
        (self.top / "bin").mkdir()
        for command in COMMANDS:
            (self.top / "bin" / command).symlink_to(shutil.which(command))

    def write(self, path, text, mode=0o644):
        path = self.top / path
        path.parent.mkdir(parents=True, exist_ok=True)
        path.unlink(missing_ok=True)
        path.write_text(text)
        path.chmod(mode)

    def change(self, path, old, new):
        """The same size and another time, as an editor leaves it."""
        text = (self.top / path).read_text()
        assert old in text
        (self.top / path).write_text(text.replace(old, new, 1))

    def fill(self, folder, names=PROGRAMS, of="dist"):
        """Puts programs into a folder, with the sums of today's sources."""
        for name in names:
            self.write(f"{folder}/{name}", f"#!/bin/sh\necho {name} of {of} ran $*\n", 0o755)
        built_programs.write_sums(self.top / folder, {name: built_programs.sum_sources(self.top, name) for name in names})

    def stand_in(self, command, line, first="*"):
        """A command that writes this line, where its first word is this one; else it is the system's."""
        self.write(f"bin/{command}", f"#!/bin/sh\ncase $1 in\n{first}) echo '{line}' ;;\n"
                                     f"*) exec {shutil.which(command) or command} \"$@\" ;;\nesac\n", 0o755)

    def have_builder(self, meanwhile="pass"):
        """Puts the stand-in of `rt` on the path, which does this while it builds."""
        self.write("bin/rt", BUILDER.format(meanwhile=meanwhile), 0o755)

    def ran(self, *words, umask=-1, **variables):
        ran = subprocess.run([self.top / words[0], *words[1:]], env={"PATH": str(self.top / "bin"), **variables},
                             stdin=subprocess.DEVNULL, capture_output=True, text=True, umask=umask, check=False)
        return ran.returncode, ran.stdout, ran.stderr


@functools.cache
def first_copy():
    """The folder of a copy in which nothing is changed. It is made once, since its sums take a while."""
    folder = tempfile.TemporaryDirectory()
    SmallCopy(folder.name).make()
    return folder


def small_copy(folder):
    with MAKING:
        first = first_copy()
    shutil.copytree(first.name, folder, symlinks=True, dirs_exist_ok=True)
    return SmallCopy(folder)


def fault_in_call(copy, wanted, told):
    """What is wrong with what ./tabrmd does. `wanted` is what the program writes, or None where it mustn't be run;
    `told` is a part of what standard error has."""
    status, output, error = copy.ran("tabrmd", "a", "b")
    if (status, output) != ((0, wanted) if wanted else (1, "")) or told not in error or (not told and error):
        return f"./tabrmd ended with {status}, {output!r} and {error!r}"
    return None if wanted or len(error.splitlines()) == 1 else f"./tabrmd wrote {error!r}"


def fault_of(prepare, wanted, told, of_check):
    """Prepares a copy, and says what is wrong with what ./tabrmd and `tools/dist --check` then do. `of_check` is a part
    of what the check tells, or None where it is to pass."""
    with tempfile.TemporaryDirectory() as folder:
        copy = small_copy(folder)
        prepare(copy)
        if fault := fault_in_call(copy, wanted, told):
            return fault
        status, output, error = copy.ran("tools/dist", "--check")
        if status != (of_check is not None) or output or (of_check or "") not in error:
            return f"tools/dist --check ended with {status}, {output!r} and {error!r}"
    return None


def fault_after_call(change, wanted, told):
    """The sums of the sources are remembered, and then something changes."""
    with tempfile.TemporaryDirectory() as folder:
        copy = small_copy(folder)
        copy.ran("tabrmd")
        change(copy)
        return fault_in_call(copy, wanted, told)


def changed(path, old="below", new="BELOW"):
    return lambda copy: copy.change(path, old, new)


def added(path):
    return lambda copy: copy.write(path, "more\n")


def removed(path):
    return lambda copy: (copy.top / path).unlink()


def built_of_older_sources(copy):
    copy.fill("crates/tabrmd/out", ["tabrmd"], "out")
    copy.change("crates/below/src/lib.rt", "below", "BELOW")
    copy.fill("dist")


def built_here(copy):
    copy.fill("crates/tabrmd/out", ["tabrmd"], "out")


def built_by_a_call(copy):
    """What a call of the prover would do is done by a script."""
    copy.change("crates/below/src/lib.rt", "below", "BELOW")
    copy.stand_in("rt", "")
    copy.fill("made", ["tabrmd"], "out")
    copy.write("tools/prove", '#!/bin/sh\n[ "$*" = "--here tabrmd" ] && mkdir -p "${0%/tools/*}/crates/tabrmd/out" && '
                              'mv "${0%/tools/*}"/made/* "${0%/tools/*}/crates/tabrmd/out"\n', 0o755)


def not_built_by_a_call(copy):
    copy.change("crates/below/src/lib.rt", "below", "BELOW")
    copy.stand_in("rt", "")
    copy.write("tools/prove", "#!/bin/sh\nexit 1\n", 0o755)


NO_RT, OTHER_SUM, OTHER_SOURCES = "there is no rt", "isn't the program that was built", "was built from other sources"
NO_SUM = "doesn't have the SHA-256"
# what it shows, and what is done to the copy: the program isn't that of the sources any more
SOURCE_CHANGES = [
    ("a source", changed("crates/below/src/lib.rt")),
    ("a definition", changed("crates/below/specs/Words.antt")),
    ("an answer of a proof", changed("crates/below/proofs/f/Answers.antt")),
    ("one more definition", added("crates/below/specs/More.antt")),
    ("the first definition of a crate", added("crates/tabrmd/specs/Lib.antt")),
    ("one definition less", removed("crates/below/specs/Words.antt")),
    ("the line of a crate", changed("crates.txt", "tabrmd may_wait=1", "tabrmd may_wait=2")),
]
# what it shows, what is done to the copy, what the program writes, what standard error has, what the check tells
CHANGES = [
    ("nothing", lambda copy: None, RAN, "", None),
    ("a byte of the program", lambda copy: copy.change("dist/tabrmd", "ran", "run"), None, OTHER_SUM, NO_SUM),
    *((name, change, None, NO_RT, OTHER_SOURCES) for name, change in SOURCE_CHANGES),
    ("the sum of the program", lambda copy: change_sum(copy, 1), None, OTHER_SUM, NO_SUM),
    ("the sum of the sources", lambda copy: change_sum(copy, 2), None, NO_RT, OTHER_SOURCES),
    ("the list of sums", lambda copy: (copy.top / "dist/SUMS").unlink(), None, NO_RT, "can't be read"),
    ("a crate that isn't below", lambda copy: copy.change("crates/apart/src/lib.rt", "apart", "APART"), RAN, "", None),
    ("a program built here", built_here, RAN.replace("dist", "out"), "", None),
    ("a program built here of older sources", built_of_older_sources, RAN, "", None),
    ("a byte of a program built here", lambda copy: (built_here(copy), copy.change("crates/tabrmd/out/tabrmd", "ran", "run")),
     None, OTHER_SUM, None),
    ("a source, with a prover", built_by_a_call, RAN.replace("dist", "out"), "is proved and built", OTHER_SOURCES),
    ("another processor", lambda copy: copy.stand_in("uname", "Linux aarch64"), None, "is for Linux on x86-64", None),
    ("an older processor", lambda copy: copy.stand_in("sed", "flags : fpu cx16", "-n"), None, "lacks lahf_lm", None),
    ("an older C library", lambda copy: copy.stand_in("getconf", "glibc 2.31"), None, "this is glibc 2.31", None),
    ("another C library", lambda copy: copy.stand_in("getconf", ""), None, "needs glibc 2.34", None),
]


def change_sum(copy, place):
    """Changes a digit of a sum in the program's line."""
    lines = (copy.top / "dist/SUMS").read_text().splitlines()
    at = next(number for number, line in enumerate(lines) if line.startswith("tabrmd "))
    words = lines[at].split()
    words[place] = words[place][:-1] + ("0" if words[place][-1] != "0" else "1")
    lines[at] = " ".join(words)
    copy.write("dist/SUMS", "\n".join(lines) + "\n")


def fault_of_failed_build():
    """A build that fails is told, and nothing is run."""
    with tempfile.TemporaryDirectory() as folder:
        copy = small_copy(folder)
        not_built_by_a_call(copy)
        status, output, error = copy.ran("tabrmd")
    is_right = status == 1 and not output and error.splitlines()[-1].startswith("tabrmd: the program could not be built")
    return None if is_right else f"./tabrmd ended with {status}, {output!r} and {error!r}"


def fault_of_comparison(name, is_same):
    """`tools/dist --compare` looks at what `rt ci` built, and at each program of it."""
    with tempfile.TemporaryDirectory() as folder:
        copy = small_copy(folder)
        for it in PROGRAMS:
            copy.fill(f"crates/{it}/out", [it])
        if not is_same:
            copy.change(f"crates/{name}/out/{name}", "ran", "run")
        status, output, error = copy.ran("tools/dist", "--compare")
    wanted = "" if is_same else f"dist/{name} isn't what `rt ci` built"
    return None if status == (not is_same) and not output and wanted in error else f"ended with {status}, {output!r} and {error!r}"


def fault_of_build_here(meanwhile, is_run):
    """A source has changed, and ./tabrmd has the program built, by tools/prove and a stand-in of `rt`. It is run if the
    sources stay as they are meanwhile."""
    with tempfile.TemporaryDirectory() as folder:
        copy = small_copy(folder)
        copy.change("crates/below/src/lib.rt", "below", "BELOW")
        copy.have_builder(meanwhile)
        status, output, error = copy.ran("tabrmd", "a", "b")
    is_right = (status, output) == (0, RAN.replace("dist", "out"))
    if not is_run:
        is_right = status == 1 and not output and "the sources changed while the program was built" in error
    return None if is_right else f"./tabrmd ended with {status}, {output!r} and {error!r}"


def fault_of_proof(change, wanted):
    """What is built of the sources is put into dist/ and crates/tabrmd/out, and then something changes. `tools/prove`
    builds it anew, and compares it with dist/tabrmd. Its last line begins with what is wanted."""
    with tempfile.TemporaryDirectory() as folder:
        copy = small_copy(folder)
        copy.have_builder()
        copy.ran("tools/prove", "--here", "tabrmd")
        shutil.copy(copy.top / "crates/tabrmd/out/tabrmd", copy.top / "dist/tabrmd")
        change(copy)
        status, output, error = copy.ran("tools/prove")
    last = (output.splitlines() or [""])[-1]
    is_right = status == (wanted != SAME) and last.startswith(wanted)
    return None if is_right else f"tools/prove ended with {status}, {output!r} and {error!r}"


# what it shows, what is done to the copy, and how the last line of tools/prove begins
SAME, OTHER = "the same program: ", "another program: "
PROOFS = [
    ("nothing", lambda copy: None, SAME),
    ("a source", changed("crates/below/src/lib.rt"), OTHER),
    ("a definition", changed("crates/below/specs/Words.antt"), OTHER),
    ("one more definition", added("crates/below/specs/More.antt"), OTHER),
    ("a byte of the program", changed("dist/tabrmd", "ran", "run"), OTHER),
    ("a build that fails", lambda copy: copy.write("bin/rt", "#!/bin/sh\nexit 1\n", 0o755), ""),
]


def fault_of_install(umask, destination):
    """All files of an install are there, and no others, with their modes whatever the umask is, and with what is to be in
    them. No folder can be written by others."""
    with tempfile.TemporaryDirectory() as folder:
        copy, below = small_copy(folder), pathlib.Path(folder, "below")
        status, output, error = copy.ran("tools/install", PREFIX + destination, umask=umask, DESTDIR=str(below))
        if status or error or output != f"installed tabrmd, tabrmd.8 and tabrmd.service below {below}{PREFIX}\n":
            return f"tools/install ended with {status}, {output!r} and {error!r}"
        paths = {str(path).removeprefix(str(below)): path for path in below.rglob("*")}
        modes = {name: stat.S_IMODE(path.lstat().st_mode) for name, path in paths.items() if not path.is_dir()}
        if modes != INSTALLED:
            return f"the files are {[f'{name} {mode:o}' for name, mode in modes.items()]}"
        program, page, unit = (paths[name].read_bytes() for name in INSTALLED)
        wide = [name for name, path in paths.items() if path.is_dir() and stat.S_IMODE(path.stat().st_mode) & ~0o755]
        if program != (copy.top / "dist/tabrmd").read_bytes() or page != (TOP / "docs/tabrmd.8").read_bytes() or wide:
            return f"the folders {wide} can be written by others" if wide else "the program or its page is another one"
    lines = [line for line in unit.decode().splitlines() if line and not line.startswith("#")]
    wanted = (TOP / "tools/testdata/installed.service").read_text().splitlines()
    other = [line for line in (*lines, *wanted) if lines.count(line) != wanted.count(line)]
    return None if lines == wanted else f"the unit has other lines: {other or 'in another order'}"


def fault_of_bad_install(words, status, prepare=lambda copy: None):
    """Nothing is installed below a path that isn't one, or without a program."""
    with tempfile.TemporaryDirectory() as folder:
        copy, below = small_copy(folder), pathlib.Path(folder, "below")
        prepare(copy)
        ended, output, error = copy.ran("tools/install", *words, DESTDIR=str(below))
        is_right = (ended, output) == (status, "") and error and not below.exists()
        return None if is_right else f"tools/install ended with {ended}, {output!r} and {error!r}"


CHECKS = [
    *((f"changed: {name}", lambda change=change: fault_of(*change)) for name, *change in CHANGES),
    *((f"changed after a call: {name}", lambda change=change: fault_after_call(change, None, NO_RT))
      for name, change in SOURCE_CHANGES),
    *((f"touched after a call: {path}",
       lambda path=path: fault_after_call(changed(f"crates/below/{path}", "below", "below"), RAN, ""))
      for path in ("src/lib.rt", "specs/Words.antt")),
    ("a build that fails", fault_of_failed_build),
    ("what was built is dist/", lambda: fault_of_comparison("tabrmd", True)),
    *((f"another {name} was built", lambda name=name: fault_of_comparison(name, False)) for name in PROGRAMS),
    ("a program that tools/prove builds", lambda: fault_of_build_here("pass", True)),
    ("a source that changes while it builds",
     lambda: fault_of_build_here('(crate.parent / "below/src/lib.rt").write_text("other")', False)),
    *((f"proved anew: {name}", lambda proof=proof: fault_of_proof(*proof)) for name, *proof in PROOFS),
    *((f"an install under umask {umask:03o}", lambda umask=umask, end=end: fault_of_install(umask, end))
      for umask, end in ((0o022, ""), (0o077, "/"), (0, ""))),
    *((f"an install at {words}", lambda words=words: fault_of_bad_install(words, 2)) for words in BAD_PREFIXES),
    ("an install without a program", lambda: fault_of_bad_install([PREFIX], 1, changed("dist/tabrmd", "ran", "run"))),
]
