"""What the sources of this repository name: crates, modules, functions with their clauses, definitions, options.

It reads the files as `rt fmt` lays them out: items begin in the first column, methods four columns further, and clauses
four columns behind their function.
"""

import functools
import re

WORD = re.compile(r"[A-Za-z_][A-Za-z0-9_]*")
OWNER = re.compile(r"(?:pub |pub\(crate\) )?(?:unsafe )?(impl|trait)\b(.*)")
FUNCTION = re.compile(r"( *)(?:pub |pub\(crate\) )?(?:const |unsafe )*fn (\w+)")
CLAUSE = re.compile(r" +ensures ?(\w*) *\{")
DEFINITION = re.compile(r"(?:pub )?(?:record|data|abbrev|unfoldable)(?: pub)? (\w+)")
FIELD = re.compile(r" +(?:pub )?(\w+) :")
STATUSES = re.compile(r"n == status\)\s+\(([A-Z_ ∷]+)∷ \[\]\)")
STATUS = re.compile(r"const ([A-Z_]+): u8 = (\d+);")
SUFFIXES = (".rt", ".antt", ".edit", ".txt", ".py", ".c", ".service", "")
PROGRAM = "tabrmd"
# What checks the documents has wrong names in it.
CHECKERS = ("check_docs", "check_tools")


def without_brackets(text):
    """Without what stands in <> and (), inner ones first."""
    while (less := re.sub(r"<[^<>]*>|\([^()]*\)", "", text)) != text:
        text = less
    return text


def owner_of(text):
    """The type whose functions follow, by the head of an `impl` or `trait`; and whether a Model's invariant follows."""
    kind, rest = OWNER.match(text).groups()
    rest = without_brackets(rest.replace("->", "")).partition("{")[0]
    rest = rest.partition(" where ")[0]
    if kind == "trait":
        return WORD.findall(rest)[0]
    return WORD.findall(rest.rpartition(" for ")[2] if " for " in rest else rest)[-1]


def functions_in(text):
    """The functions of a file, `Type::name` or `name`, each with what it ensures: the unnamed clause is ''. A type or
    trait has what is said of it as a whole: `invariant`, and the ghost members of a trait."""
    found, owner, clauses, head = {}, None, None, ""
    for line in text.split("\n"):
        if line and line[0] not in " )>{":
            owner, clauses = None, None
        if head or OWNER.match(line):
            head += line + " "
            if "{" not in line and not line.endswith(";"):
                continue
            owner, head = owner_of(head), ""
            continue
        if (made := FUNCTION.match(line)) and len(made[1]) in (0, 4):
            name = made[2] if not made[1] else f"{owner}::{made[2]}"
            clauses = found.setdefault(name, set())
        elif clauses is not None and (clause := CLAUSE.match(line)):
            clauses.add(clause[1])
        elif owner and line.startswith("    ghost ") and (ghost := re.match(r" +ghost (\w+)", line)):
            found.setdefault(owner, set()).add(ghost[1])
    return found


def definitions_in(text):
    """The definitions of a file of specs/, each with the fields that it has as a record."""
    found, fields = {}, set()
    for line in text.split("\n"):
        if made := DEFINITION.match(line):
            fields = found.setdefault(made[1], set())
        elif line and not line[0].isspace():
            fields = set()
        elif field := FIELD.match(line):
            fields.add(field[1])
    return found


class Sources:
    """The repository at this folder."""

    def __init__(self, top):
        self.top = top
        self.needs = {}
        for line in (top / "crates.txt").read_text().split("\n"):
            if name := line.partition("#")[0].strip():
                name, _, needs = name.partition(":")
                self.needs[name.split()[0]] = needs.split()
        self.crates = sorted(self.needs)

    def files(self, crate, *patterns):
        for pattern in patterns:
            yield from sorted((self.top / "crates" / crate).glob(pattern))

    @functools.cache
    def below(self, crate):
        """The crate, and those of this repository that it stands on."""
        return {crate}.union(*(self.below(it) for it in self.needs[crate] if it in self.needs))

    @functools.cache
    def above(self, crate):
        """The crate, and those that stand on it."""
        return {it for it in self.crates if crate in self.below(it)}

    @functools.cache
    def level(self, crate):
        """One above the highest crate that it needs; programs and crates of tests stand at the top."""
        if crate.endswith("_tests") or (self.top / "crates" / crate / "src/main.rt").exists():
            return 1 + max(self.level(it) for it in self.crates
                           if not it.endswith("_tests") and not (self.top / "crates" / it / "src/main.rt").exists())
        return 1 + max((self.level(it) for it in self.needs[crate] if it in self.needs), default=0)

    @functools.cache
    def modules(self, crate):
        return {path.stem for path in self.files(crate, "src/*.rt")} - {"lib", "main"}

    @functools.cache
    def functions(self, crate):
        found = {}
        for path in self.files(crate, "src/**/*.rt"):
            for name, clauses in functions_in(path.read_text()).items():
                found.setdefault(name, set()).update(clauses)
        return found

    @functools.cache
    def definitions(self, crate):
        found = {}
        for path in self.files(crate, "specs/*.antt"):
            for name, fields in definitions_in(path.read_text()).items():
                found.setdefault(name, set()).update(fields)
        return found

    @functools.cache
    def words_of(self, crate):
        """Every word in the files of a crate, comments apart, and the names of these files."""
        found = {crate}
        for path in self.files(crate, "src/**/*.rt", "specs/*.antt", "proofs/**/*.antt"):
            text = re.sub(r"(?m)(^|\s)(//|--).*$", "", path.read_text())
            found.update(WORD.findall(text))
            found.update((path.name, path.stem))
        found.update(path.stem for path in self.files(crate, "must-fail/*.edit"))
        return found

    @functools.cache
    def cites(self, crate):
        """The crates below, laws apart, whose lemmas the proofs of this one cite."""
        found = set()
        for path in self.files(crate, "proofs/**/*.antt"):
            found.update(re.findall(r"Rattle\.(\w+)\.proofs", path.read_text()))
        return {it for it in found if it in self.needs and it != crate and not it.endswith("_laws")}

    @functools.cached_property
    def tools(self):
        """The files of tools/ and bench/ that are run."""
        return {f"{folder}/{path.name}" for folder in ("tools", "bench") for path in (self.top / folder).iterdir()
                if path.is_file() and path.stat().st_mode & 0o100}

    @functools.cached_property
    def words(self):
        """Every word of the sources, the tools and the lists of crates."""
        found = set().union(*(self.words_of(crate) for crate in self.crates))
        others = [self.top / name for name in ("crates.txt", "HANDLES", PROGRAM, ".ci/run")]
        for folder in ("tools", "bench", "contrib"):
            others += [path for path in (self.top / folder).iterdir() if path.is_file()]
        for path in others:
            if path.suffix in SUFFIXES and path.name not in CHECKERS:
                found.update(WORD.findall(path.read_text(errors="replace")))
            found.update((path.name, path.stem))
        found.update(path.stem for path in (self.top / "tools/cases").glob("*.args"))
        return found

    @functools.cached_property
    def options(self):
        """The program's options."""
        text = (self.top / "crates/command_line/specs/Words.antt").read_text()
        return set(re.findall(r'codes "(--[a-z-]+)"', text))

    @functools.cached_property
    def other_options(self):
        """Options of the tools."""
        return {option for name in self.tools if not name.endswith(CHECKERS) for option in
                re.findall(r"--[a-z][a-z-]*", (self.top / name).read_text(errors="replace"))}

    @functools.cached_property
    def statuses(self):
        """The program's statuses: those that a run may end with, by its contract, and 2."""
        numbers = dict(STATUS.findall((self.top / "crates/tab_server/src/status.rt").read_text()))
        found = {2}
        for name in ("Status", "Serving"):
            for made in STATUSES.findall((self.top / f"crates/tab_server/specs/{name}.antt").read_text()):
                found.update(int(numbers[word]) for word in re.findall(r"[A-Z_]+", made))
        return found

    @functools.cached_property
    def pair_count(self):
        """How many known answers agree."""
        return int(re.search(r"(\d+) agree", (self.top / "crates/known_answers/stdout").read_text())[1])

    @functools.cached_property
    def command_count(self):
        """How many commands the profile has."""
        text = (self.top / "crates/tab_spec/specs/Commands.antt").read_text()
        return len(re.findall(r"command_row CC_", text))
