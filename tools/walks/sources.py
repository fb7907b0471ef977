"""What the sources say: a function's names and contract, `ghost use` lines, and where the specs declare a name."""
import os
import re
from dataclasses import dataclass

from .mir import Refusal

CLAUSE = re.compile(r"\s*(?:->\s*[^{]*?)?\s*(requires|ensures|measure|decreases)\s*\{")
DECLARED = re.compile(r"^\s*(?:abbrev |unfoldable )*pub (?:record |data |abbrev )*(\S+) ", re.M)


@dataclass
class Contract:
    """The names of a function's parameters and `let`s, the texts of its clauses, and what `ghost use` lines bring."""

    names: list
    lets: list
    ensures: str
    requires: str
    uses: dict      # a name -> the module it comes from, and its name there


class Sources:
    """The crates of a repository."""

    def __init__(self, root):
        self.root = root
        self._files = {}
        self._specs = {}

    def contract(self, path):
        """The contract of the function of that path."""
        parts = path.split("::")
        owner = parts[-2] if len(parts) > 2 and parts[-2][0].isupper() else None
        for text in self._texts(parts[0]):
            for found in re.finditer(r"\bfn\s+" + re.escape(parts[-1]) + r"\s*(<[^>]*>)?\s*\(", text):
                if _owner(text, found.start()) == owner:
                    return _contract(text, found.end())
        raise Refusal(f"no source of {path}")

    def spec_homes(self, name, crates):
        """The crates and modules of the specs that declare the name."""
        homes = []
        for crate in crates:
            homes += [(crate, module) for module, names in self._declared(crate) if name in names]
        return homes

    def _texts(self, crate):
        """The source files of a crate, without comments."""
        if crate not in self._files:
            folder = f"{self.root}/crates/{crate}/src"
            if not os.path.isdir(folder):
                raise Refusal(f"`{crate}` is no crate of the repository: call its functions in covered ones")
            names = sorted(name for name in os.listdir(folder) if name.endswith(".rt"))
            self._files[crate] = [re.sub(r"//[^\n]*", "", _read(f"{folder}/{name}")) for name in names]
        return self._files[crate]

    def _declared(self, crate):
        """The modules of a crate's specs, each with the names that it declares."""
        if crate not in self._specs:
            folder = f"{self.root}/crates/{crate}/specs"
            self._specs[crate] = []
            for base, _, files in os.walk(folder):
                for name in sorted(name for name in files if name.endswith(".antt")):
                    path = os.path.join(base, name)
                    module = os.path.relpath(path, folder)[:-5].replace("/", ".")
                    self._specs[crate].append((module, set(DECLARED.findall(_read(path)))))
        return self._specs[crate]


def _read(path):
    """The text of a file."""
    with open(path, encoding="utf-8") as file:
        return file.read()


def _owner(text, position):
    """The type whose `impl` the position lies in, or None."""
    owner = None
    for found in re.finditer(r"^impl\s+(\w+)", text, re.M):
        if found.start() < position < text.find("\n}", found.start()):
            owner = found.group(1)
    return owner


def _closing(text, position, opening, closing):
    """The position behind the bracket that closes the one before `position`."""
    depth = 1
    while depth:
        depth += {opening: 1, closing: -1}.get(text[position], 0)
        position += 1
    return position


def _contract(text, position):
    """The contract of the function whose parameters begin at the position."""
    behind = _closing(text, position, "(", ")")
    names = []
    for parameter in re.split(r",(?![^\[]*\])", text[position:behind - 1]):
        parameter = parameter.strip()
        if re.fullmatch(r"(mut )?self", parameter):
            names.append("self")
        elif parameter:
            names.append(re.sub(r"^mut ", "", parameter.split(":")[0].strip()))
    clauses = {}
    clause = CLAUSE.match(text, behind)
    while clause:
        end = _closing(text, clause.end(), "{", "}")
        clauses[clause.group(1)] = text[clause.end():end - 1].strip()
        behind = end
        clause = CLAUSE.match(text, end)
    start = text.index("{", behind) + 1
    lets = re.findall(r"\blet\s+(?:mut\s+)?(\w+)", text[start:_closing(text, start, "{", "}")])
    return Contract(names, lets, clauses.get("ensures"), clauses.get("requires"), _ghost_uses(text))


def _ghost_uses(text):
    """What the `ghost use` lines of a file bring."""
    uses = {}
    for line in re.finditer(r"^ghost use ([^;{]+?)(?:\.\{([^}]*)\})?;", text, re.M):
        for name in (line.group(2) or "").split(","):
            original, _, renamed = name.strip().partition(" as ")
            if original:
                uses[(renamed or original).strip()] = (line.group(1).strip(), original.strip())
    return uses
