"""The description of a walk, crates/CRATE/proofs/FN/walk.txt: see README.md beside this file."""
from dataclasses import dataclass, field

from .mir import Refusal

ONCE = ("within", "inside", "default", "holds", "begin", "turn")
REPEATED = {"head": "heads", "law": "laws", "use": "uses", "abbrev": "abbrevs", "unfold": "unfolds"}


@dataclass
class Description:
    """The lines of a description."""

    heads: list = field(default_factory=list)
    laws: list = field(default_factory=list)
    uses: list = field(default_factory=list)
    abbrevs: list = field(default_factory=list)
    unfolds: list = field(default_factory=list)
    requires: dict = field(default_factory=dict)
    within: str = None
    inside: str = None
    default: str = None
    holds: str = None
    begin: str = None
    turn: str = None


def read_description(path):
    """The description in the file of that path."""
    lines = []
    with open(path, encoding="utf-8") as file:
        for line in file.read().split("\n"):
            if not line.strip() or line.startswith("#"):
                continue
            if line[0] in " \t":
                lines[-1] += " " + line.strip()
            else:
                lines.append(line)
    description = Description()
    for line in lines:
        word, _, rest = line.partition(" ")
        _add(description, path, word, rest.strip())
    if description.holds and not (description.begin and description.turn):
        raise Refusal(f"{path}: `holds` needs a line `begin` and a line `turn`")
    return description


def _add(description, path, word, rest):
    """Adds one line."""
    if word in ONCE:
        setattr(description, word, rest)
    elif word == "requires":
        call, _, term = rest.partition(" ")
        description.requires[call] = term.strip()
    elif word in REPEATED:
        getattr(description, REPEATED[word]).append(rest)
    else:
        raise Refusal(f"{path}: a line `{word}`")
