"""The command: `python3 -m tools.walks` at the root of the repository; see README.md beside this file."""
import hashlib
import os
import subprocess
import sys

from .description import read_description
from .logic import prelude_text
from .mir import Program, Refusal
from .names import Names
from .proof import Proof
from .sources import Sources
from .state import Walk

USAGE = """usage, at the root of the repository:
  python3 -m tools.walks --check [CRATE[/FN] ..]   says which proofs are not as they would be written; exit 1 if any
  python3 -m tools.walks --write [CRATE[/FN] ..]   writes crates/CRATE/proofs/FN/Proof.antt by the walk.txt beside it
  python3 -m tools.walks --facts CRATE/FN          what a law can name in that walk
  --mir DIR   keeps what `rt mir` printed in DIR, and asks again only where a source has changed
"""
PRELUDE = "crates/lent_records/proofs/Walks.antt"


class Repository:
    """The crates, what each depends on, and their MIR."""

    def __init__(self, root, mir_folder):
        self.root = root
        self.mir_folder = mir_folder
        self.sources = Sources(root)
        self.dependencies = self._read_dependencies()
        self._programs = {}

    def _read_dependencies(self):
        """The lines of crates.txt."""
        found = {}
        for line in read(f"{self.root}/crates.txt").split("\n"):
            crate, colon, names = line.split("#")[0].partition(":")
            if colon:
                found[crate.strip()] = names.split()
        return found

    def lowest_first(self):
        """The crates, each behind those that it depends on."""
        order = []

        def visit(crate):
            """Adds what is below the crate, then the crate."""
            if crate not in order and crate in self.dependencies:
                for below in self.dependencies[crate]:
                    visit(below)
                order.append(crate)
        for crate in sorted(self.dependencies):
            visit(crate)
        return order

    def walks(self, chosen):
        """Crate and function of every description, or of those chosen."""
        found = []
        for crate in self.lowest_first():
            folder = f"{self.root}/crates/{crate}/proofs"
            for base, _, files in sorted(os.walk(folder)):
                function = os.path.relpath(base, folder)
                if "walk.txt" in files and (not chosen or crate in chosen or f"{crate}/{function}" in chosen):
                    found.append((crate, function))
        return found

    def program(self, crate):
        """The MIR of a crate, which is asked for once, also where `rt` refuses it."""
        if crate not in self._programs:
            text = self._mir(crate)
            self._programs[crate] = Program(text) if text else None
        if self._programs[crate] is None:
            raise Refusal(f"rt mir {crate} failed")
        return self._programs[crate]

    def _mir(self, crate):
        """What `rt mir` prints of a crate, now or when its sources were last the same; None where it fails."""
        kept = f"{self.mir_folder}/{crate}.mir" if self.mir_folder else None
        digest = self._digest(crate)
        if kept and os.path.exists(kept):
            head, _, text = read(kept).partition("\n")
            if head == digest:
                return text
        ran = subprocess.run(["rt", "mir", crate], capture_output=True, encoding="utf-8", cwd=self.root)
        if ran.returncode:
            print(ran.stdout + ran.stderr)
            return None
        if kept:
            os.makedirs(self.mir_folder, exist_ok=True)
            write(kept, f"{digest}\n{ran.stdout}")
        return ran.stdout

    def _digest(self, crate):
        """A sum over the sources of a crate and of all below it."""
        below, waiting = set(), [crate]
        while waiting:
            one = waiting.pop()
            if one not in below and one in self.dependencies:
                below.add(one)
                waiting += self.dependencies[one]
        digest = hashlib.sha256()
        for one in sorted(below):
            folder = f"{self.root}/crates/{one}/src"
            for name in sorted(os.listdir(folder)):
                digest.update(f"{one}/{name}".encode() + read(f"{folder}/{name}").encode())
        return digest.hexdigest()

    def walk(self, crate, function):
        """The walk of a function, to be written."""
        description = read_description(f"{self.root}/crates/{crate}/proofs/{function}/walk.txt")
        names = Names(self.root, crate, self.dependencies[crate], self.sources)
        return Walk(self.sources, self.program(crate), function, description, names)


def read(path):
    """The text of a file."""
    with open(path, encoding="utf-8") as file:
        return file.read()


def write(path, text):
    """Writes a file."""
    with open(path, "w", encoding="utf-8") as file:
        file.write(text)


def hold(path, text, mode, name):
    """Writes a file that differs, or says that it does; gives whether it stands."""
    same = os.path.exists(path) and read(path) == text
    if mode == "--write":
        if not same:
            write(path, text)
        print(f"{name}: {text.count(chr(10))} lines" + (", as it was" if same else ""), flush=True)
        return True
    if not same:
        print(f"{name}: differs from what tools/walks writes")
    return same


def tell_facts(walk):
    """Prints what a law can name, and what it has to show."""
    walk.laws = ["?"] * 9
    proof = Proof(walk)
    proof.text()
    print("\n".join(dict.fromkeys(walk.facts)))
    print("to be shown, where r is the answer and w-PARAM a last value:", proof.said)


def handle(repository, mode, crate, function):
    """Does what was asked for one walk; gives whether it stands."""
    walk = None
    try:
        walk = repository.walk(crate, function)
        if mode == "--facts":
            tell_facts(walk)
            return True
        path = f"{repository.root}/crates/{crate}/proofs/{function}/Proof.antt"
        return hold(path, Proof(walk).text(), mode, f"{crate}/{function}")
    except Refusal as refusal:
        print(f"{crate}/{function}: {refusal}")
    except (LookupError, TypeError, AttributeError, ValueError) as error:
        # a term of the MIR that is built otherwise than any that was met so far
        noted = [line for line in walk.lines if line.startswith("-- ")] if walk else []
        print(f"{crate}/{function}: a form that is not covered, at `{''.join(noted[-1:])[3:]}` ({error!r})")
    return False


def main(arguments):
    """Does what the arguments ask; gives the exit status."""
    if not arguments or arguments[0] not in ("--check", "--write", "--facts"):
        print(USAGE, end="")
        return 2
    mode, chosen, mir_folder = arguments[0], arguments[1:], None
    if "--mir" in chosen:
        position = chosen.index("--mir")
        mir_folder = chosen[position + 1]
        del chosen[position:position + 2]
    repository = Repository(os.getcwd(), mir_folder)
    stands = [mode == "--facts" or hold(f"{repository.root}/{PRELUDE}", prelude_text(), mode, PRELUDE)]
    walks = repository.walks(chosen)
    stands += [handle(repository, mode, crate, function) for crate, function in walks]
    if mode != "--facts":
        print(f"walks: {sum(stands[1:])} of {len(walks)} stand")
    return 0 if all(stands) and walks else 1


if __name__ == "__main__":
    sys.exit(main(sys.argv[1:]))
