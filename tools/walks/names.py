"""The names of a proof: what it imports from specs and proofs, and the facts of contracts said at given arguments."""
import os
import re

from . import logic
from .mir import Refusal
from .text import bound_names, replaced, tokens

# Names that a law may have and that are no import: of the walk's branches and loop, and of the language.
LOCAL_NAMES = {
    "LL", "EL", "Unit", "tt", "let", "in", "λ", "in-slice", "×", "Said", "h", "i", "u", "end", "held",
    "required"}
LOCAL_FORM = re.compile(r"(r|e|z|w|is|len|ys|room|v|b|o|γ|at|val)-|(t|on|off)\d*$")
NO_NAME = re.compile(r"[(){},;.:=→λ]|\d")


class Names:
    """The imports of one proof."""

    def __init__(self, root, crate, dependencies, sources):
        self.root = root
        self.crate = crate
        self.crates = [crate] + dependencies
        self.sources = sources
        self.types = {}             # the structs and enums that the walk has met
        self.own_uses = {}          # what the `ghost use` lines of the function's own file bring
        self.called_uses = {}       # and those of its callees' files
        self.declared = set()       # names that need no import: parameters, `use` and `abbrev` lines
        self.imports = {}           # module -> the proof's name -> the module's name
        self.origin = {}            # the proof's name -> module, name there
        self.kit = set()            # modules of lent_records/proofs

    def home(self, crate, kind, rest):
        """A module of a crate's specs or proofs, as this crate names it."""
        if crate == self.crate:
            return f"Rattle·{crate}·{kind}.{kind}.{rest}"
        return f"Rattle·{crate}.{kind}.{rest}"

    def module(self, path):
        """A module of a `ghost use` line of any crate, as this crate names it."""
        found = re.match(r"Rattle·(\w+)·(?:specs|proofs)\.(specs|proofs)\.(.*)", path) \
            or re.match(r"Rattle·(\w+)\.(specs|proofs)\.(.*)", path)
        return self.home(*found.groups()) if found else path

    def add(self, module, original, name):
        """Imports a module's name under the name given."""
        self.imports.setdefault(module, {})[name] = original
        self.origin[name] = (module, original)

    def bring(self, text, uses):
        """Imports what the text has of `uses`; gives the text with the names that clash renamed."""
        renamed = {}
        for word in dict.fromkeys(tokens(text)):
            bare = word.rstrip(".")
            name = bare if bare in uses else f"_{bare}_"
            if name not in uses:
                continue
            module, original = uses[name]
            module = self.module(module)
            new = name
            if name in logic.MODULE_OF:
                if logic.MODULE_OF[name].removeprefix("package.") == module.removeprefix("package."):
                    continue
                new = f"{name}-of"
            if self.origin.get(new, (module, original)) != (module, original):
                new = f"{new}-{len(self.origin)}"
            self.add(module, original, new)
            if new != name:
                renamed[word] = new
        return replaced(text, renamed) if renamed else text

    def cite(self, law):
        """Imports what a term of the description names."""
        bound = bound_names(law)
        for word in dict.fromkeys(tokens(re.sub(r"\{\w+ =", "{", law))):
            name = word.rstrip(".")
            if name.strip() and name not in bound and not self._known(name):
                self._import(name)

    def _known(self, name):
        """Whether a word of a law needs no import."""
        if NO_NAME.match(name) or LOCAL_FORM.match(name):
            return True
        for known in (logic.MODULE_OF, self.origin, LOCAL_NAMES, self.types, self.declared):
            if name in known or f"_{name}_" in known:
                return True
        return False

    def _import(self, name):
        """Imports a name from where a `ghost use` line or the one spec that declares it says."""
        for uses in (self.own_uses, self.called_uses):
            if name in uses:
                self.bring(name, uses)
                return
        homes = [home for home in self.sources.spec_homes(name, self.crates) if "·" not in home[1]]
        if len(homes) != 1:
            how_many = "more than one spec declares" if homes else "no spec declares"
            raise Refusal(f"the law names {name}, which {how_many}: add a `use` line")
        crate, module = homes[0]
        self.add(self.home(crate, "specs", module), name, name)

    def fact(self, ensures, uses, arguments, lasts, answer):
        """The fact of an `ensures` at the arguments.

        arguments: for each parameter its name, its type, the argument, and the value it refers to (of a reference)
        lasts: the last value of each parameter that has one; answer: the term for the answer
        """
        found = re.match(r"λ\s*(\S+)\.\s*⌜(.*)⌝\s*$", ensures, re.S)
        if not found:
            raise Refusal(f"an `ensures` of another form: {ensures[:60]}")
        binder, text = found.group(1), self.bring(" ".join(found.group(2).split()), uses)
        terms = {}
        for name, kind, argument, referred in arguments:
            if kind.plain:
                terms[name] = argument
                continue
            text = text.replace(f"(now ({name} .entry))", f"({referred})").replace(f"now ({name} .entry)", referred)
            text = text.replace(f"({name} .entry)", argument)
            if name in lasts:
                text = text.replace(f"(now ({name} .exit))", lasts[name]).replace(f"now ({name} .exit)", lasts[name])
        if binder != "_":
            terms[binder] = answer
        # in two steps, so that a name within an argument is not taken for a parameter
        marks = {name: f"\x00{number}\x00" for number, name in enumerate(terms)}
        text = replaced(text, marks)
        for name, mark in marks.items():
            text = text.replace(mark, terms[name])
        return text.strip()

    def use_lines(self, lines, text):
        """The `use` lines of a proof, each with the names alone that its text has."""
        words = {word.rstrip(".") for word in tokens(text)}
        heads = {word.split(".")[0] for word in words}
        chosen = self._logic_lines(words)
        chosen += [f"use {module} as {name}" for module, name in logic.WHOLE.items() if name in heads]
        for line in self._kit_lines() + lines:
            picked = re.match(r"use (\S+)\.\{(.*)\}$", line)
            whole = re.match(r"use \S+ as (\S+)$", line)
            if picked:
                names = [name for name in picked.group(2).split(", ") if _has(words, name.split(" as ")[-1])]
                if names:
                    chosen.append(f"use {picked.group(1)}.{{{', '.join(names)}}}")
            elif not whole or whole.group(1) in heads:
                chosen.append(line)
        return chosen

    def _kit_lines(self):
        """The lines for the modules of lent_records/proofs."""
        return [f"use {self.home('lent_records', 'proofs', module)}.{{{', '.join(logic.KIT[module].split())}}}"
                for module in sorted(self.kit)]

    def _logic_lines(self, words):
        """The lines for the names of the logic: one, where the crate has lent_records's prelude."""
        if "lent_records" in self.crates and os.path.exists(f"{self.root}/crates/lent_records/proofs/Walks.antt"):
            names = [name for name in logic.MODULE_OF if _has(words, name)]
            return [f"use {self.home('lent_records', 'proofs', 'Walks')}.{{{', '.join(names)}}}"]
        lines = []
        for module, entry in logic.PRELUDE.items():
            names = [logic.spelled(*pair) for pair in logic.entries(entry) if _has(words, pair[1])]
            if names:
                lines.append(f"use {module}.{{{', '.join(names)}}}")
        return lines

    def import_lines(self):
        """The lines for what was imported from specs and proofs."""
        lines = []
        for module in sorted(self.imports):
            names = [logic.spelled(original, name) for name, original in sorted(self.imports[module].items())]
            lines.append(f"use {module}.{{{', '.join(names)}}}")
        return lines


def _has(words, name):
    """Whether the words have the name; an operator `_+_` is there as `+`."""
    return name in words or (name[0] == name[-1] == "_" and name[1:-1] in words)
