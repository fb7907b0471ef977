"""The state of a walk: what is owned at a point, what each local holds, and the lines that were written so far.

What is owned is kept as labels, in the order in which the logic lists it: `c3` the cell of local 3, `d3` the right
to free it, `t0` a lifetime's token, `own:recs` what a parameter or a part of one owns, `obs:recs` and `bor:recs` the
ghost value and the borrow of a slice (once it was split), `fin:recs` what says its last value. A step of the logic
names what it takes by its place in that list.
"""
import re
from dataclasses import dataclass, field

from . import logic
from .mir import Function, Refusal, callees, element_bases, is_int, names_local, place, statement_text
from .parameters import Parameter
from .text import cons, replaced
from .valuetypes import Array, Pointer, Types

LINE = 230      # a line of a proof ends behind the step that reaches so far
BIG = 1024      # the MIR writes a literal from here on as `intBig`


@dataclass
class Moment:
    """What holds at one point of the walk."""

    context: list = field(default_factory=list)     # the labels of what is owned
    stored: set = field(default_factory=set)        # the locals that hold something
    values: dict = field(default_factory=dict)      # what they hold
    lists: dict = field(default_factory=dict)       # an opened slice's list, and its length's proof (None: the first)
    rows: dict = field(default_factory=dict)        # the same of local arrays that are held as a row of elements
    lasts: dict = field(default_factory=dict)       # last values, by the name that a law has for them

    def copy(self):
        """The same, to go on from twice."""
        return Moment(list(self.context), set(self.stored), dict(self.values), dict(self.lists), dict(self.rows),
                      dict(self.lasts))


class Walk:
    """A walk that is being written."""

    def __init__(self, sources, program, name, description, names):
        self.sources = sources
        self.program = program
        self.crate = names.crate
        self.name = name
        self.description = description
        self.names = names
        self.types = Types(program)
        self.function = Function(program, self.types, f"{self.crate}::{name}")
        self.contract = sources.contract(self.function.path)
        names.types = self.types.used
        names.own_uses = self.contract.uses
        bases = element_bases(self.function.body)
        self.params = [Parameter(named, kind, number in bases) for number, (named, kind)
                       in enumerate(zip(self.contract.names, self.function.parameters), 1)]
        self._test_parameters()
        self.mutables = [param for param in self.params if param.type.mutable]
        self.required = self._required()
        self.now = Moment()
        self.lines, self.depth = [], 0
        self.rest = []              # the statements behind the one that is walked
        self.binders = []           # names that a lemma further on takes, each with its type
        self.facts = []             # what a law can name
        self.calls = {}             # a callee's name in the logic -> its path
        self.call_counts = {}       # how often it was called so far
        self.looks = 0              # how many elements were read
        self.branches = 0           # how many branches were walked
        self.held_parts = {}        # parts of slices that calls answered, by their names
        self.parts = []             # the lemmas that a walk of several branches is cut into
        self.main = None            # and the lines of the walk itself, then
        self.index_terms = {"within": description.within, "inside": description.inside}
        self.laws = list(description.laws)
        self.ways_out = 0
        self.names_mir = False      # whether the proof names parts of the MIR
        self.in_arm = False
        self.in_turn = False
        self.loop = None
        self.start = None           # what a body with a loop owns at first

    def _test_parameters(self):
        """Refuses what no walk handles."""
        for param in self.params:
            if isinstance(param.type, Pointer):
                raise Refusal(f"the parameter `{param.name}`, a reference of a kind that is not covered")
            if param.name in logic.MODULE_OF or param.name in logic.DECLARED:
                raise Refusal(f"the parameter `{param.name}` is a word of the walk or of the logic: name it otherwise")
        self.names.declared |= {param.name for param in self.params}

    def _required(self):
        """The fact that the function itself asks of its caller, or None."""
        if not self.contract.requires:
            return None
        found = re.fullmatch(r"⌜(.*)⌝", self.contract.requires, re.S)
        if not found:
            raise Refusal("a `requires` of another form")
        return self.names.bring(" ".join(found.group(1).split()), self.contract.uses)

    @property
    def callees(self):
        """The callees: their names in the logic, and their paths."""
        return callees(self.function.body) if self.function.has_loop else self.calls

    # what is written

    def step(self, text):
        """Writes a step."""
        self.lines.append(text)

    def binds(self, text):
        """Writes a step that opens a bracket, which stays open to the end."""
        self.lines.append(text)
        self.depth += 1

    def bind_later(self, name, kind):
        """Keeps a name that lemmas further on take; a name of an arm, or of a turn, is none."""
        if self.loop is None and not self.in_arm:
            self.binders.append((name, kind))

    def note(self, statement):
        """Writes the statement of the MIR that the next steps walk."""
        self.lines.append(f"-- {statement_text(statement)}")

    def taken_lines(self):
        """The lines written so far, filled up and with their brackets closed; what follows begins anew."""
        filled, line = [], ""
        for text in self.lines:
            if text.startswith("-- "):
                if line:
                    filled.append(line)
                filled.append(text)
                line = ""
            elif line and len(line) + len(text) > LINE:
                filled.append(line)
                line = text
            else:
                line = f"{line} {text}" if line else text
        filled.append(line + ")" * self.depth)
        self.lines, self.depth = [], 0
        return filled

    def close_to(self, depth):
        """Closes the brackets that were opened since that depth."""
        self.lines[-1] += ")" * (self.depth - depth)
        self.depth = depth

    # what is owned

    def position(self, label):
        """Where the logic lists what the label names."""
        if label not in self.now.context:
            raise Refusal(f"{label} is not had here: {self.now.context}")
        return self.now.context.index(label)

    def move(self, labels):
        """Brings these to the front, in this order."""
        positions = [self.position(label) for label in labels]
        if positions != list(range(len(labels))):
            self.step(f"move ! ({cons(positions)}) $")
        self.now.context = list(labels) + [label for label in self.now.context if label not in labels]

    def keep(self, labels):
        """Keeps these alone, in this order."""
        self.step(f"keep ! ({cons([self.position(label) for label in labels])}) $")
        self.now.context = list(labels)

    def becomes(self, count, labels):
        """The first so many things have become these."""
        self.now.context[0:count] = labels

    def drop(self, label):
        """Gives up what is not needed."""
        self.move([label])
        self.step("drop ! $")
        self.now.context.pop(0)

    def split(self, label, parts, step="split"):
        """Takes a thing apart into two."""
        self.move([label])
        self.step(f"{step} ! $")
        self.becomes(1, parts)

    def build(self, items, joiner, label):
        """Joins the items into one thing; an item is a label, or a function that makes the thing in front."""
        self.step("nothing ! $")
        self.now.context.insert(0, label)
        for item in reversed(items):
            if callable(item):
                item()
            else:
                self.move([item, label])
            self.step(f"{joiner} ! $")
            self.becomes(2, [label])

    def in_order(self):
        """All that is owned, in the order in which lemmas list it: locals from the last, then the rest by label."""
        cells = [label for k in reversed(range(self.function.local_count)) for label in (f"c{k}", f"d{k}")]
        return cells + sorted(label for label in self.now.context if label not in cells)

    # operands and stores

    def load(self, operand):
        """The step that loads an operand."""
        if operand in ("true", "false"):
            return f"({operand}-lit !)"
        if is_int(operand) and int(operand[2]) < BIG:
            return "(lit ! tt)"
        if is_int(operand):
            self.names.kit.add("Literals")
            return "(big-lit ! (record { fits = lit< tt }))"
        if operand[0] not in ("copy", "move"):
            raise Refusal(f"the operand {operand}")
        local, path = place(operand[1])
        if not path:
            return f"(load ! (from ! (stop !)) (look ! {self.position(f'c{local}')} refl))"
        if len(path) == 1 and path[0] != "deref":
            inside = f"(look-in ! {self.position(f'c{local}')} (sub ! {path[0]} refl (whole !)))"
            return f"(load ! (from ! (fld ! refl (stop !))) {inside})"
        raise Refusal(f"the operand {operand}")

    def init(self, local, proof):
        """The step that stores in a local, with a proof that what is stored has its type."""
        word = "overwrite" if local in self.now.stored else "init"
        self.now.stored.add(local)
        return f"({word} ! {self.position(f'c{local}')} refl {proof})"

    def assigns(self, value, local, proof):
        """Writes the assignment of a value to a local."""
        self.step(f"assigns ! {value} (from ! (stop !)) {self.init(local, proof)} $")

    def forget(self, locals_):
        """Makes these locals hold nothing, from the last."""
        steps = [f"forget ! {self.position(f'c{k}')} refl $" for k in sorted(locals_, reverse=True)]
        self.step(" ".join(steps))

    # terms

    def used_later(self, param):
        """Whether a statement behind this one names the parameter."""
        return names_local(self.rest, self.params.index(param) + 1)

    def said(self, term):
        """A term of the description, said of this point: {NAME} is put in, and in a loop the count i and `held`."""
        filled = re.sub(r"\{([\w.]+)\}", lambda found: self._value_named(found.group(1)) or found.group(0), term)
        self.names.cite(filled)
        return replaced(filled, {"i": "(u .i)", "held": "(u .held)"}) if self.in_turn else filled

    def _value_named(self, name):
        """What the name stands for in a term: a last value, a lent list as it is now, or what a local holds."""
        now = self.now
        if name in now.lasts:
            return now.lasts[name]
        if now.lists.get(name):
            return now.lists[name][0]
        for local in range(1, self.function.local_count):
            if name in (self.local_name(local), f"_{local}") and local in now.stored:
                return now.rows[local][0] if local in now.rows else now.values[local].term
        return None

    def local_name(self, local):
        """The source's name of a local that has one: parameters first, then each `let` in the order of the text."""
        if local <= len(self.params):
            return self.params[local - 1].name
        # an array parameter that is looked into is copied to a local of its own first
        number = local - len(self.params) - 1 - sum(isinstance(param.type, Array) for param in self.params)
        lets = self.contract.lets
        return lets[number] if 0 <= number < len(lets) and lets.count(lets[number]) == 1 else f"_{local}"

    def array_law(self, name, kind):
        """A law of lent_records/proofs/Arrays, at the type of a local array."""
        self.names.kit.add("Arrays")
        of = kind.of
        return f"{name} {of.row} {kind.count} ({of.vals}) ({of.tells}) tt 𝓤 H A W {of.makes}"

    def hypotheses(self):
        """What is known of the parameters from the start."""
        known = [param.hypothesis for param in self.params if param.type.plain or param.type.slice]
        return known + ([("required", self.required)] if self.required else [])
