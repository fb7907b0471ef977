"""The parameters of a walk, and what a local can hold."""
from dataclasses import dataclass

from .text import lifetime, share


class Parameter:
    """A parameter of the function: its name, its type, and the names that the walk has for what belongs to it."""

    def __init__(self, name, kind, looked_into):
        self.name = name
        self.type = kind
        self.life = kind.life
        # a slice whose block, offset, ghost name and list are parameters of the walk, each for itself
        self.opened = kind.slice and (kind.mutable or looked_into)

    @property
    def value(self):
        """Its machine value."""
        return f"v-{self.name}"

    @property
    def own(self):
        """What it owns, as the walk begins."""
        return f"Own-{self.name}"

    @property
    def entry_list(self):
        """The list that an opened slice is at first."""
        return f"ys-{self.name}"

    @property
    def room(self):
        """The fact that its list has room in memory."""
        return f"room-{self.name}"

    @property
    def lifetime(self):
        """Its lifetime."""
        return lifetime(self.life)

    @property
    def share(self):
        """The share of its lifetime that the function holds."""
        return share(self.life)

    @property
    def memory(self):
        """Block and offset of an opened slice."""
        return f"b-{self.name} o-{self.name}"

    @property
    def hypothesis(self):
        """What is known of it from the start: the name of the fact and the fact."""
        if self.type.plain:
            return f"is-{self.name}", f"Is {self.type.row} {self.name} ({self.value} ∷ [])"
        return self.room, f"Room {self.type.of.row} (length ({self.name} .now))"

    def at(self, ghost, held):
        """The slice under another ghost name, with another list in it."""
        return f"({self.name}-at {ghost} {held})"

    def own_slice(self, kind, life, ghost, held, value):
        """What a slice on the same memory owns, as a `MutSlice` or a `ShrSlice` of the lifetime given."""
        return f"({kind} (named {self.life}) {life} {self.type.of.row} .own {self.at(ghost, held)} ({value} ∷ []))"

    def finally_is(self, last):
        """The formula that says its last value."""
        if self.type.slice:
            return f"finally {self.type.of.row} ({self.name} .name) {last}"
        return f"fres ({self.name} .name) ({self.type.of.row} .coded .code {last})"

    @property
    def stay(self):
        """How it ends, in the walk's `stayed`."""
        if not self.type.mutable:
            return f"stay-dropped {self.type.slot} yes"
        return f"gave-{self._kind} ({self.life} ∷ []) tt {self.type.slot}"

    def goes(self, lifetimes):
        """The law that it may end so, in a function of so many lifetimes."""
        if not self.type.mutable:
            return f"goes-dropped 𝓤 H A W {lifetimes} {self.type.slot} yes (λ κs x f. refl)"
        return f"goes-gave-{self._kind} 𝓤 H A W {lifetimes} {self.life} tt {self.type.slot}"

    @property
    def _kind(self):
        """The word for its kind in the names of laws."""
        return "slice" if self.type.slice else "ref"


@dataclass(frozen=True)
class Value:
    """A plain value: its term, its machine value, its type, and a proof that the one `Is` the other."""

    term: str
    machine: str
    type: object
    proof: str


@dataclass(frozen=True)
class Lent:
    """A parameter's slice or reference, or the address of a slice's elements."""

    param: Parameter
    is_address: bool = False

    @property
    def machine(self):
        """Its machine value."""
        return None if self.is_address else self.param.value


@dataclass(frozen=True)
class ArrayAddress:
    """The address of a local array; with a machine value, a slice of all of it."""

    local: int
    machine: str = None


@dataclass(frozen=True)
class Scaled:
    """An index times the size of an element."""

    term: str
    size: str
    machine: str = None


@dataclass(frozen=True)
class ElementAddress:
    """The address of an element: of a parameter's slice, or of a local array (its number)."""

    base: object
    term: str
    machine: str = None


@dataclass(frozen=True)
class PartOf:
    """A part of a lent slice that a call answered; its type has the lifetime of that slice."""

    term: str
    machine: str
    type: object

    @property
    def own(self):
        """What it owns."""
        return f"({self.type.row} .own {self.term} ({self.machine} ∷ []))"
