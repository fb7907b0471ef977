"""The types that a walk meets, and how the logic spells them.

    row         the type itself (a RattleType)
    denotation  what a value of it is in the logic
    vals, val   the machine values of a value x, and the one where there is one
    tells       the law that a value's machine values are `vals`
    lawful      the laws of the type; `typed` is taken from them
    makes       the law that `Is` makes the value owned (plain types alone)
    slot        the parameter's place in the signature
    last        the type of the last value that a contract speaks of
"""
from .mir import Refusal, quoted
from .text import lifetime, projection


class Type:
    """What all types share."""

    plain = False       # a value with no reference in it
    slice = False       # a `&[T]` or a `&mut [T]`
    mutable = False     # a `&mut [T]` or a `&mut T`
    life = None         # the number of its lifetime
    last = "Unit {0}"

    def typed(self, term, proof):
        """That the machine value of the term has the type, from a proof of `Is`."""
        return f"({self.lawful} .typed {term} _ {proof} .0)"


class Plain(Type):
    """A type with no reference in it."""

    plain = True

    @property
    def slot(self):
        return f"(plain (λ _. {self.row}))"


class Number(Plain):
    """u8 to u64 and usize."""

    def __init__(self, bits):
        self.bits = bits
        self.row = "usize" if bits == 64 else f"u{bits}"
        self.denotation = "ℕ"
        self.lawful = f"uint-lawful 𝓤 H A W w{bits}"
        self.makes = f"(uint-makes 𝓤 H A W w{bits})"
        self.vals = f"uint-vals w{bits}"
        self.tells = f"uint-tells w{bits}"

    def val(self, term):
        return f"vint w{self.bits} {term}"


class Boolean(Plain):
    """bool."""

    row = "bool"
    denotation = "Bool"
    lawful = "bool-lawful 𝓤 H A W"
    makes = "(bool-makes 𝓤 H A W)"
    vals = "bool-vals"
    tells = "bool-tells"

    def val(self, term):
        return f"vbool {term}"


class Unit(Plain):
    """()."""

    row = "Nothing"
    denotation = "Unit {0}"
    lawful = "nothing-lawful 𝓤 H A W"
    makes = "(nothing-makes 𝓤 H A W)"


class Named(Plain):
    """A struct or an enum of a crate."""

    def __init__(self, name, crate, is_enum):
        self.name = name
        self.crate = crate
        laws = "EL" if is_enum else "LL"
        at_type = f"{name}-t.the-type {name}-l.the-laws"
        self.row = f"{name}-t.the-row"
        self.denotation = name
        self.lawful = f"{laws}.lawful {at_type} 𝓤 H A W" + (" tt" if is_enum else "")
        self.makes = f"({laws}.makes {name}-t.the-type {name}-l.the-plain 𝓤 H A)"
        self.vals = f"{laws}.vals {at_type}"
        self.tells = f"{laws}.tells {at_type}"
        self.copy = f"(LL.copy {name}-t.the-type {name}-l.the-copy 𝓤 H A W)"
        self._value = f"{laws}.val {at_type}"

    def val(self, term):
        return f"{self._value} {term}"


class Array(Plain):
    """[T; n]."""

    def __init__(self, of, count):
        self.of = of
        self.count = count
        self.row = f"(Array {of.row} {count})"
        self.denotation = f"(List {of.denotation})"
        self.lawful = f"array-lawful 𝓤 H A W {of.row} ({of.lawful}) {count}"
        self.makes = f"(array-makes 𝓤 H A W {of.row} {of.makes} {count})"
        self.vals = f"array-vals ({of.vals})"
        self.tells = f"array-tells {of.row} ({of.vals}) ({of.tells}) {count}"

    def val(self, term):
        return f"only ({self.vals} {term})"


class Reference(Type):
    """What slices and references share: a lifetime and what they refer to."""

    constructor = None
    tells_law = None

    def __init__(self, of, life):
        self.of = of
        self.life = life

    @property
    def row(self):
        return f"({self.constructor} (named {self.life}) {lifetime(self.life)} {self.of.row})"

    @property
    def tells(self):
        return f"{self.tells_law} (named {self.life}) (κs{projection(self.life)}) {self.of.row}"

    @property
    def slot(self):
        return f"(plain (λ _. {self.of.row}))"


class Slice(Reference):
    """What the two kinds of slices share."""

    slice = True
    vals = "slice-vals"

    @property
    def denotation(self):
        return f"(RefT (List {self.of.denotation}))"

    def val(self, term):
        return f"sliceVal ({term} .ptr) (length ({term} .now))"


class SharedSlice(Slice):
    """&[T]."""

    constructor = "ShrSlice"
    tells_law = "shr-slice-tells"

    @property
    def lawful(self):
        return f"shr-slice-lawful 𝓤 H A W (named {self.life}) {lifetime(self.life)} {self.of.row}"

    @property
    def slot(self):
        return f"(shrSliceOf ({self.life} ∷ []) tt (plain (λ _. {self.of.row})))"


class MutSlice(Slice):
    """&mut [T]."""

    constructor = "MutSlice"
    tells_law = "mut-slice-tells"
    mutable = True

    @property
    def last(self):
        return f"List {self.of.denotation}"


class MutReference(Reference):
    """&mut T."""

    constructor = "MutRef"
    tells_law = "mut-tells"
    vals = "ptr-vals"
    mutable = True

    @property
    def denotation(self):
        return f"(RefT {self.of.denotation})"

    @property
    def last(self):
        return self.of.denotation

    def val(self, term):
        return f"vptr ({term} .ptr .0) ({term} .ptr .1)"


class Pointer(Type):
    """A bare pointer, or a reference of a kind that no walk handles."""


class Types:
    """Reads types of the MIR, and keeps the structs and enums that were met, in the order in which they were."""

    def __init__(self, program):
        self.enums = program.enums
        self.used = {}

    def read(self, term):
        """The type that a term of the MIR says."""
        if term == "tyBool":
            return Boolean()
        if term == "tyUnit":
            return Unit()
        if term == "tyPtr":
            return Pointer()
        if term[0] == "tyInt":
            return Number(int(term[1]))
        if term[0] == "tyNamed":
            return self._named(quoted(term[1][1]))
        if term[0] == "tyArray":
            return Array(self.read(term[1]), int(term[2][1]))
        if term[0] == "tyStruct" and term[1] == '"&[]"':
            reference = term[2][1]
            kind = MutSlice if reference[2] == "mut" else SharedSlice
            return kind(self.read(reference[3]), _life(reference[1]))
        if term[0] == "tyRef" and term[2] == "mut":
            return MutReference(self.read(term[3]), _life(term[1]))
        if term[0] == "tyRef":
            return Pointer()
        raise Refusal(f"a value of the type {term[0]} {term[1] if len(term) > 1 else ''}")

    def _named(self, path):
        """The struct or enum of that path."""
        parts = path.split("::")
        named = Named(parts[-1], parts[0], path in self.enums)
        self.used[parts[-1]] = named
        return named

    def cell(self, term):
        """The type of a local's cell, as the logic spells a type of the MIR."""
        if isinstance(term, str):
            return term
        if term[0] == "tyInt":
            return f"(tyInt w{term[1]})"
        if term[0] == "tyNamed":
            return quoted(term[1][1]).split("::")[-1] + "-l.mir"
        if term[0] == "tyArray":
            return f"(tyArray {self.cell(term[1])} {term[2][1]})"
        if term[0] == "tyStruct" and term[1] == '"&[]"':
            return f"(sliceTy {self.cell(term[2][1])})"
        if term[0] == "tyRef":
            life = "erased" if _life(term[1]) is None else f"(named {_life(term[1])})"
            return f"(tyRef {life} {term[2]} (pointee ({self.read(term[3]).row} .written)))"
        raise Refusal(f"a local of the type {term[0]} where the cells are written out")


def _life(term):
    """The number of a lifetime of the MIR, or None for one that has no name."""
    return int(term[1]) if isinstance(term, list) and term[0] == "named" else None
