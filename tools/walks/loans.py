"""Loans for one call: a parameter `&mut [T]` as a `&` or a `&mut`, or a local array as a slice; and their end.

An argument says what the callee's contract is asked at, and what has to be done once the call is back.
"""
from dataclasses import dataclass

from .mir import Refusal
from .parameters import Value
from .text import address
from .valuetypes import Array

@dataclass
class Argument:
    """One argument of a call."""

    term: str                   # what the contract is asked at
    machine: str
    own: str                    # what the callee gets with it
    give: object                # the label of that, or a function that makes it
    referred: str = None        # of a reference: the value that it refers to
    life: str = None            # and its lifetime, the share of it, and the label of its token
    share: str = None
    token: str = None
    end: object = None          # what is done behind the call: a function of the last value and its length's proof


@dataclass
class Call:
    """The call that is walked, as far as the loans need it."""

    label: str                  # the callee's name in the logic, with a number from the second call on
    loans: int                  # how many things are lent for it

    def ghost(self, name):
        """The lifetime of a loan of the parameter of that name."""
        return "ν" if self.loans == 1 else f"ν-{name}"

    def slice_name(self, name):
        """The ghost name of the slice that is lent."""
        return f"δ-{self.label}" if self.loans == 1 else f"δ-{self.label}-{name}"


def is_loan(walk, param, kind):
    """Whether a parameter that is passed on comes back: it is lent as `&`, or it is named later."""
    return param.type.slice and param.type.mutable and (not kind.mutable or walk.used_later(param))


def _new_lifetime(walk, call, number, name):
    """Begins a lifetime for the loan; gives it as a list of the logic."""
    ghost = call.ghost(name)
    walk.binds(f"lft-new ! tt (λ {ghost}.")
    walk.now.context.insert(0, f"nu{number}")
    return f"({ghost} ∷ [])"


def _end_lifetime(walk, number):
    """Ends it."""
    walk.move([f"nu{number}"])
    walk.step("lft-end ! tt $")
    walk.becomes(1, [f"dead{number}"])


class SliceLoan:
    """A parameter `&mut [T]` that is lent for one call."""

    def __init__(self, walk, call, number, param, kind, name):
        self.walk, self.number, self.param = walk, number, param
        self.shared = not kind.mutable
        self.held, self.length = walk.now.lists[param.name]
        self.kind = "ShrSlice" if self.shared else "MutSlice"
        self.life = _new_lifetime(walk, call, number, name)
        self.slice_name = call.slice_name(name)
        row = param.type.of.row
        self.memory = f"{row} {param.lifetime} {self.life} {param.share} γ-{param.name} {param.memory}"
        if self.length is None:
            self.room, self.value = param.room, param.value
        else:
            self.room = f"(subst (Room {row}) (sym {self.length}) {param.room})"
            self.value = f"(sliceVal (b-{param.name}, o-{param.name}) (length {self.held}))"

    def own(self, kind, life, ghost, held, value):
        """What the slice owns, with that list."""
        return "‵ " + self.param.own_slice(kind, life, ghost, held, value)

    def respell(self, kind, life, ghost, held, proof):
        """Respells the length in the slice's value, where the list is not the first one."""
        name = self.param.name
        own = self.own(kind, life, ghost, held, f"sliceVal (b-{name}, o-{name}) n")
        self.walk.step(f"rewrite ! 0 (λ (n : ℕ). {own}) {proof} refl $")

    def begin(self):
        """Lends it; gives the argument."""
        walk, param = self.walk, self.param
        walk.move([f"own:{param.name}", f"t{param.life}"])
        if self.length:
            self.respell("MutSlice", param.lifetime, f"γ-{param.name}", self.held, f"(sym {self.length})")
        lent = self.own(self.kind, self.life, "δ", self.held, self.value)
        lifetimes = f"(named {param.life}) (named {param.life})"
        if self.shared:
            walk.names.kit.add("Loans")
            away = f"(Away {self.memory} {self.held})"
            law = f"(goes-out {self.memory} {self.held} 𝓤 H A W {lifetimes})"
        else:
            walk.names.kit.add("Again")
            away = f"(LentAgain {self.memory} δ {self.held})"
            law = f"(lends-again {self.memory} 𝓤 H A W {lifetimes} {self.held})"
        walk.step(f"use2 W (later (some (λ (δ : GName). {lent} ⊛ ‵ {away}))) {law} $ await ! tt $")
        walk.binds(f"pick ! (λ {self.slice_name}.")
        walk.step("split ! $")
        walk.becomes(2, [f"lent{self.number}", f"away{self.number}"])
        if self.length:
            self.respell(self.kind, self.life, self.slice_name, self.held, self.length)
        own = param.own_slice(self.kind, self.life, self.slice_name, self.held, param.value)
        return Argument(
            param.at(self.slice_name, self.held), param.value, own, f"lent{self.number}", referred=self.held,
            life=self.life, share="fullShare", token=f"nu{self.number}",
            end=self.end_shared if self.shared else self.end_mutable)

    def _back(self, count, things, held, law):
        """Takes the slice back, with that list."""
        walk, param = self.walk, self.param
        own = self.own("MutSlice", param.lifetime, f"γ-{param.name}", held, self.value)
        token = f"‵ (flft {param.lifetime} {param.share})"
        walk.move(things)
        walk.step(f"use{count} W (later ({own} ⊛ {token})) {law} $ await ! tt $ split ! $")
        walk.becomes(count, [f"own:{param.name}", f"t{param.life}"])
        if self.length:
            self.respell("MutSlice", param.lifetime, f"γ-{param.name}", held, self.length)

    def end_shared(self, _last, _same_length):
        """Takes it back as it was."""
        _end_lifetime(self.walk, self.number)
        lifetimes = f"(named {self.param.life}) (named {self.param.life})"
        law = f"(comes-back {self.memory} {self.held} 𝓤 H A W {lifetimes} {self.room})"
        self._back(2, [f"dead{self.number}", f"away{self.number}"], self.held, law)

    def end_mutable(self, last, same_length):
        """Takes it back with what the call left in it."""
        _end_lifetime(self.walk, self.number)
        lifetimes = f"(named {self.param.life}) (named {self.param.life})"
        law = (f"(back-again {self.memory} 𝓤 H A W {lifetimes} {self.held} {self.slice_name} {last} {self.room} "
               f"{same_length})")
        self._back(3, [f"dead{self.number}", f"away{self.number}", f"fin{self.number}"], last, law)
        length = f"({same_length} ∙ {self.length})" if self.length else same_length
        self.walk.now.lists[self.param.name] = (last, length)


class ArrayLoan:
    """A local array that is lent for one call as a slice."""

    def __init__(self, walk, call, number, argument, kind, name):
        self.walk, self.call, self.number, self.local = walk, call, number, argument.local
        self.shared = not kind.mutable
        self.value = walk.now.values[argument.local]
        self.machine = argument.machine
        if not isinstance(self.value, Value) or not isinstance(self.value.type, Array):
            raise Refusal("a local that is lent and is no array")
        self.life = _new_lifetime(walk, call, number, name)
        self.slice_name = call.slice_name(name)
        self.known = f"is-{call.label}-back" if call.loans == 1 else f"is-{call.label}-{name}-back"

    def reference(self, ghost):
        """The slice of the array."""
        return f"(record {{ ptr = ({address(self.local)}, 0); name = {ghost}; now = {self.value.term} }})"

    def own(self, ghost):
        """What the slice owns."""
        kind = "ShrSlice" if self.shared else "MutSlice"
        row = self.value.type.of.row
        return f"({kind} (named 0) {self.life} {row} .own {self.reference(ghost)} ({self.machine} ∷ []))"

    def begin(self):
        """Lends it; gives the argument."""
        walk, at, value = self.walk, address(self.local), self.value
        walk.move([f"c{self.local}"])
        row, count = value.type.of.row, value.type.count
        if self.shared:
            law, kept = "array-shown", f"(arr-parts (shares {row}) {count} .part fullShare {value.term} {at} 0)"
        else:
            law, kept = "array-lent", f"(Held {row} {count} {at} 0 δ)"
        lent = f"(later (some (λ (δ : GName). ‵ {self.own('δ')} ⊛ ‵ (flent {self.life} {kept}))))"
        lends = (f"({walk.array_law(law, value.type)} {at} (lit< tt, lit< tt) (named 0) {self.life} {value.term} "
                 f"{value.machine} {value.proof})")
        walk.step(f"use1 W {lent} {lends} $ await ! tt $")
        walk.binds(f"pick ! (λ {self.slice_name}.")
        walk.step("split ! $")
        walk.becomes(1, [f"lent{self.number}", f"away{self.number}"])
        return Argument(
            self.reference(self.slice_name), self.machine, self.own(self.slice_name), f"lent{self.number}",
            referred=value.term, life=self.life, share="fullShare", token=f"nu{self.number}", end=self.end)

    def end(self, last, same_length):
        """Takes it back, as it was or with what the call left in it."""
        walk, at, value = self.walk, address(self.local), self.value
        _end_lifetime(walk, self.number)
        held = value.term if self.shared else last
        machines = f"({value.type.vals} {held})"
        cell = f"‵ (fat fullShare {walk.types.cell(walk.function.locals[self.local])} {at} 0 (only {machines}))"
        back = f"(later (given (Is {value.type.row} {held} {machines}) ({cell})))"
        things = [f"dead{self.number}", f"away{self.number}"]
        if self.shared:
            law = f"({walk.array_law('array-kept', value.type)} {at} {self.life} {held} ({value.proof} .1 .0 .1))"
        else:
            things.append(f"fin{self.number}")
            length = f"({same_length} ∙ {value.proof} .1 .0 .1)"
            law = f"({walk.array_law('array-back', value.type)} {at} {self.life} {held} {length} {self.slice_name})"
        walk.move(things)
        walk.step(f"use{len(things)} W {back} {law} $ await ! tt $")
        walk.binds(f"learn ! (λ {self.known}.")
        walk.becomes(len(things), [f"c{self.local}"])
        walk.now.values[self.local] = Value(held, f"(only {machines})", value.type, self.known)
        walk.bind_later(self.known, f"Is {value.type.row} {held} {machines}")
