"""A loop `while i < n { .. i += 1; }`: a turn is a lemma over a state, the count of turns and what they have changed.

What a turn changes is read off the MIR: plain locals that are stored to and read again, lists of lent slices, local
arrays (lent, or held as a row of elements). The state has a value for each, with what has to be known of it; the
description's `holds` says how they hang together after i turns.
"""
from dataclasses import dataclass

from .branches import walk_branch, walk_statement
from .elements import split_own
from .mir import (Refusal, element_bases, flat, is_assigned, is_int, is_live, is_operation, is_statement, lent_mutably,
                  local_of, operand_text, sources, statements)
from .owned import items
from .parameters import Parameter, Value
from .statements import spell
from .text import address, after_blank
from .valuetypes import Array, Number

COUNT = "(u .i)"        # how many turns were made, in the lemma of a turn


@dataclass
class Carried:
    """A thing that turns change: a plain local (its number), the list of a slice (parameter) or row (local)."""

    name: str
    of: object
    is_list: bool
    type: object        # of the value, or of the list's elements
    first: str = None   # of a list: what its length is compared with

    def fields(self):
        """The fields of the state, each with its type."""
        name = self.name
        if self.is_list:
            return [(f"at-{name}", f"List {self.type.denotation}"),
                    (f"len-at-{name}", f"length at-{name} ≡ {self.first}")]
        return [(f"at-{name}", self.type.denotation), (f"val-at-{name}", "Val"),
                (f"is-at-{name}", f"Is {self.type.row} at-{name} (val-at-{name} ∷ [])")]


class Loop:
    """What the text of the proof has of a loop, and its walk."""

    def __init__(self, walk, statement, following):
        self.walk = walk
        self.following = following      # what comes behind it is t-following in the MIR
        self.behind = walk.rest
        self.body = statements(statement[1][1])
        test, branch, step = self.body[0], self.body[1], self.body[-1]
        if not is_operation(test, "lt") or not is_statement(branch, "if") or branch[2] != "skip" \
                or not is_operation(step, "add") or operand_text(step[2][3]) != "1":
            raise Refusal("a loop of another form than `while i < n { .. i += 1; }`")
        self.counter, self.limit = local_of(test[2][2]), test[2][3]
        if local_of(step[2][2]) != self.counter or walk.now.values[self.counter].term != "0":
            raise Refusal("a loop that does not count from 0")
        self.bases = element_bases(self.body)

    def run(self):
        """Walks up to the loop, then a turn of it and its end."""
        walk = self.walk
        self._spell_limit()
        self._forget_unread()
        self._spell_compared()
        self._rows_in()
        self._find_carried()
        self.order = walk.in_order()
        walk.move(self.order)
        binders = after_blank(name for name, _ in walk.binders)
        lemmas = " ".join(f"({lemma}{binders})" for lemma in ("Nearer", "Nearer-wf", "At", "turns"))
        walk.step(f"first ! $ blocks ! $ loops ! 𝓣 {lemmas} {self._state('0', 'zero-le', walk.description.begin)}")
        self.begins = walk.taken_lines()
        self._begin_turn()
        before = walk.now.copy()
        self._turn()
        walk.now = before
        self._end()

    # in front of the loop

    def _spell_limit(self):
        """Spells the machine value of n out, and keeps n and the proof that it fits a word."""
        walk = self.walk
        if is_int(self.limit):
            self.bound, self.fits = self.limit[2], "(lit< tt)"
            return
        local = local_of(self.limit)
        if is_assigned(self.body, local):
            raise Refusal("a loop whose limit changes")
        spell(walk, local)
        value = walk.now.values[local]
        # the proof of `Is` is a pair, of which the second says that the number fits
        pair = value.proof.startswith("(refl, ")
        self.fits = f"({value.proof.removeprefix('(refl, ').removesuffix(')')})" if pair else f"({value.proof} .1)"
        self.bound = value.term

    def _spell_compared(self):
        """Spells out what a turn compares or tests, so that it leaves these cells as they are."""
        walk = self.walk
        for statement in flat(self.body):
            if is_statement(statement, "if") or is_statement(statement, "assign") and statement[2][0] == "op2":
                for local in sources(statement) & walk.now.stored:
                    spell(walk, local)

    def _forget_unread(self):
        """Makes locals hold nothing that are stored to before they are read, and those that hold an address."""
        walk = self.walk
        unread = [k for k in walk.now.stored if k != self.counter and (
            walk.now.values[k].machine is None or is_assigned(self.body, k) and not self._is_live(k))]
        if unread:
            walk.forget(unread)
            walk.now.stored -= set(unread)

    def _is_live(self, local):
        """Whether a turn, or what comes behind the loop, reads what the local holds at first."""
        return is_live(self.body, local) or is_live(self.behind, local)

    def _rows_in(self):
        """Holds the local arrays that a turn looks into as rows of their elements."""
        walk = self.walk
        for local in self.bases:
            value = walk.now.values.get(local)
            if isinstance(value, Value) and isinstance(value.type, Array):
                law, at = walk.array_law("array-row", value.type), address(local)
                walk.move([f"c{local}"])
                walk.step(f"use1 W (‵ (row {value.type.of.row} fullShare {value.term} {at} 0)) "
                          f"({law} {at} {value.term} {value.machine} {value.proof}) $")
                walk.now.rows[local] = (value.term, f"({value.proof} .1 .0 .1)")

    def _find_carried(self):
        """Finds what a turn changes."""
        walk, locals_ = self.walk, self.walk.function.locals
        self.carried = []
        for local in sorted(walk.now.stored - {self.counter}):
            value, name = walk.now.values[local], walk.local_name(local)
            if local in walk.now.rows:
                if self.bases[local]:
                    self.carried.append(Carried(name, local, True, value.type.of, str(value.type.count)))
            elif isinstance(value, Value) \
                    and (is_assigned(self.body, local) or lent_mutably(self.body, locals_, local)):
                self.carried.append(Carried(name, local, False, value.type))
        for number, param in enumerate(walk.params, 1):
            if param.opened and param.type.mutable \
                    and (self.bases.get(number) or lent_mutably(self.body, locals_, number)):
                self.carried.append(Carried(param.name, param, True, param.type.of, f"length {param.entry_list}"))

    def _state(self, count, below, held):
        """The state in which things are now."""
        fields = [f"i = {count}", f"le = {below}"]
        for thing in self.carried:
            values = self._values(thing)
            fields += [f"{name} = {value}" for (name, _), value in zip(thing.fields(), values)]
        if self.walk.description.holds:
            fields.append(f"held = {self.walk.said(held)}")
        return f"(record {{ {'; '.join(fields)} }})"

    def _values(self, thing):
        """What the fields of a carried thing are now."""
        now = self.walk.now
        if isinstance(thing.of, Parameter):
            held, length = now.lists[thing.name]
            return held, length or "refl"
        if thing.is_list:
            return now.rows[thing.of]
        value = now.values[thing.of]
        return value.term, value.machine, value.proof

    # a turn

    def _set_carried(self):
        """What is carried holds what the state says."""
        walk = self.walk
        for thing in self.carried:
            fields = [f"(u .{name})" for name, _ in thing.fields()]
            if isinstance(thing.of, Parameter):
                walk.now.lists[thing.name] = tuple(fields)
            elif thing.is_list:
                walk.now.rows[thing.of] = tuple(fields)
            else:
                walk.now.values[thing.of] = Value(fields[0], fields[1], thing.type, fields[2])
            walk.now.lasts[f"old.{thing.name}"] = fields[0]

    def _invariant(self):
        """What the description says of the state, of its own fields."""
        text = self.walk.description.holds
        if not text:
            return None
        for thing in self.carried:
            text = text.replace(f"{{{thing.name}}}", f"at-{thing.name}")
        self.walk.in_turn = False
        text = self.walk.said(text)
        self.walk.in_turn = True
        return text

    def _count_is(self, proof):
        """The counter holds the count of turns."""
        self.walk.now.values[self.counter] = Value(COUNT, f"(vint w64 {COUNT})", Number(64), proof)

    def _begin_turn(self):
        """Walks the test of a turn."""
        walk = self.walk
        walk.loop = self
        walk.in_turn = True
        self.holds = self._invariant()
        self._set_carried()
        self._count_is("(refl, tt)")
        self.at = items(walk, self.order)
        self.stored_at_head = set(walk.now.stored)
        walk.step("let fm = fmOf 𝓤 H (W .laws) 𝓣 in")
        walk.note(self.body[0])
        walk_statement(walk, self.body[0])
        walk.note(self.body[1])
        walk.step(f"first ! $ branches ! {walk.load(self.body[1][1])}")

    def _turn(self):
        """Walks the rest of a turn."""
        walk, bound = self.walk, self.bound
        walk.names.kit.add("Bodies")
        walk.binds(f"(λ less. let h = ltb→lt {COUNT} {bound} less in")
        walk.step(f"skips ! $ {self._resumed(2)}")
        self._count_is(f"(refl, within-word {bound} {COUNT} {self.fits} h)")
        for number, statement in enumerate(self.body[2:-1], 3):
            # the next turns and what comes behind the loop are still to come
            walk.rest = self.body[number:] + self.body + self.behind
            walk.note(statement)
            if is_statement(statement, "if"):
                walk_branch(walk, statement, self._resumed(number))
            else:
                walk_statement(walk, statement)
        fits = f"record {{ fits = (next-word {bound} {COUNT} {self.fits} h) }}"
        walk.note(self.body[-1])
        counter = ["copy", ["place", str(self.counter), "lnil"]]
        added = f"(bin ! {walk.load(counter)} (lit ! tt) ({fits}))"
        walk.step(f"assigns-last ! {added} (from ! (stop !)) {walk.init(self.counter, f'(tt, {fits})')} $")
        walk.forget(walk.now.stored - self.stored_at_head)
        for label in [label for label in walk.now.context if label not in self.order]:
            walk.drop(label)
        walk.move(self.order)
        next_state = self._state("u .i + 1", "add-one-le h", walk.description.turn)
        walk.step(f"again ! Nearer At u {next_state} (add-one-dec {bound} {COUNT} h)")
        walk.close_to(0)

    def _resumed(self, count):
        """The step that goes on behind the first so many statements of a turn."""
        rest = "mir.turn-1"
        for _ in range(count):
            rest = f"(behind {rest})"
        return f"exec ! C Λ En {rest} (anyQ (Turned u)) $"

    def _end(self):
        """Begins what comes behind the loop."""
        walk, bound = self.walk, self.bound
        walk.binds(f"(λ over. let end = le-antisymm (u .le) (nltb→le {COUNT} {bound} over) in")
        walk.step(f"jumps ! $ exec ! C Λ En mir.t-{self.following} (atRet En Post) $")
        walk.names_mir = True
        for local in list(walk.now.rows):
            self._row_out(local)

    def _row_out(self, local):
        """Holds a row as an array again."""
        walk, value, at = self.walk, self.walk.now.values[local], address(local)
        held, length = walk.now.rows.pop(local)
        machines = f"({value.type.vals} {held})"
        cell = f"‵ (fat fullShare {walk.types.cell(walk.function.locals[local])} {at} 0 (only {machines}))"
        law = f"({walk.array_law('row-array', value.type)} {at} {held} {length})"
        walk.move([f"c{local}"])
        walk.step(f"use1 W (given (Is {value.type.row} {held} {machines}) ({cell})) {law} $")
        walk.binds(f"learn ! (λ is-row{local}.")
        walk.now.values[local] = Value(held, f"(only {machines})", value.type, f"is-row{local}")


def walk_loop(walk, statement, following):
    """Walks a loop up to its end."""
    Loop(walk, statement, following).run()


def enter_loop(walk):
    """Ends the walk's own lines in front of a body with a loop, which is a lemma `begins`; gives what that owns."""
    bases = element_bases(walk.function.body)
    for number, param in enumerate(walk.params, 1):
        if param.opened and number in bases:
            split_own(walk, param)
    order = walk.in_order()
    walk.keep(order)
    start = items(walk, order)
    known = [f"known-{name}" for name in walk.callees]
    given = known + [name for name, _ in walk.hypotheses()]
    locals_ = [address(k) for k in range(walk.function.local_count)]
    walk.step(f"begins 𝓣{after_blank(given + locals_)}")
    return start
